//! The scenarios D1 to D13 (document 01, 'Drills').

mod common;

use common::*;
use reference::model::{
    Address, ClientStatus, Cluster, Decider, LockId, MachineId, Message, Mode, Owner, Packet,
    TaskId,
};
use reference::Handling;

fn owned(mode: Mode, machine: u8, incarnation: u8) -> Decider {
    let machine = MachineId(machine);
    Decider {
        owner: Some(Owner { mode, machine }),
        incarnation,
        writer_waits: false,
    }
}

#[test]
fn d1_first_request_takes_the_free_lock() {
    let cluster = d1();
    assert_eq!(lock(&cluster).decider, owned(Mode::Shared, 0, 0));
}

#[test]
fn d2_shared_request_is_granted_by_the_decider() {
    let cluster = d2();
    let reader = client(1, 0);
    let expected = [
        plain(grant(reader, Mode::Shared), to(1)),
        plain(request(reader, Mode::Shared, true), to(0)),
    ];
    assert_eq!(lock(&cluster).wire, expected);
    assert_eq!(lock(&cluster).decider, owned(Mode::Shared, 0, 1));
}

#[test]
fn d3_early_free_is_rejected() {
    let mut cluster = d2();
    accepted(&[release(&mut cluster, 0, 0)]);
    let sent = lock(&cluster).wire[2].clone();
    assert_eq!(
        (sent.message, sent.address),
        (Message::Free, Address::Decider)
    );
    assert_eq!(sent.agent.as_ref().map(|a| a.incarnation), Some(0));
    accepted(&[deliver(&mut cluster, 2)]);
    let rejected = Packet {
        address: to(0),
        rejected: true,
        ..sent
    };
    assert_eq!(lock(&cluster).wire[2], rejected);
    assert_eq!(lock(&cluster).decider, owned(Mode::Shared, 0, 1));
}

#[test]
fn d4_rejected_agent_is_restored() {
    let cluster = d4();
    assert_eq!(lock(&cluster).wire.len(), 2);
    assert!(agent(&cluster, 0).holders.is_empty());
}

#[test]
fn d5_granted_request_reaches_the_restored_agent() {
    let cluster = d5();
    assert_eq!(holders(agent(&cluster, 0)), [client(1, 0).0]);
    assert_eq!(agent(&cluster, 0).incarnation, 1);
}

#[test]
fn d6_early_release_goes_back() {
    let cluster = d6();
    let release = Message::Release {
        client: client(1, 0),
    };
    let back = with_count(1, plain(release, Address::Decider));
    assert_eq!(lock(&cluster).wire[1], back);
    assert_eq!(holders(agent(&cluster, 0)), [client(0, 0).0]);
}

#[test]
fn d7_client_on_the_wire_may_not_acquire() {
    assert_eq!(acquire(&mut d6(), 1, 0, SHARED), 6);
}

#[test]
fn d8_exclusive_lock_moves_to_the_waiter() {
    let mut cluster = Cluster::new();
    accepted(&[
        acquire(&mut cluster, 0, 0, EXCLUSIVE),
        deliver(&mut cluster, 0),
        deliver(&mut cluster, 0),
        acquire(&mut cluster, 1, 0, EXCLUSIVE),
        deliver(&mut cluster, 0),
        deliver(&mut cluster, 0),
        release(&mut cluster, 0, 0),
        deliver(&mut cluster, 0),
    ]);
    assert_eq!(lock(&cluster).decider, owned(Mode::Exclusive, 1, 0));
}

#[test]
fn d9_incarnation_wraps() {
    let mut cluster = d2();
    cluster.locks[0].decider.incarnation = 255;
    accepted(&[
        acquire(&mut cluster, 2, 0, SHARED),
        deliver(&mut cluster, 2),
    ]);
    assert_eq!(lock(&cluster).decider, owned(Mode::Shared, 0, 0));
}

#[test]
fn d10_lock_is_tested_before_mode() {
    let mut cluster = Cluster::new();
    let outcome = cluster.acquire(LockId(8), MachineId(0), TaskId(0), 1);
    assert_eq!(answer(outcome), 1);
}

#[test]
fn d11_ranges() {
    let call = |lock, machine, task, mode| {
        let mut cluster = Cluster::new();
        answer(cluster.acquire(LockId(lock), MachineId(machine), TaskId(task), mode))
    };
    assert_eq!([call(7, 3, 3, 2), call(7, 3, 3, 3)], [0, 0]);
    assert_eq!(
        [call(8, 3, 3, 2), call(7, 4, 3, 2), call(7, 3, 4, 2)],
        [1, 2, 3]
    );
    assert_eq!(
        [call(7, 3, 3, 0), call(7, 3, 3, 1), call(7, 3, 3, 4)],
        [4, 4, 4]
    );
    let mut cluster = d2();
    assert_eq!([deliver(&mut cluster, 2), deliver(&mut cluster, 1)], [8, 0]);
}

/// Amended by document 02, §3: c stays behind b.
#[test]
fn d12_reader_waits_behind_the_writer() {
    let cluster = d12();
    let (a, b, c) = (client(1, 0), client(2, 0), client(3, 0));
    let expected = waiters(&[(b.0, Mode::Exclusive), (c.0, Mode::Shared)]);
    assert_eq!(agent(&cluster, 1).queue, expected);
    assert_eq!(agent(&cluster, 1).mode, Mode::Shared);
    assert_eq!(holders(agent(&cluster, 1)), [a.0]);
    assert_eq!(lock(&cluster).wire, []);
    assert_eq!(lock(&cluster).decider, owned(Mode::Shared, 1, 0));
    assert_eq!(status(&cluster, 1, 0), ClientStatus::Holding(Mode::Shared));
    assert_eq!(
        status(&cluster, 2, 0),
        ClientStatus::Waiting(Mode::Exclusive)
    );
    assert_eq!(status(&cluster, 3, 0), ClientStatus::Waiting(Mode::Shared));
}

/// The agent goes from a to b with c in its queue, and then to c.
#[test]
fn d12_writer_is_served_before_the_reader_behind_it() {
    let mut cluster = d12();
    accepted(&[
        release(&mut cluster, 1, 0),
        deliver(&mut cluster, 0),
        deliver(&mut cluster, 0),
    ]);
    let (b, c) = (client(2, 0), client(3, 0));
    assert_eq!(lock(&cluster).decider, owned(Mode::Exclusive, 2, 0));
    assert_eq!(holders(agent(&cluster, 2)), [b.0]);
    assert_eq!(agent(&cluster, 2).queue, waiters(&[(c.0, Mode::Shared)]));
    assert_eq!(lock(&cluster).wire, []);
    assert_eq!(
        status(&cluster, 2, 0),
        ClientStatus::Holding(Mode::Exclusive)
    );
    assert_eq!(status(&cluster, 3, 0), ClientStatus::Waiting(Mode::Shared));
    accepted(&[
        release(&mut cluster, 2, 0),
        deliver(&mut cluster, 0),
        deliver(&mut cluster, 0),
    ]);
    assert_eq!(lock(&cluster).decider, owned(Mode::Shared, 3, 0));
    assert_eq!(holders(agent(&cluster, 3)), [c.0]);
    assert!(agent(&cluster, 3).queue.is_empty());
    assert_eq!(status(&cluster, 3, 0), ClientStatus::Holding(Mode::Shared));
}

/// Each release is followed by two steps for the next GRANT, the last one by the FREE.
#[test]
fn d12_drain_serves_each_waiter_once() {
    let mut cluster = d12();
    let (b, c) = (client(2, 0).0, client(3, 0).0);
    assert_eq!(shown_by_draining(&mut cluster), (vec![b, c], 8));
    assert_eq!(cluster, Cluster::new());
    assert_eq!(d12().drain(LOCK), drained(8, Handling::None));
}

#[test]
fn d13_wire_holds_33_packets() {
    let cluster = d13();
    assert_eq!(lock(&cluster).wire.len(), 33);
    assert_eq!(lock(&cluster).decider, owned(Mode::Shared, 0, 16));
    assert!(cluster.is_well_formed());
}

#[test]
fn d13_drains_to_the_fresh_cluster() {
    let mut by_calls = d13();
    let mut steps = 0;
    while !lock(&by_calls).wire.is_empty() {
        accepted(&[deliver(&mut by_calls, 0)]);
        steps += 1;
    }
    assert_eq!(by_calls, Cluster::new());
    let mut by_drain = d13();
    assert_eq!(by_drain.drain(LOCK), drained(steps, Handling::Taken));
    assert_eq!(by_drain, Cluster::new());
    assert_eq!(by_drain.drain(LOCK), drained(0, Handling::None));
}
