//! Every refusal, and that a refused call changes nothing.

mod common;

use common::*;
use reference::generator::Generator;
use reference::model::{
    Address, Agent, ClientId, ClientStatus, Cluster, Decider, LockId, MachineId, Message, Mode,
    Owner, Packet, TaskId, Waiter,
};
use reference::random_calls::Profile;
use reference::random_states::hand_made_cluster;
use reference::{answer_number, Refusal};

/// A cluster whose lock 0 is owned by machine 0, without any agent.
fn owned(mode: Mode) -> Cluster {
    let mut cluster = Cluster::new();
    let machine = MachineId(0);
    cluster.locks[0].decider = Decider {
        owner: Some(Owner { mode, machine }),
        incarnation: 0,
        writer_waits: false,
    };
    cluster
}

fn with_packets(mut cluster: Cluster, packets: Vec<Packet>) -> Cluster {
    cluster.locks[0].wire = packets;
    cluster
}

fn queue_agent(mode: Mode, waiters: u8, waiting: Mode) -> Agent {
    let mut agent = Agent::new(mode);
    for number in 0..waiters {
        let client = ClientId(number);
        agent.queue.push_back(Waiter {
            client,
            mode: waiting,
        });
    }
    agent
}

fn rejected(message: Message, machine: u8, agent: Agent) -> Packet {
    let mut packet = Packet::with_agent(message, to(machine), agent);
    packet.rejected = true;
    packet
}

fn release_of(number: u8) -> Message {
    Message::Release {
        client: ClientId(number),
    }
}

/// Asserts an answer to a delivery of index 0 and that nothing changed.
fn refuses_delivery(mut cluster: Cluster, number: u8) {
    let given = cluster.clone();
    assert_eq!(deliver(&mut cluster, 0), number);
    assert_eq!(cluster, given);
}

#[test]
fn ranges_are_tested_in_order() {
    let mut cluster = Cluster::new();
    let mut call = |lock, machine, task, mode| {
        answer(cluster.acquire(LockId(lock), MachineId(machine), TaskId(task), mode))
    };
    assert_eq!([call(8, 4, 4, 1), call(0, 4, 4, 1)], [1, 2]);
    assert_eq!([call(0, 0, 4, 1), call(0, 0, 0, 1)], [3, 4]);
    let mut call = |lock, machine, task| {
        answer(cluster.release(LockId(lock), MachineId(machine), TaskId(task)))
    };
    assert_eq!([call(255, 9, 9), call(0, 9, 9), call(0, 0, 9)], [1, 2, 3]);
    assert_eq!(answer(cluster.deliver(LockId(8), 0)), 1);
    assert_eq!(cluster.drain(LockId(8)), Err(Refusal::LockOutOfRange));
}

#[test]
fn statuses_and_indexes() {
    let mut cluster = Cluster::new();
    assert_eq!(release(&mut cluster, 0, 0), 7);
    assert_eq!(deliver(&mut cluster, 0), 8);
    accepted(&[acquire(&mut cluster, 0, 0, SHARED)]);
    assert_eq!(acquire(&mut cluster, 0, 0, SHARED), 5);
    assert_eq!(release(&mut cluster, 0, 0), 7);
    assert_eq!(deliver(&mut cluster, 1), 8);
    cluster.locks[0].clients[0] = ClientStatus::Idle;
    assert_eq!(acquire(&mut cluster, 0, 0, SHARED), 6);
}

#[test]
fn free_decider_places_only_requests() {
    let cluster = Cluster::new;
    let agent = || Agent::new(Mode::Shared);
    let shared = Mode::Shared;
    let messages = [
        plain(request(ClientId(0), shared, true), Address::Decider),
        Packet::with_agent(Message::Free, Address::Decider, agent()),
        Packet::with_agent(grant(ClientId(0), shared), Address::Decider, agent()),
    ];
    for packet in messages {
        refuses_delivery(with_packets(cluster(), vec![packet]), 9);
    }
    let packet = plain(grant(ClientId(5), shared), Address::Decider);
    let mut cluster = with_packets(cluster(), vec![packet]);
    assert_eq!(deliver(&mut cluster, 0), 0);
    assert_eq!(lock(&cluster).wire[0].address, to(1));
}

#[test]
fn machine_places_one_agent() {
    let agent = || Agent::new(Mode::Shared);
    let packets = [
        Packet::with_agent(grant(ClientId(0), Mode::Shared), to(0), agent()),
        rejected(Message::Free, 0, agent()),
        rejected(grant(ClientId(0), Mode::Shared), 0, agent()),
    ];
    for packet in packets {
        let mut cluster = with_packets(owned(Mode::Shared), vec![packet]);
        cluster.locks[0].agents[0] = Some(agent());
        refuses_delivery(cluster.clone(), 9);
        cluster.locks[0].agents[0] = None;
        assert_eq!(deliver(&mut cluster, 0), 0);
    }
}

#[test]
fn exclusive_agent_places_no_granted_request() {
    let packet = plain(request(ClientId(4), Mode::Shared, true), to(0));
    let mut cluster = with_packets(owned(Mode::Exclusive), vec![packet]);
    cluster.locks[0].agents[0] = Some(Agent::new(Mode::Exclusive));
    refuses_delivery(cluster, 9);
}

#[test]
fn queue_places_a_client_once_and_sixteen_at_most() {
    let full = || queue_agent(Mode::Exclusive, 16, Mode::Shared);
    let short = || queue_agent(Mode::Exclusive, 1, Mode::Shared);
    for agent in [full(), short()] {
        let packet = plain(request(ClientId(0), Mode::Shared, false), to(0));
        let mut cluster = with_packets(owned(Mode::Exclusive), vec![packet]);
        cluster.locks[0].agents[0] = Some(agent.clone());
        refuses_delivery(cluster.clone(), 9);
        cluster.locks[0].wire.clear();
        assert_eq!(acquire(&mut cluster, 0, 0, EXCLUSIVE), 9);
        let packet = rejected(grant(ClientId(0), Mode::Shared), 0, agent);
        refuses_delivery(with_packets(owned(Mode::Shared), vec![packet]), 9);
    }
    let packet = rejected(grant(ClientId(9), Mode::Shared), 0, full());
    refuses_delivery(with_packets(owned(Mode::Shared), vec![packet]), 9);
}

#[test]
fn full_wire_takes_no_more() {
    let packets = vec![plain(request(ClientId(1), Mode::Shared, false), Address::Decider); 49];
    let mut cluster = with_packets(owned(Mode::Shared), packets);
    refuses_delivery(cluster.clone(), 10);
    assert_eq!(acquire(&mut cluster, 1, 0, SHARED), 10);
    cluster.locks[0].clients[0] = ClientStatus::Holding(Mode::Shared);
    assert_eq!(release(&mut cluster, 0, 0), 10);
    let mut agent = Agent::new(Mode::Shared);
    agent.holders.insert(ClientId(0));
    cluster.locks[0].agents[0] = Some(agent.clone());
    assert_eq!(release(&mut cluster, 0, 0), 10);
    agent.holders.insert(ClientId(1));
    cluster.locks[0].agents[0] = Some(agent);
    assert_eq!(release(&mut cluster, 0, 0), 0);
    let _ = cluster.locks[0].wire.pop();
    assert_eq!(deliver(&mut cluster, 0), 0);
    assert_eq!(lock(&cluster).wire.len(), 49);
}

#[test]
fn shared_waiters_need_room() {
    let cluster = |others: usize| {
        let agent = queue_agent(Mode::Exclusive, 16, Mode::Shared);
        let message = grant(ClientId(0), Mode::Shared);
        let mut packets = vec![Packet::with_agent(message, to(0), agent)];
        packets.resize(1 + others, plain(release_of(0), Address::Decider));
        with_packets(owned(Mode::Shared), packets)
    };
    refuses_delivery(cluster(34), 10);
    let mut fits = cluster(33);
    assert_eq!(deliver(&mut fits, 0), 0);
    assert_eq!(lock(&fits).wire.len(), 49);
    assert!(agent(&fits, 0).queue.is_empty());
}

/// With 48 other packets there is room for one GRANT; who waits behind a writer is sent none (document 02, §3).
#[test]
fn waiters_behind_a_writer_need_no_room() {
    let cluster = |queue: [(u8, Mode); 3]| {
        let mut agent = Agent::new(Mode::Exclusive);
        agent.queue = waiters(&queue).into();
        let message = grant(ClientId(0), Mode::Shared);
        let mut packets = vec![Packet::with_agent(message, to(0), agent)];
        packets.resize(49, plain(release_of(0), Address::Decider));
        with_packets(owned(Mode::Shared), packets)
    };
    let (reader, other, writer) = ((8, Mode::Shared), (12, Mode::Shared), (4, Mode::Exclusive));
    refuses_delivery(cluster([reader, other, writer]), 10);
    let mut one_leaves = cluster([reader, writer, other]);
    assert_eq!(deliver(&mut one_leaves, 0), 0);
    assert_eq!(lock(&one_leaves).wire.len(), 49);
    let mut none_leaves = cluster([writer, reader, other]);
    assert_eq!(deliver(&mut none_leaves, 0), 0);
    assert_eq!(lock(&none_leaves).wire.len(), 48);
}

#[test]
fn cannot_be_placed_comes_before_a_full_wire() {
    let agent = queue_agent(Mode::Exclusive, 16, Mode::Shared);
    let message = grant(ClientId(0), Mode::Shared);
    let mut packets = vec![Packet::with_agent(message, to(0), agent.clone())];
    packets.resize(49, plain(release_of(0), Address::Decider));
    let mut cluster = with_packets(owned(Mode::Shared), packets);
    refuses_delivery(cluster.clone(), 10);
    cluster.locks[0].agents[0] = Some(agent);
    refuses_delivery(cluster, 9);
}

#[test]
fn malformed_cluster_is_refused_first() {
    let mut cluster = Cluster::new();
    cluster.locks[7].stale_slot = true;
    let given = cluster.clone();
    let none = LockId(9);
    assert_eq!(
        answer(cluster.acquire(none, MachineId(9), TaskId(9), 9)),
        11
    );
    assert_eq!(answer(cluster.release(none, MachineId(9), TaskId(9))), 11);
    assert_eq!(answer(cluster.deliver(none, 99)), 11);
    assert_eq!(cluster.drain(none), Err(Refusal::Malformed));
    let long = vec![0; 65_536];
    assert_eq!(answer(cluster.run_transcript(&long).answer), 11);
    assert_eq!(cluster, given);
}

#[test]
fn packets_outside_the_bounds_are_malformed() {
    let agent = || Agent::new(Mode::Shared);
    let shared = grant(ClientId(0), Mode::Shared);
    let marked = |message, address, agent| Packet {
        rejected: true,
        agent,
        ..Packet::new(message, address)
    };
    let bad = [
        plain(release_of(16), Address::Decider),
        plain(release_of(0), to(4)),
        plain(Message::Free, Address::Decider),
        Packet::with_agent(Message::Free, to(0), agent()),
        Packet::with_agent(release_of(0), to(0), agent()),
        Packet::with_agent(request(ClientId(0), Mode::Shared, true), to(0), agent()),
        marked(shared, to(0), None),
        marked(shared, Address::Decider, Some(agent())),
        marked(Message::Free, Address::Decider, Some(agent())),
        marked(release_of(0), to(0), None),
        marked(request(ClientId(0), Mode::Shared, false), to(0), None),
    ];
    for packet in bad {
        let cluster = with_packets(owned(Mode::Shared), vec![packet]);
        assert!(!cluster.is_well_formed(), "{cluster:?}");
        refuses_delivery(cluster, 11);
    }
}

#[test]
fn states_outside_the_bounds_are_malformed() {
    let machine = MachineId(4);
    let mode = Mode::Shared;
    let mut cluster = Cluster::new();
    cluster.locks[0].decider.owner = Some(Owner { mode, machine });
    assert!(!cluster.is_well_formed());
    let twice = [0, 1, 0].map(ClientId);
    for clients in [
        twice.to_vec(),
        vec![ClientId(16)],
        (0..17).map(ClientId).collect(),
    ] {
        let mut agent = Agent::new(mode);
        agent.queue = clients
            .iter()
            .map(|&client| Waiter { client, mode })
            .collect();
        let mut cluster = owned(mode);
        cluster.locks[0].agents[3] = Some(agent.clone());
        assert!(!cluster.is_well_formed());
        let packet = Packet::with_agent(Message::Free, Address::Decider, agent);
        assert!(!with_packets(owned(mode), vec![packet]).is_well_formed());
    }
    let packets = vec![plain(release_of(0), to(0)); 50];
    assert!(!with_packets(owned(mode), packets).is_well_formed());
}

#[test]
fn drain_that_never_ends_is_refused() {
    let packet = plain(request(ClientId(4), Mode::Shared, false), Address::Decider);
    let mut cluster = with_packets(owned(Mode::Exclusive), vec![packet]);
    let given = cluster.clone();
    assert_eq!(cluster.drain(LOCK), Err(Refusal::NotQuiescent));
    assert_eq!(cluster, given);
}

#[test]
fn drain_stops_at_a_refused_step() {
    let packets = vec![
        plain(grant(ClientId(4), Mode::Shared), to(1)),
        plain(request(ClientId(0), Mode::Shared, true), Address::Decider),
    ];
    let mut cluster = with_packets(Cluster::new(), packets);
    let given = cluster.clone();
    assert_eq!(cluster.drain(LOCK), Err(Refusal::CannotBePlaced));
    assert_eq!(cluster, given);
}

/// Accepted calls keep a cluster well formed and change one lock at most;
/// refused ones change nothing.
fn check_calls(seed: u64, profile: Profile, mut generator: Generator, mut cluster: Cluster) {
    let well_formed = cluster.is_well_formed();
    for _ in 0..profile.steps.min(512) {
        let call = profile.choose_call(seed, &generator.eight(), &cluster);
        let given = cluster.clone();
        let outcome = call.perform(&mut cluster);
        assert_eq!(cluster.is_well_formed(), well_formed);
        assert_eq!(cluster.preference, given.preference);
        assert_eq!(answer_number(&outcome) == 11, !well_formed);
        let changed = (0..8).filter(|&lock| cluster.locks[lock] != given.locks[lock]);
        let changed: Vec<usize> = changed.collect();
        match outcome {
            Ok(_) => assert!(changed.iter().all(|&lock| lock == call.lock.index())),
            Err(_) => assert!(changed.is_empty()),
        }
    }
}

#[test]
fn random_calls_keep_the_bounds() {
    for seed in 1..=65 {
        let profile = Profile::of_seed(seed);
        for preference in BOTH {
            check_calls(seed, profile, Generator::new(seed), fresh(preference));
        }
    }
    for seed in 1..=200 {
        let mut generator = Generator::new(seed);
        let cluster = hand_made_cluster(seed, &mut generator);
        check_calls(seed, reference::random_calls::HAND_MADE, generator, cluster);
    }
}

/// Whatever calls a fresh cluster has had, its drains are accepted and leave it
/// quiescent (document 01, 'Runs, waits and holds'), whoever is preferred.
#[test]
fn drain_after_any_list_of_calls_ends() {
    for (seed, preference) in (1..=65).flat_map(|seed| BOTH.map(|of| (seed, of))) {
        let mut generator = Generator::new(seed);
        let mut cluster = fresh(preference);
        for _ in 0..200 {
            let profile = Profile::of_seed(seed);
            let call = profile.choose_call(seed, &generator.eight(), &cluster);
            let _ = call.perform(&mut cluster);
        }
        for lock in 0..8 {
            assert!(cluster.drain(LockId(lock)).is_ok());
            assert!(cluster.locks[usize::from(lock)].is_quiescent());
        }
        assert_eq!(cluster, fresh(preference));
    }
}
