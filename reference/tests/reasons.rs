//! Why a client waits (document 02, §2), worked out by hand.

mod common;

use common::*;
use reference::digest::Digest;
use reference::generator::Generator;
use reference::model::{
    Address, Agent, ClientId, ClientStatus, Cluster, LockId, LockState, MachineId, Message, Mode,
    Packet, TaskId, Waiter,
};
use reference::random_calls::{Profile, HAND_MADE};
use reference::random_runs::{random_run, Run};
use reference::random_states::{hand_made_cluster, random_state};
use reference::random_transcripts::random_transcript;
use reference::reasons::{reason_numbers, Reason};
use reference::report::Report;
use reference::{answer_number, Drained, Refusal};

/// The client of the hand-made states: machine 1, task 1.
const ASKED: ClientId = ClientId(5);
/// Another client, machine 2, task 1.
const OTHER: ClientId = ClientId(9);

fn ask(cluster: &Cluster, machine: u8, task: u8) -> Result<Reason, Refusal> {
    cluster.reason(LOCK, MachineId(machine), TaskId(task))
}

fn ask_number(cluster: &Cluster, lock: u8, machine: u8, task: u8) -> u8 {
    answer_number(&cluster.reason(LockId(lock), MachineId(machine), TaskId(task)))
}

fn on_machine(machine: u8, ahead: usize) -> Reason {
    let machine = MachineId(machine);
    Reason::MachineQueue { machine, ahead }
}

fn in_packet(index: usize, ahead: usize) -> Reason {
    Reason::PacketQueue { index, ahead }
}

/// Asserts the reasons of these clients, and 15 for all others.
#[track_caller]
fn assert_reasons(cluster: &Cluster, expected: &[(u8, Reason)]) {
    for number in 0..16 {
        let wanted = expected.iter().find(|(client, _)| *client == number);
        let wanted = wanted.map_or(Err(Refusal::NotWaiting), |&(_, reason)| Ok(reason));
        assert_eq!(
            ask(cluster, number / 4, number % 4),
            wanted,
            "client {number}"
        );
    }
    assert_eq!(lock(cluster).check_reasons(), Ok(expected.len()));
}

#[test]
fn nobody_waits_at_a_fresh_lock() {
    assert_reasons(&Cluster::new(), &[]);
}

/// 0/0 and 1/0 ask; their ACQUIREs are at the indexes 0 and 1. Delivering the first makes it a GRANT at the end.
#[test]
fn request_is_under_way_to_the_decider() {
    let mut cluster = Cluster::new();
    accepted(&[
        acquire(&mut cluster, 0, 0, EXCLUSIVE),
        acquire(&mut cluster, 1, 0, SHARED),
    ]);
    let (first, second) = (Reason::Request { index: 0 }, Reason::Request { index: 1 });
    assert_reasons(&cluster, &[(0, first), (4, second)]);
    accepted(&[deliver(&mut cluster, 0)]);
    let (granted, moved_up) = (Reason::Grant { index: 1 }, first);
    assert_reasons(&cluster, &[(0, granted), (4, moved_up)]);
}

/// The ACQUIRE of 1/0 comes to machine 0 before the agent does, goes back, comes again, and is queued.
#[test]
fn request_is_under_way_to_the_agent_and_back() {
    let mut cluster = Cluster::new();
    accepted(&[
        acquire(&mut cluster, 0, 0, EXCLUSIVE),
        deliver(&mut cluster, 0),
        acquire(&mut cluster, 1, 0, EXCLUSIVE),
    ]);
    let waits_for_grant = (0, Reason::Grant { index: 0 });
    for _to_machine_and_back in 0..2 {
        let request = (4, Reason::Request { index: 1 });
        assert_reasons(&cluster, &[waits_for_grant, request]);
        accepted(&[deliver(&mut cluster, 1)]);
    }
    assert_eq!(lock(&cluster).wire[1].address, Address::Decider);
    // The GRANT is shown; then only 1/0 waits, at index 0.
    accepted(&[deliver(&mut cluster, 0)]);
    assert_reasons(&cluster, &[(4, Reason::Request { index: 0 })]);
    accepted(&[deliver(&mut cluster, 0)]);
    assert_reasons(&cluster, &[(4, Reason::Request { index: 0 })]);
    accepted(&[deliver(&mut cluster, 0)]);
    assert_reasons(&cluster, &[(4, on_machine(0, 0))]);
}

/// The first GRANT carries the new agent; the second one has none, and the marked ACQUIRE behind it is no reason.
#[test]
fn grant_is_under_way() {
    assert_reasons(&d1(), &[(0, Reason::Grant { index: 0 })]);
    assert_reasons(&d2(), &[(4, Reason::Grant { index: 0 })]);
    assert_reasons(&d3(), &[(4, Reason::Grant { index: 0 })]);
    assert_reasons(&d5(), &[(4, Reason::Grant { index: 0 })]);
}

/// Both packets of 1/0 are on the wire, a marked ACQUIRE and a RELEASE, but it is idle; 0/0 holds.
#[test]
fn client_that_has_released_does_not_wait() {
    assert_reasons(&d6(), &[]);
    assert_reasons(&d13(), &[]);
}

/// From D2 the writers 2/0 and 3/0 come to the agent of 0/0. It leaves in a GRANT for 2/0 at index 2, is rejected
/// because it has missed the grant of 1/0, and comes back with 2/0 in front of 3/0.
#[test]
fn grant_is_rejected() {
    let mut cluster = d2();
    let reader = (4, Reason::Grant { index: 0 });
    for (machine, ahead) in [(2, 0), (3, 1)] {
        accepted(&[
            acquire(&mut cluster, machine, 0, EXCLUSIVE),
            deliver(&mut cluster, 2),
        ]);
        let number = 4 * machine;
        let request = Reason::Request { index: 2 };
        assert_eq!(ask(&cluster, machine, 0), Ok(request), "client {number}");
        accepted(&[deliver(&mut cluster, 2)]);
        assert_eq!(ask(&cluster, machine, 0), Ok(on_machine(0, ahead)));
    }
    accepted(&[release(&mut cluster, 0, 0)]);
    let behind = (12, in_packet(2, 0));
    let sent = (8, Reason::Grant { index: 2 });
    assert_reasons(&cluster, &[reader, sent, behind]);
    accepted(&[deliver(&mut cluster, 2)]);
    let rejected = (8, Reason::RejectedGrant { index: 2 });
    assert_reasons(&cluster, &[reader, rejected, behind]);
    // With the GRANT of 1/0 shown the other packets move up.
    accepted(&[deliver(&mut cluster, 0)]);
    let rejected = (8, Reason::RejectedGrant { index: 1 });
    assert_reasons(&cluster, &[rejected, (12, in_packet(1, 0))]);
    accepted(&[deliver(&mut cluster, 1)]);
    assert_reasons(&cluster, &[(8, on_machine(0, 0)), (12, on_machine(0, 1))]);
}

/// 0/0 holds; 0/1, 0/2, 0/3 and 1/0 queue in this order. The agent goes to 0/1, over the decider, with the other three.
#[test]
fn queue_stands_on_a_machine_and_in_a_packet() {
    let mut cluster = Cluster::new();
    accepted(&[
        acquire(&mut cluster, 0, 0, EXCLUSIVE),
        deliver(&mut cluster, 0),
        deliver(&mut cluster, 0),
        acquire(&mut cluster, 0, 1, EXCLUSIVE),
        acquire(&mut cluster, 0, 2, SHARED),
        acquire(&mut cluster, 0, 3, EXCLUSIVE),
        acquire(&mut cluster, 1, 0, SHARED),
        deliver(&mut cluster, 0),
        deliver(&mut cluster, 0),
    ]);
    let queue = [(1, on_machine(0, 0)), (2, on_machine(0, 1))];
    let more = [(3, on_machine(0, 2)), (4, on_machine(0, 3))];
    assert_reasons(&cluster, &[queue, more].concat());
    accepted(&[release(&mut cluster, 0, 0)]);
    let carried = [
        (2, in_packet(0, 0)),
        (3, in_packet(0, 1)),
        (4, in_packet(0, 2)),
    ];
    let expected = [&[(1, Reason::Grant { index: 0 })], &carried[..]].concat();
    assert_reasons(&cluster, &expected);
    accepted(&[deliver(&mut cluster, 0)]);
    assert_reasons(&cluster, &expected);
    accepted(&[deliver(&mut cluster, 0)]);
    let rest = [
        (2, on_machine(0, 0)),
        (3, on_machine(0, 1)),
        (4, on_machine(0, 2)),
    ];
    assert_reasons(&cluster, &rest);
}

/// D12: a holds, b waits behind nobody on a's machine, c behind b. Then the agent goes to b with c, and to c alone.
#[test]
fn d12_reasons_of_all_three() {
    let (a, b, c) = (on_machine(0, 0), on_machine(0, 1), on_machine(0, 2));
    assert_reasons(&d12_queue(READERS), &[(4, a), (8, b), (12, c)]);
    let mut cluster = d12();
    assert_reasons(&cluster, &[(8, on_machine(1, 0)), (12, on_machine(1, 1))]);
    accepted(&[release(&mut cluster, 1, 0)]);
    let granted = Reason::Grant { index: 0 };
    assert_reasons(&cluster, &[(8, granted), (12, in_packet(0, 0))]);
    accepted(&[deliver(&mut cluster, 0)]);
    assert_reasons(&cluster, &[(8, granted), (12, in_packet(0, 0))]);
    accepted(&[deliver(&mut cluster, 0)]);
    assert_reasons(&cluster, &[(12, on_machine(2, 0))]);
    accepted(&[release(&mut cluster, 2, 0)]);
    assert_reasons(&cluster, &[(12, granted)]);
    accepted(&[deliver(&mut cluster, 0), deliver(&mut cluster, 0)]);
    assert_reasons(&cluster, &[]);
}

#[test]
fn idle_and_holding_clients_have_no_reason() {
    let mut cluster = d1();
    accepted(&[deliver(&mut cluster, 0)]);
    // 0/0 holds, 0/1 joins it at once.
    accepted(&[acquire(&mut cluster, 0, 1, SHARED)]);
    assert_eq!(status(&cluster, 0, 1), ClientStatus::Holding(Mode::Shared));
    for task in 0..3 {
        assert_eq!(ask_number(&cluster, 0, 0, task), 15);
    }
}

/// All of machine 3 and the last task of each machine are in range; one more is not.
#[test]
fn ranges_are_tested() {
    let cluster = Cluster::new();
    assert_eq!(ask_number(&cluster, 7, 3, 3), 15);
    assert_eq!(ask_number(&cluster, 8, 3, 3), 1);
    assert_eq!(ask_number(&cluster, 255, 0, 0), 1);
    assert_eq!(ask_number(&cluster, 7, 4, 3), 2);
    assert_eq!(ask_number(&cluster, 0, 255, 0), 2);
    assert_eq!(ask_number(&cluster, 7, 3, 4), 3);
    assert_eq!(ask_number(&cluster, 0, 0, 255), 3);
}

/// 11, 1, 2, 3, 15. Task 4 of machine 0 would have the number of client 1/0, which waits here; so 3 hides a reason too.
#[test]
fn refusals_have_an_order() {
    let mut cluster = Cluster::new();
    accepted(&[acquire(&mut cluster, 1, 0, SHARED)]);
    assert_eq!(ask_number(&cluster, 8, 4, 4), 1);
    assert_eq!(ask_number(&cluster, 8, 0, 0), 1);
    assert_eq!(ask_number(&cluster, 0, 4, 4), 2);
    assert_eq!(ask_number(&cluster, 0, 4, 0), 2);
    assert_eq!(ask_number(&cluster, 0, 0, 4), 3);
    assert_eq!(ask_number(&cluster, 0, 2, 4), 3);
    assert_eq!(ask_number(&cluster, 0, 0, 0), 15);
    assert_eq!(ask_number(&cluster, 0, 1, 0), 0);
    cluster.locks[6].stale_slot = true;
    for (lock, machine, task) in [(8, 4, 4), (0, 4, 4), (0, 0, 4), (0, 0, 0), (0, 1, 0)] {
        assert_eq!(ask_number(&cluster, lock, machine, task), 11);
    }
}

/// A lock at which nothing but the asked client's wait is known.
fn waiting() -> LockState {
    let mut state = LockState::default();
    state.clients[ASKED.index()] = ClientStatus::Waiting(Mode::Exclusive);
    state
}

fn with_wire(wire: &[Packet]) -> LockState {
    let wire = wire.to_vec();
    LockState { wire, ..waiting() }
}

fn queue_of(clients: &[u8]) -> Agent {
    let mut agent = Agent::new(Mode::Exclusive);
    let waiter = |&number| Waiter {
        client: ClientId(number),
        mode: Mode::Exclusive,
    };
    agent.queue = clients.iter().map(waiter).collect();
    agent
}

fn request_of(client: ClientId) -> Packet {
    plain(request(client, Mode::Exclusive, false), Address::Decider)
}

fn grant_of(client: ClientId) -> Packet {
    plain(grant(client, Mode::Exclusive), Address::Decider)
}

fn rejected_grant_of(client: ClientId, agent: Agent) -> Packet {
    let message = grant(client, Mode::Exclusive);
    let mut packet = Packet::with_agent(message, to(0), agent);
    packet.rejected = true;
    packet
}

fn free_with(clients: &[u8]) -> Packet {
    Packet::with_agent(Message::Free, Address::Decider, queue_of(clients))
}

/// The answer for the asked client, with the state at lock 0 of an otherwise fresh cluster.
fn asked(state: &LockState) -> Result<Reason, Refusal> {
    let mut cluster = Cluster::new();
    cluster.locks[0] = state.clone();
    assert!(cluster.is_well_formed());
    ask(&cluster, 1, 1)
}

#[track_caller]
fn assert_given(state: &LockState, expected: Reason) {
    assert_eq!(asked(state), Ok(expected));
}

#[track_caller]
fn assert_no_reason(state: &LockState) {
    assert_eq!(asked(state), Err(Refusal::NotWaiting));
    assert_eq!(state.all_reasons(ASKED), []);
}

#[test]
fn waiting_client_may_have_no_reason() {
    assert_no_reason(&waiting());
    let mut cluster = Cluster::new();
    cluster.locks[0] = waiting();
    assert_eq!(ask_number(&cluster, 0, 1, 1), 15);
}

#[test]
fn other_packets_of_the_client_are_no_reason() {
    let marked = plain(request(ASKED, Mode::Shared, true), to(0));
    let client = ASKED;
    let release = plain(Message::Release { client }, Address::Decider);
    let mut behind = with_wire(&[marked]);
    assert_no_reason(&behind);
    behind.wire = vec![release];
    assert_no_reason(&behind);
    behind
        .wire
        .push(plain(request(ASKED, Mode::Shared, true), to(0)));
    assert_no_reason(&behind);
    behind.wire.push(request_of(ASKED));
    assert_given(&behind, Reason::Request { index: 2 });
}

#[test]
fn packets_of_another_client_are_no_reason() {
    let mut state = with_wire(&[
        request_of(OTHER),
        grant_of(OTHER),
        rejected_grant_of(OTHER, queue_of(&[])),
        free_with(&[9, 4, 6]),
    ]);
    state.agents[1] = Some(queue_of(&[9]));
    assert_no_reason(&state);
    let client = ASKED;
    let mode = Mode::Shared;
    let queue = &mut state.agents[1].as_mut().expect("an agent").queue;
    queue.push_back(Waiter { client, mode });
    assert_given(&state, on_machine(1, 1));
}

/// A holder of the agent is not in its queue.
#[test]
fn holders_are_no_queue() {
    let mut state = waiting();
    let mut agent = queue_of(&[]);
    agent.holders.insert(ASKED);
    state.agents[1] = Some(agent.clone());
    state.wire = vec![Packet::with_agent(Message::Free, Address::Decider, agent)];
    assert_no_reason(&state);
}

/// Without an agent, on a machine or in a packet, there is nothing to stand in.
#[test]
fn where_there_is_no_agent_there_is_no_queue() {
    let mut state = with_wire(&[grant_of(OTHER), request_of(OTHER)]);
    state.agents[3] = Some(queue_of(&[5]));
    assert_given(&state, on_machine(3, 0));
    state.agents[3] = None;
    assert_no_reason(&state);
    let carrying = Packet {
        agent: Some(queue_of(&[5])),
        ..grant_of(OTHER)
    };
    state.wire[0] = carrying;
    assert_given(&state, in_packet(0, 0));
    state.wire[0].agent = None;
    assert_no_reason(&state);
}

/// The other lock has all five for the client, which does not wait there.
#[test]
fn other_locks_do_not_count() {
    let mut cluster = Cluster::new();
    cluster.locks[0] = waiting();
    cluster.locks[1].agents[0] = Some(queue_of(&[5]));
    cluster.locks[1].wire = vec![
        request_of(ASKED),
        grant_of(ASKED),
        rejected_grant_of(ASKED, queue_of(&[])),
        free_with(&[5]),
    ];
    assert_eq!(ask_number(&cluster, 0, 1, 1), 15);
    assert_eq!(ask_number(&cluster, 1, 1, 1), 15);
    cluster.locks[1].clients[5] = ClientStatus::Holding(Mode::Shared);
    assert_eq!(ask_number(&cluster, 1, 1, 1), 15);
    cluster.locks[1].clients[5] = ClientStatus::Waiting(Mode::Shared);
    let reason = cluster.reason(LockId(1), MachineId(1), TaskId(1));
    assert_eq!(reason, Ok(Reason::Request { index: 0 }));
}

/// The papers ask for the client's own packet, whatever its mode and its address.
#[test]
fn mode_and_address_do_not_matter() {
    for mode in [Mode::Exclusive, Mode::Shared] {
        for address in [Address::Decider, to(0), to(3)] {
            let state = with_wire(&[plain(request(ASKED, mode, false), address)]);
            assert_given(&state, Reason::Request { index: 0 });
            let state = with_wire(&[plain(grant(ASKED, mode), address)]);
            assert_given(&state, Reason::Grant { index: 0 });
        }
    }
}

/// A later kind comes first on the wire, and is still not given.
#[test]
fn request_comes_before_grant() {
    let state = with_wire(&[grant_of(ASKED), request_of(ASKED)]);
    assert_given(&state, Reason::Request { index: 1 });
}

#[test]
fn grant_comes_before_rejected_grant() {
    let back = rejected_grant_of(ASKED, queue_of(&[]));
    let state = with_wire(&[back, grant_of(ASKED)]);
    assert_given(&state, Reason::Grant { index: 1 });
}

#[test]
fn rejected_grant_comes_before_the_queue_on_a_machine() {
    let mut state = with_wire(&[request_of(OTHER), rejected_grant_of(ASKED, queue_of(&[]))]);
    state.agents[0] = Some(queue_of(&[5]));
    assert_given(&state, Reason::RejectedGrant { index: 1 });
}

#[test]
fn queue_on_a_machine_comes_before_the_queue_in_a_packet() {
    let mut state = with_wire(&[free_with(&[5])]);
    state.agents[3] = Some(queue_of(&[9, 5]));
    assert_given(&state, on_machine(3, 1));
}

/// The queue is that of the agent inside the client's own rejected GRANT.
#[test]
fn rejected_grant_comes_before_the_queue_inside_it() {
    let state = with_wire(&[rejected_grant_of(ASKED, queue_of(&[5]))]);
    assert_given(&state, Reason::RejectedGrant { index: 0 });
    let other = with_wire(&[rejected_grant_of(OTHER, queue_of(&[5]))]);
    assert_given(&other, in_packet(0, 0));
}

/// With all five true each one that is taken away uncovers the next.
#[test]
fn all_five_in_their_order() {
    let mut state = with_wire(&[
        free_with(&[9, 5]),
        rejected_grant_of(ASKED, queue_of(&[])),
        grant_of(ASKED),
        request_of(ASKED),
    ]);
    state.agents[2] = Some(queue_of(&[8, 9, 5]));
    assert_eq!(state.all_reasons(ASKED).len(), 5);
    assert_given(&state, Reason::Request { index: 3 });
    let _ = state.wire.pop();
    assert_given(&state, Reason::Grant { index: 2 });
    let _ = state.wire.pop();
    assert_given(&state, Reason::RejectedGrant { index: 1 });
    let _ = state.wire.pop();
    assert_given(&state, on_machine(2, 2));
    state.agents[2] = None;
    assert_given(&state, in_packet(0, 1));
    state.wire.clear();
    assert_no_reason(&state);
}

#[test]
fn lowest_index_of_two_packets() {
    let two = |packet: Packet| with_wire(&[request_of(OTHER), packet.clone(), packet]);
    assert_given(&two(request_of(ASKED)), Reason::Request { index: 1 });
    assert_given(&two(grant_of(ASKED)), Reason::Grant { index: 1 });
    let back = rejected_grant_of(ASKED, queue_of(&[]));
    assert_given(&two(back), Reason::RejectedGrant { index: 1 });
}

/// The lower one is given though fewer are ahead in the other.
#[test]
fn lowest_machine_of_two() {
    let mut state = waiting();
    state.agents[0] = Some(queue_of(&[9]));
    state.agents[1] = Some(queue_of(&[8, 9, 5]));
    state.agents[3] = Some(queue_of(&[5]));
    assert_given(&state, on_machine(1, 2));
    assert_eq!(
        state.all_reasons(ASKED),
        [on_machine(1, 2), on_machine(3, 0)]
    );
}

#[test]
fn lower_index_of_two_packets_with_agents() {
    let carrying = Packet {
        agent: Some(queue_of(&[5, 9])),
        ..grant_of(OTHER)
    };
    let state = with_wire(&[free_with(&[9]), free_with(&[8, 9, 5]), carrying]);
    assert_given(&state, in_packet(1, 2));
    assert_eq!(state.all_reasons(ASKED), [in_packet(1, 2), in_packet(2, 0)]);
}

/// Sixteen clients in one queue, with the asked one at the front, in the middle and at the end.
#[test]
fn those_ahead_are_counted() {
    let others: Vec<u8> = (0..16).filter(|&number| number != 5).collect();
    for ahead in [0, 1, 7, 14, 15] {
        let mut clients = others.clone();
        clients.insert(ahead, 5);
        let mut state = waiting();
        state.agents[2] = Some(queue_of(&clients));
        assert_given(&state, on_machine(2, ahead));
        let state = with_wire(&[request_of(OTHER), free_with(&clients)]);
        assert_given(&state, in_packet(1, ahead));
    }
}

/// On a full wire the last index is 32.
#[test]
fn last_index_of_a_full_wire() {
    let client = OTHER;
    let mut wire = vec![plain(Message::Release { client }, Address::Decider); 32];
    wire.push(request_of(ASKED));
    assert_given(&with_wire(&wire), Reason::Request { index: 32 });
    wire[32] = free_with(&[9, 5]);
    assert_given(&with_wire(&wire), in_packet(32, 1));
}

/// The numbers that go into a digest and into a line.
#[test]
fn numbers_of_an_answer() {
    let given = [
        (Reason::Request { index: 3 }, vec![0, 1, 3]),
        (Reason::Grant { index: 0 }, vec![0, 2, 0]),
        (Reason::RejectedGrant { index: 32 }, vec![0, 3, 32]),
        (on_machine(2, 15), vec![0, 4, 2, 15]),
        (in_packet(7, 0), vec![0, 5, 7, 0]),
    ];
    for (reason, numbers) in given {
        assert_eq!(reason_numbers(&Ok(reason)), numbers);
    }
    assert_eq!(reason_numbers(&Err(Refusal::NotWaiting)), [15]);
    assert_eq!(reason_numbers(&Err(Refusal::Malformed)), [11]);
}

#[track_caller]
fn says(state: &LockState, expected: &str) {
    assert_eq!(state.check_reasons(), Err(String::from(expected)));
}

#[test]
fn test_of_a_state_wants_one_reason() {
    says(&waiting(), "client 5 waits with 0 reasons");
    let mut state = with_wire(&[request_of(ASKED)]);
    assert_eq!(state.check_reasons(), Ok(1));
    state.agents[1] = Some(queue_of(&[5]));
    says(&state, "client 5 waits with 2 reasons");
    state.wire.push(request_of(ASKED));
    says(&state, "client 5 waits with 3 reasons");
    state.clients[5] = ClientStatus::Holding(Mode::Shared);
    assert_eq!(state.check_reasons(), Ok(0));
    state.clients[2] = ClientStatus::Waiting(Mode::Shared);
    says(&state, "client 2 waits with 0 reasons");
}

/// Nothing is wrong to count, but the wait has no end. Seed 4 calls lock 4 or 5 first.
#[test]
fn run_stops_at_a_wait_without_reason() {
    assert_eq!(waiting().check_counts(), Ok(()));
    let line = stopped(READERS, 4, &waiting());
    let (before, lock) = line.split_once(" lock ").expect("a lock");
    assert_eq!(before, "run 4 step 1");
    assert!(["4", "5"].contains(&&lock[..1]), "{line}");
    assert_eq!(&lock[1..], ": client 5 waits with 0 reasons");
}

/// A GRANT for another client is shown in the drain's first step; that leaves the asked one's wait as it is.
#[test]
fn run_stops_inside_a_drain() {
    let state = with_wire(&[plain(grant(OTHER, Mode::Shared), to(2))]);
    let line = stopped(READERS, draining_seed(), &state);
    let words = ": drain step 1: client 5 waits with 0 reasons";
    assert!(line.ends_with(words), "{line}");
}

#[test]
fn hand_made_run_is_not_tested() {
    let mut cluster = Cluster::new();
    cluster.locks.fill(waiting());
    let mut nowhere = std::io::sink();
    let mut report = Report::new(&mut nowhere, false);
    let run = Run::new("state", 4, HAND_MADE, Generator::new(4), cluster);
    run.finish(&mut report).expect("the run goes to its end");
    assert_eq!(report.tally.tested_waits, 0);
}

/// One ask goes with each call, and every one that is answered 0 has one of the six reasons.
#[test]
fn asks_are_counted() {
    let tally = tally_of(random_run, 1..=22);
    let total = |kind: usize| tally.answers[kind].iter().sum::<u64>();
    let calls = [1, 2, 3, 6, 7].map(total);
    assert_eq!(total(5), calls.iter().sum());
    assert_eq!(tally.reasons.iter().sum::<u64>(), tally.answers[5][0]);
    assert!(tally.reasons.iter().all(|&given| given > 0));
    assert!(tally.tested_waits > 0);
    assert_eq!(tally.several_reasons, 0);
    let tally = tally_of(random_state, 1..=199);
    assert_eq!(tally.reasons.iter().sum::<u64>(), tally.answers[5][0]);
    assert!(tally.several_reasons > 0);
    assert_eq!(tally.tested_waits, 0);
    let tally = tally_of(random_transcript, 4..=7);
    assert!(tally.tested_waits > 0);
    assert_eq!(tally.answers[5], [0; 19]);
}

/// What the list of all reasons says must be given: the first by kind, then by index or machine.
fn first_of_all(state: &LockState, client: ClientId) -> Option<Reason> {
    let waits = matches!(state.clients[client.index()], ClientStatus::Waiting(_));
    let all = state.all_reasons(client).into_iter().filter(|_| waits);
    all.min_by_key(|&reason| reason_numbers(&Ok(reason)))
}

#[test]
fn search_and_list_agree_on_hand_made_states() {
    let mut several = 0;
    for seed in 1..=1_000 {
        let cluster = hand_made_cluster(seed, &mut Generator::new(seed));
        for (lock, state) in (0..).zip(&cluster.locks) {
            for number in 0..16 {
                let client = ClientId(number);
                let outcome =
                    cluster.reason(LockId(lock), MachineId(number / 4), TaskId(number % 4));
                let first = first_of_all(state, client).ok_or(Refusal::NotWaiting);
                if cluster.is_well_formed() {
                    assert_eq!(outcome, first);
                    several += u64::from(outcome.is_ok() && state.all_reasons(client).len() > 1);
                } else {
                    assert_eq!(outcome, Err(Refusal::Malformed));
                }
            }
        }
    }
    assert!(several > 100);
}

/// Carries out the page once more, from the list of all reasons: the tail of each call's line, and its digest.
fn assert_asks(run: RunSeed, seed: u64, profile: Profile, generator: Generator, cluster: Cluster) {
    let (mut generator, mut cluster) = (generator, cluster);
    let (lines, _) = lines_of(run, seed);
    let mut lines = lines.iter();
    let mut digest = Digest::new(seed);
    digest.cluster(&cluster);
    for step in 1..=profile.steps {
        let outputs = generator.eight();
        let call = profile.choose_call(seed, &outputs, &cluster);
        if outputs[0].is_multiple_of(64) {
            let drained = digest_drain(&cluster, call.lock, &mut digest);
            let line = lines.next().expect("a line of the drain");
            assert!(!line.contains("reason"), "{line}");
            if seed / 16 % 2 == 1 {
                cluster = drained;
            }
        }
        let outcome = call.perform(&mut cluster);
        let handling = outcome.unwrap_or_default().number();
        digest.bytes(&[call.kind, answer_number(&outcome), handling]);
        let numbers = expected_numbers(&cluster, call.lock, call.machine, call.task);
        digest.bytes(&numbers);
        digest.bytes(&named_numbers(&cluster, &call));
        if step.is_multiple_of(16) {
            digest.cluster(&cluster);
        }
        assert_tail(lines.next().expect("a line"), &numbers, digest.value());
    }
    assert_eq!(lines.next(), None);
}

/// What item 1 of a step puts into the digest, and the cluster after the drain.
fn digest_drain(cluster: &Cluster, lock: LockId, digest: &mut Digest) -> Cluster {
    let mut drained = cluster.clone();
    let outcome = drained.drain(lock);
    let Drained { count, handling } = outcome.unwrap_or_default();
    digest.bytes(&[4, answer_number(&outcome), handling.number()]);
    digest.bytes(&count.to_le_bytes());
    digest.cluster(&drained);
    drained
}

fn assert_tail(line: &str, numbers: &[u8], digest: u64) {
    let words: Vec<String> = numbers.iter().map(u8::to_string).collect();
    let (head, tail) = line.split_once(" reason ").expect("a tail");
    let (reason, _) = tail.split_once(" named").expect("what follows the reason");
    assert_eq!(reason, words.join(" "), "{line}");
    let digest = format!(" digest {digest} cluster ");
    assert!(head.contains(&digest), "{line}");
}

/// The numbers of item 3, with the refusals in their order.
fn expected_numbers(cluster: &Cluster, lock: LockId, machine: MachineId, task: TaskId) -> Vec<u8> {
    let causes = [
        (!cluster.is_well_formed(), 11),
        (lock.0 > 7, 1),
        (machine.0 > 3, 2),
        (task.0 > 3, 3),
    ];
    if let Some((_, number)) = causes.into_iter().find(|(holds, _)| *holds) {
        return vec![number];
    }
    let state = &cluster.locks[lock.index()];
    match first_of_all(state, ClientId(4 * machine.0 + task.0)) {
        Some(reason) => reason_numbers(&Ok(reason)),
        None => vec![15],
    }
}

/// The first seeds have all thirteen profiles, with drains that are kept and drains that are not, and both preferences.
#[test]
fn asks_of_runs_are_in_lines_and_digests() {
    for seed in (1..=13).chain([16, 17, 25, 31]) {
        let (profile, generator) = (Profile::of_seed(seed), Generator::new(seed));
        assert_asks(random_run, seed, profile, generator, run_cluster(seed));
    }
}

#[test]
fn asks_of_hand_made_states_are_in_lines_and_digests() {
    for seed in 1..=100 {
        let mut generator = Generator::new(seed);
        let cluster = hand_made_cluster(seed, &mut generator);
        assert_asks(random_state, seed, HAND_MADE, generator, cluster);
    }
}
