//! What a machine makes of an ACQUIRE or RELEASE (document 02, §4), worked out by hand, and the test of it.

mod common;

use common::*;
use reference::digest::Digest;
use reference::generator::Generator;
use reference::handlings::{check_step, Arrival, StepHandlings};
use reference::model::{
    Address, Agent, ClientId, ClientStatus, Cluster, LockId, LockState, MachineId, Message, Mode,
    Owner, Packet,
};
use reference::random_calls::{Call, Profile, ACQUIRE, DELIVER, DRAIN, HAND_MADE, TRANSCRIPT};
use reference::random_runs::random_run;
use reference::random_states::{hand_made_cluster, random_state};
use reference::random_transcripts::{random_transcript, transcript_bytes};
use reference::reasons::reason_numbers;
use reference::report::{Report, Tally};
use reference::transcript::{listing, Record, Records};
use reference::{answer_number, Drained, Handling, Refusal, StepOutcome, DRAIN_LIMIT};

const X: Mode = Mode::Exclusive;
const S: Mode = Mode::Shared;

/// The client that the delivered packet names: 1/1.
const NAMED: ClientId = ClientId(5);
/// The last incarnation before 0.
const INCARNATION: u8 = 255;

fn release_of(number: u8) -> Message {
    let client = ClientId(number);
    Message::Release { client }
}

/// A packet that stays on the wire.
fn other(number: u8) -> Packet {
    plain(release_of(number), Address::Decider)
}

fn agent_of(mode: Mode, holders: &[u8], queue: &[(u8, Mode)]) -> Agent {
    let mut agent = Agent::new(mode);
    for &number in holders {
        agent.holders.insert(ClientId(number));
    }
    agent.queue = waiters(queue).into();
    agent.incarnation = INCARNATION;
    agent
}

/// The message comes to machine 2, between two other packets. The agent on the client's own machine, which lists it, has no
/// part in this.
fn coming(message: Message, agent: Option<Agent>) -> LockState {
    let mut state = LockState {
        wire: vec![other(15), plain(message, to(2)), other(14)],
        ..LockState::default()
    };
    state.agents[1] = Some(agent_of(S, &[NAMED.0], &[]));
    state.agents[2] = agent;
    state.clients[NAMED.index()] = ClientStatus::Waiting(S);
    state
}

/// A delivery at lock 0 of an otherwise fresh cluster, and the state after it.
fn delivered(state: &LockState, index: u8) -> (StepOutcome, LockState) {
    let mut cluster = Cluster::new();
    cluster.locks[0] = state.clone();
    let outcome = cluster.deliver(LOCK, index);
    (outcome, cluster.locks[0].clone())
}

/// Asserts the handling of the message that comes to machine 2, the state after it, and that the test agrees.
#[track_caller]
fn assert_handled(before: LockState, handling: Handling, expected: LockState) {
    let (outcome, after) = delivered(&before, 1);
    assert_eq!(outcome, Ok(handling));
    assert_eq!(after, expected);
    let arrival = Arrival::at(&before, 1).expect("an arrival");
    assert_eq!(arrival.check(handling, &after), Ok(()));
}

/// The packet goes to the wire's end, to the decider, counted once, and nothing else changes.
#[track_caller]
fn assert_sent_back(message: Message, agent: Option<Agent>, handling: Handling) {
    let before = coming(message, agent);
    assert_handled(before.clone(), handling, sent_back(&before));
}

fn sent_back(before: &LockState) -> LockState {
    let back = with_count(1, plain(before.wire[1].message, Address::Decider));
    LockState {
        wire: vec![other(15), other(14), back],
        ..before.clone()
    }
}

/// The packet is gone; machine 2 is left with this agent or none, and this is sent, if anything.
#[track_caller]
fn assert_taken(message: Message, agent: Agent, left: Option<Agent>, sent: Option<Packet>) {
    let before = coming(message, Some(agent));
    let mut expected = before.clone();
    expected.wire = vec![other(15), other(14)];
    expected.wire.extend(sent);
    expected.agents[2] = left;
    assert_handled(before, Handling::Taken, expected);
}

#[test]
fn without_an_agent_here_every_packet_goes_back() {
    let messages = [
        request(NAMED, S, false),
        request(NAMED, X, false),
        request(NAMED, S, true),
        release_of(NAMED.0),
    ];
    for message in messages {
        assert_sent_back(message, None, Handling::NoAgent);
    }
}

#[test]
fn release_of_no_holder_goes_back() {
    let agents = [
        agent_of(S, &[], &[]),
        agent_of(S, &[4, 6], &[]),
        agent_of(X, &[4], &[(6, X)]),
    ];
    for agent in agents {
        assert_sent_back(release_of(NAMED.0), Some(agent), Handling::NotHolder);
    }
}

/// Amended by document 02, §8: who is no holder but stands in the queue is taken off it. No agent leaves, also without a holder,
/// and nobody behind is served.
#[test]
fn release_of_a_queued_client_is_taken() {
    let message = release_of(NAMED.0);
    let cases = [
        (X, vec![4], vec![(5, X)], vec![]),
        (S, vec![], vec![(9, X), (5, S)], vec![(9, X)]),
        (
            S,
            vec![4],
            vec![(5, X), (9, S), (13, S)],
            vec![(9, S), (13, S)],
        ),
        (
            X,
            vec![],
            vec![(6, S), (5, S), (9, X)],
            vec![(6, S), (9, X)],
        ),
    ];
    for (mode, holders, queue, left) in cases {
        let agent = agent_of(mode, &holders, &queue);
        assert_taken(message, agent, Some(agent_of(mode, &holders, &left)), None);
    }
}

/// By hand a client may stand in the queue and be listed: it leaves as a holder, and keeps its place.
#[test]
fn release_of_a_queued_holder_takes_the_holder() {
    let (message, queue) = (release_of(NAMED.0), [(5, X), (9, S)]);
    let agent = agent_of(S, &[4, 5], &queue);
    assert_taken(message, agent, Some(agent_of(S, &[4], &queue)), None);
}

#[test]
fn release_of_a_holder_is_taken() {
    let message = release_of(NAMED.0);
    let agent = agent_of(S, &[4, 5], &[]);
    assert_taken(message, agent, Some(agent_of(S, &[4], &[])), None);
    let agent = agent_of(S, &[4, 5], &[(9, X)]);
    assert_taken(message, agent, Some(agent_of(S, &[4], &[(9, X)])), None);
}

/// With its last holder gone the agent leaves, in a FREE or with the next waiter.
#[test]
fn release_of_the_last_holder_is_taken() {
    let message = release_of(NAMED.0);
    let empty = agent_of(S, &[], &[]);
    let free = Packet::with_agent(Message::Free, Address::Decider, empty);
    assert_taken(message, agent_of(S, &[5], &[]), None, Some(free));
    let (next, behind) = (grant(ClientId(9), X), agent_of(X, &[], &[(3, S)]));
    let leaving = Packet::with_agent(next, Address::Decider, behind);
    let agent = agent_of(X, &[5], &[(9, X), (3, S)]);
    assert_taken(message, agent, None, Some(leaving));
}

/// The agent's incarnation goes on, past 255; a client that is listed already stays so.
#[test]
fn marked_acquire_is_taken() {
    let message = request(NAMED, S, true);
    let with = |holders: &[u8]| Agent {
        incarnation: 0,
        ..agent_of(S, holders, &[(9, X)])
    };
    for (before, after) in [(vec![], vec![5]), (vec![4], vec![4, 5]), (vec![5], vec![5])] {
        let agent = agent_of(S, &before, &[(9, X)]);
        assert_taken(message, agent, Some(with(&after)), None);
    }
}

/// A reader joins readers, and is sent a GRANT over the decider.
#[test]
fn acquire_that_joins_is_taken() {
    let message = request(NAMED, S, false);
    let granted = || Some(plain(grant(NAMED, S), Address::Decider));
    for queue in [&[][..], &[(9, X)]] {
        let joined = Some(agent_of(S, &[4, 5], queue));
        assert_taken(message, agent_of(S, &[4], queue), joined, granted());
    }
}

/// To the agent a request that has to wait is taken too.
#[test]
fn acquire_that_queues_is_taken() {
    for (agent, asked) in [(S, X), (X, S), (X, X)] {
        let message = request(NAMED, asked, false);
        let queued = Some(agent_of(agent, &[4], &[(9, X), (5, asked)]));
        assert_taken(message, agent_of(agent, &[4], &[(9, X)]), queued, None);
    }
}

/// A refused delivery answers its number alone, as a call and as a record's step.
#[track_caller]
fn assert_refused(state: &LockState, lock: u8, index: u8, refusal: Refusal) {
    let mut cluster = Cluster::new();
    cluster.locks[0] = state.clone();
    let given = cluster.clone();
    let lock = LockId(lock);
    assert_eq!(cluster.deliver(lock, index), Err(refusal));
    let record = Record::Deliver(lock, index);
    assert_eq!(record.run(&mut cluster), Err(refusal));
    assert_eq!(cluster, given);
}

/// 9 in its three forms for an ACQUIRE at an agent, though the agent is there.
#[test]
fn refused_delivery_has_none() {
    let full: Vec<(u8, Mode)> = (0..16).map(|number| (number, X)).collect();
    let cases = [
        (request(NAMED, S, true), agent_of(X, &[4], &[])),
        (request(NAMED, X, false), agent_of(S, &[4], &[(5, X)])),
        (request(NAMED, S, false), agent_of(X, &[4], &full)),
    ];
    for (message, agent) in cases {
        let state = coming(message, Some(agent));
        assert_refused(&state, 0, 1, Refusal::CannotBePlaced);
    }
    let mut state = coming(release_of(NAMED.0), None);
    assert_refused(&state, 0, 3, Refusal::IndexOutOfRange);
    assert_refused(&state, 8, 1, Refusal::LockOutOfRange);
    state.stale_slot = true;
    assert_refused(&state, 0, 1, Refusal::Malformed);
}

/// The decider is no machine: whatever it does with a packet, and whatever agent is where the packet goes.
#[test]
fn delivery_at_the_decider_has_none() {
    let carrying = |message, incarnation| {
        let agent = Agent {
            incarnation,
            ..agent_of(S, &[], &[(9, X)])
        };
        Packet::with_agent(message, Address::Decider, agent)
    };
    let cases = [
        (None, plain(request(NAMED, X, false), Address::Decider)),
        (Some(S), plain(request(NAMED, S, false), Address::Decider)),
        (Some(S), plain(request(NAMED, X, false), Address::Decider)),
        (Some(X), plain(request(NAMED, S, false), Address::Decider)),
        (Some(S), plain(request(NAMED, S, true), Address::Decider)),
        (Some(S), plain(release_of(NAMED.0), Address::Decider)),
        (Some(S), plain(grant(NAMED, S), Address::Decider)),
        (Some(S), carrying(Message::Free, 7)),
        (Some(S), carrying(Message::Free, 8)),
        (Some(S), carrying(grant(NAMED, X), 7)),
        (Some(S), carrying(grant(NAMED, X), 8)),
    ];
    for (mode, packet) in cases {
        for agent in [None, Some(agent_of(S, &[5], &[]))] {
            let mut state = coming(release_of(NAMED.0), agent);
            let machine = MachineId(2);
            state.decider.owner = mode.map(|mode| Owner { mode, machine });
            state.decider.incarnation = 7;
            state.wire[1] = packet.clone();
            assert_eq!(delivered(&state, 1).0, Ok(Handling::None), "{packet:?}");
            assert_eq!(Arrival::at(&state, 1), None);
        }
    }
}

/// With and without an agent inside, rejected or not; the last one lets a reader join.
#[test]
fn grant_or_free_at_a_machine_has_none() {
    let carrying = |message, rejected| Packet {
        rejected,
        ..Packet::with_agent(message, to(2), agent_of(S, &[], &[(9, S), (3, X)]))
    };
    let cases = [
        plain(grant(NAMED, S), to(2)),
        carrying(Message::Free, true),
        carrying(grant(NAMED, X), true),
        carrying(grant(NAMED, X), false),
        carrying(grant(NAMED, S), false),
    ];
    for packet in cases {
        let mut state = coming(release_of(NAMED.0), None);
        state.wire[1] = packet.clone();
        assert_eq!(delivered(&state, 1).0, Ok(Handling::None), "{packet:?}");
        assert_eq!(Arrival::at(&state, 1), None);
    }
    // A GRANT without agent also comes to machines that have one, which does not list its client or does.
    for agent in [agent_of(S, &[4], &[]), agent_of(S, &[5], &[])] {
        let mut state = coming(release_of(NAMED.0), Some(agent));
        state.wire[1] = plain(grant(NAMED, S), to(2));
        assert_eq!(delivered(&state, 1).0, Ok(Handling::None));
    }
}

/// On the client's own machine an acquire joins, queues or, with no agent, sends an ACQUIRE; a release takes a listed client
/// off or sends a RELEASE. No packet is delivered by any of them.
#[test]
fn acquire_and_release_have_none() {
    let mut held = d2();
    accepted(&[deliver(&mut held, 0)]);
    let cases = [
        (Cluster::new(), acquire_record(0, 0, SHARED)),
        (held.clone(), acquire_record(0, 1, SHARED)),
        (held.clone(), acquire_record(0, 1, EXCLUSIVE)),
        (held.clone(), acquire_record(1, 1, SHARED)),
        (held.clone(), release_record(0, 0)),
        (held.clone(), release_record(1, 0)),
    ];
    for (mut cluster, record) in cases {
        assert_eq!(record.run(&mut cluster), Ok(Handling::None), "{record:?}");
    }
    let refused = acquire_record(0, 0, SHARED).run(&mut held);
    assert_eq!(refused, Err(Refusal::ClientNotIdle));
    let refused = release_record(2, 0).run(&mut held);
    assert_eq!(refused, Err(Refusal::ClientNotHolding));
}

#[test]
fn numbers_of_the_handlings() {
    let all = [
        Handling::None,
        Handling::NoAgent,
        Handling::NotHolder,
        Handling::Taken,
    ];
    assert_eq!(all.map(Handling::number), [0, 1, 2, 3]);
    assert_eq!(Handling::default(), Handling::None);
}

/// D6 and D7, each record with its answer and its handling. The RELEASE of 1/0 overtakes the marked ACQUIRE, is not of a holder
/// then, and comes again once the ACQUIRE is taken.
fn busy() -> Vec<(Record, u8, Handling)> {
    let none = Handling::None;
    vec![
        (acquire_record(0, 0, SHARED), 0, none),
        (deliver_record(0), 0, none),
        (deliver_record(0), 0, none),
        (acquire_record(1, 0, SHARED), 0, none),
        (deliver_record(0), 0, none),
        (deliver_record(0), 0, none),
        (release_record(1, 0), 0, none),
        (deliver_record(1), 0, none),
        (deliver_record(1), 0, Handling::NotHolder),
        (acquire_record(1, 0, SHARED), 6, none),
        (deliver_record(0), 0, Handling::Taken),
        (deliver_record(0), 0, none),
        (deliver_record(0), 0, Handling::Taken),
        (acquire_record(1, 0, SHARED), 0, none),
    ]
}

/// The ACQUIRE of 1/0 comes to machine 0 before the agent does; then the agent comes, and nothing is at index 5.
fn early() -> Vec<(Record, u8, Handling)> {
    let none = Handling::None;
    vec![
        (acquire_record(0, 0, EXCLUSIVE), 0, none),
        (deliver_record(0), 0, none),
        (acquire_record(1, 0, EXCLUSIVE), 0, none),
        (deliver_record(1), 0, none),
        (deliver_record(1), 0, Handling::NoAgent),
        (deliver_record(0), 0, none),
        (deliver_record(5), 8, none),
    ]
}

/// The bytes of the first records of a list.
fn first_bytes(steps: &[(Record, u8, Handling)], count: usize) -> Vec<u8> {
    let records: Vec<Record> = steps[..count].iter().map(|step| step.0).collect();
    records_bytes(&records)
}

#[test]
fn each_record_has_its_handling() {
    for steps in [busy(), early()] {
        let (mut found, mut by_records) = (Vec::new(), Vec::new());
        let mut cluster = Cluster::new();
        for &(record, ..) in &steps {
            let outcome = record.run(&mut cluster);
            by_records.push((record, answer_number(&outcome), outcome.unwrap_or_default()));
        }
        assert_eq!(by_records, steps);
        let bytes = first_bytes(&steps, steps.len());
        Cluster::new().run_transcript_with(&bytes, |_, record, outcome, _| {
            found.push((
                *record,
                answer_number(&outcome),
                outcome.unwrap_or_default(),
            ));
        });
        assert_eq!(found, steps);
    }
}

/// The answer of a transcript on a fresh cluster, the record, and the handling.
fn run(bytes: &[u8]) -> (u8, usize, Handling) {
    let outcome = Cluster::new().run_transcript(bytes);
    (answer(outcome.answer), outcome.record, outcome.handling)
}

/// Asserts what the first records of a list give, and what they give with a bad record behind them.
#[track_caller]
fn assert_last(steps: &[(Record, u8, Handling)], count: usize, handling: Handling) {
    let bytes = first_bytes(steps, count);
    assert_eq!(run(&bytes), (0, count, handling));
    // The record behind the bad one would be taken, and is not run.
    let bad = [6, 0, 4, 0, 0, 0];
    let behind = records_bytes(&[deliver_record(0)]);
    let broken = [&bytes[..], &bad, &behind].concat();
    assert_eq!(run(&broken), (12, count + 1, handling));
    let cut_short = [&bytes[..], &[6, 0, 3]].concat();
    assert_eq!(run(&cut_short), (12, count + 1, handling));
}

/// The last one met stays over steps that have none and over the refused record 10.
#[test]
fn transcript_gives_the_last_one_met() {
    let steps = busy();
    for count in 0..9 {
        assert_last(&steps, count, Handling::None);
    }
    for count in [9, 10] {
        assert_last(&steps, count, Handling::NotHolder);
    }
    for count in 11..=14 {
        assert_last(&steps, count, Handling::Taken);
    }
    for count in [5, 6, 7] {
        assert_last(&early(), count, Handling::NoAgent);
    }
}

/// After the one that had, a refused record and then an accepted one that has none.
#[test]
fn refused_record_in_between_changes_nothing() {
    let mut steps = busy();
    steps.truncate(10);
    assert_eq!(steps[9].1, 6);
    steps.push((acquire_record(2, 0, SHARED), 0, Handling::None));
    assert_last(&steps, 11, Handling::NotHolder);
}

/// The 93 bytes of fourteen records and 10,907 refused deliveries are as long as a transcript may be.
#[test]
fn transcript_that_is_too_long_has_none() {
    let nowhere = Record::Deliver(LockId(1), 0);
    let busy = first_bytes(&busy(), 14);
    let mut bytes = [busy, records_bytes(&vec![nowhere; 10_907])].concat();
    assert_eq!(bytes.len(), 65_535);
    assert_eq!(run(&bytes), (0, 10_921, Handling::Taken));
    bytes.push(6);
    assert_eq!(run(&bytes), (13, 0, Handling::None));
}

#[test]
fn transcript_on_a_malformed_cluster_has_none() {
    let bytes = first_bytes(&busy(), 14);
    let mut cluster = Cluster::new();
    cluster.locks[7].stale_slot = true;
    let outcome = cluster.run_transcript(&bytes);
    assert_eq!(outcome.answer, Err(Refusal::Malformed));
    assert_eq!((outcome.record, outcome.handling), (0, Handling::None));
}

/// A transcript knows nothing of the one before it on the same cluster.
#[test]
fn transcripts_are_apart() {
    let mut cluster = Cluster::new();
    let first = cluster.run_transcript(&first_bytes(&busy(), 9));
    assert_eq!(first.handling, Handling::NotHolder);
    let second = cluster.run_transcript(&records_bytes(&[acquire_record(2, 0, SHARED)]));
    assert_eq!(second.handling, Handling::None);
}

/// Number, kind, answer and packets, as ever.
#[test]
fn listing_keeps_its_columns() {
    let expected = "n kind answer wire
1 1 0 1
2 3 0 1
3 3 0 0
4 1 0 1
5 3 0 2
6 3 0 1
7 2 0 2
8 3 0 2
9 3 0 2
10 1 6 2
11 3 0 1
12 3 0 1
13 3 0 0
14 1 0 1
";
    assert_eq!(listing(&first_bytes(&busy(), 14)), expected);
}

/// The handlings of the steps of a drain of lock 0, in runs of equal ones, and its outcome.
fn drain_steps(cluster: &Cluster) -> (Vec<(usize, Handling)>, Result<Drained, Refusal>) {
    let mut steps: Vec<(usize, Handling)> = Vec::new();
    let mut cluster = cluster.clone();
    let outcome = cluster.drain_with(LOCK, |_, handling, _| match steps.last_mut() {
        Some((count, last)) if *last == handling => *count += 1,
        _ => steps.push((1, handling)),
    });
    (steps, outcome)
}

#[track_caller]
fn assert_drained(cluster: &Cluster, steps: &[(usize, Handling)], handling: Handling) {
    let count: usize = steps.iter().map(|step| step.0).sum();
    let expected = drained(count as u16, handling);
    assert_eq!(drain_steps(cluster), (steps.to_vec(), expected));
    assert_eq!(cluster.clone().drain(LOCK), expected);
}

/// A lock at rest has no step; from D1 come the GRANT, the release and the FREE.
#[test]
fn drain_without_a_handling_has_none() {
    assert_drained(&Cluster::new(), &[], Handling::None);
    assert_drained(&d1(), &[(3, Handling::None)], Handling::None);
}

/// From D2: the GRANT; the marked ACQUIRE, taken; 0/0 and 1/0 release, the RELEASE goes on; it is taken; the FREE.
#[test]
fn drain_whose_last_step_has_none() {
    let steps = [
        (1, Handling::None),
        (1, Handling::Taken),
        (3, Handling::None),
        (1, Handling::Taken),
        (1, Handling::None),
    ];
    assert_drained(&d2(), &steps, Handling::Taken);
}

/// The FREE is rejected. The marked ACQUIREs come to machine 0 before it and go back; the RELEASEs go on; the FREE brings the
/// agent, without holders; the ACQUIREs go on. The RELEASEs are ahead of them and go back; the ACQUIREs are taken; the RELEASEs
/// go on and are taken; the FREE.
#[test]
fn d13_drain_has_all_three() {
    let steps = [
        (1, Handling::None),
        (16, Handling::NoAgent),
        (33, Handling::None),
        (16, Handling::NotHolder),
        (16, Handling::Taken),
        (16, Handling::None),
        (16, Handling::Taken),
        (1, Handling::None),
    ];
    assert_drained(&d13(), &steps, Handling::Taken);
}

/// 1/0's ACQUIRE is on its way to machine 0 when 0/0 hands back: it goes back, and finds the lock free.
#[test]
fn drain_may_end_with_no_agent() {
    let mut cluster = Cluster::new();
    accepted(&[
        acquire(&mut cluster, 0, 0, EXCLUSIVE),
        deliver(&mut cluster, 0),
        deliver(&mut cluster, 0),
        acquire(&mut cluster, 1, 0, EXCLUSIVE),
        deliver(&mut cluster, 0),
        release(&mut cluster, 0, 0),
    ]);
    // Then the FREE, the ACQUIRE, the GRANT, the release and the FREE.
    let steps = [(1, Handling::NoAgent), (5, Handling::None)];
    assert_drained(&cluster, &steps, Handling::NoAgent);
}

/// 1/0's RELEASE, of the last holder, is ahead of 2/0's ACQUIRE: the agent leaves, so the ACQUIRE goes back. Then as above.
#[test]
fn drain_gives_the_last_of_two() {
    let mut cluster = d2();
    accepted(&[
        deliver(&mut cluster, 0),
        deliver(&mut cluster, 0),
        release(&mut cluster, 0, 0),
        release(&mut cluster, 1, 0),
        deliver(&mut cluster, 0),
        acquire(&mut cluster, 2, 0, EXCLUSIVE),
        deliver(&mut cluster, 1),
    ]);
    let steps = [
        (1, Handling::Taken),
        (1, Handling::NoAgent),
        (5, Handling::None),
    ];
    assert_drained(&cluster, &steps, Handling::NoAgent);
}

/// The steps up to the refusal have their handlings, the drain has none.
#[track_caller]
fn assert_refused_drain(state: &LockState, steps: &[(usize, Handling)], refusal: Refusal) {
    let mut cluster = Cluster::new();
    cluster.locks[0] = state.clone();
    let expected = (steps.to_vec(), Err(refusal));
    assert_eq!(drain_steps(&cluster), expected);
    let outcome = cluster.drain(LOCK);
    assert_eq!(outcome, Err(refusal));
    let none = Drained {
        count: 0,
        handling: Handling::None,
    };
    assert_eq!(outcome.unwrap_or_default(), none);
}

/// Shared, on machine 0, with an agent there that lists 4 and 5 and has missed nothing.
fn shared_on_0(wire: Vec<Packet>) -> LockState {
    let mut state = LockState {
        wire,
        ..LockState::default()
    };
    let (mode, machine) = (S, MachineId(0));
    state.decider.owner = Some(Owner { mode, machine });
    state.decider.incarnation = INCARNATION;
    state.agents[0] = Some(agent_of(S, &[4, 5], &[]));
    state
}

/// The RELEASE of 4 is taken; at the free decider the marked ACQUIRE cannot be placed.
#[test]
fn drain_refused_with_9_has_none() {
    let marked = plain(request(ClientId(5), S, true), Address::Decider);
    let mut state = shared_on_0(vec![plain(release_of(4), to(0)), marked]);
    state.decider.owner = None;
    let steps = [(1, Handling::Taken)];
    assert_refused_drain(&state, &steps, Refusal::CannotBePlaced);
}

/// From a full wire the marked ACQUIRE is taken. The first grant of the decider leaves 49 packets, the second would leave 50.
#[test]
fn drain_refused_with_10_has_none() {
    let mut wire = vec![plain(request(ClientId(6), S, true), to(0))];
    wire.resize(49, plain(request(ClientId(7), S, false), Address::Decider));
    let steps = [(1, Handling::Taken), (1, Handling::None)];
    assert_refused_drain(&shared_on_0(wire), &steps, Refusal::WireFull);
}

/// Without an agent anywhere a RELEASE goes to machine 0 and back for ever; one of a client that the agent does not list too.
#[test]
fn drain_refused_with_14_has_none() {
    for (agent, handling) in [
        (None, Handling::NoAgent),
        (Some(agent_of(S, &[5], &[])), Handling::NotHolder),
    ] {
        let mut state = shared_on_0(vec![plain(release_of(4), to(0))]);
        state.agents[0] = agent;
        let around = [(1, handling), (1, Handling::None)];
        let steps = around.repeat(usize::from(DRAIN_LIMIT) / 2);
        assert_refused_drain(&state, &steps, Refusal::NotQuiescent);
    }
}

#[test]
fn drain_refused_before_its_first_step_has_none() {
    let mut state = shared_on_0(vec![plain(release_of(4), to(0))]);
    let refused = Cluster::new().drain(LockId(8));
    assert_eq!(refused, Err(Refusal::LockOutOfRange));
    state.stale_slot = true;
    assert_refused_drain(&state, &[], Refusal::Malformed);
}

/// Only an ACQUIRE or RELEASE, only to a machine, at the index that is delivered.
#[test]
fn arrival_is_an_acquire_or_release_to_a_machine() {
    for message in [
        request(NAMED, S, false),
        request(NAMED, S, true),
        release_of(NAMED.0),
    ] {
        let mut state = coming(message, None);
        assert!(Arrival::at(&state, 1).is_some());
        assert_eq!(Arrival::at(&state, 0), None);
        assert_eq!(Arrival::at(&state, 3), None);
        state.wire[1].address = Address::Decider;
        assert_eq!(Arrival::at(&state, 1), None);
    }
}

/// Asserts what the test says of a handling of the message that comes to machine 2, and of the state after it.
#[track_caller]
fn says(before: &LockState, handling: Handling, after: &LockState, expected: Result<(), &str>) {
    let arrival = Arrival::at(before, 1).expect("an arrival");
    let said = arrival.check(handling, after);
    assert_eq!(said, expected.map_err(String::from));
    assert_eq!(check_step(Some(&arrival), handling, Some(after)), said);
}

/// The state after the packet is gone from the wire and this is sent.
fn gone(before: &LockState, sent: &[Packet]) -> LockState {
    LockState {
        wire: [&[other(15), other(14)], sent].concat(),
        ..before.clone()
    }
}

#[test]
fn no_agent_is_said_where_there_is_none() {
    for message in [request(NAMED, S, true), release_of(NAMED.0)] {
        let before = coming(message, None);
        says(&before, Handling::NoAgent, &sent_back(&before), Ok(()));
        let before = coming(message, Some(agent_of(S, &[4], &[])));
        let words = "no agent, but there is one on machine 2";
        says(&before, Handling::NoAgent, &sent_back(&before), Err(words));
    }
}

#[test]
fn not_a_holder_is_said_of_a_release_that_the_agent_does_not_list() {
    let says_of = |message, agent, expected| {
        let before = coming(message, agent);
        says(&before, Handling::NotHolder, &sent_back(&before), expected);
    };
    let release = release_of(NAMED.0);
    says_of(release, Some(agent_of(S, &[4], &[])), Ok(()));
    let words = "not a holder, but there is no agent on machine 2";
    says_of(release, None, Err(words));
    let words = "not a holder, but client 5 is listed on machine 2";
    says_of(release, Some(agent_of(S, &[4, 5], &[])), Err(words));
    let words = "not a holder, but the packet is no RELEASE";
    for message in [request(NAMED, X, false), request(NAMED, S, true)] {
        says_of(message, Some(agent_of(S, &[4], &[])), Err(words));
    }
}

/// Each change of what a step that only sends the packet back leaves.
fn changes_of_sent_back() -> Vec<fn(&mut LockState)> {
    vec![
        |state| {
            state.wire.pop();
        },
        |state| state.wire.swap(1, 2),
        |state| state.wire.swap(0, 1),
        |state| state.wire[2].address = to(2),
        |state| state.wire[2].address = to(0),
        |state| state.wire[2].message = release_of(6),
        |state| state.wire[2].message = request(NAMED, S, true),
        |state| state.wire[2].rejected = true,
        |state| state.wire[2].agent = Some(Agent::new(S)),
        |state| state.wire[1].circled = 1,
        |state| state.wire.push(other(13)),
        |state| state.wire.insert(0, other(13)),
        |state| state.agents[1] = None,
        |state| state.agents[3] = Some(Agent::new(S)),
        |state| state.clients[5] = ClientStatus::Idle,
        |state| state.decider.incarnation += 1,
    ]
}

#[test]
fn packet_that_goes_back_is_all_that_changes() {
    let words = "the step did more, or less, than send the packet back";
    for change in changes_of_sent_back() {
        for (agent, handling) in [
            (None, Handling::NoAgent),
            (Some(agent_of(S, &[4], &[])), Handling::NotHolder),
        ] {
            let before = coming(release_of(NAMED.0), agent);
            let mut after = sent_back(&before);
            change(&mut after);
            says(&before, handling, &after, Err(words));
        }
    }
    // A mark may not come or go.
    let before = coming(request(NAMED, S, false), None);
    let mut after = sent_back(&before);
    after.wire[2].message = request(NAMED, S, true);
    says(&before, Handling::NoAgent, &after, Err(words));
}

/// The count of the packet itself has a test of its own.
#[test]
fn any_count_of_the_packet_that_goes_back_will_do() {
    let before = coming(release_of(NAMED.0), None);
    let mut after = sent_back(&before);
    for count in [0, 1, 2, 255] {
        after.wire[2].circled = count;
        says(&before, Handling::NoAgent, &after, Ok(()));
    }
}

#[test]
fn taken_is_said_where_there_is_an_agent() {
    for message in [
        request(NAMED, S, false),
        request(NAMED, S, true),
        release_of(NAMED.0),
    ] {
        let before = coming(message, Some(agent_of(S, &[4, 5], &[])));
        let is_release = message == release_of(NAMED.0);
        let holders: &[u8] = if is_release { &[4] } else { &[4, 5] };
        let after = left(&before, Some(agent_of(S, holders, &[])), &[]);
        says(&before, Handling::Taken, &after, Ok(()));
        let before = coming(message, None);
        let words = "taken, but there is no agent on machine 2";
        says(&before, Handling::Taken, &gone(&before, &[]), Err(words));
    }
}

#[test]
fn taken_release_is_of_a_listed_or_queued_client() {
    let before = coming(release_of(NAMED.0), Some(agent_of(S, &[4], &[(9, S)])));
    let words = "taken, but client 5 is neither listed nor queued on machine 2";
    says(&before, Handling::Taken, &gone(&before, &[]), Err(words));
    let before = coming(request(NAMED, S, true), Some(agent_of(S, &[4], &[])));
    let after = left(&before, Some(agent_of(S, &[4, 5], &[])), &[]);
    says(&before, Handling::Taken, &after, Ok(()));
}

/// An agent that lists 4 and has 9, then perhaps 5, then 3 in its queue.
fn agent_with_queue(has_5: bool) -> Agent {
    let queue = [(9, X), (5, S), (3, S)];
    let left: Vec<(u8, Mode)> = queue.into_iter().filter(|of| has_5 || of.0 != 5).collect();
    agent_of(S, &[4], &left)
}

/// The packet is gone from the wire; machine 2 is left with this agent or none, and this is sent, if anything.
fn left(before: &LockState, agent: Option<Agent>, sent: &[Packet]) -> LockState {
    let mut after = gone(before, sent);
    after.agents[2] = agent;
    after
}

/// Its entry alone is gone: whoever else is listed or queued, the mode, the incarnation and the wire are as before.
#[test]
fn taken_release_of_a_queued_client_changes_nothing_else() {
    let before = coming(release_of(NAMED.0), Some(agent_with_queue(true)));
    let shorter = || agent_with_queue(false);
    let after = left(&before, Some(shorter()), &[]);
    says(&before, Handling::Taken, &after, Ok(()));
    let granted = plain(grant(ClientId(3), S), Address::Decider);
    let leaving = Packet::with_agent(Message::Free, Address::Decider, shorter());
    let restarted = Agent {
        incarnation: 0,
        ..shorter()
    };
    let wrong = [
        left(&before, Some(agent_with_queue(true)), &[]),
        left(&before, None, &[]),
        left(&before, None, &[leaving]),
        left(&before, Some(shorter()), &[granted]),
        left(&before, Some(agent_of(S, &[4], &[(3, S), (9, X)])), &[]),
        left(&before, Some(agent_of(S, &[4], &[(9, X)])), &[]),
        left(&before, Some(agent_of(S, &[], &[(9, X), (3, S)])), &[]),
        left(&before, Some(agent_of(X, &[4], &[(9, X), (3, S)])), &[]),
        left(&before, Some(restarted), &[]),
        before.clone(),
    ];
    let words = "the step did more, or less, than take the client off the queue";
    for after in wrong {
        says(&before, Handling::Taken, &after, Err(words));
    }
}

/// What the test says of a taken RELEASE of 5, with this agent before and this one, or none, and these packets after.
#[track_caller]
fn says_of_release(agent: &Agent, stays: Option<Agent>, sent: &[Packet], is_so: bool) {
    let before = coming(release_of(NAMED.0), Some(agent.clone()));
    let words = "the step did more, or less, than take client 5 off the holders";
    let expected = if is_so { Ok(()) } else { Err(words) };
    let after = left(&before, stays, sent);
    says(&before, Handling::Taken, &after, expected);
}

/// The client is no holder any more, also where it stands in the queue as well, and nobody else has come or gone.
#[test]
fn taken_release_of_a_holder_takes_it_off_the_holders() {
    let queue = [(9, X), (5, S), (3, S)];
    let before = agent_of(S, &[4, 5], &queue);
    says_of_release(&before, Some(agent_of(S, &[4], &queue)), &[], true);
    let wrong = [
        before.clone(),
        agent_of(S, &[4, 5], &[(9, X), (3, S)]),
        agent_of(S, &[4], &[(9, X), (3, S)]),
        agent_of(S, &[], &queue),
        agent_of(S, &[4, 6], &queue),
        agent_of(S, &[4], &[(5, S), (3, S)]),
        agent_of(S, &[4], &[(5, S), (9, X), (3, S)]),
        agent_of(S, &[4], &[(9, S), (5, S), (3, S)]),
        agent_of(S, &[4], &[(9, X), (5, S), (3, S), (8, X)]),
    ];
    for stays in wrong {
        says_of_release(&before, Some(stays), &[], false);
    }
    says_of_release(&before, None, &[], false);
}

/// The first in the queue leaves as the client of the GRANT, in its mode, and the others go along with the agent.
#[test]
fn taken_release_of_the_last_holder_sends_the_queue_along() {
    let before = agent_of(S, &[5], &[(9, X), (3, S)]);
    let leaving = |message, holders: &[u8], queue: &[(u8, Mode)]| {
        Packet::with_agent(message, Address::Decider, agent_of(S, holders, queue))
    };
    let right = leaving(grant(ClientId(9), X), &[], &[(3, S)]);
    says_of_release(&before, None, std::slice::from_ref(&right), true);
    let wrong = [
        leaving(grant(ClientId(9), X), &[5], &[(3, S)]),
        leaving(grant(ClientId(9), X), &[4], &[(3, S)]),
        leaving(grant(ClientId(9), X), &[], &[(9, X), (3, S)]),
        leaving(grant(ClientId(9), X), &[], &[]),
        leaving(grant(ClientId(9), S), &[], &[(3, S)]),
        leaving(grant(ClientId(3), S), &[], &[(9, X)]),
        leaving(grant(ClientId(8), X), &[], &[(3, S)]),
        leaving(Message::Free, &[], &[(3, S)]),
        plain(grant(ClientId(9), X), Address::Decider),
    ];
    for packet in wrong {
        says_of_release(&before, None, &[packet], false);
    }
    // It has not left where it still is, and does not leave twice.
    let stays = agent_of(S, &[], &[(9, X), (3, S)]);
    says_of_release(&before, Some(stays), std::slice::from_ref(&right), false);
    says_of_release(&before, None, &[right.clone(), right], false);
    let free = leaving(Message::Free, &[], &[]);
    says_of_release(&agent_of(S, &[5], &[]), None, &[free], true);
    let free = leaving(Message::Free, &[5], &[]);
    says_of_release(&agent_of(S, &[5], &[]), None, &[free], false);
}

/// The client of an ACQUIRE is listed or stands last in the queue, and nobody else has come or gone.
#[test]
fn taken_acquire_lists_or_queues_its_client() {
    let message = request(NAMED, S, false);
    let before = coming(message, Some(agent_of(S, &[4], &[(9, X), (3, S)])));
    let right = [
        agent_of(S, &[4, 5], &[(9, X), (3, S)]),
        agent_of(S, &[4], &[(9, X), (3, S), (5, S)]),
    ];
    for stays in right {
        let after = left(&before, Some(stays), &[]);
        says(&before, Handling::Taken, &after, Ok(()));
    }
    let wrong = [
        agent_of(S, &[4], &[(9, X), (3, S)]),
        agent_of(S, &[5], &[(9, X), (3, S)]),
        agent_of(S, &[4, 5, 6], &[(9, X), (3, S)]),
        agent_of(S, &[4, 5], &[(9, X), (3, S), (5, S)]),
        agent_of(S, &[4, 5], &[(3, S)]),
        agent_of(S, &[4], &[(9, X), (5, S), (3, S)]),
        agent_of(S, &[4], &[(5, S), (9, X), (3, S)]),
        agent_of(S, &[4], &[(3, S), (9, X), (5, S)]),
        agent_of(S, &[4], &[(9, X), (3, S), (5, X)]),
        agent_of(S, &[4], &[(9, X), (3, S), (8, S)]),
        agent_of(S, &[], &[(9, X), (3, S), (5, S)]),
    ];
    let words = "the step did more, or less, than list client 5 or queue it last";
    for stays in wrong.into_iter().map(Some).chain([None]) {
        let after = left(&before, stays, &[]);
        says(&before, Handling::Taken, &after, Err(words));
    }
    // The agent of an ACQUIRE does not leave.
    let listed = agent_of(S, &[4, 5], &[(9, X), (3, S)]);
    let leaving = Packet::with_agent(Message::Free, Address::Decider, listed);
    let after = left(&before, None, &[leaving]);
    says(&before, Handling::Taken, &after, Err(words));
}

#[test]
fn release_of_a_queued_client_is_not_sent_back() {
    let before = coming(release_of(NAMED.0), Some(agent_with_queue(true)));
    let words = "not a holder, but client 5 is queued on machine 2";
    says(
        &before,
        Handling::NotHolder,
        &sent_back(&before),
        Err(words),
    );
}

/// A GRANT may be sent, and a FREE.
#[test]
fn taken_packet_may_send_a_grant_or_a_free() {
    let granted = plain(grant(NAMED, S), Address::Decider);
    let before = coming(request(NAMED, S, false), Some(agent_of(S, &[5], &[])));
    let after = gone(&before, std::slice::from_ref(&granted));
    says(&before, Handling::Taken, &after, Ok(()));
    let free = Packet::with_agent(Message::Free, Address::Decider, Agent::new(S));
    let before = coming(release_of(NAMED.0), Some(agent_of(S, &[5], &[])));
    let after = left(&before, None, &[free, granted]);
    says(&before, Handling::Taken, &after, Ok(()));
}

/// Those that were on the wire before are not sent by the step.
#[test]
fn taken_packet_sends_no_acquire_or_release() {
    let words = "taken, but an ACQUIRE or RELEASE was sent";
    for message in [request(NAMED, S, false), release_of(NAMED.0)] {
        let before = coming(message, Some(agent_of(S, &[5], &[])));
        let granted = plain(grant(NAMED, S), Address::Decider);
        for wrong in [
            plain(message, Address::Decider),
            plain(request(ClientId(9), S, true), to(3)),
            other(9),
        ] {
            for sent in [
                vec![wrong.clone()],
                vec![wrong.clone(), granted.clone()],
                vec![granted.clone(), wrong],
            ] {
                let after = gone(&before, &sent);
                says(&before, Handling::Taken, &after, Err(words));
            }
        }
    }
}

#[test]
fn delivered_acquire_or_release_has_a_handling() {
    let words = "an ACQUIRE or RELEASE that came to machine 2 has no handling";
    for agent in [None, Some(agent_of(S, &[4], &[]))] {
        let before = coming(release_of(NAMED.0), agent);
        says(&before, Handling::None, &sent_back(&before), Err(words));
    }
}

/// What has no arrival is another step, or a refused one.
#[test]
fn every_other_step_has_none() {
    let state = LockState::default();
    assert_eq!(check_step(None, Handling::None, Some(&state)), Ok(()));
    assert_eq!(check_step(None, Handling::None, None), Ok(()));
    for (handling, name) in [
        (Handling::NoAgent, "no agent"),
        (Handling::NotHolder, "not a holder"),
        (Handling::Taken, "taken"),
    ] {
        let words = format!("{name}, of a step that has no handling");
        let said = check_step(None, handling, Some(&state));
        assert_eq!(said, Err(words.clone()));
        assert_eq!(check_step(None, handling, None), Err(words));
    }
}

/// Steps with these handlings, of which each that has one is of a packet that was sent back or taken as it says.
fn tested_steps(handlings: &[Handling]) -> StepHandlings {
    let mut steps = StepHandlings::default();
    for &handling in handlings {
        let agent = match handling {
            Handling::None | Handling::NoAgent => None,
            Handling::NotHolder => Some(agent_of(S, &[4], &[])),
            Handling::Taken => Some(agent_of(S, &[4, 5], &[])),
        };
        let before = coming(release_of(NAMED.0), agent);
        let after = match handling {
            Handling::Taken => left(&before, Some(agent_of(S, &[4], &[])), &[]),
            _ => sent_back(&before),
        };
        let arrival = Arrival::at(&before, 1).filter(|_| handling != Handling::None);
        let tested = steps.test_step(arrival.as_ref(), handling, &after);
        assert_eq!(tested, Ok(()));
    }
    steps
}

#[test]
fn last_of_the_steps_is_tested() {
    let (none, taken) = (Handling::None, Handling::Taken);
    let (no_agent, not_holder) = (Handling::NoAgent, Handling::NotHolder);
    let cases = [
        (vec![], none),
        (vec![none, none], none),
        (vec![taken], taken),
        (vec![none, not_holder, none, none], not_holder),
        (vec![taken, no_agent, none], no_agent),
        (vec![no_agent, none, taken], taken),
    ];
    for (handlings, last) in cases {
        let steps = tested_steps(&handlings);
        for given in [none, no_agent, not_holder, taken] {
            let said = steps.check_last(given);
            assert_eq!(said.is_ok(), given == last, "{handlings:?} {given:?}");
        }
    }
    let said = tested_steps(&[no_agent, taken, none]).check_last(no_agent);
    let words = "the last handling is given as no agent, but is taken";
    assert_eq!(said, Err(String::from(words)));
    let said = tested_steps(&[]).check_last(taken);
    let words = "the last handling is given as taken, but is none";
    assert_eq!(said, Err(String::from(words)));
}

#[test]
fn step_of_a_drain_is_tested() {
    let before = coming(release_of(NAMED.0), None);
    let arrival = Arrival::at(&before, 1);
    let mut steps = StepHandlings::default();
    let said = steps.test_step(arrival.as_ref(), Handling::Taken, &gone(&before, &[]));
    let words = "taken, but there is no agent on machine 2";
    assert_eq!(said, Err(String::from(words)));
    let said = steps.test_step(None, Handling::NoAgent, &before);
    assert!(said.is_err());
}

/// A failure is counted too.
#[test]
fn handlings_are_tallied() {
    let mut tally = Tally::default();
    let before = coming(release_of(NAMED.0), None);
    let after = sent_back(&before);
    let arrival = || Arrival::at(&before, 1);
    let mut test = |handling| tally.test_handling(DELIVER, arrival(), handling, Some(&after));
    assert_eq!(test(Handling::NoAgent), Ok(()));
    assert!(test(Handling::Taken).is_err());
    assert!(test(Handling::None).is_err());
    assert_eq!(
        tally.test_handling(ACQUIRE, None, Handling::None, None),
        Ok(())
    );
    let steps = tested_steps(&[Handling::Taken]);
    let mut test = |kind, handling| tally.test_last_handling(kind, &steps, handling);
    assert_eq!(test(DRAIN, Handling::Taken), Ok(()));
    assert_eq!(test(TRANSCRIPT, Handling::Taken), Ok(()));
    assert!(test(DRAIN, Handling::NotHolder).is_err());
    let [transcript, acquire, release, deliver, drain, others @ ..] = tally.handled;
    assert_eq!([transcript, deliver], [[0, 0, 0, 1], [1, 1, 0, 1]]);
    assert_eq!(drain, [0, 0, 1, 1]);
    assert_eq!([acquire, release], [[1, 0, 0, 0], [0; 4]]);
    assert_eq!(others, [[0; 4]; 4]);
}

#[test]
fn line_of_the_counts() {
    let mut tally = Tally::default();
    tally.handled[usize::from(DELIVER)] = [9, 30, 20, 10];
    tally.handled[usize::from(TRANSCRIPT)] = [8, 1, 2, 3];
    let line = "handled deliver no-agent 30 not-holder 20 taken 10";
    assert_eq!(tally.handled_line(DELIVER), line);
    let line = "handled transcript no-agent 1 not-holder 2 taken 3";
    assert_eq!(tally.handled_line(TRANSCRIPT), line);
    let line = "handled drain no-agent 0 not-holder 0 taken 0";
    assert_eq!(tally.handled_line(DRAIN), line);
}

/// A line for each part and each of its calls that may have a handling.
#[test]
fn program_counts_the_handlings() {
    let text = written_by(&["counts"]);
    let lines = text.lines().filter(|line| line.contains(" handled "));
    let heads = lines.map(|line| line.split_once(" no-agent ").expect("figures").0);
    let expected = [
        "runs handled deliver",
        "runs handled drain",
        "states handled deliver",
        "states handled drain",
        "transcripts handled deliver",
        "transcripts handled transcript",
    ];
    assert_eq!(heads.collect::<Vec<&str>>(), expected);
}

/// What the papers say of the delivery of an index in a well-formed state, if it is accepted.
fn by_the_papers(state: &LockState, index: u8) -> Handling {
    let Some(packet) = state.wire.get(usize::from(index)) else {
        return Handling::None;
    };
    let Address::Machine(machine) = packet.address else {
        return Handling::None;
    };
    match (packet.message, &state.agents[machine.index()]) {
        (Message::Grant { .. } | Message::Free, _) => Handling::None,
        (_, None) => Handling::NoAgent,
        (Message::Release { client }, Some(agent)) => {
            let in_queue = agent.queue.iter().any(|waiter| waiter.client == client);
            match agent.holders.contains(client) || in_queue {
                true => Handling::Taken,
                false => Handling::NotHolder,
            }
        }
        _ => Handling::Taken,
    }
}

/// Makes a call; what the papers say of it, and its answer.
fn perform(call: Call, cluster: &mut Cluster) -> (Handling, u8) {
    let state = cluster.locks.get(call.lock.index());
    let state = state.filter(|_| cluster.is_well_formed());
    let expected = state.map_or(Handling::None, |state| by_the_papers(state, call.index));
    let answer = answer_number(&call.perform(cluster));
    let has_one = call.kind == DELIVER && answer == 0;
    (if has_one { expected } else { Handling::None }, answer)
}

/// Makes the steps of a drain, on a copy, up to the first that is refused; the last handling that was met.
fn met_by_draining(cluster: &Cluster, call: Call) -> Handling {
    let mut cluster = cluster.clone();
    let mut last = Handling::None;
    if !cluster.is_well_formed() {
        return last;
    }
    for _ in 0..DRAIN_LIMIT {
        let Some(step) = drain_step(&cluster, call) else {
            return last;
        };
        let (met, answer) = perform(step, &mut cluster);
        if answer != 0 {
            return last;
        }
        if met != Handling::None {
            last = met;
        }
    }
    last
}

/// How often each handling was met, none too, by calls and by drains, and how many refused drains had met one.
#[derive(Clone, Copy, Debug, Default, PartialEq, Eq)]
struct Met {
    other_calls: u64,
    deliveries: [u64; 4],
    drains: [u64; 4],
    refused_after_one: u64,
}

/// Asserts the part of a line from the answer to the digest.
#[track_caller]
fn assert_line(line: &str, answer: u8, handling: Handling, count: u16, digest: &Digest) {
    let (handling, digest) = (handling.number(), digest.value());
    let part = format!(" answer {answer} handling {handling} count {count} digest {digest} ");
    assert!(line.contains(&part), "{line} has not{part}");
}

/// Carries out the page once more with the handlings by the papers: lines, digests and counts.
fn carry_out(
    run: RunSeed,
    seed: u64,
    profile: Profile,
    generator: Generator,
    cluster: Cluster,
) -> Met {
    let (mut generator, mut cluster) = (generator, cluster);
    let (lines, tally) = lines_of(run, seed);
    let mut lines = lines.iter();
    let mut met = Met::default();
    let mut digest = Digest::new(seed);
    digest.cluster(&cluster);
    for step in 1..=profile.steps {
        let outputs = generator.eight();
        let call = profile.choose_call(seed, &outputs, &cluster);
        if outputs[0].is_multiple_of(64) {
            let mut drained = cluster.clone();
            let outcome = drained.drain(call.lock);
            let (answer, count) = (answer_number(&outcome), outcome.map_or(0, |d| d.count));
            let steps = met_by_draining(&cluster, call);
            let handling = if answer == 0 { steps } else { Handling::None };
            met.drains[usize::from(handling.number())] += 1;
            met.refused_after_one += u64::from(handling != steps);
            digest.bytes(&[4, answer, handling.number()]);
            digest.bytes(&count.to_le_bytes());
            digest.cluster(&drained);
            let line = lines.next().expect("a line of the drain");
            assert_line(line, answer, handling, count, &digest);
            if seed / 16 % 2 == 1 {
                cluster = drained;
            }
        }
        let (handling, answer) = perform(call, &mut cluster);
        if call.kind == DELIVER {
            met.deliveries[usize::from(handling.number())] += 1;
        } else {
            met.other_calls += 1;
        }
        digest.bytes(&[call.kind, answer, handling.number()]);
        digest.bytes(&reason_numbers(&call.ask_reason(&cluster)));
        digest.bytes(&named_numbers(&cluster, &call));
        if step.is_multiple_of(16) {
            digest.cluster(&cluster);
        }
        assert_line(lines.next().expect("a line"), answer, handling, 0, &digest);
    }
    assert_eq!(lines.next(), None);
    let [transcript, acquire, release, deliver, drain, reason, lose, give_up, fresh] =
        tally.handled;
    assert_eq!((deliver, drain), (met.deliveries, met.drains));
    let others = [acquire, release, lose, give_up];
    let others: [u64; 4] = std::array::from_fn(|number| others.map(|of| of[number]).iter().sum());
    assert_eq!(others, [met.other_calls, 0, 0, 0]);
    assert_eq!([transcript, reason, fresh], [[0; 4]; 3]);
    met
}

fn sums(met: &[Met], part: fn(&Met) -> [u64; 4]) -> [u64; 4] {
    std::array::from_fn(|number| met.iter().map(|met| part(met)[number]).sum())
}

/// All thirteen profiles, with drains that are kept and drains that are not. In the last run a drain ends with no agent, which
/// is rare.
#[test]
fn handlings_of_runs_are_in_lines_digests_and_counts() {
    let carry_out = |seed| {
        let (profile, generator) = (Profile::of_seed(seed), Generator::new(seed));
        carry_out(random_run, seed, profile, generator, run_cluster(seed))
    };
    let met: Vec<Met> = (1..=36).chain([375]).map(carry_out).collect();
    assert!(sums(&met, |met| met.deliveries).iter().all(|&n| n > 0));
    let drains = sums(&met, |met| met.drains);
    // A RELEASE that is sent back has to come again, so that no drain ends with one.
    assert_eq!(drains.map(|n| n > 0), [true, true, false, true]);
}

/// Here drains are refused after steps that had a handling.
#[test]
fn handlings_of_hand_made_states_are_in_lines_digests_and_counts() {
    let carry_out = |seed| {
        let mut generator = Generator::new(seed);
        let cluster = hand_made_cluster(seed, &mut generator);
        carry_out(random_state, seed, HAND_MADE, generator, cluster)
    };
    let met: Vec<Met> = (1..=400).map(carry_out).collect();
    assert!(sums(&met, |met| met.deliveries).iter().all(|&n| n > 0));
    let drains = sums(&met, |met| met.drains);
    assert_eq!(drains.map(|n| n > 0), [true, false, false, true]);
    assert!(met.iter().any(|met| met.refused_after_one > 0));
}

/// What the papers say of the records of a transcript, by kind, and of the whole.
fn met_by_transcript(bytes: &[u8], met: &mut [[u64; 4]; 9]) -> Handling {
    let mut cluster = Cluster::new();
    let mut last = Handling::None;
    // A transcript that is too long is not run.
    let runs = bytes.len() <= 65_535;
    for record in Records::new(bytes).map_while(Result::ok).filter(|_| runs) {
        let state = cluster.locks.get(record.lock().index());
        let expected = match (record, state) {
            (Record::Deliver(_, index), Some(state)) => by_the_papers(state, index),
            _ => Handling::None,
        };
        let outcome = record.run(&mut cluster);
        let handling = outcome.map_or(Handling::None, |_| expected);
        met[usize::from(record.kind())][usize::from(handling.number())] += 1;
        if handling != Handling::None {
            last = handling;
        }
    }
    met[0][usize::from(last.number())] += 1;
    last
}

#[test]
fn handlings_of_transcripts_are_counted() {
    let mut nowhere = std::io::sink();
    let mut report = Report::new(&mut nowhere, false);
    let mut met = [[0; 4]; 9];
    for seed in 1..=48 {
        let bytes = transcript_bytes(seed);
        let last = met_by_transcript(&bytes, &mut met);
        let outcome = Cluster::new().run_transcript(&bytes);
        assert_eq!(outcome.handling, last, "transcript {seed}");
        random_transcript(seed, &mut report).expect("nothing is broken");
    }
    assert_eq!(report.tally.handled, met);
    assert!([met[0], met[3]].concat().iter().all(|&n| n > 0), "{met:?}");
}
