//! Sites that prefer writers (document 02, §5), worked out by hand for both preferences, and the test of the preference.

mod common;

use common::*;
use reference::generator::Generator;
use reference::model::{
    Address, Agent, ClientId, ClientStatus, Cluster, Decider, LockId, LockState, MachineId,
    Message, Mode, Owner, Packet, Preference, TaskId, LOCKS,
};
use reference::preferences::BehindWriter;
use reference::random_calls::{Call, Profile, ACQUIRE, DELIVER, HAND_MADE};
use reference::random_runs::{fresh_clusters, random_run, Run};
use reference::random_states::{hand_made_cluster, random_state};
use reference::random_transcripts::{random_transcript, transcript_bytes};
use reference::reasons::Reason;
use reference::report::{Report, Tally};
use reference::transcript::{listing, Records};
use reference::{answer_number, Handling, Refusal, StepOutcome, DRAIN_LIMIT};
use std::io::{BufRead, BufReader};
use std::process::Stdio;

const X: Mode = Mode::Exclusive;
const S: Mode = Mode::Shared;

// Making a fresh cluster.

#[test]
fn fresh_cluster_has_its_preference() {
    for preference in BOTH {
        let (outcome, cluster) = Cluster::fresh(preference);
        assert_eq!(answer(outcome), 0);
        assert_eq!(cluster.preference, preference);
        assert!(cluster.locks == Cluster::new().locks);
        assert!(cluster.locks.iter().all(|lock| !lock.decider.writer_waits));
        assert!(cluster.is_well_formed());
    }
    assert_eq!(Cluster::new(), fresh(READERS));
    assert_ne!(Cluster::new(), fresh(WRITERS));
}

#[test]
fn preference_above_1_is_refused() {
    for preference in 2..=255 {
        let (outcome, cluster) = Cluster::fresh(preference);
        assert_eq!(outcome, Err(Refusal::PreferenceInvalid));
        assert_eq!(answer(outcome), 16);
        assert_eq!(cluster, Cluster::new());
    }
}

#[test]
fn numbers_of_the_preferences() {
    assert_eq!(Preference::from_number(0), Some(Preference::Readers));
    assert_eq!(Preference::from_number(1), Some(Preference::Writers));
    let others = (2..=255).map(Preference::from_number);
    assert!(others.into_iter().all(|found| found.is_none()));
}

// Malformed clusters.

/// Every call is answered 11 before anything else, and leaves the cluster.
#[track_caller]
fn assert_malformed(mut cluster: Cluster) {
    let given = cluster.clone();
    assert!(!cluster.is_well_formed());
    for number in [0, 9] {
        let (lock, machine, task) = (LockId(number), MachineId(number), TaskId(number));
        let answers = [
            answer(cluster.acquire(lock, machine, task, SHARED)),
            answer(cluster.acquire(lock, machine, task, number)),
            answer(cluster.release(lock, machine, task)),
            answer(cluster.deliver(lock, number)),
            answer(cluster.drain(lock)),
            answer(cluster.reason(lock, machine, task)),
        ];
        assert_eq!(answers, [11; 6]);
    }
    for bytes in [vec![], vec![1], vec![0; 65_536]] {
        let outcome = cluster.run_transcript(&bytes);
        let figures = (answer(outcome.answer), outcome.record, outcome.handling);
        assert_eq!(figures, (11, 0, Handling::None));
    }
    assert_eq!(cluster, given);
}

#[test]
fn cluster_with_a_preference_above_1_is_malformed() {
    for preference in [2, 3, 128, 255] {
        let mut cluster = Cluster::new();
        cluster.preference = preference;
        assert_malformed(cluster.clone());
        cluster.locks[3].decider.writer_waits = true;
        assert_malformed(cluster);
    }
}

/// With the readers' preference no decider has the bit; with the writers' one it may be set at any lock, a free one too.
#[test]
fn set_bit_with_the_readers_preference_is_malformed() {
    let machine = MachineId(1);
    for owner in [None, Some(S), Some(X)] {
        for lock in [0, 7] {
            let mut cluster = fresh(WRITERS);
            cluster.locks[lock].decider = Decider {
                owner: owner.map(|mode| Owner { mode, machine }),
                incarnation: 0,
                writer_waits: true,
            };
            assert!(cluster.is_well_formed());
            let asked = cluster.acquire(LockId(lock as u8), MachineId(0), TaskId(0), SHARED);
            assert_eq!(answer(asked), 0);
            cluster.preference = READERS;
            assert_malformed(cluster.clone());
            cluster.locks[lock].decider.writer_waits = false;
            assert!(cluster.is_well_formed());
        }
    }
}

// At the decider.

/// The machine of the agent.
const OWNER: u8 = 2;
/// The client whose packet comes: 1/1.
const NAMED: ClientId = ClientId(5);
/// The last incarnation before 0.
const INCARNATION: u8 = 255;

fn release_of(number: u8) -> Message {
    let client = ClientId(number);
    Message::Release { client }
}

/// A packet that stays on the wire.
fn other(number: u8) -> Packet {
    plain(release_of(number), Address::Decider)
}

fn agent_of(mode: Mode, holders: &[u8], queue: &[(u8, Mode)]) -> Agent {
    let mut agent = Agent::new(mode);
    for &number in holders {
        agent.holders.insert(ClientId(number));
    }
    agent.queue = waiters(queue).into();
    agent.incarnation = INCARNATION;
    agent
}

fn to_decider(message: Message) -> Packet {
    plain(message, Address::Decider)
}

/// A packet comes between two others.
fn with_packet(decider: Decider, packet: Packet) -> LockState {
    LockState {
        decider,
        wire: vec![other(15), packet, other(14)],
        ..LockState::default()
    }
}

fn decider_of(mode: Option<Mode>, writer_waits: bool) -> Decider {
    let machine = MachineId(OWNER);
    Decider {
        owner: mode.map(|mode| Owner { mode, machine }),
        incarnation: INCARNATION,
        writer_waits,
    }
}

/// A delivery at lock 0 of an otherwise fresh cluster, and the state after it.
fn delivered(preference: u8, state: &LockState, index: u8) -> (StepOutcome, LockState) {
    let mut cluster = fresh(preference);
    cluster.locks[0] = state.clone();
    let outcome = cluster.deliver(LOCK, index);
    assert_eq!(cluster.preference, preference);
    (outcome, cluster.locks[0].clone())
}

/// Asserts what the decider is after the packet, and what it sends; nothing else changes.
#[track_caller]
fn assert_decided(
    preference: u8,
    before: Decider,
    packet: Packet,
    after: Decider,
    sent: &[Packet],
) {
    let state = with_packet(before, packet);
    let mut expected = state.clone();
    expected.decider = after;
    expected.wire = [&[other(15), other(14)], sent].concat();
    let found = delivered(preference, &state, 1);
    assert_eq!(found, (Ok(Handling::None), expected), "{preference}");
}

/// The bits that a decider may have with a preference.
fn bits(preference: u8) -> &'static [bool] {
    match preference {
        WRITERS => &[false, true],
        _ => &[false],
    }
}

/// Each preference with each bit that it may have.
fn preferences_and_bits() -> impl Iterator<Item = (u8, bool)> {
    let with = |preference| bits(preference).iter().map(move |&bit| (preference, bit));
    BOTH.into_iter().flat_map(with)
}

#[test]
fn writer_that_is_sent_on_sets_the_bit() {
    let request = request(NAMED, X, false);
    for mode in [S, X] {
        for (preference, bit) in preferences_and_bits() {
            let before = decider_of(Some(mode), bit);
            let after = decider_of(Some(mode), preference == WRITERS);
            let sent = [plain(request, to(OWNER))];
            assert_decided(preference, before, to_decider(request), after, &sent);
        }
    }
}

#[test]
fn reader_is_granted_while_the_bit_is_clear() {
    for preference in BOTH {
        let before = decider_of(Some(S), false);
        let after = Decider {
            incarnation: 0,
            ..before
        };
        let sent = [
            plain(grant(NAMED, S), to(1)),
            plain(request(NAMED, S, true), to(OWNER)),
        ];
        let packet = to_decider(request(NAMED, S, false));
        assert_decided(preference, before, packet, after, &sent);
    }
}

/// Neither marked nor counted, and the bit stays.
#[test]
fn reader_is_sent_on_while_the_bit_is_set() {
    let (before, request) = (decider_of(Some(S), true), request(NAMED, S, false));
    let sent = [plain(request, to(OWNER))];
    assert_decided(WRITERS, before, to_decider(request), before, &sent);
}

#[test]
fn reader_at_an_exclusive_lock_leaves_the_bit() {
    let request = request(NAMED, S, false);
    for (preference, bit) in preferences_and_bits() {
        let before = decider_of(Some(X), bit);
        let sent = [plain(request, to(OWNER))];
        assert_decided(preference, before, to_decider(request), before, &sent);
    }
}

/// A marked ACQUIRE, which only by hand is exclusive, and a RELEASE go to the agent, a GRANT without agent to its client.
#[test]
fn other_packets_leave_the_bit() {
    let cases = [
        (request(NAMED, S, true), OWNER),
        (request(NAMED, X, true), OWNER),
        (release_of(NAMED.0), OWNER),
        (grant(NAMED, S), 1),
        (grant(NAMED, X), 1),
    ];
    for (message, machine) in cases {
        for (preference, bit) in preferences_and_bits() {
            let sent = [plain(message, to(machine))];
            for mode in [S, X] {
                let before = decider_of(Some(mode), bit);
                assert_decided(preference, before, to_decider(message), before, &sent);
            }
            if machine == 1 {
                let free = decider_of(None, bit);
                assert_decided(preference, free, to_decider(message), free, &sent);
            }
        }
    }
}

/// The decider grants the request and sends nothing on. The bit of a free lock is set only by hand.
#[test]
fn request_at_a_free_lock_leaves_the_bit() {
    for mode in [S, X] {
        for (preference, bit) in preferences_and_bits() {
            let machine = MachineId(1);
            let after = Decider {
                owner: Some(Owner { mode, machine }),
                incarnation: 0,
                writer_waits: bit,
            };
            let sent = [Packet::with_agent(
                grant(NAMED, mode),
                to(1),
                Agent::new(mode),
            )];
            let packet = to_decider(request(NAMED, mode, false));
            assert_decided(preference, decider_of(None, bit), packet, after, &sent);
        }
    }
}

fn carrying(message: Message, agent: Agent) -> Packet {
    Packet::with_agent(message, Address::Decider, agent)
}

fn turned_back(message: Message, agent: Agent) -> Packet {
    Packet {
        rejected: true,
        ..Packet::with_agent(message, to(OWNER), agent)
    }
}

/// By hand a FREE may have a queue, even with a writer.
#[test]
fn accepted_free_clears_the_bit() {
    for queue in [&[][..], &[(9, X)]] {
        for mode in [S, X] {
            for (preference, bit) in preferences_and_bits() {
                let packet = carrying(Message::Free, agent_of(mode, &[], queue));
                let before = decider_of(Some(mode), bit);
                assert_decided(preference, before, packet, Decider::default(), &[]);
            }
        }
    }
}

/// One less and one more than the decider's.
const UNEQUAL: [u8; 2] = [254, 0];

#[test]
fn rejected_free_leaves_the_bit() {
    for incarnation in UNEQUAL {
        for (preference, bit) in preferences_and_bits() {
            let agent = Agent {
                incarnation,
                ..agent_of(S, &[], &[])
            };
            let packet = carrying(Message::Free, agent.clone());
            let before = decider_of(Some(S), bit);
            let sent = [turned_back(Message::Free, agent)];
            assert_decided(preference, before, packet, before, &sent);
        }
    }
}

/// Queues, and whether an exclusive waiter stands in them.
fn queues() -> Vec<(Vec<(u8, Mode)>, bool)> {
    let readers: Vec<(u8, Mode)> = (0..15).map(|number| (number, S)).collect();
    vec![
        (vec![], false),
        (vec![(9, S)], false),
        (vec![(9, S), (3, S)], false),
        (readers.clone(), false),
        (vec![(9, X)], true),
        (vec![(9, X), (3, S)], true),
        (vec![(9, S), (3, X)], true),
        (vec![(9, S), (3, X), (4, S)], true),
        ([readers, vec![(15, X)]].concat(), true),
    ]
}

/// Whoever the GRANT is for does not stand in the queue any more; the mode that the agent had says nothing either.
#[test]
fn accepted_grant_sets_the_bit_by_the_queue() {
    for (queue, has_writer) in queues() {
        for (granted, former) in [(S, S), (S, X), (X, S), (X, X)] {
            for (preference, bit) in preferences_and_bits() {
                let agent = agent_of(former, &[], &queue);
                let machine = MachineId(1);
                let after = Decider {
                    owner: Some(Owner {
                        mode: granted,
                        machine,
                    }),
                    incarnation: 0,
                    writer_waits: preference == WRITERS && has_writer,
                };
                let reset = Agent {
                    incarnation: 0,
                    ..agent.clone()
                };
                let message = grant(NAMED, granted);
                let sent = [Packet::with_agent(message, to(1), reset)];
                let before = decider_of(Some(former), bit);
                assert_decided(preference, before, carrying(message, agent), after, &sent);
            }
        }
    }
}

#[test]
fn rejected_grant_leaves_the_bit() {
    for (queue, _) in queues() {
        for (incarnation, mode) in UNEQUAL.into_iter().zip([S, X]) {
            for (preference, bit) in preferences_and_bits() {
                let agent = Agent {
                    incarnation,
                    ..agent_of(S, &[], &queue)
                };
                let message = grant(NAMED, mode);
                let packet = carrying(message, agent.clone());
                let before = decider_of(Some(S), bit);
                let sent = [turned_back(message, agent)];
                assert_decided(preference, before, packet, before, &sent);
            }
        }
    }
}

/// On a full wire a grant by the decider has no room; what is sent on has.
#[test]
fn reader_that_is_sent_on_needs_no_room() {
    let mut state = with_packet(
        decider_of(Some(S), false),
        to_decider(request(NAMED, S, false)),
    );
    state.wire.resize(49, other(14));
    for preference in BOTH {
        let found = delivered(preference, &state, 1);
        assert_eq!(found, (Err(Refusal::WireFull), state.clone()));
    }
    state.decider.writer_waits = true;
    let (outcome, after) = delivered(WRITERS, &state, 1);
    assert_eq!(outcome, Ok(Handling::None));
    assert_eq!(after.wire.len(), 49);
    assert_eq!(after.wire[48], plain(request(NAMED, S, false), to(OWNER)));
}

// At a machine.

/// The message comes to machine 2, which has this agent. That a decider has the bit makes no difference here.
fn coming(preference: u8, message: Message, agent: Agent) -> LockState {
    let decider = decider_of(Some(S), preference == WRITERS);
    let mut state = with_packet(decider, plain(message, to(OWNER)));
    state.agents[usize::from(OWNER)] = Some(agent);
    state.clients[NAMED.index()] = ClientStatus::Waiting(S);
    state
}

/// Asserts what the message leaves of the agent, and what is sent.
#[track_caller]
fn assert_taken(preference: u8, message: Message, agent: Agent, left: Agent, sent: Option<Packet>) {
    let before = coming(preference, message, agent);
    let mut expected = before.clone();
    expected.agents[usize::from(OWNER)] = Some(left);
    expected.wire = vec![other(15), other(14)];
    expected.wire.extend(sent);
    let found = delivered(preference, &before, 1);
    assert_eq!(found, (Ok(Handling::Taken), expected), "{preference}");
}

/// A queue with the named client, who was not in it, behind the others; none where there is no room.
fn with_named(queue: &[(u8, Mode)], mode: Mode) -> Option<Vec<(u8, Mode)>> {
    let stands = queue.iter().any(|&(number, _)| number == NAMED.0);
    (!stands).then(|| [queue, &[(NAMED.0, mode)]].concat())
}

/// Queues that have room for the named client, and whether an exclusive waiter stands in them.
fn queues_with_room() -> impl Iterator<Item = (Vec<(u8, Mode)>, bool)> {
    let has_room = |(queue, _): &(Vec<(u8, Mode)>, bool)| with_named(queue, S).is_some();
    queues().into_iter().filter(has_room)
}

#[test]
fn remote_reader_is_queued_behind_a_writer() {
    let message = request(NAMED, S, false);
    for (queue, has_writer) in queues_with_room() {
        for preference in BOTH {
            let agent = agent_of(S, &[4], &queue);
            if preference == WRITERS && has_writer {
                let longer = with_named(&queue, S).expect("room");
                let left = agent_of(S, &[4], &longer);
                assert_taken(preference, message, agent, left, None);
            } else {
                let left = agent_of(S, &[4, NAMED.0], &queue);
                let sent = Some(to_decider(grant(NAMED, S)));
                assert_taken(preference, message, agent, left, sent);
            }
        }
    }
}

/// An agent that came back may be without holders; that lets nobody pass either.
#[test]
fn remote_reader_is_queued_where_nobody_holds() {
    let message = request(NAMED, S, false);
    let agent = agent_of(S, &[], &[(9, X)]);
    let left = agent_of(S, &[], &[(9, X), (NAMED.0, S)]);
    assert_taken(WRITERS, message, agent, left, None);
}

#[test]
fn every_other_request_is_queued_with_both_preferences() {
    for (queue, _) in queues_with_room() {
        for (agent, asked) in [(S, X), (X, S), (X, X)] {
            for preference in BOTH {
                let longer = with_named(&queue, asked).expect("room");
                let left = agent_of(agent, &[4], &longer);
                let message = request(NAMED, asked, false);
                let agent = agent_of(agent, &[4], &queue);
                assert_taken(preference, message, agent, left, None);
            }
        }
    }
}

/// It joins past every writer, and the agent's incarnation goes on, past 255.
#[test]
fn marked_request_still_joins() {
    for (queue, _) in queues() {
        for preference in BOTH {
            let left = Agent {
                incarnation: 0,
                ..agent_of(S, &[4, NAMED.0], &queue)
            };
            let agent = agent_of(S, &[4], &queue);
            let message = request(NAMED, S, true);
            assert_taken(preference, message, agent, left, None);
        }
    }
}

/// 1/1 asks with this agent on its own machine; its answer, its status and the agent after.
fn asked_at_home(preference: u8, agent: Agent, mode: u8) -> (u8, ClientStatus, Agent) {
    let mut cluster = fresh(preference);
    cluster.locks[0].decider = decider_of(Some(agent.mode), preference == WRITERS);
    cluster.locks[0].agents[1] = Some(agent);
    cluster.locks[0].wire = vec![other(15)];
    let mut expected = cluster.clone();
    let answer = acquire(&mut cluster, 1, 1, mode);
    let found = cluster.locks[0].agents[1].clone().expect("the agent stays");
    let status = cluster.locks[0].clients[NAMED.index()];
    // Nothing but these two changes.
    expected.locks[0].agents[1] = Some(found.clone());
    expected.locks[0].clients[NAMED.index()] = status;
    assert_eq!(cluster, expected);
    (answer, status, found)
}

#[test]
fn local_reader_is_queued_behind_a_writer() {
    for (queue, has_writer) in queues_with_room() {
        for preference in BOTH {
            let found = asked_at_home(preference, agent_of(S, &[4], &queue), SHARED);
            let expected = if preference == WRITERS && has_writer {
                let longer = with_named(&queue, S).expect("room");
                (0, ClientStatus::Waiting(S), agent_of(S, &[4], &longer))
            } else {
                let left = agent_of(S, &[4, NAMED.0], &queue);
                (0, ClientStatus::Holding(S), left)
            };
            assert_eq!(found, expected, "{preference}");
        }
    }
}

#[test]
fn every_other_local_request_is_queued_with_both_preferences() {
    for (queue, _) in queues_with_room() {
        for (agent, asked) in [(S, X), (X, S), (X, X)] {
            for preference in BOTH {
                let found =
                    asked_at_home(preference, agent_of(agent, &[4], &queue), asked.number());
                let longer = with_named(&queue, asked).expect("room");
                let left = agent_of(agent, &[4], &longer);
                assert_eq!(found, (0, ClientStatus::Waiting(asked), left));
            }
        }
    }
}

/// The client stands in the queue already, or the queue is full: a reader that has to queue cannot be placed, one that joins can.
#[test]
fn reader_that_has_to_queue_needs_a_place() {
    let full: Vec<(u8, Mode)> = (0..16).map(|number| (number, X)).collect();
    for queue in [vec![(9, X), (NAMED.0, S)], full] {
        let agent = || agent_of(S, &[4], &queue);
        let idle = ClientStatus::Idle;
        assert_eq!(asked_at_home(WRITERS, agent(), SHARED), (9, idle, agent()));
        let before = coming(WRITERS, request(NAMED, S, false), agent());
        let found = delivered(WRITERS, &before, 1);
        assert_eq!(found, (Err(Refusal::CannotBePlaced), before));
        let joined = agent_of(S, &[4, NAMED.0], &queue);
        let found = asked_at_home(READERS, agent(), SHARED);
        assert_eq!(found, (0, ClientStatus::Holding(S), joined.clone()));
        let sent = Some(to_decider(grant(NAMED, S)));
        assert_taken(READERS, request(NAMED, S, false), agent(), joined, sent);
    }
}

/// The queue of an agent that is on another machine, or in a packet, keeps nobody from asking the decider.
#[test]
fn request_without_an_agent_at_home_goes_to_the_decider() {
    for preference in BOTH {
        let mut cluster = fresh(preference);
        let agent = agent_of(S, &[8], &[(9, X)]);
        cluster.locks[0].agents[2] = Some(agent.clone());
        cluster.locks[0].wire = vec![carrying(Message::Free, agent)];
        accepted(&[acquire(&mut cluster, 1, 1, SHARED)]);
        let sent = to_decider(request(NAMED, S, false));
        assert_eq!(lock(&cluster).wire[1..], [sent]);
        assert_eq!(status(&cluster, 1, 1), ClientStatus::Waiting(S));
    }
}

// From the fresh cluster.

/// Delivers what is on the wire, the oldest first, until nothing is.
fn settle(cluster: &mut Cluster) {
    while !lock(cluster).wire.is_empty() {
        accepted(&[deliver(cluster, 0)]);
    }
}

fn bit(cluster: &Cluster) -> bool {
    lock(cluster).decider.writer_waits
}

/// Asserts the mode and the machine of lock 0, and its incarnation.
#[track_caller]
fn assert_owner(cluster: &Cluster, mode: Mode, machine: u8, incarnation: u8) {
    let machine = MachineId(machine);
    let Decider {
        owner,
        incarnation: found,
        ..
    } = lock(cluster).decider;
    assert_eq!((owner, found), (Some(Owner { mode, machine }), incarnation));
}

/// 0/0 reads.
fn reading(preference: u8) -> Cluster {
    let mut cluster = fresh(preference);
    accepted(&[acquire(&mut cluster, 0, 0, SHARED)]);
    settle(&mut cluster);
    cluster
}

/// 0/0 reads, and 1/0, which wants to write, is queued.
fn writer_queued(preference: u8) -> Cluster {
    let mut cluster = reading(preference);
    accepted(&[acquire(&mut cluster, 1, 0, EXCLUSIVE)]);
    assert!(!bit(&cluster));
    accepted(&[deliver(&mut cluster, 0)]);
    assert_eq!(bit(&cluster), preference == WRITERS);
    accepted(&[deliver(&mut cluster, 0)]);
    assert_eq!(bit(&cluster), preference == WRITERS);
    assert_owner(&cluster, S, 0, 0);
    assert_eq!(holders(agent(&cluster, 0)), [0]);
    assert_eq!(agent(&cluster, 0).queue, waiters(&[(4, X)]));
    cluster
}

/// The first request of a free lock is granted, not sent on, so it leaves the bit; the second one sets it.
#[test]
fn first_writer_leaves_the_bit() {
    for preference in BOTH {
        let mut cluster = fresh(preference);
        accepted(&[acquire(&mut cluster, 0, 0, EXCLUSIVE)]);
        settle(&mut cluster);
        assert!(!bit(&cluster));
        accepted(&[
            acquire(&mut cluster, 2, 0, SHARED),
            deliver(&mut cluster, 0),
        ]);
        assert!(!bit(&cluster));
        accepted(&[
            acquire(&mut cluster, 3, 0, EXCLUSIVE),
            deliver(&mut cluster, 1),
        ]);
        assert_eq!(bit(&cluster), preference == WRITERS);
    }
}

/// 0/1 and 2/0 read once 1/0 has written. The drain: 0/0 releases and the agent goes to 1/0 (3), 1/0 releases and it goes to
/// 0/1 (3), which lets 2/0 in with a GRANT over the decider (2); 0/1 releases (1), 2/0 does with a RELEASE to the decider and
/// on to the agent (3), and the FREE ends it (1).
#[test]
fn queued_writer_is_not_passed_with_the_writers_preference() {
    let mut cluster = writer_queued(WRITERS);
    accepted(&[acquire(&mut cluster, 0, 1, SHARED)]);
    assert_eq!(status(&cluster, 0, 1), ClientStatus::Waiting(S));
    assert_eq!(agent(&cluster, 0).queue, waiters(&[(4, X), (1, S)]));
    accepted(&[
        acquire(&mut cluster, 2, 0, SHARED),
        deliver(&mut cluster, 0),
    ]);
    let sent_on = plain(request(ClientId(8), S, false), to(0));
    assert_eq!(lock(&cluster).wire, [sent_on]);
    assert_owner(&cluster, S, 0, 0);
    accepted(&[deliver(&mut cluster, 0)]);
    assert_eq!(lock(&cluster).wire, []);
    assert_eq!(status(&cluster, 2, 0), ClientStatus::Waiting(S));
    let queue = [(4, X), (1, S), (8, S)];
    assert_eq!(agent(&cluster, 0).queue, waiters(&queue));
    assert_eq!(holders(agent(&cluster, 0)), [0]);
    assert_eq!(agent(&cluster, 0).incarnation, 0);
    let expected = drained(13, Handling::Taken);
    assert_eq!(cluster.clone().drain(LOCK), expected);
    let shown = shown_by_draining(&mut cluster);
    assert_eq!(shown, (vec![4, 1, 8], 13));
    assert_eq!(cluster, fresh(WRITERS));
}

/// 0/1 joins at home, 2/0 by the decider. The drain: 0/0 and 0/1 release (2), 2/0 does (3), the agent goes to 1/0 (2), which
/// releases (1); the FREE (1).
#[test]
fn queued_writer_is_passed_with_the_readers_preference() {
    let mut cluster = writer_queued(READERS);
    accepted(&[acquire(&mut cluster, 0, 1, SHARED)]);
    assert_eq!(status(&cluster, 0, 1), ClientStatus::Holding(S));
    accepted(&[
        acquire(&mut cluster, 2, 0, SHARED),
        deliver(&mut cluster, 0),
    ]);
    let sent = [
        plain(grant(ClientId(8), S), to(2)),
        plain(request(ClientId(8), S, true), to(0)),
    ];
    assert_eq!(lock(&cluster).wire, sent);
    settle(&mut cluster);
    assert_owner(&cluster, S, 0, 1);
    assert_eq!(holders(agent(&cluster, 0)), [0, 1, 8]);
    assert_eq!(agent(&cluster, 0).queue, waiters(&[(4, X)]));
    assert_eq!(shown_by_draining(&mut cluster), (vec![4], 9));
    assert_eq!(cluster, fresh(READERS));
}

/// Once the writer is served nobody writes in the queue: the bit is clear, and readers are granted again.
#[test]
fn served_writer_keeps_nobody_out() {
    let mut cluster = writer_queued(WRITERS);
    accepted(&[
        release(&mut cluster, 0, 0),
        deliver(&mut cluster, 0),
        deliver(&mut cluster, 0),
    ]);
    assert_owner(&cluster, X, 1, 0);
    assert!(!bit(&cluster));
    assert_eq!(status(&cluster, 1, 0), ClientStatus::Holding(X));
    accepted(&[acquire(&mut cluster, 2, 0, SHARED)]);
    settle(&mut cluster);
    assert_eq!(agent(&cluster, 1).queue, waiters(&[(8, S)]));
    accepted(&[release(&mut cluster, 1, 0)]);
    settle(&mut cluster);
    assert_owner(&cluster, S, 2, 0);
    assert!(!bit(&cluster));
    accepted(&[acquire(&mut cluster, 2, 1, SHARED)]);
    assert_eq!(status(&cluster, 2, 1), ClientStatus::Holding(S));
    accepted(&[
        acquire(&mut cluster, 3, 0, SHARED),
        deliver(&mut cluster, 0),
    ]);
    assert_eq!(lock(&cluster).wire[0], plain(grant(client(3, 0), S), to(3)));
    assert_owner(&cluster, S, 2, 1);
}

/// The bit is set, but the writer's ACQUIRE is still under way: the reader's comes to the agent first and joins. With the
/// readers' preference the decider grants it.
#[test]
fn reader_that_overtakes_the_writer_joins() {
    let mut cluster = reading(WRITERS);
    accepted(&[
        acquire(&mut cluster, 1, 0, EXCLUSIVE),
        deliver(&mut cluster, 0),
        acquire(&mut cluster, 2, 0, SHARED),
        deliver(&mut cluster, 1),
    ]);
    let writer = plain(request(ClientId(4), X, false), to(0));
    let reader = plain(request(ClientId(8), S, false), to(0));
    assert_eq!(lock(&cluster).wire, [writer.clone(), reader]);
    accepted(&[deliver(&mut cluster, 1)]);
    assert_eq!(holders(agent(&cluster, 0)), [0, 8]);
    let granted = grant(ClientId(8), S);
    assert_eq!(lock(&cluster).wire, [writer, to_decider(granted)]);
    accepted(&[deliver(&mut cluster, 0), deliver(&mut cluster, 0)]);
    assert!(bit(&cluster));
    assert_eq!(lock(&cluster).wire, [plain(granted, to(2))]);
    assert_eq!(agent(&cluster, 0).queue, waiters(&[(4, X)]));
    settle(&mut cluster);
    assert_eq!(status(&cluster, 2, 0), ClientStatus::Holding(S));
    assert_owner(&cluster, S, 0, 0);

    let mut cluster = reading(READERS);
    accepted(&[
        acquire(&mut cluster, 1, 0, EXCLUSIVE),
        deliver(&mut cluster, 0),
        acquire(&mut cluster, 2, 0, SHARED),
        deliver(&mut cluster, 1),
    ]);
    assert_eq!(lock(&cluster).wire.len(), 3);
    assert_owner(&cluster, S, 0, 1);
}

/// 0/0 hands back before the writer's ACQUIRE comes; the ACQUIRE goes back and is granted at the free lock.
#[test]
fn free_clears_the_bit_in_a_run() {
    for preference in BOTH {
        let mut cluster = reading(preference);
        accepted(&[
            acquire(&mut cluster, 1, 0, EXCLUSIVE),
            deliver(&mut cluster, 0),
            release(&mut cluster, 0, 0),
        ]);
        assert_eq!(bit(&cluster), preference == WRITERS);
        accepted(&[deliver(&mut cluster, 1)]);
        assert_eq!(lock(&cluster).decider, Decider::default());
        accepted(&[deliver(&mut cluster, 0), deliver(&mut cluster, 0)]);
        assert_owner(&cluster, X, 1, 0);
        assert!(!bit(&cluster));
        settle(&mut cluster);
        assert_eq!(status(&cluster, 1, 0), ClientStatus::Holding(X));
    }
}

/// 1/0 is granted by the decider, 2/0 wants to write, and 0/0 releases before the agent knows of either.
fn early_free(preference: u8) -> Cluster {
    let mut cluster = reading(preference);
    accepted(&[
        acquire(&mut cluster, 1, 0, SHARED),
        deliver(&mut cluster, 0),
        acquire(&mut cluster, 2, 0, EXCLUSIVE),
        deliver(&mut cluster, 2),
        release(&mut cluster, 0, 0),
        deliver(&mut cluster, 3),
        acquire(&mut cluster, 3, 0, SHARED),
        deliver(&mut cluster, 4),
    ]);
    assert!(lock(&cluster).wire[3].rejected);
    cluster
}

/// The rejected FREE leaves the bit, so the reader 3/0 is sent on. It stays behind the writer, which the marked ACQUIRE of 1/0
/// passes. The drain: 1/0 releases (3), the agent goes to 2/0 (2), which releases (1), and to 3/0 (2), which does (1); the FREE.
#[test]
fn rejected_free_leaves_the_bit_in_a_run() {
    let mut cluster = early_free(WRITERS);
    assert!(bit(&cluster));
    assert_owner(&cluster, S, 0, 1);
    let sent_on = plain(request(ClientId(12), S, false), to(0));
    assert_eq!(lock(&cluster).wire[4..], [sent_on]);
    // The FREE, the writer, the marked ACQUIRE, the reader, and the GRANT for 1/0.
    accepted(&[deliver(&mut cluster, 3), deliver(&mut cluster, 2)]);
    assert_eq!(holders(agent(&cluster, 0)), []);
    assert_eq!(agent(&cluster, 0).queue, waiters(&[(8, X)]));
    accepted(&[deliver(&mut cluster, 1)]);
    assert_eq!(holders(agent(&cluster, 0)), [4]);
    assert_eq!(agent(&cluster, 0).incarnation, 1);
    accepted(&[deliver(&mut cluster, 1)]);
    assert_eq!(holders(agent(&cluster, 0)), [4]);
    assert_eq!(agent(&cluster, 0).queue, waiters(&[(8, X), (12, S)]));
    settle(&mut cluster);
    assert_eq!(status(&cluster, 1, 0), ClientStatus::Holding(S));
    assert_eq!(shown_by_draining(&mut cluster), (vec![8, 12], 10));
    assert_eq!(cluster, fresh(WRITERS));

    let cluster = early_free(READERS);
    assert!(!bit(&cluster));
    assert_owner(&cluster, S, 0, 2);
    assert_eq!(lock(&cluster).wire.len(), 6);
}

/// The decider knows nothing of writers that queue at home: it grants 1/0, who passes them. Once the agent goes to the first of
/// them it knows of the second, and with that one's turn of none.
#[test]
fn writers_at_home_are_known_from_the_grant() {
    for preference in BOTH {
        let mut cluster = reading(preference);
        accepted(&[
            acquire(&mut cluster, 0, 1, EXCLUSIVE),
            acquire(&mut cluster, 0, 2, EXCLUSIVE),
            acquire(&mut cluster, 1, 0, SHARED),
            deliver(&mut cluster, 0),
        ]);
        assert!(!bit(&cluster));
        assert_owner(&cluster, S, 0, 1);
        settle(&mut cluster);
        assert_eq!(holders(agent(&cluster, 0)), [0, 4]);
        assert_eq!(agent(&cluster, 0).queue, waiters(&[(1, X), (2, X)]));
        accepted(&[
            release(&mut cluster, 0, 0),
            release(&mut cluster, 1, 0),
            deliver(&mut cluster, 0),
            deliver(&mut cluster, 0),
        ]);
        assert!(!bit(&cluster));
        accepted(&[deliver(&mut cluster, 0)]);
        assert_eq!(bit(&cluster), preference == WRITERS);
        assert_owner(&cluster, X, 0, 0);
        accepted(&[
            deliver(&mut cluster, 0),
            acquire(&mut cluster, 1, 0, SHARED),
        ]);
        settle(&mut cluster);
        assert_eq!(bit(&cluster), preference == WRITERS);
        assert_eq!(agent(&cluster, 0).queue, waiters(&[(2, X), (4, S)]));
        accepted(&[release(&mut cluster, 0, 1), deliver(&mut cluster, 0)]);
        assert!(!bit(&cluster));
        settle(&mut cluster);
        assert_eq!(status(&cluster, 0, 2), ClientStatus::Holding(X));
    }
}

/// The first come are served first with both preferences (document 02, §3). In D12 the GRANT for a, a reader, has b in its
/// queue, so that later readers wait behind b with the writers' preference.
#[test]
fn d12_with_both_preferences() {
    for preference in BOTH {
        let mut cluster = d12_queue(preference);
        assert_eq!(bit(&cluster), preference == WRITERS);
        accepted(&[
            release(&mut cluster, 0, 0),
            deliver(&mut cluster, 0),
            deliver(&mut cluster, 0),
        ]);
        assert_eq!(cluster, d12_with(preference));
        assert_owner(&cluster, S, 1, 0);
        assert_eq!(bit(&cluster), preference == WRITERS);
        assert_eq!(holders(agent(&cluster, 1)), [4]);
        assert_eq!(agent(&cluster, 1).queue, waiters(&[(8, X), (12, S)]));
        assert_eq!(lock(&cluster).wire, []);
        assert_eq!(cluster.drain(LOCK), drained(8, Handling::None));
        assert_eq!(cluster, fresh(preference));
    }
}

/// Then 1/1 at home and 2/1 from elsewhere. The drain: a releases and the agent goes to b (3), b releases and it goes to c (3),
/// which lets both in (4); each of these releases in three steps (6), c in one, and the FREE ends it.
#[test]
fn later_readers_queue_behind_the_writer_of_d12() {
    let mut cluster = d12_with(WRITERS);
    accepted(&[
        acquire(&mut cluster, 1, 1, SHARED),
        acquire(&mut cluster, 2, 1, SHARED),
    ]);
    assert_eq!(status(&cluster, 1, 1), ClientStatus::Waiting(S));
    settle(&mut cluster);
    let queue = [(8, X), (12, S), (5, S), (9, S)];
    assert_eq!(agent(&cluster, 1).queue, waiters(&queue));
    assert_eq!(holders(agent(&cluster, 1)), [4]);
    let expected = drained(18, Handling::Taken);
    assert_eq!(cluster.clone().drain(LOCK), expected);
    let shown = shown_by_draining(&mut cluster);
    assert_eq!(shown, (vec![8, 12, 5, 9], 18));
    assert_eq!(cluster, fresh(WRITERS));
}

/// At lock 1 nobody writes.
#[test]
fn each_lock_has_its_own_bit() {
    let mut cluster = writer_queued(WRITERS);
    let other = LockId(1);
    for machine in [0, 2] {
        let asked = cluster.acquire(other, MachineId(machine), TaskId(3), SHARED);
        accepted(&[answer(asked), answer(cluster.deliver(other, 0))]);
        accepted(&[answer(cluster.deliver(other, 0))]);
    }
    let state = &cluster.locks[1];
    assert_eq!(state.clients[11], ClientStatus::Holding(S));
    assert_eq!(state.decider.incarnation, 1);
    assert!(!state.decider.writer_waits && bit(&cluster));
}

/// A reader behind a writer waits for the reasons of document 02, §2: its ACQUIRE, then the queue.
#[test]
fn reader_behind_a_writer_has_a_reason() {
    let mut cluster = writer_queued(WRITERS);
    let (machine, task) = (MachineId(2), TaskId(0));
    accepted(&[acquire(&mut cluster, 2, 0, SHARED)]);
    for _ in 0..2 {
        let reason = cluster.reason(LOCK, machine, task);
        assert_eq!(reason, Ok(Reason::Request { index: 0 }));
        accepted(&[deliver(&mut cluster, 0)]);
    }
    let expected = Reason::MachineQueue {
        machine: MachineId(0),
        ahead: 1,
    };
    assert_eq!(cluster.reason(LOCK, machine, task), Ok(expected));
}

/// A transcript runs with the preference of its cluster; the listing is that of the readers' one.
#[test]
fn transcript_keeps_the_preference() {
    let bytes = [
        8, 0, 1, 0, 0, 0, 0, 3, //
        6, 0, 3, 0, 0, 0, //
        6, 0, 3, 0, 0, 0, //
        8, 0, 1, 0, 0, 1, 0, 2, //
        6, 0, 3, 0, 0, 0, //
        6, 0, 3, 0, 0, 0, //
        8, 0, 1, 0, 0, 2, 0, 3, //
        6, 0, 3, 0, 0, 0,
    ];
    for (preference, packets) in [(READERS, 2), (WRITERS, 1)] {
        let mut cluster = fresh(preference);
        let outcome = cluster.run_transcript(&bytes);
        assert_eq!((answer(outcome.answer), outcome.record), (0, 8));
        assert_eq!(lock(&cluster).wire.len(), packets);
        assert_eq!(cluster.preference, preference);
    }
    assert!(listing(&bytes).ends_with("\n7 1 0 1\n8 3 0 2\n"));
}

/// Nobody holds beside a writer, and nobody is refused for want of a place, whoever is preferred.
#[test]
fn exclusion_holds_with_both_preferences() {
    for seed in 1..=65 {
        for preference in BOTH {
            let (profile, mut generator) = (Profile::of_seed(seed), Generator::new(seed));
            let mut cluster = fresh(preference);
            for _ in 0..512 {
                let call = profile.choose_call(seed, &generator.eight(), &cluster);
                let outcome = call.perform(&mut cluster);
                assert!(![9, 10, 11].contains(&answer_number(&outcome)));
                for lock in &cluster.locks {
                    let count = |status| lock.clients.iter().filter(|&&c| c == status).count();
                    let writers = count(ClientStatus::Holding(X));
                    let readers = count(ClientStatus::Holding(S));
                    assert!(writers == 0 || (writers, readers) == (1, 0));
                }
            }
        }
    }
}

// The test of the preference.

/// The agents before and after, and a packet that was delivered, on machine 2.
fn request_at(agent: Agent, granted: bool, mode: Mode) -> LockState {
    coming(WRITERS, request(NAMED, mode, granted), agent)
}

const WRITER: [(u8, Mode); 2] = [(9, S), (3, X)];

#[test]
fn test_is_of_readers_where_a_writer_waits() {
    let (readers, writers) = (Preference::Readers, Preference::Writers);
    let tested = |preference, state: &LockState| {
        let found = BehindWriter::of_delivery(preference, state, 1);
        found.is_some()
    };
    let shared = request_at(agent_of(S, &[4], &WRITER), false, S);
    assert_eq!([readers, writers].map(|p| tested(p, &shared)), [true, true]);
    // At an exclusive agent nobody joins, whoever is preferred.
    let exclusive = request_at(agent_of(X, &[4], &WRITER), false, S);
    let found = [readers, writers].map(|p| tested(p, &exclusive));
    assert_eq!(found, [false, true]);
    let mut at_decider = shared.clone();
    at_decider.wire[1].address = Address::Decider;
    let mut elsewhere = shared.clone();
    elsewhere.agents.swap(1, 2);
    let mut a_release = shared.clone();
    a_release.wire[1].message = release_of(NAMED.0);
    let others = [
        request_at(agent_of(S, &[4], &WRITER), true, S),
        request_at(agent_of(S, &[4], &WRITER), false, X),
        request_at(agent_of(S, &[4], &WRITER[..1]), false, S),
        request_at(agent_of(S, &[4], &[]), false, S),
        at_decider,
        elsewhere,
        a_release,
    ];
    for state in others {
        assert!(!tested(readers, &state) && !tested(writers, &state));
    }
    for index in [0, 2, 3] {
        assert!(BehindWriter::of_delivery(writers, &shared, index).is_none());
    }
}

/// A cluster with an agent on machine 1, where 1/1 asks.
fn at_home(preference: u8, agent: Agent) -> Cluster {
    let mut cluster = fresh(preference);
    cluster.locks[0].agents[1] = Some(agent);
    cluster.locks[0].wire = vec![other(15)];
    cluster
}

fn test_of_acquire(cluster: &Cluster, machine: u8, task: u8, mode: u8) -> Option<BehindWriter> {
    BehindWriter::of_acquire(cluster, LOCK, MachineId(machine), TaskId(task), mode)
}

#[test]
fn test_is_of_acquires_too() {
    for preference in BOTH {
        let cluster = at_home(preference, agent_of(S, &[4], &WRITER));
        assert!(test_of_acquire(&cluster, 1, 1, SHARED).is_some());
        for (machine, task, mode) in [
            (1, 1, EXCLUSIVE),
            (1, 1, 0),
            (1, 1, 4),
            (2, 1, SHARED),
            (4, 1, SHARED),
            (1, 4, SHARED),
        ] {
            assert!(test_of_acquire(&cluster, machine, task, mode).is_none());
        }
        let none = LockId(8);
        let found = BehindWriter::of_acquire(&cluster, none, MachineId(1), TaskId(1), SHARED);
        assert!(found.is_none());
        let cluster = at_home(preference, agent_of(S, &[4], &WRITER[..1]));
        assert!(test_of_acquire(&cluster, 1, 1, SHARED).is_none());
        let cluster = at_home(preference, agent_of(X, &[4], &WRITER));
        let found = test_of_acquire(&cluster, 1, 1, SHARED).is_some();
        assert_eq!(found, preference == WRITERS);
    }
}

/// What a test says of the agent after a step, on machine 1 for an acquire and on machine 2 for a delivery, and of the packets
/// that were sent.
#[track_caller]
fn says(preference: u8, left: Option<Agent>, sent: usize, expected: [Result<(), &str>; 2]) {
    let home = at_home(preference, agent_of(S, &[4], &WRITER));
    let by_acquire = test_of_acquire(&home, 1, 1, SHARED).expect("a test");
    let mut after = home.locks[0].clone();
    after.agents[1] = left.clone();
    after.wire.extend(vec![other(13); sent]);
    let [at_home, elsewhere] = expected.map(|said| said.map_err(String::from));
    assert_eq!(by_acquire.check(&after), at_home);
    let before = request_at(agent_of(S, &[4], &WRITER), false, S);
    let whom = Preference::from_number(preference).expect("a preference");
    let by_delivery = BehindWriter::of_delivery(whom, &before, 1).expect("a test");
    let mut after = before.clone();
    let _ = after.wire.remove(1);
    after.agents[2] = left;
    after.wire.extend(vec![other(13); sent]);
    assert_eq!(by_delivery.check(&after), elsewhere);
}

#[test]
fn test_knows_the_writers_preference() {
    let queued = [(9, S), (3, X), (5, S)];
    let agent = |holders: &[u8], queue: &[(u8, Mode)]| Some(agent_of(S, holders, queue));
    says(WRITERS, agent(&[4], &queued), 0, [Ok(()); 2]);
    let words = ["1", "2"].map(|machine| {
        [
            format!("the holders on machine {machine} are others now, past a writer"),
            format!("client 5 does not stand behind the queue on machine {machine}"),
            format!("no agent on machine {machine}"),
        ]
    });
    let said = |number: usize| [0, 1].map(|machine| Err(words[machine][number].as_str()));
    says(WRITERS, agent(&[4, 5], &WRITER), 0, said(0));
    says(WRITERS, agent(&[4, 5], &queued), 0, said(0));
    says(WRITERS, agent(&[], &queued), 0, said(0));
    says(WRITERS, agent(&[4], &WRITER), 0, said(1));
    says(WRITERS, agent(&[4], &[(9, S), (5, S), (3, X)]), 0, said(1));
    says(WRITERS, agent(&[4], &[(3, X), (5, S)]), 0, said(1));
    says(WRITERS, agent(&[4], &[(9, S), (3, X), (5, X)]), 0, said(1));
    says(WRITERS, None, 0, said(2));
    let sent = Err("something was sent for client 5, behind a writer");
    says(WRITERS, agent(&[4], &queued), 1, [sent; 2]);
}

/// What else a step does is left to the other tests.
#[test]
fn test_knows_the_readers_preference() {
    let agent = |holders: &[u8], queue: &[(u8, Mode)]| Some(agent_of(S, holders, queue));
    says(READERS, agent(&[4, 5], &WRITER), 0, [Ok(()); 2]);
    says(READERS, agent(&[4, 5], &WRITER), 1, [Ok(()); 2]);
    let words = [
        Err("client 5 is not among the holders on machine 1"),
        Err("client 5 is not among the holders on machine 2"),
    ];
    says(READERS, agent(&[4], &[(9, S), (3, X), (5, S)]), 0, words);
    says(READERS, agent(&[4], &WRITER), 1, words);
    let words = [Err("no agent on machine 1"), Err("no agent on machine 2")];
    says(READERS, None, 0, words);
}

/// Only what passes the test is counted.
#[test]
fn requests_behind_a_writer_are_tallied() {
    let mut tally = Tally::default();
    for (preference, expected) in [(WRITERS, [1, 0]), (READERS, [1, 1])] {
        let mut cluster = at_home(preference, agent_of(S, &[4], &WRITER));
        let before = cluster.locks[0].clone();
        let test = test_of_acquire(&cluster, 1, 1, SHARED);
        accepted(&[acquire(&mut cluster, 1, 1, SHARED)]);
        let after = Some(lock(&cluster));
        assert!(tally
            .test_behind_writer(test.clone(), Some(&before))
            .is_err());
        assert_eq!(tally.test_behind_writer(test, after), Ok(()));
        assert_eq!(tally.test_behind_writer(None, after), Ok(()));
        assert_eq!([tally.readers_queued, tally.readers_joined], expected);
    }
    let line = "behind a writer queued 1 joined 1";
    assert_eq!(tally.behind_writer_line(), line);
}

#[test]
fn bit_of_a_reached_state_is_tested() {
    let mut state = LockState::default();
    let free = Err(String::from("the bit for a writer is set at a free lock"));
    let readers = "the bit for a writer is set with the readers' preference";
    let readers = Err(String::from(readers));
    for mode in [None, Some(S), Some(X)] {
        state.decider = decider_of(mode, false);
        assert_eq!(BOTH.map(|p| state.check_writer_bit(p)), [Ok(()), Ok(())]);
        state.decider.writer_waits = true;
        let expected = if mode.is_none() { free.clone() } else { Ok(()) };
        let found = BOTH.map(|preference| state.check_writer_bit(preference));
        assert_eq!(found, [readers.clone(), expected]);
    }
}

/// Seed 4 calls lock 4 or 5 first; nothing else is wrong there.
#[test]
fn run_stops_at_a_bit_that_is_set() {
    let mut state = LockState::default();
    state.decider.writer_waits = true;
    assert_eq!(state.check_counts(), Ok(()));
    let line = stopped(WRITERS, 4, &state);
    assert!(line.starts_with("run 4 step 1 lock "), "{line}");
    let words = ": the bit for a writer is set at a free lock";
    assert!(line.ends_with(words), "{line}");
}

#[test]
fn hand_made_bits_are_not_tested() {
    let mut cluster = fresh(WRITERS);
    for lock in &mut cluster.locks {
        lock.decider.writer_waits = true;
    }
    let mut nowhere = std::io::sink();
    let mut report = Report::new(&mut nowhere, false);
    let run = Run::new("state", 4, HAND_MADE, Generator::new(4), cluster);
    run.finish(&mut report).expect("the run goes to its end");
}

// The random runs.

/// How many readers' requests came to an agent with a writer in its queue and were queued or joined, counted apart from the
/// program.
#[derive(Clone, Copy, Debug, Default, PartialEq, Eq)]
struct Met {
    queued: u64,
    joined: u64,
}

impl Met {
    fn of(tally: &Tally) -> Self {
        Met {
            queued: tally.readers_queued,
            joined: tally.readers_joined,
        }
    }

    fn plus(self, other: Met) -> Self {
        Met {
            queued: self.queued + other.queued,
            joined: self.joined + other.joined,
        }
    }

    /// The machine and the client of a shared request that is not granted, where the call brings one to an agent.
    fn request(call: Call, state: &LockState) -> Option<(MachineId, ClientId)> {
        if call.kind == ACQUIRE {
            let in_range = call.machine.0 < 4 && call.task.0 < 4 && call.mode == SHARED;
            return in_range.then(|| (call.machine, client(call.machine.0, call.task.0)));
        }
        let packet = state.wire.get(usize::from(call.index))?;
        match (call.kind, packet.message, packet.address) {
            (
                DELIVER,
                Message::Acquire {
                    client,
                    mode: S,
                    granted: false,
                },
                Address::Machine(machine),
            ) => Some((machine, client)),
            _ => None,
        }
    }

    /// Makes a call, and counts its request by the agent after it.
    fn perform(&mut self, call: Call, cluster: &mut Cluster) -> StepOutcome {
        let state = cluster.locks.get(call.lock.index());
        let state = state.filter(|_| cluster.is_well_formed());
        let request = state.and_then(|state| {
            let request = Met::request(call, state)?;
            let agent = state.agents[request.0.index()].as_ref()?;
            let writes = agent.queue.iter().any(|waiter| waiter.mode == X);
            writes.then_some(request)
        });
        let outcome = call.perform(cluster)?;
        if let Some((machine, client)) = request {
            let agent = &cluster.locks[call.lock.index()].agents[machine.index()];
            let agent = agent.as_ref().expect("the agent stays");
            let is_last = agent.queue.back().is_some_and(|last| last.client == client);
            let joins = agent.mode == S && agent.holders.contains(client);
            match cluster.preference {
                WRITERS => self.queued += u64::from(is_last),
                _ => self.joined += u64::from(joins),
            }
        }
        Ok(outcome)
    }

    /// Makes the steps of a drain on a copy, up to the last one that is accepted.
    fn drain(&mut self, call: Call, cluster: &Cluster) {
        let mut cluster = cluster.clone();
        for _ in 0..DRAIN_LIMIT {
            let Some(step) = drain_step(&cluster, call) else {
                return;
            };
            if self.perform(step, &mut cluster).is_err() {
                return;
            }
        }
    }
}

/// Carries out a run once more: what its calls meet and what its drains meet.
fn met_by_run(seed: u64, profile: Profile, generator: Generator, cluster: Cluster) -> [Met; 2] {
    let (mut generator, mut cluster) = (generator, cluster);
    let [mut calls, mut drains] = [Met::default(); 2];
    for _ in 0..profile.steps {
        let outputs = generator.eight();
        let call = profile.choose_call(seed, &outputs, &cluster);
        if outputs[0].is_multiple_of(64) {
            drains.drain(call, &cluster);
            if seed / 16 % 2 == 1 {
                let _ = cluster.drain(call.lock);
            }
        }
        let _ = calls.perform(call, &mut cluster);
    }
    [calls, drains]
}

/// Carries out a transcript once more.
fn met_by_transcript(seed: u64) -> Met {
    let (bytes, mut cluster) = (transcript_bytes(seed), Cluster::new());
    let mut met = Met::default();
    // A transcript that is too long is not run.
    let runs = bytes.len() <= 65_535;
    for record in Records::new(&bytes).map_while(Result::ok).filter(|_| runs) {
        let _ = met.perform(call_of(record), &mut cluster);
    }
    met
}

fn sum(met: &[[Met; 2]], part: usize) -> Met {
    let parts = met.iter().map(|met| met[part]);
    parts.fold(Met::default(), Met::plus)
}

/// All thirteen profiles with each preference, with drains that are kept and drains that are not.
#[test]
fn every_request_behind_a_writer_in_a_run_is_tested() {
    let met = |seed| {
        let (profile, generator) = (Profile::of_seed(seed), Generator::new(seed));
        met_by_run(seed, profile, generator, run_cluster(seed))
    };
    let met: Vec<[Met; 2]> = (1..=72).map(met).collect();
    let [calls, drains] = [0, 1].map(|part| sum(&met, part));
    assert!(calls.queued > 0 && calls.joined > 0, "{calls:?}");
    assert!(drains.queued > 0 && drains.joined > 0, "{drains:?}");
    let tally = tally_of(random_run, 1..=72);
    assert_eq!(Met::of(&tally), calls.plus(drains));
}

#[test]
fn every_request_behind_a_writer_in_a_hand_made_state_is_tested() {
    let met = |seed| {
        let mut generator = Generator::new(seed);
        let cluster = hand_made_cluster(seed, &mut generator);
        met_by_run(seed, HAND_MADE, generator, cluster)
    };
    let met: Vec<[Met; 2]> = (1..=1_000).map(met).collect();
    let [calls, drains] = [0, 1].map(|part| sum(&met, part));
    assert!(calls.queued > 0 && calls.joined > 0, "{calls:?}");
    let tally = tally_of(random_state, 1..=1_000);
    assert_eq!(Met::of(&tally), calls.plus(drains));
}

/// Transcripts run with the readers' preference.
#[test]
fn every_request_behind_a_writer_in_a_transcript_is_tested() {
    let met = (1..=48).map(met_by_transcript);
    let met = met.fold(Met::default(), Met::plus);
    assert!(met.queued == 0 && met.joined > 0, "{met:?}");
    assert_eq!(Met::of(&tally_of(random_transcript, 1..=48)), met);
}

/// The bytes of a fresh cluster: for each lock four of the decider, four agent slots, two for each client and the wire's length.
fn fresh_bytes(preference: u8) -> Vec<u8> {
    let mut bytes = vec![preference];
    bytes.resize(1 + LOCKS * 41, 0);
    bytes
}

#[test]
fn preference_and_bit_are_in_the_bytes_of_a_cluster() {
    for preference in [0, 1, 2, 255] {
        let mut cluster = Cluster::new();
        cluster.preference = preference;
        let mut bytes = fresh_bytes(preference);
        assert_eq!(cluster_digest(7, &cluster), digest_of(7, &bytes));
        // Lock 2: shared, on machine 3, incarnation 9, bit set.
        let (mode, machine) = (S, MachineId(3));
        cluster.locks[2].decider = Decider {
            owner: Some(Owner { mode, machine }),
            incarnation: 9,
            writer_waits: true,
        };
        bytes[1 + 2 * 41..][..4].copy_from_slice(&[3, 3, 9, 1]);
        assert_eq!(cluster_digest(7, &cluster), digest_of(7, &bytes));
    }
}

/// The first line of `runs`: number, answer and cluster for each of 256 numbers.
fn fresh_line() -> String {
    let bytes = (0..=255).flat_map(|number: u8| {
        let (answer, preference) = if number > 1 { (16, 0) } else { (0, number) };
        [vec![number, answer], fresh_bytes(preference)].concat()
    });
    let bytes: Vec<u8> = bytes.collect();
    assert_eq!(bytes.len(), 256 * 331);
    format!("fresh digest {}", digest_of(0, &bytes))
}

#[test]
fn line_of_the_fresh_clusters() {
    let mut written = Vec::new();
    let mut report = Report::new(&mut written, false);
    fresh_clusters(&mut report).expect("a vector takes every write");
    let mut expected = [0; 19];
    (expected[0], expected[16]) = (2, 254);
    let [others @ .., fresh] = report.tally.answers;
    assert_eq!(fresh, expected);
    assert!(others.into_iter().all(|answers| answers == [0; 19]));
    assert_eq!(written, format!("{}\n", fresh_line()).into_bytes());
}

/// Seeds 1 to 12 prefer readers, the next thirteen writers, and the thirteen after these readers again.
#[test]
fn runs_start_with_both_preferences() {
    let mut found = [false; 2];
    for seed in 1..=38 {
        let mut written = Vec::new();
        let mut report = Report::new(&mut written, true);
        random_run(seed, &mut report).expect("nothing is broken");
        let text = String::from_utf8(written).expect("lines are text");
        let (profile, mut generator) = (Profile::of_seed(seed), Generator::new(seed));
        let mut cluster = run_cluster(seed);
        let preference = if (13..26).contains(&seed) { 1 } else { 0 };
        assert_eq!(cluster.preference, preference);
        found[usize::from(preference)] = true;
        // Up to the first drain the clusters of the lines are those of the calls.
        let mut lines = text.lines();
        for _ in 0..profile.steps {
            let outputs = generator.eight();
            if outputs[0].is_multiple_of(64) {
                break;
            }
            let call = profile.choose_call(seed, &outputs, &cluster);
            let _ = call.perform(&mut cluster);
            let line = lines.next().expect("a line of the call");
            let part = format!(" cluster {} reason", cluster_digest(0, &cluster));
            assert!(line.contains(&part), "{line}");
        }
    }
    assert_eq!(found, [true; 2]);
}

/// The fault f and its number v of each drawn lock. A lock has 4 draws in item 1, 3 of the decider, 38 for each machine, 2 for
/// each client and 44 for each packet.
fn faults_of(seed: u64) -> Vec<(u64, u8)> {
    let lengths = [0, 0, 1, 1, 1, 2, 2, 2, 3, 3, 4, 5, 6, 47, 48, 49];
    let locks = 1 + seed / 8 % 2;
    let mut generator = Generator::new(seed);
    let mut draw_lock = || {
        let (fault, value) = (generator.draw(17), generator.draw(239) as u8);
        let drawn = lengths[generator.draw(16) as usize];
        let packets = if fault == 11 { 49 } else { drawn };
        for _ in 0..1 + 3 + 4 * 38 + 16 * 2 + 44 * packets {
            let _ = generator.output();
        }
        (fault, value)
    };
    (0..locks).map(|_| draw_lock()).collect()
}

/// Of two locks with fault 13 the one that is drawn last counts.
#[test]
fn hand_made_states_have_both_preferences_and_their_faults() {
    let (mut alone, mut twice) = ([0; 5], 0);
    for seed in 1..=4_000 {
        let cluster = hand_made_cluster(seed, &mut Generator::new(seed));
        let of_seed = (seed / 32 % 2) as u8;
        let faults = faults_of(seed);
        let named = faults.iter().filter(|(fault, _)| *fault == 13);
        let last = named.clone().next_back();
        let expected = last.map_or(of_seed, |(_, value)| 2 + value);
        assert_eq!(cluster.preference, expected, "state {seed}");
        twice += u64::from(named.count() == 2);
        for (number, state) in cluster.locks.iter().enumerate() {
            let place = (number + LOCKS - seed as usize % LOCKS) % LOCKS;
            let expected = faults
                .get(place)
                .is_some_and(|&(fault, value)| fault == 14 || (value % 2 == 1 && of_seed == 1));
            assert_eq!(state.decider.writer_waits, expected, "state {seed}");
        }
        // One lock, without any other fault.
        if let [(fault @ (0 | 13 | 14), _)] = faults[..] {
            let malformed = fault == 13 || (fault == 14 && of_seed == 0);
            assert_eq!(!cluster.is_well_formed(), malformed, "state {seed}");
            let kind = match fault {
                13 => 0,
                14 => 1 + usize::from(of_seed),
                _ => 3 + usize::from(of_seed),
            };
            alone[kind] += 1;
        }
    }
    assert!(alone.into_iter().all(|times| times > 20), "{alone:?}");
    assert!(twice > 0);
}

/// All runs begin with it, one run alone and the other parts do not.
#[test]
fn program_begins_its_runs_with_the_fresh_clusters() {
    let mut child = program(&["runs"])
        .stdout(Stdio::piped())
        .spawn()
        .expect("the program starts");
    let mut lines = BufReader::new(child.stdout.take().expect("a pipe")).lines();
    let mut line = || lines.next().expect("a line").expect("lines are text");
    assert_eq!(line(), fresh_line());
    assert!(line().starts_with("run 1 steps 512 "));
    child.kill().expect("the program is stopped");
    let _ = child.wait();
    assert!(written_by(&["runs", "1"]).starts_with("run 1 "));
    assert!(written_by(&["states", "1"]).starts_with("state 1 "));
}

/// A line for each part, and a row of answers for the making of fresh clusters.
#[test]
fn program_counts_what_the_preference_did() {
    let text = written_by(&["counts"]);
    let mut lines = text
        .lines()
        .filter(|line| line.contains(" behind a writer "));
    for (part, both) in [("runs", true), ("states", true), ("transcripts", false)] {
        let line = lines.next().expect("a line for the part");
        let words: Vec<&str> = line.split(' ').collect();
        let [name, "behind", "a", "writer", "queued", queued, "joined", joined] = words[..] else {
            panic!("{line}");
        };
        assert_eq!(name, part);
        assert_eq!([queued != "0", joined != "0"], [both, true], "{line}");
    }
    assert_eq!(lines.next(), None);
    let zeros = "0, ".repeat(15);
    assert!(text.contains(&format!("\nruns fresh [2, {zeros}254, 0, 0]\n")));
    for part in ["states", "transcripts"] {
        assert!(text.contains(&format!("\n{part} fresh [0, {zeros}0, 0, 0]\n")));
    }
}
