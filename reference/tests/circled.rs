//! How often a packet has circled (document 02, §7), worked out by hand, and the test of the counts.

mod common;

use common::*;
use reference::circled::{Origin, TrueNumbers, WireBefore};
use reference::generator::Generator;
use reference::model::{
    Address, Agent, ClientId, ClientStatus, Cluster, LockId, LockState, MachineId, Message, Mode,
    Owner, Packet, TaskId, LOCKS,
};
use reference::random_calls::{Call, Profile, DELIVER, HAND_MADE, LOSE};
use reference::random_runs::{random_run, Run};
use reference::random_states::{hand_made_cluster, random_state};
use reference::random_transcripts::{random_transcript, transcript_bytes};
use reference::report::{Report, Tally};
use reference::transcript::Records;
use reference::{Handling, Refusal, StepOutcome, DRAIN_LIMIT};

const X: Mode = Mode::Exclusive;
const S: Mode = Mode::Shared;
const DECIDER: Address = Address::Decider;

/// The client of the hand-made states: 1/1.
const NAMED: ClientId = ClientId(5);
/// The machine that the decider sends its packets to there.
const OWNER: u8 = 2;

/// Message, address and count of a packet.
type Row = (Message, Address, u8);

fn rows(cluster: &Cluster) -> Vec<Row> {
    let row = |packet: &Packet| (packet.message, packet.address, packet.circled);
    lock(cluster).wire.iter().map(row).collect()
}

/// Delivers an index, and asserts what is on the wire then.
#[track_caller]
fn delivers(cluster: &mut Cluster, index: u8, expected: &[Row]) {
    accepted(&[deliver(cluster, index)]);
    assert_eq!(rows(cluster), expected);
}

fn release_of(client: ClientId) -> Message {
    Message::Release { client }
}

fn may_circle(packet: &Packet) -> bool {
    !matches!(packet.message, Message::Grant { .. } | Message::Free)
}

/// The GRANT and the marked ACQUIRE of 1/0 in D2.
fn d2_rows() -> [Row; 2] {
    let reader = client(1, 0);
    [
        (grant(reader, S), to(1), 0),
        (request(reader, S, true), to(0), 0),
    ]
}

// The scenarios.

/// The ACQUIRE of 1/0, its GRANT and its marked ACQUIRE are new packets.
#[test]
fn d2_packets_begin_at_0() {
    let mut cluster = d1();
    accepted(&[
        deliver(&mut cluster, 0),
        acquire(&mut cluster, 1, 0, SHARED),
    ]);
    let asked = (request(client(1, 0), S, false), DECIDER, 0);
    assert_eq!(rows(&cluster), [asked]);
    delivers(&mut cluster, 0, &d2_rows());
    assert_eq!(cluster, d2());
}

/// D3 to D5: it is the decider that sends the FREE back.
#[test]
fn d3_rejected_free_keeps_0() {
    let [granted, marked] = d2_rows();
    let mut cluster = d2();
    accepted(&[release(&mut cluster, 0, 0)]);
    let free = |address| [granted, marked, (Message::Free, address, 0)];
    assert_eq!(rows(&cluster), free(DECIDER));
    delivers(&mut cluster, 2, &free(to(0)));
    assert!(lock(&cluster).wire[2].rejected);
    delivers(&mut cluster, 2, &[granted, marked]);
    assert_eq!(cluster, d4());
    delivers(&mut cluster, 1, &[granted]);
    assert_eq!(cluster, d5());
}

/// The RELEASE of 1/0 comes to machine 0 before the marked ACQUIRE does, and again; the decider keeps its count each time.
#[test]
fn d6_release_is_counted_until_it_is_taken() {
    let [_, marked] = d2_rows();
    let released = |address, count| (release_of(client(1, 0)), address, count);
    let mut cluster = d2();
    accepted(&[deliver(&mut cluster, 0), release(&mut cluster, 1, 0)]);
    assert_eq!(rows(&cluster), [marked, released(DECIDER, 0)]);
    delivers(&mut cluster, 1, &[marked, released(to(0), 0)]);
    delivers(&mut cluster, 1, &[marked, released(DECIDER, 1)]);
    assert_eq!(cluster, d6());
    // D7: a refused call changes no count.
    assert_eq!(acquire(&mut cluster, 1, 0, SHARED), 6);
    assert_eq!(cluster, d6());
    delivers(&mut cluster, 1, &[marked, released(to(0), 1)]);
    delivers(&mut cluster, 1, &[marked, released(DECIDER, 2)]);
    delivers(&mut cluster, 0, &[released(DECIDER, 2)]);
    delivers(&mut cluster, 0, &[released(to(0), 2)]);
    delivers(&mut cluster, 0, &[]);
    // The next packets of 1/0 know nothing of it.
    accepted(&[acquire(&mut cluster, 1, 0, SHARED)]);
    delivers(&mut cluster, 0, &d2_rows());
}

/// 0/0 has been granted the lock, and 1/0's ACQUIRE comes to machine 0 before the agent does.
#[test]
fn request_that_finds_no_agent_is_counted() {
    for (number, mode) in [(EXCLUSIVE, X), (SHARED, S)] {
        let mut cluster = Cluster::new();
        accepted(&[
            acquire(&mut cluster, 0, 0, EXCLUSIVE),
            deliver(&mut cluster, 0),
            acquire(&mut cluster, 1, 0, number),
        ]);
        let granted = (grant(client(0, 0), X), to(0), 0);
        let asked = |address, count| (request(client(1, 0), mode, false), address, count);
        assert_eq!(rows(&cluster), [granted, asked(DECIDER, 0)]);
        for count in 0..3 {
            delivers(&mut cluster, 1, &[granted, asked(to(0), count)]);
            delivers(&mut cluster, 1, &[granted, asked(DECIDER, count + 1)]);
        }
        delivers(&mut cluster, 0, &[asked(DECIDER, 3)]);
        delivers(&mut cluster, 0, &[asked(to(0), 3)]);
        delivers(&mut cluster, 0, &[]);
        assert_eq!(agent(&cluster, 0).queue, waiters(&[(4, mode)]));
    }
}

/// 0/0 and 1/0 have handed back, and the agent is under way in the FREE: ACQUIRE and RELEASE of 1/0 both find none.
#[test]
fn marked_acquire_is_counted_too() {
    let marked = |address, count| (request(client(1, 0), S, true), address, count);
    let released = |address, count| (release_of(client(1, 0)), address, count);
    let free = |address| (Message::Free, address, 0);
    let mut cluster = d2();
    accepted(&[
        deliver(&mut cluster, 0),
        release(&mut cluster, 0, 0),
        release(&mut cluster, 1, 0),
    ]);
    let sent = [marked(to(0), 0), free(DECIDER), released(DECIDER, 0)];
    assert_eq!(rows(&cluster), sent);
    let sent = [free(DECIDER), released(DECIDER, 0), marked(DECIDER, 1)];
    delivers(&mut cluster, 0, &sent);
    let sent = [free(DECIDER), marked(DECIDER, 1), released(to(0), 0)];
    delivers(&mut cluster, 1, &sent);
    let sent = [free(DECIDER), marked(DECIDER, 1), released(DECIDER, 1)];
    delivers(&mut cluster, 2, &sent);
    let sent = [marked(DECIDER, 1), released(DECIDER, 1), free(to(0))];
    delivers(&mut cluster, 0, &sent);
    let sent = [released(DECIDER, 1), free(to(0)), marked(to(0), 1)];
    delivers(&mut cluster, 0, &sent);
    let sent = [released(DECIDER, 1), free(to(0)), marked(DECIDER, 2)];
    delivers(&mut cluster, 2, &sent);
    // The agent is back, and lists 1/0 before the RELEASE comes.
    delivers(&mut cluster, 1, &[released(DECIDER, 1), marked(DECIDER, 2)]);
    delivers(&mut cluster, 1, &[released(DECIDER, 1), marked(to(0), 2)]);
    delivers(&mut cluster, 1, &[released(DECIDER, 1)]);
    delivers(&mut cluster, 0, &[released(to(0), 1)]);
    delivers(&mut cluster, 0, &[free(DECIDER)]);
    delivers(&mut cluster, 0, &[]);
    assert_eq!(cluster, Cluster::new());
}

/// 0/0 wrote while 1/0's shared ACQUIRE went back twice; the lock is free again.
fn circled_twice() -> Cluster {
    let mut cluster = Cluster::new();
    accepted(&[
        acquire(&mut cluster, 0, 0, EXCLUSIVE),
        deliver(&mut cluster, 0),
        acquire(&mut cluster, 1, 0, SHARED),
        deliver(&mut cluster, 1),
        deliver(&mut cluster, 1),
        deliver(&mut cluster, 1),
        deliver(&mut cluster, 1),
        deliver(&mut cluster, 0),
        release(&mut cluster, 0, 0),
        deliver(&mut cluster, 1),
    ]);
    let asked = (request(client(1, 0), S, false), DECIDER, 2);
    assert_eq!(rows(&cluster), [asked]);
    assert_eq!(lock(&cluster).decider.owner, None);
    cluster
}

/// Then 2/0 reads, and its agent is under way; the marked ACQUIRE of 1/0 finds none on machine 2.
#[test]
fn marked_copy_begins_afresh() {
    let mut cluster = circled_twice();
    accepted(&[acquire(&mut cluster, 2, 0, SHARED)]);
    let asked = (request(client(1, 0), S, false), DECIDER, 2);
    let first = (grant(client(2, 0), S), to(2), 0);
    delivers(&mut cluster, 1, &[asked, first]);
    let granted = (grant(client(1, 0), S), to(1), 0);
    let marked = |address, count| (request(client(1, 0), S, true), address, count);
    delivers(&mut cluster, 0, &[first, granted, marked(to(2), 0)]);
    delivers(&mut cluster, 2, &[first, granted, marked(DECIDER, 1)]);
    delivers(&mut cluster, 2, &[first, granted, marked(to(2), 1)]);
    delivers(&mut cluster, 2, &[first, granted, marked(DECIDER, 2)]);
}

#[test]
fn grant_for_a_request_that_circled_begins_at_0() {
    let mut cluster = circled_twice();
    delivers(&mut cluster, 0, &[(grant(client(1, 0), S), to(1), 0)]);
}

/// 2/0 writes next, and the agent of D2 leaves with its GRANT: the decider sends it back.
#[test]
fn rejected_grant_keeps_0() {
    let [granted, marked] = d2_rows();
    let writer = client(2, 0);
    let mut cluster = d2();
    accepted(&[acquire(&mut cluster, 2, 0, EXCLUSIVE)]);
    let asked = (request(writer, X, false), to(0), 0);
    delivers(&mut cluster, 2, &[granted, marked, asked]);
    delivers(&mut cluster, 2, &[granted, marked]);
    accepted(&[release(&mut cluster, 0, 0)]);
    let leaving = |address| [granted, marked, (grant(writer, X), address, 0)];
    assert_eq!(rows(&cluster), leaving(DECIDER));
    delivers(&mut cluster, 2, &leaving(to(0)));
    assert!(lock(&cluster).wire[2].rejected);
    delivers(&mut cluster, 2, &[granted, marked]);
    assert_eq!(agent(&cluster, 0).queue, waiters(&[(8, X)]));
}

/// 0/0 wrote, and hands over to 1/0 with 2/0 behind it; the GRANT for 2/0 goes by way of the decider.
#[test]
fn grant_without_agent_keeps_0() {
    let mut cluster = Cluster::new();
    accepted(&[
        acquire(&mut cluster, 0, 0, EXCLUSIVE),
        deliver(&mut cluster, 0),
        deliver(&mut cluster, 0),
    ]);
    for machine in [1, 2] {
        accepted(&[
            acquire(&mut cluster, machine, 0, SHARED),
            deliver(&mut cluster, 0),
            deliver(&mut cluster, 0),
        ]);
    }
    accepted(&[release(&mut cluster, 0, 0)]);
    delivers(&mut cluster, 0, &[(grant(client(1, 0), S), to(1), 0)]);
    delivers(&mut cluster, 0, &[(grant(client(2, 0), S), DECIDER, 0)]);
    delivers(&mut cluster, 0, &[(grant(client(2, 0), S), to(2), 0)]);
    delivers(&mut cluster, 0, &[]);
}

/// The RELEASE of D6, which has gone back once, goes back 299 times more.
#[test]
fn count_stays_at_255() {
    let [_, marked] = d2_rows();
    let released = |address, count| (release_of(client(1, 0)), address, count);
    let mut cluster = d6();
    let mut counts = vec![1];
    for _ in 2..=300 {
        let last = counts[counts.len() - 1];
        delivers(&mut cluster, 1, &[marked, released(to(0), last)]);
        accepted(&[deliver(&mut cluster, 1)]);
        counts.push(rows(&cluster)[1].2);
        assert!(cluster.is_well_formed());
    }
    let after = |times: usize| counts[times - 1];
    assert_eq!([after(2), after(100), after(253)], [2, 100, 253]);
    assert_eq!([after(254), after(255), after(256)], [254, 255, 255]);
    assert_eq!(after(300), 255);
    let by_one = counts.windows(2).take(254).all(|two| two[1] == two[0] + 1);
    assert!(by_one && counts[254..].iter().all(|&count| count == 255));
    // It is taken as any other, and the lock comes to rest.
    delivers(&mut cluster, 0, &[released(DECIDER, 255)]);
    delivers(&mut cluster, 0, &[released(to(0), 255)]);
    delivers(&mut cluster, 0, &[]);
    assert_eq!(cluster.drain(LOCK), drained(2, Handling::None));
    assert_eq!(cluster, Cluster::new());
}

/// All sixteen marked ACQUIREs of D13 go back once, each before the FREE, and all sixteen RELEASEs once, each before its
/// ACQUIRE.
#[test]
fn d13_drain_counts_each_packet_once() {
    let mut greatest = 0;
    let mut cluster = d13();
    let outcome = cluster.drain_with(LOCK, |_, _, state| {
        let counts = state.wire.iter().map(|packet| packet.circled);
        greatest = counts.chain([greatest]).max().expect("one at least");
    });
    // 32 of the steps send a packet back.
    assert_eq!((outcome, greatest), (drained(115, Handling::Taken), 1));
    assert_eq!(cluster, Cluster::new());
}

// The rules, by hand.

/// A packet comes between two others; the owner is machine 2, and this is the agent there.
fn coming(mode: Option<Mode>, agent: Option<Agent>, packet: Packet) -> LockState {
    let other = |count| with_count(count, plain(release_of(ClientId(15)), DECIDER));
    let mut state = LockState {
        wire: vec![other(7), packet, other(8)],
        ..LockState::default()
    };
    let machine = MachineId(OWNER);
    state.decider.owner = mode.map(|mode| Owner { mode, machine });
    state.agents[machine.index()] = agent;
    state
}

/// What the delivery of the packet in the middle sends; the two others keep their counts.
#[track_caller]
fn sent(preference: u8, state: LockState) -> Vec<Row> {
    let mut cluster = fresh(preference);
    cluster.locks[0] = state;
    accepted(&[deliver(&mut cluster, 1)]);
    let rows = rows(&cluster);
    assert_eq!([rows[0].2, rows[1].2], [7, 8]);
    rows[2..].to_vec()
}

fn agent_of(holders: &[u8], queue: &[(u8, Mode)]) -> Agent {
    let mut agent = Agent::new(S);
    for &number in holders {
        agent.holders.insert(ClientId(number));
    }
    agent.queue = waiters(queue).into();
    agent
}

/// What may circle.
fn circling() -> [Message; 5] {
    [
        request(NAMED, S, false),
        request(NAMED, X, false),
        request(NAMED, S, true),
        request(NAMED, X, true),
        release_of(NAMED),
    ]
}

/// A count, and that of the packet when it has gone back once more.
const BACK: [(u8, u8); 7] = [
    (0, 1),
    (1, 2),
    (2, 3),
    (127, 128),
    (253, 254),
    (254, 255),
    (255, 255),
];

#[test]
fn machine_adds_one_up_to_255() {
    for (before, after) in BACK {
        for message in circling() {
            let packet = with_count(before, plain(message, to(OWNER)));
            let sent = sent(READERS, coming(Some(S), None, packet));
            assert_eq!(sent, [(message, DECIDER, after)]);
        }
        // Nor does an agent take the RELEASE of a client that it neither lists nor has in its queue.
        let message = release_of(NAMED);
        let packet = with_count(before, plain(message, to(OWNER)));
        let agent = agent_of(&[4], &[(9, X)]);
        let sent = sent(READERS, coming(Some(S), Some(agent), packet));
        assert_eq!(sent, [(message, DECIDER, after)]);
    }
}

#[test]
fn decider_keeps_what_it_sends_on() {
    let [shared, exclusive, marked, _, released] = circling();
    let cases = [
        (S, exclusive),
        (S, marked),
        (S, released),
        (X, shared),
        (X, exclusive),
        (X, marked),
        (X, released),
    ];
    for (mode, message) in cases {
        for (count, _) in BACK {
            for preference in BOTH {
                let packet = with_count(count, plain(message, DECIDER));
                let sent = sent(preference, coming(Some(mode), None, packet));
                assert_eq!(sent, [(message, to(OWNER), count)]);
            }
        }
    }
}

/// Where a writer waits the decider sends a reader's request on as it is (document 02, §5).
#[test]
fn decider_that_notes_a_writer_keeps_the_count() {
    for (count, _) in BACK {
        let message = request(NAMED, S, false);
        let mut state = coming(Some(S), None, with_count(count, plain(message, DECIDER)));
        state.decider.writer_waits = true;
        assert_eq!(sent(WRITERS, state), [(message, to(OWNER), count)]);
    }
}

/// What is sent in place of a packet is another one.
#[test]
fn what_is_granted_begins_at_0() {
    let to_decider = |count, message| with_count(count, plain(message, DECIDER));
    let to_owner = |count, message| with_count(count, plain(message, to(OWNER)));
    let asked = request(NAMED, S, false);
    for (count, _) in BACK {
        for mode in [S, X] {
            let state = coming(None, None, to_decider(count, request(NAMED, mode, false)));
            assert_eq!(sent(READERS, state), [(grant(NAMED, mode), to(1), 0)]);
        }
        let copy = (request(NAMED, S, true), to(OWNER), 0);
        let state = coming(Some(S), None, to_decider(count, asked));
        assert_eq!(sent(READERS, state), [(grant(NAMED, S), to(1), 0), copy]);
        let joins = Some(agent_of(&[4], &[]));
        let state = coming(Some(S), joins, to_owner(count, asked));
        assert_eq!(sent(READERS, state), [(grant(NAMED, S), DECIDER, 0)]);
        let last = Some(agent_of(&[NAMED.0], &[]));
        let state = coming(Some(S), last, to_owner(count, release_of(NAMED)));
        assert_eq!(sent(READERS, state), [(Message::Free, DECIDER, 0)]);
        let handed_over = Some(agent_of(&[NAMED.0], &[(9, X)]));
        let state = coming(Some(S), handed_over, to_owner(count, release_of(NAMED)));
        assert_eq!(sent(READERS, state), [(grant(ClientId(9), X), DECIDER, 0)]);
    }
}

// Which counts are malformed.

/// Wherever they go, with and without agent, rejected or not.
fn grants_and_frees() -> Vec<Packet> {
    let granted = grant(NAMED, S);
    let with_agent =
        |message, address| Packet::with_agent(message, address, agent_of(&[], &[(9, X)]));
    let rejected = |packet| Packet {
        rejected: true,
        ..packet
    };
    vec![
        plain(granted, DECIDER),
        plain(granted, to(1)),
        with_agent(granted, DECIDER),
        with_agent(granted, to(1)),
        rejected(with_agent(granted, to(OWNER))),
        with_agent(Message::Free, DECIDER),
        rejected(with_agent(Message::Free, to(OWNER))),
    ]
}

/// Asserts that each call is refused with 11, whatever lock has the packet, and leaves the cluster.
#[track_caller]
fn assert_malformed(packet: &Packet) {
    for number in [0, 7] {
        let mut cluster = Cluster::new();
        cluster.locks[number] = coming(Some(S), None, packet.clone());
        assert!(!cluster.is_well_formed(), "{packet:?}");
        let given = cluster.clone();
        assert_eq!(acquire(&mut cluster, 0, 0, SHARED), 11);
        assert_eq!(release(&mut cluster, 0, 0), 11);
        assert_eq!(deliver(&mut cluster, 1), 11);
        assert_eq!(cluster.drain(LOCK), Err(Refusal::Malformed));
        assert_eq!(answer(cluster.run_transcript(&[]).answer), 11);
        assert_eq!(answer(cluster.reason(LOCK, MachineId(0), TaskId(0))), 11);
        assert_eq!(cluster, given);
    }
}

#[test]
fn grant_or_free_with_a_count_is_malformed() {
    for packet in grants_and_frees() {
        for count in [1, 2, 128, 254, 255] {
            assert_malformed(&with_count(count, packet.clone()));
        }
        let mut cluster = Cluster::new();
        cluster.locks[0] = coming(Some(S), None, with_count(0, packet));
        assert!(cluster.is_well_formed());
        accepted(&[deliver(&mut cluster, 1)]);
    }
}

#[test]
fn acquire_or_release_has_any_count() {
    for message in circling() {
        for address in [DECIDER, to(0), to(3)] {
            for count in 0..=255 {
                let mut cluster = Cluster::new();
                let packet = with_count(count, plain(message, address));
                cluster.locks[0] = coming(Some(S), None, packet);
                assert!(cluster.is_well_formed());
                accepted(&[deliver(&mut cluster, 1)]);
            }
        }
    }
}

/// The same cluster with this count of each ACQUIRE and RELEASE.
fn counting(cluster: &Cluster, count: u8) -> Cluster {
    let mut cluster = cluster.clone();
    for packet in cluster.locks.iter_mut().flat_map(|lock| &mut lock.wire) {
        if may_circle(packet) {
            packet.circled = count;
        }
    }
    cluster
}

/// Calls and drains of hand-made states, with other counts: the same answers, handlings, reasons and, but for the counts, states.
#[test]
fn nothing_else_goes_by_a_count() {
    for (seed, count) in (1..=400).flat_map(|seed| [(seed, 0), (seed, 1), (seed, 255)]) {
        let mut generator = Generator::new(seed);
        let mut cluster = hand_made_cluster(seed, &mut generator);
        let mut other = counting(&cluster, count);
        assert_eq!(cluster.is_well_formed(), other.is_well_formed());
        for _ in 0..HAND_MADE.steps {
            let call = HAND_MADE.choose_call(seed, &generator.eight(), &cluster);
            let (outcome, same) = (call.perform(&mut cluster), call.perform(&mut other));
            assert_eq!(outcome, same, "state {seed}");
            assert_eq!(counting(&cluster, 0), counting(&other, 0));
            assert_eq!(call.ask_reason(&cluster), call.ask_reason(&other));
        }
        let lock = LockId((seed % 8) as u8);
        assert_eq!(cluster.drain(lock), other.drain(lock));
        assert_eq!(counting(&cluster, 0), counting(&other, 0));
    }
}

// The bytes of a cluster.

/// Behind the byte for rejected and before the agent slot.
#[test]
fn count_is_in_the_bytes_of_a_cluster() {
    let mut cluster = Cluster::new();
    let rejected = Packet {
        rejected: true,
        ..Packet::with_agent(grant(ClientId(4), X), to(3), agent_of(&[0, 2], &[(9, X)]))
    };
    cluster.locks[0].wire = vec![
        with_count(200, plain(release_of(NAMED), DECIDER)),
        with_count(255, plain(request(ClientId(9), S, true), to(2))),
        with_count(6, rejected),
        plain(request(ClientId(15), X, false), DECIDER),
    ];
    let holders = [1, 0, 1, 0, 0, 0, 0, 0, 0, 0, 0, 0, 0, 0, 0, 0];
    // The preference and lock 0: decider, agent slots, clients, then the wire.
    let mut bytes = vec![0; 1 + 4 + 4 + 32];
    bytes.push(4);
    bytes.extend([3, 5, 0, 0, 0, 0, 0, 200, 0]);
    bytes.extend([1, 9, 3, 1, 1, 2, 0, 255, 0]);
    bytes.extend([2, 4, 2, 0, 1, 3, 1, 6, 1, 3, 0]);
    bytes.extend(holders);
    bytes.extend([1, 9, 2]);
    bytes.extend([1, 15, 2, 0, 0, 0, 0, 0, 0]);
    // The seven other locks are fresh, with 41 bytes each.
    bytes.resize(bytes.len() + 7 * 41, 0);
    assert_eq!(cluster_digest(3, &cluster), digest_of(3, &bytes));
}

// Hand-made states.

/// A drawn lock, by the page: its fault, and of each packet whether it is a GRANT or FREE, and its count.
struct DrawnLock {
    fault: u64,
    target: u64,
    packets: Vec<(bool, u8)>,
}

/// Item 1 has 4 draws, the decider 3, each machine 38, each client 2, and each packet 44, of which 37 are of its agent.
fn draw_lock(generator: &mut Generator) -> DrawnLock {
    let lengths = [0, 0, 1, 1, 1, 2, 2, 2, 3, 3, 4, 5, 6, 47, 48, 49];
    let counts = [0, 0, 1, 253, 254, 255];
    let skip = |generator: &mut Generator, draws| {
        for _ in 0..draws {
            let _ = generator.output();
        }
    };
    let (fault, value) = (generator.draw(17), generator.draw(239));
    let drawn = lengths[generator.draw(16) as usize];
    let length = if fault == 11 { 49 } else { drawn };
    let target = generator.draw(4 + length);
    skip(generator, 3 + 4 * 38 + 16 * 2);
    let packet = |index| {
        let kind = generator.draw(8);
        skip(generator, 4);
        let entry = 3 * generator.draw(2) + generator.draw(3);
        skip(generator, 37);
        let is_grant_or_free = matches!(kind, 3..=5 | 7);
        let count = match is_grant_or_free {
            _ if fault == 15 && target == 4 + index => 1 + value as u8,
            true => 0,
            false => counts[entry as usize],
        };
        (is_grant_or_free, count)
    };
    DrawnLock {
        fault,
        target,
        packets: (0..length).map(packet).collect(),
    }
}

/// All counts of the page are met. Of the locks with fault 15 alone those are malformed whose slot is a GRANT or FREE.
#[test]
fn hand_made_packets_have_their_counts() {
    let (mut met, mut alone) = ([0; 256], [0; 3]);
    for seed in 1..=5_000 {
        let cluster = hand_made_cluster(seed, &mut Generator::new(seed));
        let mut generator = Generator::new(seed);
        let locks = 1 + (seed / 8 % 2) as usize;
        for place in 0..locks {
            let drawn = draw_lock(&mut generator);
            let state = &cluster.locks[(seed as usize + place) % LOCKS];
            // A wire that claims more than its slots has copies of the first packet behind them.
            let counts = state.wire.iter().map(|packet| packet.circled).take(49);
            let expected = drawn.packets.iter().map(|packet| packet.1);
            assert!(counts.eq(expected.clone()), "state {seed}");
            expected.for_each(|count| met[usize::from(count)] += 1);
            if (locks, drawn.fault) == (1, 15) {
                let packet = (drawn.target as usize).checked_sub(4);
                let kind = packet.map(|index| drawn.packets[index].0);
                assert_eq!(!cluster.is_well_formed(), kind == Some(true));
                alone[kind.map_or(0, |of| 1 + usize::from(of))] += 1;
            }
        }
    }
    for count in [0, 1, 253, 254, 255] {
        assert!(met[count] > 100, "{count}");
    }
    // The others are of fault 15, with 239 at most.
    assert!(met[2..240].iter().sum::<u32>() > 100);
    assert_eq!(met[240..253], [0; 13]);
    assert!(alone.into_iter().all(|times| times > 10), "{alone:?}");
}

// The true numbers.

/// The true numbers of lock 0 after a delivery, and what the delivery sent back; the counts say nothing.
fn follow(cluster: &mut Cluster, numbers: &mut TrueNumbers, index: u8) -> Option<u64> {
    let mut falsified = counting(cluster, 77);
    let before = WireBefore::of_delivery(lock(&falsified), usize::from(index));
    accepted(&[deliver(cluster, index), deliver(&mut falsified, index)]);
    let back = numbers.follow(&before, lock(&counting(&falsified, 99)));
    back.expect("as many numbers as packets")
}

/// D6 and on, 300 times back; then the ACQUIRE is taken, the RELEASE is sent on and taken.
#[test]
fn true_numbers_have_no_bound() {
    let mut cluster = d2();
    let mut numbers = TrueNumbers::of(lock(&cluster));
    assert_eq!(numbers.0, [0, 0]);
    assert_eq!(follow(&mut cluster, &mut numbers, 0), None);
    let before = WireBefore::of_request(lock(&cluster));
    accepted(&[release(&mut cluster, 1, 0)]);
    assert_eq!(numbers.follow(&before, lock(&cluster)), Ok(None));
    assert_eq!(numbers.0, [0, 0]);
    for number in 0..300 {
        assert_eq!(follow(&mut cluster, &mut numbers, 1), None);
        assert_eq!(numbers.0, [0, number]);
        assert_eq!(follow(&mut cluster, &mut numbers, 1), Some(number));
        assert_eq!(numbers.0, [0, number + 1]);
        assert_eq!(numbers.greatest(), number + 1);
        assert_eq!(numbers.check(lock(&cluster), Origin::Fresh), Ok(2));
    }
    for expected in [&[300][..], &[300], &[]] {
        assert_eq!(follow(&mut cluster, &mut numbers, 0), None);
        assert_eq!(numbers.0, expected);
    }
    assert_eq!(numbers.greatest(), 0);
}

/// As above, from the lock that 2/0 reads.
#[test]
fn true_number_of_a_marked_copy_begins_afresh() {
    let mut cluster = circled_twice();
    accepted(&[acquire(&mut cluster, 2, 0, SHARED)]);
    let mut numbers = TrueNumbers(vec![2, 0]);
    for (index, back, expected) in [
        (1, None, vec![2, 0]),
        (0, None, vec![0, 0, 0]),
        (2, Some(0), vec![0, 0, 1]),
        (2, None, vec![0, 0, 1]),
        (2, Some(1), vec![0, 0, 2]),
    ] {
        assert_eq!(follow(&mut cluster, &mut numbers, index), back);
        assert_eq!(numbers.0, expected);
        let tested = numbers.check(lock(&cluster), Origin::Fresh);
        assert_eq!(tested, Ok(expected.len()));
    }
}

/// The two others have 4 and 6, the packet between them 9. Asserts the numbers of what is sent for it, and what goes back.
#[track_caller]
fn assert_numbers(packet: Packet, sent: &[Packet], expected: &[u64], back: Option<u64>) {
    let before = coming(Some(S), None, packet);
    let mut after = before.clone();
    let _ = after.wire.remove(1);
    after.wire.extend_from_slice(sent);
    let mut numbers = TrueNumbers(vec![4, 9, 6]);
    let given = numbers.follow(&WireBefore::of_delivery(&before, 1), &after);
    assert_eq!(given, Ok(back));
    assert_eq!(numbers.0, [&[4, 6], expected].concat());
}

#[test]
fn same_message_keeps_its_number() {
    for message in circling() {
        let packet = |address| plain(message, address);
        assert_numbers(packet(to(2)), &[packet(DECIDER)], &[10], Some(9));
        assert_numbers(packet(DECIDER), &[packet(to(2))], &[9], None);
        assert_numbers(packet(to(2)), &[packet(to(3))], &[0], None);
        assert_numbers(packet(DECIDER), &[packet(DECIDER)], &[0], None);
        assert_numbers(packet(to(2)), &[], &[], None);
    }
    // By hand an agent may grant the client whose GRANT brought it: that is no packet that came back.
    let granted = |address| plain(grant(NAMED, S), address);
    let sent = [plain(grant(ClientId(4), S), DECIDER), granted(DECIDER)];
    assert_numbers(granted(to(1)), &sent, &[0, 10], None);
    assert_numbers(granted(DECIDER), &[granted(to(1))], &[9], None);
    let free = |address| Packet::with_agent(Message::Free, address, Agent::new(S));
    assert_numbers(free(DECIDER), &[free(to(2))], &[9], None);
}

#[test]
fn another_message_begins_at_0() {
    for (index, taken) in circling().into_iter().enumerate() {
        let others = circling().into_iter().enumerate();
        let others = others.filter(|(other, _)| *other != index);
        let more = [
            grant(NAMED, S),
            Message::Free,
            request(ClientId(4), S, false),
            release_of(ClientId(4)),
        ];
        for sent in others.map(|(_, message)| message).chain(more) {
            let (back, on) = (plain(sent, DECIDER), plain(sent, to(2)));
            assert_numbers(plain(taken, to(2)), &[back], &[0], None);
            assert_numbers(plain(taken, DECIDER), &[on], &[0], None);
        }
    }
    let asked = plain(request(NAMED, S, false), DECIDER);
    let copy = plain(request(NAMED, S, true), to(2));
    assert_numbers(asked, &[plain(grant(NAMED, S), to(1)), copy], &[0, 0], None);
}

/// An acquire and a release take nothing off; with an empty wire a drain does not either.
#[test]
fn call_of_a_client_only_sends() {
    let mut state = coming(Some(S), None, plain(release_of(NAMED), DECIDER));
    let before = WireBefore::of_request(&state);
    let mut numbers = TrueNumbers(vec![4, 9, 6]);
    assert_eq!(numbers.follow(&before, &state), Ok(None));
    state.wire.push(plain(release_of(NAMED), DECIDER));
    assert_eq!(numbers.follow(&before, &state), Ok(None));
    assert_eq!(numbers.0, [4, 9, 6, 0]);
    let empty = LockState::default();
    let drained = WireBefore::of_delivery(&empty, 0);
    assert_eq!(drained, WireBefore::of_request(&empty));
}

/// At a free decider a RELEASE keeps its number; at any other it would be another packet, and so would an ACQUIRE.
#[test]
fn early_release_keeps_its_number() {
    let numbers_after = |mode: Option<Mode>, message: Message| {
        let packet = plain(message, DECIDER);
        let before = coming(mode, None, packet.clone());
        let mut after = before.clone();
        let _ = after.wire.remove(1);
        after.wire.push(packet);
        let mut numbers = TrueNumbers(vec![4, 300, 6]);
        let back = numbers.follow(&WireBefore::of_delivery(&before, 1), &after);
        assert_eq!(back, Ok(None));
        numbers.0
    };
    assert_eq!(numbers_after(None, release_of(NAMED)), [4, 6, 300]);
    assert_eq!(numbers_after(Some(S), release_of(NAMED)), [4, 6, 0]);
    assert_eq!(numbers_after(None, request(NAMED, S, false)), [4, 6, 0]);
}

/// A lost packet takes its number along.
#[test]
fn loss_takes_a_number_off() {
    let before = coming(Some(S), None, plain(grant(NAMED, S), to(1)));
    let mut after = before.clone();
    let _ = after.wire.remove(1);
    let mut numbers = TrueNumbers(vec![4, 0, 6]);
    let back = numbers.follow(&WireBefore::of_delivery(&before, 1), &after);
    assert_eq!((back, numbers.0), (Ok(None), vec![4, 6]));
}

#[test]
fn hand_made_numbers_begin_with_the_counts() {
    assert_eq!(TrueNumbers::of(&LockState::default()), TrueNumbers(vec![]));
    let packet = with_count(255, plain(release_of(NAMED), to(OWNER)));
    let state = coming(Some(S), None, packet);
    let mut numbers = TrueNumbers::of(&state);
    assert_eq!(numbers.0, [7, 255, 8]);
    let mut cluster = Cluster::new();
    cluster.locks[0] = state;
    assert_eq!(follow(&mut cluster, &mut numbers, 1), Some(255));
    assert_eq!(numbers.0, [7, 8, 256]);
    assert_eq!(numbers.check(lock(&cluster), Origin::HandMade), Ok(3));
}

// The test of the counts.

const ORIGINS: [Origin; 2] = [Origin::Fresh, Origin::HandMade];

/// Asserts what the test says of a count, for a packet at index 1.
#[track_caller]
fn says(message: Message, number: u64, count: u8, origin: Origin, expected: &str) {
    let packet = with_count(count, plain(message, DECIDER));
    let state = coming(Some(S), None, packet);
    let said = TrueNumbers(vec![7, number, 8]).check(&state, origin).err();
    let expected = Some(expected).filter(|words| !words.is_empty());
    assert_eq!(said.as_deref(), expected);
}

#[test]
fn test_knows_the_lesser_of_255_and_the_number() {
    for (message, origin) in circling()
        .into_iter()
        .flat_map(|of| ORIGINS.map(|origin| (of, origin)))
    {
        let right = [
            (0, 0),
            (1, 1),
            (254, 254),
            (255, 255),
            (256, 255),
            (300, 255),
            (511, 255),
        ];
        for (number, count) in right {
            says(message, number, count, origin, "");
        }
        let wrong = [
            (0, 1),
            (1, 0),
            (1, 2),
            (254, 255),
            (255, 254),
            (255, 0),
            (256, 0),
            (300, 44),
        ];
        for (number, count) in wrong {
            let times = if number == 1 { "time" } else { "times" };
            let words = format!("has the count {count}, but was sent back {number} {times}");
            let words = format!("the packet at index 1 {words}");
            says(message, number, count, origin, &words);
        }
    }
}

/// What a fresh cluster leads to has no GRANT or FREE that went back.
#[test]
fn grants_and_frees_are_tested_where_the_cluster_was_fresh() {
    for message in [grant(NAMED, S), Message::Free] {
        for origin in ORIGINS {
            says(message, 0, 0, origin, "");
        }
        let words = "the packet at index 1 has the count 0, but was sent back 1 time";
        says(message, 1, 0, Origin::Fresh, words);
        says(message, 1, 0, Origin::HandMade, "");
        let words = "the packet at index 1 has the count 1, but was sent back 0 times";
        says(message, 0, 1, Origin::Fresh, words);
        says(message, 0, 1, Origin::HandMade, "");
    }
}

#[test]
fn test_wants_as_many_numbers_as_packets() {
    let state = coming(Some(S), None, plain(release_of(NAMED), DECIDER));
    for (numbers, words) in [
        (vec![], "0 true numbers for 3 packets"),
        (vec![7], "1 true number for 3 packets"),
        (vec![7, 0], "2 true numbers for 3 packets"),
        (vec![7, 0, 8, 0], "4 true numbers for 3 packets"),
    ] {
        for origin in ORIGINS {
            let said = TrueNumbers(numbers.clone()).check(&state, origin);
            assert_eq!(said, Err(String::from(words)));
        }
    }
    let said = TrueNumbers(vec![0]).check(&LockState::default(), Origin::Fresh);
    assert_eq!(said, Err(String::from("1 true number for 0 packets")));
}

/// Where the list is not that of the wire before the step, or the step has lost a packet.
#[test]
fn numbers_that_do_not_follow_are_noticed() {
    let state = coming(Some(S), None, plain(release_of(NAMED), DECIDER));
    let before = WireBefore::of_delivery(&state, 1);
    for (numbers, words) in [
        (vec![], "0 true numbers for 3 packets"),
        (vec![7, 0, 8, 0], "4 true numbers for 3 packets"),
    ] {
        let said = TrueNumbers(numbers).follow(&before, &state);
        assert_eq!(said, Err(String::from(words)));
    }
    let after = LockState {
        wire: state.wire[..1].to_vec(),
        ..state.clone()
    };
    let mut numbers = TrueNumbers(vec![7, 0, 8]);
    assert_eq!(numbers.follow(&before, &after), Ok(None));
    let said = numbers.check(&after, Origin::Fresh);
    assert_eq!(said, Err(String::from("2 true numbers for 1 packet")));
}

/// A packet that was sent back is counted also where the test fails; without a lock, or of a refused step, there is nothing to test.
#[test]
fn packets_sent_back_are_tallied() {
    let mut tally = Tally::default();
    let before = |count| {
        let packet = with_count(count, plain(release_of(NAMED), to(OWNER)));
        coming(Some(S), None, packet)
    };
    let mut test = |count: u8, after_count| {
        let before = before(count);
        let mut after = before.clone();
        let _ = after.wire.remove(1);
        let packet = plain(release_of(NAMED), DECIDER);
        after.wire.push(with_count(after_count, packet));
        let mut numbers = TrueNumbers::of(&before);
        let wire = Some(WireBefore::of_delivery(&before, 1));
        let origin = Origin::Fresh;
        let tested = tally.test_circled(Some(&mut numbers), wire, Some(&after), origin);
        let figures = [tally.sent_back, tally.most_circled, tally.sent_back_full];
        (tested.is_ok(), tally.tested_counts, figures)
    };
    assert_eq!(test(0, 1), (true, 3, [1, 8, 0]));
    assert_eq!(test(9, 10), (true, 6, [2, 10, 0]));
    assert_eq!(test(254, 255), (true, 9, [3, 255, 0]));
    assert_eq!(test(255, 255), (true, 12, [4, 256, 1]));
    assert_eq!(test(255, 0), (false, 12, [5, 256, 2]));
    assert_eq!(test(3, 3), (false, 12, [6, 256, 2]));
    let state = before(0);
    let mut numbers = TrueNumbers::of(&state);
    let wire = Some(WireBefore::of_delivery(&state, 1));
    let origin = Origin::Fresh;
    let refused = tally.test_circled(Some(&mut numbers), None, Some(&state), origin);
    assert_eq!((refused, &numbers), (Ok(()), &TrueNumbers::of(&state)));
    assert_eq!(tally.test_circled(None, wire, None, origin), Ok(()));
    assert_eq!(tally.circled_line(), "circled back 6 most 256 full 2");
}

/// A refused step is not followed, an accepted one of any kind is.
#[test]
fn accepted_steps_are_followed() {
    for kind in [1, 2, 3, 6, 7] {
        let call = Call {
            kind,
            lock: LOCK,
            machine: MachineId(1),
            task: TaskId(0),
            mode: SHARED,
            index: 1,
        };
        let (state, taken) = (d6(), kind == DELIVER || kind == LOSE);
        let expected = match taken {
            true => WireBefore::of_delivery(lock(&state), 1),
            false => WireBefore::of_request(lock(&state)),
        };
        let incoming = |outcome: StepOutcome| call.incoming(&state).if_accepted(&outcome);
        assert_eq!(incoming(Ok(Handling::None)).wire, Some(expected));
        assert_eq!(incoming(Err(Refusal::WireFull)).wire, None);
        let nowhere = Call {
            lock: LockId(8),
            ..call
        };
        assert_eq!(nowhere.incoming(&state).wire, None);
    }
}

/// By hand: the agent that comes to 1/1 with a GRANT has 1/1 in its queue and grants it again. Nothing else is wrong with it.
fn granted_again() -> LockState {
    let agent = agent_of(&[], &[(NAMED.0, S)]);
    let mut state = LockState {
        wire: vec![Packet::with_agent(grant(NAMED, S), to(1), agent)],
        ..LockState::default()
    };
    let (mode, machine) = (S, MachineId(1));
    state.decider.owner = Some(Owner { mode, machine });
    state.clients[NAMED.index()] = ClientStatus::Holding(S);
    assert_eq!(state.check_counts(), Ok(()));
    state
}

const GRANTED_AGAIN: &str = "the packet at index 0 has the count 0, but was sent back 1 time";

/// A seed whose first step, without a drain, delivers the packet.
fn delivering_seed() -> u64 {
    let mut cluster = Cluster::new();
    cluster.locks.fill(granted_again());
    let delivers = |&seed: &u64| {
        let outputs = Generator::new(seed).eight();
        let call = HAND_MADE.choose_call(seed, &outputs, &cluster);
        let in_range = call.lock.index() < LOCKS;
        in_range && !outputs[0].is_multiple_of(64) && (call.kind, call.index) == (DELIVER, 0)
    };
    (1..1_000).find(delivers).expect("many deliver it first")
}

#[test]
fn run_stops_at_a_wrong_count() {
    let seed = delivering_seed();
    let line = stopped(READERS, seed, &granted_again());
    let (place, words) = line.split_once(": ").expect("a place and words");
    assert!(
        place.starts_with(&format!("run {seed} step 1 lock ")),
        "{line}"
    );
    assert_eq!(words, GRANTED_AGAIN);
}

#[test]
fn run_stops_inside_a_drain() {
    let line = stopped(READERS, draining_seed(), &granted_again());
    let words = format!(": drain step 1: {GRANTED_AGAIN}");
    assert!(line.ends_with(&words), "{line}");
}

#[test]
fn hand_made_run_goes_on() {
    let mut cluster = Cluster::new();
    cluster.locks.fill(granted_again());
    for seed in [delivering_seed(), draining_seed()] {
        let mut nowhere = std::io::sink();
        let mut report = Report::new(&mut nowhere, false);
        let generator = Generator::new(seed);
        let run = Run::new("state", seed, HAND_MADE, generator, cluster.clone());
        run.finish(&mut report).expect("the run goes to its end");
    }
}

// The random runs.

/// What a delivery makes of its packet.
#[derive(Clone, Copy, Debug, PartialEq, Eq)]
enum Fate {
    Back,
    On,
    /// Also of a GRANT or FREE: its number is 0 wherever it goes.
    Gone,
}

impl Fate {
    /// By the state before the delivery, as the papers have it.
    fn of(state: &LockState, packet: &Packet) -> Self {
        let (owner, message) = (state.decider.owner, packet.message);
        let machine = match (message, packet.address) {
            (Message::Grant { .. } | Message::Free, _) => return Fate::Gone,
            (_, Address::Machine(machine)) => machine,
            (Message::Acquire { mode, granted, .. }, Address::Decider) if !granted => {
                let both_shared = mode == S && owner.is_some_and(|owner| owner.mode == S);
                let granted_now = both_shared && !state.decider.writer_waits;
                let gone = owner.is_none() || granted_now;
                return if gone { Fate::Gone } else { Fate::On };
            }
            _ => return Fate::On,
        };
        match (&state.agents[machine.index()], message) {
            (None, _) => Fate::Back,
            (Some(agent), Message::Release { client }) if !is_known(agent, client) => Fate::Back,
            _ => Fate::Gone,
        }
    }
}

/// Among the holders or in the queue.
fn is_known(agent: &Agent, client: ClientId) -> bool {
    let in_queue = agent.queue.iter().any(|waiter| waiter.client == client);
    in_queue || agent.holders.contains(client)
}

/// Tested counts, deliveries that sent a packet back, the greatest number, and packets of these that had 255 times or more
/// behind them.
#[derive(Clone, Copy, Debug, Default, PartialEq, Eq)]
struct Met {
    tested: u64,
    back: u64,
    most: u64,
    full: u64,
}

impl Met {
    fn of(tally: &Tally) -> Self {
        Met {
            tested: tally.tested_counts,
            back: tally.sent_back,
            most: tally.most_circled,
            full: tally.sent_back_full,
        }
    }

    fn plus(self, other: Met) -> Self {
        Met {
            tested: self.tested + other.tested,
            back: self.back + other.back,
            most: self.most.max(other.most),
            full: self.full + other.full,
        }
    }
}

/// A cluster with the number of each packet of each lock, kept apart from the program.
#[derive(Clone)]
struct Counted {
    origin: Origin,
    cluster: Cluster,
    numbers: Vec<Vec<u64>>,
}

impl Counted {
    fn new(origin: Origin, cluster: Cluster) -> Self {
        let numbers = |state: &LockState| {
            let counts = state.wire.iter().map(|packet| u64::from(packet.circled));
            counts.collect()
        };
        Counted {
            origin,
            numbers: cluster.locks.iter().map(numbers).collect(),
            cluster,
        }
    }

    /// Makes a call; after an accepted one all counts of its lock are the lesser of 255 and the numbers.
    fn perform(&mut self, call: Call, met: &mut Met) -> StepOutcome {
        let (lock, index) = (call.lock.index(), usize::from(call.index));
        let state = self.cluster.locks.get(lock);
        let state = state.filter(|_| self.cluster.is_well_formed());
        let packet = state.and_then(|state| Some((state, state.wire.get(index)?)));
        let fate = packet.map(|(state, packet)| Fate::of(state, packet));
        let outcome = call.perform(&mut self.cluster)?;
        let numbers = &mut self.numbers[lock];
        if call.kind == LOSE {
            let _ = numbers.remove(index);
        }
        if call.kind == DELIVER {
            let number = numbers.remove(index);
            match fate.expect("a packet was delivered") {
                Fate::Back => {
                    numbers.push(number + 1);
                    met.back += 1;
                    met.full += u64::from(number > 254);
                }
                Fate::On => numbers.push(number),
                Fate::Gone => (),
            }
        }
        let wire = &self.cluster.locks[lock].wire;
        numbers.resize(wire.len(), 0);
        for (packet, &number) in wire.iter().zip(&*numbers) {
            assert_eq!(u64::from(packet.circled), number.min(255), "{packet:?}");
            met.most = met.most.max(number);
            met.tested += u64::from(self.origin == Origin::Fresh || may_circle(packet));
        }
        Ok(outcome)
    }

    /// What a drain leaves, with all its steps up to the last one that is accepted.
    fn drained(&self, call: Call, met: &mut Met) -> Self {
        let mut copy = self.clone();
        for _ in 0..DRAIN_LIMIT {
            match drain_step(&copy.cluster, call) {
                Some(step) if copy.perform(step, met).is_ok() => (),
                _ => break,
            }
        }
        copy
    }
}

/// Carries out a run once more.
fn met_by_run(seed: u64, profile: Profile, mut generator: Generator, counted: Counted) -> Met {
    let (mut counted, mut met) = (counted, Met::default());
    for _ in 0..profile.steps {
        let outputs = generator.eight();
        let call = profile.choose_call(seed, &outputs, &counted.cluster);
        if outputs[0].is_multiple_of(64) {
            let drained = counted.drained(call, &mut met);
            // A refused drain leaves all as it was.
            let is_kept = seed / 16 % 2 == 1;
            if is_kept && counted.cluster.clone().drain(call.lock).is_ok() {
                counted = drained;
            }
        }
        let _ = counted.perform(call, &mut met);
    }
    met
}

fn met_by_transcript(seed: u64) -> Met {
    let bytes = transcript_bytes(seed);
    let mut counted = Counted::new(Origin::Fresh, Cluster::new());
    let mut met = Met::default();
    // A transcript that is too long is not run.
    let runs = bytes.len() <= 65_535;
    for record in Records::new(&bytes).map_while(Result::ok).filter(|_| runs) {
        let _ = counted.perform(call_of(record), &mut met);
    }
    met
}

/// All thirteen profiles with each preference, with drains that are kept and drains that are not.
#[test]
fn every_packet_of_a_run_is_counted() {
    let met = (1..=36).map(|seed| {
        let (profile, generator) = (Profile::of_seed(seed), Generator::new(seed));
        let counted = Counted::new(Origin::Fresh, run_cluster(seed));
        met_by_run(seed, profile, generator, counted)
    });
    let met = met.fold(Met::default(), Met::plus);
    assert!(met.back > 0 && met.most > 1, "{met:?}");
    assert_eq!(Met::of(&tally_of(random_run, 1..=36)), met);
}

/// Here counts stay at 255, and in drains that are refused with 14 a packet goes back 16,384 times.
#[test]
fn every_packet_of_a_hand_made_state_is_counted() {
    let met = (1..=600).map(|seed| {
        let mut generator = Generator::new(seed);
        let cluster = hand_made_cluster(seed, &mut generator);
        let counted = Counted::new(Origin::HandMade, cluster);
        met_by_run(seed, HAND_MADE, generator, counted)
    });
    let met = met.fold(Met::default(), Met::plus);
    assert!(met.most > 16_384 && met.full > 0, "{met:?}");
    assert_eq!(Met::of(&tally_of(random_state, 1..=600)), met);
}

#[test]
fn every_packet_of_a_transcript_is_counted() {
    let met = (1..=48).map(met_by_transcript);
    let met = met.fold(Met::default(), Met::plus);
    assert!(met.back > 0 && met.most > 1, "{met:?}");
    assert_eq!(Met::of(&tally_of(random_transcript, 1..=48)), met);
}

/// How many deliveries of a part, by calls, gave one of the two handlings with which a packet goes back.
fn handled_back(text: &str, part: &str) -> u64 {
    let head = format!("{part} handled deliver no-agent ");
    let figures = text.lines().find_map(|line| line.strip_prefix(&head));
    let words: Vec<&str> = figures.expect("a line").split(' ').collect();
    let [no_agent, "not-holder", not_holder, "taken", _] = words[..] else {
        panic!("{words:?}");
    };
    let number = |word: &str| word.parse::<u64>().expect("a number");
    number(no_agent) + number(not_holder)
}

/// A line for each part. Transcripts have no drains, so that the deliveries are the records'.
#[test]
fn program_counts_what_was_sent_back() {
    let text = written_by(&["counts"]);
    let mut lines = text.lines().filter(|line| line.contains(" circled "));
    for part in ["runs", "states", "transcripts"] {
        let line = lines.next().expect("a line for the part");
        let words: Vec<&str> = line.split(' ').collect();
        let [name, "circled", "back", back, "most", most, "full", full] = words[..] else {
            panic!("{line}");
        };
        assert_eq!((name, full != "0"), (part, part == "states"));
        let back: u64 = back.parse().expect("a number");
        let by_calls = handled_back(&text, part);
        assert!(most != "0" && back >= by_calls, "{line}");
        assert_eq!(back == by_calls, part == "transcripts", "{line}");
    }
    assert_eq!(lines.next(), None);
}
