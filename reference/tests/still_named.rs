//! The first packet that names a client, and refusal 6 (document 02, §6), worked out by hand, and the test of it.

mod common;

use common::*;
use reference::generator::Generator;
use reference::model::{
    Address, Agent, ClientId, ClientStatus, Cluster, LockId, LockState, MachineId, Message, Mode,
    Packet, TaskId,
};
use reference::random_calls::{Call, Profile, ACQUIRE, DELIVER, HAND_MADE, RELEASE};
use reference::random_runs::random_run;
use reference::random_states::{hand_made_cluster, random_state};
use reference::random_transcripts::{random_transcript, transcript_bytes};
use reference::report::Tally;
use reference::still_named::StillNamed;
use reference::transcript::{Record, Records};
use reference::{answer_number, Outcome, Refusal};

const X: Mode = Mode::Exclusive;
const S: Mode = Mode::Shared;

/// The client of the hand-made states: 1/1.
const ASKED: ClientId = ClientId(5);
/// Another one: 2/1.
const OTHER: ClientId = ClientId(9);

fn release_of(client: ClientId) -> Packet {
    plain(Message::Release { client }, Address::Decider)
}

/// A cluster with these packets at lock 0, fresh otherwise.
fn with_wire(packets: &[Packet]) -> Cluster {
    let mut cluster = Cluster::new();
    cluster.locks[0].wire = packets.to_vec();
    cluster
}

fn first(cluster: &Cluster, client: ClientId) -> Option<usize> {
    lock(cluster).first_naming(client)
}

/// Asserts what the search gives for an idle client, and so whether it may ask.
#[track_caller]
fn assert_first(cluster: &Cluster, number: u8, expected: Option<usize>) {
    assert_eq!(first(cluster, ClientId(number)), expected);
    for mode in [SHARED, EXCLUSIVE] {
        let mut after = cluster.clone();
        let answer = acquire(&mut after, number / 4, number % 4, mode);
        match expected {
            Some(_) => assert_eq!((answer, &after), (6, cluster)),
            None => assert_eq!(answer, 0),
        }
    }
}

// The scenarios.

/// The marked ACQUIRE of 1/0 stands ahead of its RELEASE; no packet names 0/0, which holds, or anyone else.
#[test]
fn d6_marked_acquire_is_the_first() {
    let cluster = d6();
    assert_eq!(all_naming(lock(&cluster), ClientId(4)), [0, 1]);
    assert_first(&cluster, 4, Some(0));
    assert_eq!(first(&cluster, ClientId(0)), None);
    for number in (1..16).filter(|&number| number != 4) {
        assert_first(&cluster, number, None);
    }
}

/// The ACQUIRE is taken, the RELEASE is sent on and taken; then 1/0 may ask.
#[test]
fn d7_lasts_until_the_last_packet_is_taken() {
    let mut cluster = d6();
    for address in [Address::Decider, to(0)] {
        accepted(&[deliver(&mut cluster, 0)]);
        let packet = Packet {
            address,
            circled: 1,
            ..release_of(ClientId(4))
        };
        assert_eq!(lock(&cluster).wire, [packet]);
        assert_first(&cluster, 4, Some(0));
    }
    accepted(&[deliver(&mut cluster, 0)]);
    assert_eq!(lock(&cluster).wire, []);
    assert_first(&cluster, 4, None);
}

/// 0/0 hands back after D6, and the FREE is the third packet. The ACQUIRE finds no agent and goes to the end, then the RELEASE
/// is sent on, to the end too, and last the FREE is rejected.
#[test]
fn d6_packets_change_places() {
    let mut cluster = d6();
    accepted(&[release(&mut cluster, 0, 0)]);
    for expected in [[0, 1], [0, 2], [1, 2], [0, 1]] {
        assert_eq!(all_naming(lock(&cluster), ClientId(4)), expected);
        assert_first(&cluster, 4, Some(expected[0]));
        assert_first(&cluster, 0, None);
        accepted(&[deliver(&mut cluster, 0)]);
    }
}

/// A client that waits or holds is refused with 5, though packets name it: in D2 its GRANT and its marked ACQUIRE.
#[test]
fn d2_waiting_client_is_named_too() {
    let mut cluster = d2();
    assert_eq!(first(&cluster, ClientId(4)), Some(0));
    assert_eq!(acquire(&mut cluster, 1, 0, SHARED), 5);
    accepted(&[deliver(&mut cluster, 0)]);
    assert_eq!(first(&cluster, ClientId(4)), Some(0));
    assert_eq!(acquire(&mut cluster, 1, 0, SHARED), 5);
    accepted(&[deliver(&mut cluster, 0)]);
    assert_eq!(first(&cluster, ClientId(4)), None);
}

/// The FREE, sixteen marked ACQUIREs, sixteen RELEASEs.
#[test]
fn d13_marked_acquires_are_the_first() {
    let cluster = d13();
    for (number, index) in [(0, 1), (1, 2), (7, 8), (14, 15), (15, 16)] {
        assert_first(&cluster, number, Some(index));
    }
    for number in 0..16 {
        let index = usize::from(number);
        let expected = [1 + index, 17 + index];
        assert_eq!(all_naming(lock(&cluster), ClientId(number)), expected);
        assert_first(&cluster, number, Some(expected[0]));
    }
}

/// The ACQUIRE of 0/0 finds no agent and goes to the end: now its RELEASE is the first.
#[test]
fn d13_release_may_be_the_first() {
    let mut cluster = d13();
    accepted(&[deliver(&mut cluster, 1)]);
    assert_eq!(all_naming(lock(&cluster), ClientId(0)), [16, 32]);
    for (number, index) in [(0, 16), (1, 1), (15, 15)] {
        assert_first(&cluster, number, Some(index));
    }
}

/// The FREE is rejected and goes to the end; all others move up.
#[test]
fn d13_first_place_of_all() {
    let mut cluster = d13();
    accepted(&[deliver(&mut cluster, 0)]);
    assert_eq!(lock(&cluster).wire[32].message, Message::Free);
    for (number, index) in [(0, 0), (1, 1), (15, 15)] {
        assert_first(&cluster, number, Some(index));
    }
}

// Whom a packet names.

/// 0/0 has handed back, and all sixteen may ask. Its ACQUIRE then stands behind the FREE.
#[test]
fn free_names_nobody() {
    let mut cluster = d1();
    accepted(&[deliver(&mut cluster, 0), release(&mut cluster, 0, 0)]);
    let messages: Vec<Message> = lock(&cluster).wire.iter().map(|p| p.message).collect();
    assert_eq!(messages, [Message::Free]);
    assert_eq!(status(&cluster, 0, 0), ClientStatus::Idle);
    for number in 0..16 {
        assert_first(&cluster, number, None);
    }
    accepted(&[acquire(&mut cluster, 0, 0, SHARED)]);
    assert_eq!(first(&cluster, ClientId(0)), Some(1));
}

/// An agent that lists everyone, with everyone in its queue.
fn agent_with_all() -> Agent {
    let mut agent = Agent::new(S);
    let all: Vec<(u8, Mode)> = (0..16).map(|number| (number, X)).collect();
    agent.queue = waiters(&all).into();
    for (number, _) in all {
        agent.holders.insert(ClientId(number));
    }
    agent
}

fn rejected(packet: Packet) -> Packet {
    Packet {
        address: to(0),
        rejected: true,
        ..packet
    }
}

#[test]
fn agent_inside_a_packet_names_nobody() {
    let free = Packet::with_agent(Message::Free, Address::Decider, agent_with_all());
    for packet in [free.clone(), rejected(free.clone())] {
        let cluster = with_wire(&[packet.clone(), packet]);
        for number in 0..16 {
            assert_first(&cluster, number, None);
        }
    }
    let granted = Packet::with_agent(grant(OTHER, X), Address::Decider, agent_with_all());
    for packet in [granted.clone(), rejected(granted)] {
        let cluster = with_wire(&[free.clone(), packet.clone()]);
        for number in 0..16 {
            let expected = (number == OTHER.0).then_some(1);
            assert_first(&cluster, number, expected);
        }
        let cluster = with_wire(&[free.clone(), packet, release_of(ASKED)]);
        assert_first(&cluster, ASKED.0, Some(2));
    }
}

/// The agent of D12 is under way to a, with b and c in its queue; 0/0, who had it, may ask again.
#[test]
fn d12_waiters_inside_the_packet_are_not_named() {
    let mut cluster = d12_queue(READERS);
    accepted(&[release(&mut cluster, 0, 0)]);
    let carried = lock(&cluster).wire[0].agent.as_ref().expect("an agent");
    assert_eq!(carried.queue, waiters(&[(8, X), (12, S)]));
    assert_eq!(first(&cluster, client(1, 0)), Some(0));
    assert_eq!(first(&cluster, client(2, 0)), None);
    assert_eq!(first(&cluster, client(3, 0)), None);
    assert_first(&cluster, 0, None);
}

/// Wherever it goes, and whatever is inside.
fn packets_of(client: ClientId) -> Vec<Packet> {
    let mut packets = Vec::new();
    for mode in [S, X] {
        let granted = grant(client, mode);
        for address in [Address::Decider, to(0), to(1), to(3)] {
            packets.push(plain(request(client, mode, false), address));
            packets.push(plain(request(client, mode, true), address));
            packets.push(plain(granted, address));
            packets.push(Packet::with_agent(granted, address, Agent::new(S)));
            packets.push(plain(Message::Release { client }, address));
        }
        packets.push(rejected(Packet::with_agent(granted, to(0), Agent::new(S))));
    }
    packets
}

#[test]
fn every_packet_but_a_free_names_its_client() {
    for number in 0..16 {
        let another = ClientId((number + 4) % 16);
        for packet in packets_of(ClientId(number)) {
            let cluster = with_wire(&[release_of(another), packet]);
            assert_first(&cluster, number, Some(1));
            assert_first(&cluster, another.0, Some(0));
            assert_first(&cluster, (number + 1) % 16, None);
        }
    }
}

/// By hand a number may be one of no client; it is nobody else's then.
#[test]
fn number_out_of_range_names_none_of_the_sixteen() {
    for number in [16, 16 + ASKED.0, 128 + ASKED.0, 255] {
        for packet in packets_of(ClientId(number)) {
            let mut cluster = with_wire(&[packet]);
            assert!((0..16).all(|number| first(&cluster, ClientId(number)).is_none()));
            assert_eq!(acquire(&mut cluster, 1, 1, SHARED), 11);
        }
    }
}

/// The packets of lock 1 say nothing of lock 0.
#[test]
fn other_locks_have_their_own_wires() {
    let mut cluster = with_wire(&[release_of(OTHER)]);
    cluster.locks[1].wire = vec![release_of(ASKED)];
    assert_eq!(cluster.locks[1].first_naming(ASKED), Some(0));
    assert_eq!(cluster.locks[1].first_naming(OTHER), None);
    assert_first(&cluster, ASKED.0, None);
    assert_first(&cluster, OTHER.0, Some(0));
    let asked = cluster.acquire(LockId(1), MachineId(1), TaskId(1), SHARED);
    assert_eq!(asked, Err(Refusal::ClientOnWire));
}

// Which of them is the first.

/// So many packets of the other client.
fn others(length: usize) -> Vec<Packet> {
    vec![release_of(OTHER); length]
}

#[test]
fn first_of_two_is_given() {
    for later in 0..49 {
        for earlier in 0..=later {
            let mut packets = others(49);
            packets[later] = plain(request(ASKED, S, true), to(0));
            packets[earlier] = release_of(ASKED);
            assert_first(&with_wire(&packets), ASKED.0, Some(earlier));
        }
    }
}

#[test]
fn only_one_is_given_wherever_it_is() {
    for length in 1..=49 {
        for index in 0..length {
            let mut packets = others(length);
            packets[index] = plain(grant(ASKED, S), to(1));
            assert_first(&with_wire(&packets), ASKED.0, Some(index));
        }
    }
}

#[test]
fn none_is_given_where_no_packet_names_the_client() {
    for length in 0..49 {
        assert_first(&with_wire(&others(length)), ASKED.0, None);
    }
}

#[test]
fn first_of_many_is_given() {
    let mut packets = others(49);
    for index in (0..49).rev() {
        packets[index] = release_of(ASKED);
        assert_first(&with_wire(&packets), ASKED.0, Some(index));
    }
    assert_eq!(first(&with_wire(&packets), OTHER), None);
}

/// A hand-made wire that claims more than 49 packets has 49.
#[test]
fn packets_beyond_33_are_not_searched() {
    for length in [50, 51, 64, 255] {
        let mut packets = others(length);
        packets[49..].fill(release_of(ASKED));
        let mut cluster = with_wire(&packets);
        assert_eq!(first(&cluster, ASKED), None);
        assert_eq!(acquire(&mut cluster, 1, 1, SHARED), 11);
        cluster.locks[0].wire[32] = release_of(ASKED);
        assert_eq!(first(&cluster, ASKED), Some(32));
        assert_eq!(acquire(&mut cluster, 1, 1, SHARED), 11);
    }
}

// The order of the refusals.

/// 1 to 5 come before the wire is looked at.
#[test]
fn earlier_causes_decide() {
    let mut cluster = with_wire(&[release_of(ASKED)]);
    let mut call = |lock, machine, task, mode| {
        answer(cluster.acquire(LockId(lock), MachineId(machine), TaskId(task), mode))
    };
    assert_eq!([call(8, 1, 1, 3), call(0, 4, 1, 3)], [1, 2]);
    assert_eq!([call(0, 1, 4, 3), call(0, 1, 1, 1)], [3, 4]);
    assert_eq!([call(0, 1, 1, 2), call(0, 1, 1, 3)], [6, 6]);
    for mode in [S, X] {
        for status in [ClientStatus::Waiting(mode), ClientStatus::Holding(mode)] {
            cluster.locks[0].clients[ASKED.index()] = status;
            assert_eq!(acquire(&mut cluster, 1, 1, SHARED), 5);
        }
    }
    cluster.locks[7].stale_slot = true;
    assert_eq!(acquire(&mut cluster, 1, 1, SHARED), 11);
}

/// A full wire and a full queue are refused only where no packet names the client.
#[test]
fn refusals_9_and_10_come_behind_it() {
    let mut cluster = with_wire(&others(49));
    assert_eq!(acquire(&mut cluster, 1, 1, SHARED), 10);
    cluster.locks[0].agents[1] = Some(agent_with_all());
    assert_eq!(acquire(&mut cluster, 1, 1, EXCLUSIVE), 9);
    cluster.locks[0].wire[32] = release_of(ASKED);
    assert_eq!(acquire(&mut cluster, 1, 1, EXCLUSIVE), 6);
    assert_eq!(acquire(&mut cluster, 1, 1, SHARED), 6);
    cluster.locks[0].agents[1] = None;
    assert_eq!(acquire(&mut cluster, 1, 1, SHARED), 6);
}

/// With a shared agent at home nothing is sent, so that a full wire is no hindrance; a packet of the client is.
#[test]
fn client_that_would_join_is_refused_too() {
    let mut cluster = with_wire(&others(49));
    cluster.locks[0].agents[1] = Some(Agent::new(S));
    let mut named = cluster.clone();
    accepted(&[acquire(&mut cluster, 1, 1, SHARED)]);
    assert_eq!(status(&cluster, 1, 1), ClientStatus::Holding(S));
    named.locks[0].wire[32] = release_of(ASKED);
    assert_first(&named, ASKED.0, Some(32));
}

/// The answer of an acquire of a well-formed state, as far as refusal 6 goes.
fn assert_refused_if_named(cluster: &Cluster, lock: u8, number: u8, is_named: bool) {
    let idle = cluster.locks[usize::from(lock)].clients[usize::from(number)] == ClientStatus::Idle;
    let (machine, task) = (MachineId(number / 4), TaskId(number % 4));
    let outcome = cluster.clone().acquire(LockId(lock), machine, task, SHARED);
    assert_eq!(answer(outcome) == 6, idle && is_named);
}

/// All clients of the drawn lock, in malformed states too.
#[test]
fn search_and_list_agree_on_hand_made_states() {
    let (mut several, mut behind, mut overlong) = (0, 0, 0);
    for seed in 1..=1_000 {
        let cluster = hand_made_cluster(seed, &mut Generator::new(seed));
        let well_formed = cluster.is_well_formed();
        let lock = (seed % 8) as u8;
        let state = &cluster.locks[usize::from(lock)];
        overlong += u64::from(state.wire.len() > 49);
        for number in 0..16 {
            let all = all_naming(state, ClientId(number));
            assert_eq!(state.first_naming(ClientId(number)), all.first().copied());
            several += u64::from(all.len() > 1);
            behind += u64::from(all.first() > Some(&0));
            if well_formed {
                assert_refused_if_named(&cluster, lock, number, !all.is_empty());
            }
        }
    }
    assert!(several > 1_000 && behind > 1_000 && overlong > 20);
}

// The test of refusal 6.

fn noted(cluster: &Cluster, number: u8) -> StillNamed {
    let (machine, task) = (MachineId(number / 4), TaskId(number % 4));
    StillNamed::of_acquire(cluster, LOCK, machine, task).expect("all is in range")
}

const NAMED: Outcome = Err(Refusal::ClientOnWire);
/// The outcomes that come only after refusal 6: 0, 9 and 10.
const LATER: [(Outcome, u8); 3] = [
    (Ok(()), 0),
    (Err(Refusal::CannotBePlaced), 9),
    (Err(Refusal::WireFull), 10),
];

#[test]
fn test_notes_all_packets_and_what_the_search_gives() {
    let figures = |cluster: &Cluster, number| {
        let noted = noted(cluster, number);
        (noted.packets(), noted.lowest(), noted.found)
    };
    assert_eq!(figures(&d6(), 4), (2, Some(0), Some(0)));
    assert_eq!(figures(&d6(), 0), (0, None, None));
    assert_eq!(figures(&d13(), 0), (2, Some(1), Some(1)));
    assert_eq!(figures(&d13(), 15), (2, Some(16), Some(16)));
    let free = Packet::with_agent(Message::Free, Address::Decider, agent_with_all());
    assert_eq!(figures(&with_wire(&[free]), 0), (0, None, None));
    for packet in packets_of(ASKED) {
        let cluster = with_wire(&[release_of(OTHER), packet.clone(), release_of(OTHER), packet]);
        assert_eq!(figures(&cluster, ASKED.0), (2, Some(1), Some(1)));
        assert_eq!(figures(&cluster, OTHER.0), (2, Some(0), Some(0)));
        assert_eq!(figures(&cluster, 0), (0, None, None));
    }
}

#[test]
fn test_is_of_acquires_in_range() {
    let noted = |lock, machine, task| {
        let (lock, machine, task) = (LockId(lock), MachineId(machine), TaskId(task));
        StillNamed::of_acquire(&d13(), lock, machine, task).is_some()
    };
    assert_eq!([noted(0, 0, 0), noted(7, 3, 3)], [true; 2]);
    assert_eq!([noted(8, 3, 3), noted(7, 4, 3), noted(7, 3, 4)], [false; 3]);
}

/// Refused or accepted, an acquire is tested; a release and a delivery are not.
#[test]
fn packets_stay_noted_whatever_the_answer_is() {
    let call = Call {
        kind: ACQUIRE,
        lock: LOCK,
        machine: MachineId(1),
        task: TaskId(0),
        mode: SHARED,
        index: 0,
    };
    for outcome in [NAMED].into_iter().chain(LATER.map(|(outcome, _)| outcome)) {
        let incoming = call.incoming(&d6()).if_accepted(&outcome);
        assert_eq!(incoming.still_named, Some(noted(&d6(), 4)));
    }
    for kind in [RELEASE, DELIVER] {
        let incoming = Call { kind, ..call }.incoming(&d6());
        assert_eq!(incoming.still_named, None);
    }
}

/// Asserts what the test says of an answer, with what the search gave.
#[track_caller]
fn says(cluster: &Cluster, number: u8, found: Option<usize>, outcome: Outcome, expected: &str) {
    let mut noted = noted(cluster, number);
    noted.found = found;
    let said = noted.check(&outcome).err();
    let expected = Some(expected).filter(|words| !words.is_empty());
    assert_eq!(said.as_deref(), expected);
}

#[test]
fn test_knows_refusal_6() {
    says(&d6(), 4, Some(0), NAMED, "");
    says(&d13(), 15, Some(16), NAMED, "");
    let words = "the search for client 4 gives index 1, not index 0";
    says(&d6(), 4, Some(1), NAMED, words);
    let words = "the search for client 4 gives none, not index 0";
    says(&d6(), 4, None, NAMED, words);
    for (found, words) in [
        (32, "the search for client 15 gives index 32, not index 16"),
        (15, "the search for client 15 gives index 15, not index 16"),
        (17, "the search for client 15 gives index 17, not index 16"),
    ] {
        says(&d13(), 15, Some(found), NAMED, words);
    }
    let words = "acquire is answered 6, but no packet names client 3";
    says(&d6(), 3, Some(0), NAMED, words);
    says(&d6(), 3, None, NAMED, words);
}

#[test]
fn test_knows_the_answers_behind_it() {
    let one = with_wire(&[release_of(OTHER), release_of(ASKED)]);
    for (outcome, number) in LATER {
        says(&d6(), 3, None, outcome, "");
        let words = "the search for client 3 gives index 0, not none";
        says(&d6(), 3, Some(0), outcome, words);
        let words = format!("acquire is answered {number}, with 2 packets of client 4");
        says(&d6(), 4, Some(0), outcome, &words);
        says(&d6(), 4, None, outcome, &words);
        let words = format!("acquire is answered {number}, with 1 packet of client 5");
        says(&one, 5, Some(1), outcome, &words);
        says(&one, 5, None, outcome, &words);
    }
}

#[test]
fn test_says_nothing_of_earlier_causes() {
    for refusal in [
        Refusal::Malformed,
        Refusal::LockOutOfRange,
        Refusal::MachineOutOfRange,
        Refusal::TaskOutOfRange,
        Refusal::ModeInvalid,
        Refusal::ClientNotIdle,
    ] {
        for found in [None, Some(0), Some(1)] {
            says(&d6(), 4, found, Err(refusal), "");
            says(&d6(), 3, found, Err(refusal), "");
        }
    }
}

/// Only refusals 6 that pass the test are counted.
#[test]
fn refusals_6_are_tallied() {
    let mut tally = Tally::default();
    let mut test = |cluster: &Cluster, number, outcome: Outcome| {
        let tested = tally.test_still_named(Some(noted(cluster, number)), &outcome);
        let figures = [tally.still_named, tally.named_twice, tally.named_behind];
        (tested.is_ok(), figures)
    };
    let first = with_wire(&[release_of(ASKED), release_of(OTHER)]);
    assert_eq!(test(&first, ASKED.0, NAMED), (true, [1, 0, 0]));
    assert_eq!(test(&first, OTHER.0, NAMED), (true, [2, 0, 1]));
    assert_eq!(test(&d6(), 4, NAMED), (true, [3, 1, 1]));
    assert_eq!(test(&d13(), 15, NAMED), (true, [4, 2, 2]));
    assert_eq!(test(&d6(), 3, NAMED), (false, [4, 2, 2]));
    for (outcome, _) in LATER {
        assert_eq!(test(&d6(), 3, outcome), (true, [4, 2, 2]));
        assert_eq!(test(&d6(), 4, outcome), (false, [4, 2, 2]));
    }
    assert_eq!(tally.test_still_named(None, &NAMED), Ok(()));
    let line = "still named 4 twice 2 behind 2";
    assert_eq!(tally.still_named_line(), line);
}

// The random runs.

/// Acquires that were refused with 6, those where several packets named the client, and those where none at index 0 did.
type Met = [u64; 3];
/// Steps with an argument out of range, those where no packet names the client, and those where one does.
type Searches = [u64; 3];

fn counted(tally: &Tally) -> Met {
    [tally.still_named, tally.named_twice, tally.named_behind]
}

/// What a refused acquire is, counted apart from the program; it has left the state.
fn met_by_refusal(state: &LockState, machine: MachineId, task: TaskId) -> Met {
    let all = all_naming(state, client(machine.0, task.0));
    [1, u64::from(all.len() > 1), u64::from(!all.contains(&0))]
}

fn add(sum: &mut [u64; 3], more: [u64; 3]) {
    for (sum, more) in sum.iter_mut().zip(more) {
        *sum += more;
    }
}

/// Carries out a run once more: what its acquires meet, and what its lines say of the searches.
fn carry_out(
    run: RunSeed,
    seed: u64,
    profile: Profile,
    generator: Generator,
    cluster: Cluster,
) -> (Met, Searches) {
    let (mut generator, mut cluster) = (generator, cluster);
    let (lines, tally) = lines_of(run, seed);
    let mut lines = lines.iter();
    let (mut met, mut searches) = ([0; 3], [0; 3]);
    for _ in 0..profile.steps {
        let outputs = generator.eight();
        let call = profile.choose_call(seed, &outputs, &cluster);
        if outputs[0].is_multiple_of(64) {
            let line = lines.next().expect("a line of the drain");
            assert!(!line.contains("named"), "{line}");
            if seed / 16 % 2 == 1 {
                let _ = cluster.drain(call.lock);
            }
        }
        let answer = answer_number(&call.perform(&mut cluster));
        if call.kind == ACQUIRE && answer == 6 {
            let state = &cluster.locks[call.lock.index()];
            add(&mut met, met_by_refusal(state, call.machine, call.task));
        }
        let numbers = named_numbers(&cluster, &call);
        searches[numbers.len()] += 1;
        assert_tail(lines.next().expect("a line"), &numbers);
    }
    assert_eq!(lines.next(), None);
    assert_eq!(counted(&tally), met, "seed {seed}");
    (met, searches)
}

/// Asserts what stands behind the reason.
#[track_caller]
fn assert_tail(line: &str, numbers: &[u8]) {
    let (head, tail) = line.split_once(" named").expect("a tail");
    let words: String = numbers.iter().map(|number| format!(" {number}")).collect();
    assert!(head.contains(" reason ") && tail == words, "{line}");
}

/// Asserts that some acquires were of a client with one packet, some of one with several, and some of one behind another.
#[track_caller]
fn assert_all_met(met: Met) {
    let [refused, twice, behind] = met;
    assert!(refused > twice && twice > 0 && behind > 0, "{met:?}");
}

/// All thirteen profiles, with drains that are kept and drains that are not, and both preferences.
#[test]
fn every_acquire_of_a_run_is_tested_and_every_search_is_in_a_line() {
    let (mut met, mut searches) = ([0; 3], [0; 3]);
    for seed in 1..=36 {
        let (profile, generator) = (Profile::of_seed(seed), Generator::new(seed));
        let found = carry_out(random_run, seed, profile, generator, run_cluster(seed));
        add(&mut met, found.0);
        add(&mut searches, found.1);
    }
    assert_all_met(met);
    assert!(searches.iter().all(|&times| times > 0), "{searches:?}");
}

/// The wires of malformed states are searched too, those that claim more than 49 packets among them.
#[test]
fn every_acquire_of_a_hand_made_state_is_tested_and_every_search_is_in_a_line() {
    let (mut met, mut searches, mut overlong) = ([0; 3], [0; 3], [0; 3]);
    for seed in 1..=1_000 {
        let mut generator = Generator::new(seed);
        let cluster = hand_made_cluster(seed, &mut generator);
        let claims_more = cluster.locks.iter().any(|lock| lock.wire.len() > 49);
        let found = carry_out(random_state, seed, HAND_MADE, generator, cluster);
        add(&mut met, found.0);
        let of_such = if claims_more {
            &mut overlong
        } else {
            &mut searches
        };
        add(of_such, found.1);
    }
    assert_all_met(met);
    assert!(searches.iter().all(|&times| times > 0), "{searches:?}");
    assert!(overlong.iter().all(|&times| times > 0), "{overlong:?}");
}

#[test]
fn every_acquire_of_a_transcript_is_tested() {
    let mut met = [0; 3];
    for bytes in (1..=48).map(transcript_bytes) {
        let mut cluster = Cluster::new();
        // A transcript that is too long is not run.
        let runs = bytes.len() <= 65_535;
        for record in Records::new(&bytes).map_while(Result::ok).filter(|_| runs) {
            let answer = answer_number(&record.run(&mut cluster));
            if let (Record::Acquire(lock, machine, task, _), 6) = (record, answer) {
                let state = &cluster.locks[lock.index()];
                add(&mut met, met_by_refusal(state, machine, task));
            }
        }
    }
    assert_all_met(met);
    assert_eq!(counted(&tally_of(random_transcript, 1..=48)), met);
}

/// How often the acquires of a part were answered 6, by the line of its answers.
fn sixes<'a>(text: &'a str, part: &str) -> &'a str {
    let head = format!("{part} acquire [");
    let answers = text.lines().find_map(|line| line.strip_prefix(&head));
    let sixes = answers.and_then(|answers| answers.split(", ").nth(6));
    sixes.expect("a line of the answers")
}

/// A line for each part.
#[test]
fn program_counts_refusals_6() {
    let text = written_by(&["counts"]);
    let mut lines = text.lines().filter(|line| line.contains(" still named "));
    for part in ["runs", "states", "transcripts"] {
        let line = lines.next().expect("a line for the part");
        let words: Vec<&str> = line.split(' ').collect();
        let [name, "still", "named", named, "twice", twice, "behind", behind] = words[..] else {
            panic!("{line}");
        };
        assert_eq!((name, named), (part, sixes(&text, part)));
        assert!(twice != "0" && behind != "0", "{line}");
    }
    assert_eq!(lines.next(), None);
}
