//! How a GRANT that is not rejected installs an agent (document 02, §3), worked out by hand, and the test of it.

mod common;

use common::*;
use reference::generator::Generator;
use reference::installations::Installation;
use reference::model::{
    Address, Agent, ClientId, ClientStatus, Cluster, LockId, LockState, Message, Mode, Packet,
};
use reference::random_calls::{Call, Profile, DELIVER, HAND_MADE};
use reference::random_runs::random_run;
use reference::random_states::{hand_made_cluster, random_state};
use reference::random_transcripts::{random_transcript, transcript_bytes};
use reference::report::Tally;
use reference::transcript::Records;
use reference::{Handling, Outcome, DRAIN_LIMIT};

const X: Mode = Mode::Exclusive;
const S: Mode = Mode::Shared;

/// The incarnation that the agent comes with, and goes on with.
const INCARNATION: u8 = 200;
/// A client that the agent lists when it comes.
const LISTED: u8 = 7;

fn release_of(number: u8) -> Packet {
    let client = ClientId(number);
    plain(Message::Release { client }, Address::Decider)
}

/// A GRANT for 0/0 brings machine 0 an agent, whose mode was the other one; a RELEASE is behind it on the wire.
fn under_way(mode: Mode, queue: &[(u8, Mode)]) -> LockState {
    let mut agent = Agent::new(if mode == S { X } else { S });
    agent.holders.insert(ClientId(LISTED));
    agent.incarnation = INCARNATION;
    agent.queue = waiters(queue).into();
    let packet = Packet::with_agent(grant(ClientId(0), mode), to(0), agent);
    let mut state = LockState {
        wire: vec![packet, release_of(15)],
        ..LockState::default()
    };
    for (number, mode) in [&[(0, mode)], queue].concat() {
        state.clients[usize::from(number)] = ClientStatus::Waiting(mode);
    }
    state
}

/// The state after the oldest packet is delivered.
fn delivered(state: &LockState) -> LockState {
    let mut cluster = Cluster::new();
    cluster.locks[0] = state.clone();
    accepted(&[deliver(&mut cluster, 0)]);
    cluster.locks[0].clone()
}

/// Asserts who leaves a queue, by number, who stays, and whether the test says that a reader was kept.
#[track_caller]
fn assert_installed(
    mode: Mode,
    queue: &[(u8, Mode)],
    left: &[u8],
    stays: &[(u8, Mode)],
    kept: bool,
) {
    let before = under_way(mode, queue);
    let after = delivered(&before);
    let agent = after.agents[0].as_ref().expect("an agent on machine 0");
    assert_eq!((agent.mode, agent.incarnation), (mode, INCARNATION));
    assert_eq!(agent.queue, waiters(stays));
    let mut listed = [&[0, LISTED], left].concat();
    listed.sort_unstable();
    listed.dedup();
    assert_eq!(holders(agent), listed);
    let granted = |&number: &u8| plain(grant(ClientId(number), S), Address::Decider);
    let wire: Vec<Packet> = [release_of(15)]
        .into_iter()
        .chain(left.iter().map(granted))
        .collect();
    assert_eq!(after.wire, wire);
    // Only the GRANT's own client is shown its grant; those who left still wait for theirs.
    let mut clients = before.clients;
    clients[0] = ClientStatus::Holding(mode);
    assert_eq!(after.clients, clients);
    let installation = Installation::at(&before, 0).expect("an installation");
    assert_eq!(installation.check(&after), Ok(kept));
}

#[test]
fn without_a_writer_all_leave() {
    assert_installed(S, &[], &[], &[], false);
    assert_installed(S, &[(8, S), (4, S)], &[8, 4], &[], false);
}

#[test]
fn behind_a_writer_that_is_first_nobody_leaves() {
    let queue = [(8, X), (4, S), (12, S)];
    assert_installed(S, &queue, &[], &queue, true);
    assert_installed(S, &[(8, X)], &[], &[(8, X)], false);
    assert_installed(S, &[(8, X), (4, X)], &[], &[(8, X), (4, X)], false);
}

#[test]
fn writer_in_the_middle_parts_the_queue() {
    let queue = [(8, S), (4, S), (5, X), (12, S), (9, X), (13, S)];
    let stays = [(5, X), (12, S), (9, X), (13, S)];
    assert_installed(S, &queue, &[8, 4], &stays, true);
}

#[test]
fn ahead_of_a_writer_that_is_last_all_leave() {
    let queue = [(8, S), (12, S), (4, S), (5, X)];
    assert_installed(S, &queue, &[8, 12, 4], &[(5, X)], false);
}

/// The last round has no writer.
#[test]
fn writer_at_each_place_of_a_long_queue() {
    let order: Vec<u8> = (1..16).map(|i| 5 * i % 16).collect();
    for writer in 0..=order.len() {
        let mode = |place| if place == writer { X } else { S };
        let places = order.iter().enumerate();
        let queue: Vec<(u8, Mode)> = places.map(|(place, &c)| (c, mode(place))).collect();
        let readers_behind = writer + 1 < order.len();
        let (left, stays) = (&order[..writer], &queue[writer..]);
        assert_installed(S, &queue, left, stays, readers_behind);
    }
}

#[test]
fn from_the_queue_of_an_exclusive_agent_nobody_leaves() {
    for queue in [[(8, S), (4, X), (12, S)], [(8, S), (4, S), (12, S)]] {
        assert_installed(X, &queue, &[], &queue, false);
    }
}

/// The agent stays as it came, with the client in front; nobody is shown or sent anything.
#[test]
fn rejected_grant_lets_nobody_leave() {
    let queue = [(8, S), (4, X), (12, S)];
    for mode in [X, S] {
        let mut before = under_way(mode, &queue);
        before.wire[0].rejected = true;
        let carried = before.wire[0].agent.clone().expect("an agent");
        let queue = [&[(0, mode)], &queue[..]].concat();
        let expected = Agent {
            queue: waiters(&queue).into(),
            ..carried
        };
        let after = delivered(&before);
        assert_eq!(after.agents[0], Some(expected));
        assert_eq!(after.wire, [release_of(15)]);
        assert_eq!(after.clients, before.clients);
    }
}

#[test]
fn rejected_free_lets_nobody_leave() {
    let mut before = under_way(S, &[(8, S), (4, X)]);
    before.wire[0].message = Message::Free;
    before.wire[0].rejected = true;
    let after = delivered(&before);
    assert_eq!(after.agents[0], before.wire[0].agent);
    assert_eq!(after.wire, [release_of(15)]);
    assert_eq!(after.clients, before.clients);
}

/// 0/0 holds exclusively; 0/1, 1/0, 2/0, 3/0, 0/2, 1/1 and 3/1 are queued, the third and the sixth as writers.
fn seven_waiters() -> Cluster {
    let mut cluster = Cluster::new();
    accepted(&[
        acquire(&mut cluster, 0, 0, EXCLUSIVE),
        deliver(&mut cluster, 0),
        deliver(&mut cluster, 0),
    ]);
    let requests = [
        (0, 1, SHARED),
        (1, 0, SHARED),
        (2, 0, EXCLUSIVE),
        (3, 0, SHARED),
        (0, 2, SHARED),
        (1, 1, EXCLUSIVE),
        (3, 1, SHARED),
    ];
    for (machine, task, mode) in requests {
        accepted(&[acquire(&mut cluster, machine, task, mode)]);
        // From another machine the request goes over the decider.
        while !lock(&cluster).wire.is_empty() {
            accepted(&[deliver(&mut cluster, 0)]);
        }
    }
    cluster
}

/// With 0/1 only 1/0 gets in. Then 2/0 is served, 3/0 and with it 0/2, 1/1, and 3/1. The drain has two steps for each
/// GRANT (12), a release for each of the seven (7), two steps for each RELEASE of 1/0 and 0/2 (4), and the FREE.
#[test]
fn seven_waiters_are_served_in_turn() {
    let mut cluster = seven_waiters();
    accepted(&[
        release(&mut cluster, 0, 0),
        deliver(&mut cluster, 0),
        deliver(&mut cluster, 0),
    ]);
    assert_eq!(holders(agent(&cluster, 0)), [1, 4]);
    let stays = [(8, X), (12, S), (2, S), (5, X), (13, S)];
    assert_eq!(agent(&cluster, 0).queue, waiters(&stays));
    let expected = [plain(grant(ClientId(4), S), Address::Decider)];
    assert_eq!(lock(&cluster).wire, expected);
    let expected = drained(24, Handling::Taken);
    assert_eq!(cluster.clone().drain(LOCK), expected);
    let shown = shown_by_draining(&mut cluster);
    assert_eq!(shown, (vec![4, 8, 12, 2, 5, 13], 24));
    assert_eq!(cluster, Cluster::new());
}

/// From D12 the decider grants 2/1, and a releases: the GRANT for b is rejected. Back on a's machine the agent has b and
/// c in its queue as before, and they are served in turn once 2/1 has released.
#[test]
fn rejected_agent_keeps_the_reader_behind_the_writer() {
    let mut cluster = d12();
    accepted(&[
        acquire(&mut cluster, 2, 1, SHARED),
        deliver(&mut cluster, 0),
        release(&mut cluster, 1, 0),
        deliver(&mut cluster, 2),
    ]);
    assert!(lock(&cluster).wire[2].rejected);
    accepted(&[deliver(&mut cluster, 2)]);
    assert_eq!(holders(agent(&cluster, 1)), []);
    assert_eq!(agent(&cluster, 1).queue, waiters(&[(8, X), (12, S)]));
    let (reader, granted) = (client(2, 1), true);
    let expected = [
        plain(grant(reader, S), to(2)),
        plain(request(reader, S, granted), to(1)),
    ];
    assert_eq!(lock(&cluster).wire, expected);
    accepted(&[deliver(&mut cluster, 1), deliver(&mut cluster, 0)]);
    assert_eq!(holders(agent(&cluster, 1)), [9]);
    assert_eq!(agent(&cluster, 1).queue, waiters(&[(8, X), (12, S)]));
    assert_eq!(shown_by_draining(&mut cluster), (vec![8, 12], 10));
    assert_eq!(cluster, Cluster::new());
}

/// Document 02, §3, is about those in the queue: with the readers' preference who asks later for a shared lock still gets it at
/// once.
#[test]
fn later_readers_do_not_queue() {
    let mut cluster = d12();
    accepted(&[acquire(&mut cluster, 1, 1, SHARED)]);
    assert_eq!(status(&cluster, 1, 1), ClientStatus::Holding(S));
    accepted(&[
        acquire(&mut cluster, 2, 1, SHARED),
        deliver(&mut cluster, 0),
    ]);
    let first = plain(grant(client(2, 1), S), to(2));
    assert_eq!(lock(&cluster).wire[0], first);
    assert_eq!(holders(agent(&cluster, 1)), [4, 5]);
    assert_eq!(agent(&cluster, 1).queue, waiters(&[(8, X), (12, S)]));
}

/// The GRANT's mode counts, its machine and its place do not.
#[test]
fn installation_is_a_grant_with_agent_to_a_machine() {
    let state = under_way(S, &[(8, S)]);
    assert!(Installation::at(&state, 0).is_some());
    assert_eq!(Installation::at(&state, 1), None);
    assert_eq!(Installation::at(&state, 2), None);
    let mut later = state.clone();
    later.wire.swap(0, 1);
    later.wire[1].address = to(3);
    assert!(Installation::at(&later, 1).is_some());
    let changed = |change: fn(&mut Packet)| {
        let mut state = state.clone();
        change(&mut state.wire[0]);
        Installation::at(&state, 0)
    };
    assert_eq!(changed(|packet| packet.rejected = true), None);
    assert_eq!(changed(|packet| packet.address = Address::Decider), None);
    assert_eq!(changed(|packet| packet.agent = None), None);
    assert_eq!(changed(|packet| packet.message = Message::Free), None);
}

/// What came: two readers, a writer and a reader.
const QUEUE: [(u8, Mode); 4] = [(8, S), (4, S), (5, X), (12, S)];

/// The state after an installation on machine 0 that sent GRANTs for some and left others in the queue.
fn outcome_of(left: &[(u8, Mode)], stays: &[(u8, Mode)]) -> LockState {
    let mut agent = Agent::new(S);
    agent.queue = waiters(stays).into();
    let mut state = LockState::default();
    state.agents[0] = Some(agent);
    let granted = |&(number, mode)| plain(grant(ClientId(number), mode), Address::Decider);
    state.wire = vec![release_of(15)];
    state.wire.extend(left.iter().map(granted));
    state
}

/// Asserts what the test says of who left and who stays after a GRANT of this mode.
#[track_caller]
fn says(mode: Mode, left: &[(u8, Mode)], stays: &[(u8, Mode)], expected: Result<bool, &str>) {
    let installation = Installation::at(&under_way(mode, &QUEUE), 0).expect("an installation");
    let said = installation.check(&outcome_of(left, stays));
    assert_eq!(said, expected.map_err(String::from));
}

#[test]
fn test_of_an_installation_knows_the_rule() {
    says(S, &QUEUE[..2], &QUEUE[2..], Ok(true));
    says(X, &[], &QUEUE, Ok(false));
}

#[test]
fn nobody_leaves_past_another() {
    let left = [(8, S), (4, S), (12, S)];
    let words = "shared client 12 left the queue past exclusive client 5";
    says(S, &left, &[(5, X)], Err(words));
    let words = "shared client 4 left the queue past shared client 8";
    says(S, &[(4, S), (8, S)], &QUEUE[2..], Err(words));
    says(S, &[(4, S)], &[(8, S), (5, X), (12, S)], Err(words));
    let words = "shared client 13 left the queue past shared client 8";
    says(S, &[(13, S)], &QUEUE, Err(words));
}

#[test]
fn nobody_in_the_queue_changes_places() {
    let words = "shared client 12 passed exclusive client 5 in the queue";
    says(S, &QUEUE[..2], &[(12, S), (5, X)], Err(words));
    says(X, &QUEUE[..2], &[(12, S), (5, X)], Err(words));
    let words = "shared client 4 passed shared client 8 in the queue";
    says(X, &[], &[(4, S), (8, S), (5, X), (12, S)], Err(words));
}

#[test]
fn nobody_is_lost_or_added() {
    let words = "shared client 12 is neither granted nor in the queue";
    says(S, &QUEUE[..2], &QUEUE[2..3], Err(words));
    let words = "exclusive client 5 passed shared client 4 in the queue";
    says(S, &QUEUE[..1], &QUEUE[2..], Err(words));
    let words = "shared client 13 was not in the queue";
    let more = [(5, X), (12, S), (13, S)];
    says(S, &QUEUE[..2], &more, Err(words));
    // The client is granted and stays.
    let words = "shared client 4 passed exclusive client 5 in the queue";
    says(S, &QUEUE[..2], &QUEUE[1..], Err(words));
}

#[test]
fn no_writer_leaves() {
    let words = "exclusive client 5 left the queue";
    says(S, &QUEUE[..3], &QUEUE[3..], Err(words));
    says(S, &QUEUE, &[], Err(words));
}

#[test]
fn nobody_leaves_an_exclusive_agent() {
    let words = "shared client 8 left the queue of an exclusive agent";
    says(X, &QUEUE[..1], &QUEUE[1..], Err(words));
    says(X, &QUEUE[..2], &QUEUE[2..], Err(words));
}

#[test]
fn no_reader_stays_first() {
    let words = "shared client 4 stays first in the queue of a shared agent";
    says(S, &QUEUE[..1], &QUEUE[1..], Err(words));
    let words = "shared client 8 stays first in the queue of a shared agent";
    says(S, &[], &QUEUE, Err(words));
}

#[test]
fn installation_leaves_an_agent_and_sends_grants() {
    let installation = Installation::at(&under_way(S, &QUEUE), 0).expect("an installation");
    let right = outcome_of(&QUEUE[..2], &QUEUE[2..]);
    let mut state = right.clone();
    state.agents.swap(0, 1);
    let expected = Err(String::from("no agent on machine 0"));
    assert_eq!(installation.check(&state), expected);
    let words = "a packet was sent that is no GRANT for a waiter";
    let says_so = |packet: Packet| {
        let mut state = right.clone();
        state.wire[2] = packet;
        assert_eq!(installation.check(&state), Err(String::from(words)));
    };
    says_so(release_of(4));
    says_so(plain(grant(ClientId(4), S), to(1)));
    let message = grant(ClientId(4), S);
    says_so(Packet::with_agent(message, Address::Decider, Agent::new(S)));
}

/// A failure is counted as tested, and a reader that stays with an exclusive agent as none that was kept.
#[test]
fn installations_are_tallied() {
    let mut tally = Tally::default();
    let mut test = |mode, left: &[(u8, Mode)], stays: &[(u8, Mode)]| {
        let installation = Installation::at(&under_way(mode, &QUEUE), 0);
        let tested = tally.test_installation(installation, Some(&outcome_of(left, stays)));
        let figures = (tally.tested_installations, tally.readers_kept);
        (tested.is_ok(), figures)
    };
    assert_eq!(test(S, &QUEUE[..2], &QUEUE[2..]), (true, (1, 1)));
    assert_eq!(test(X, &[], &QUEUE), (true, (2, 1)));
    assert_eq!(test(S, &[], &QUEUE), (false, (3, 1)));
    assert_eq!(tally.test_installation(None, None), Ok(()));
    assert_eq!(tally.tested_installations, 3);
}

/// The installations that were met, and those at which a reader was kept, counted apart from the program.
#[derive(Clone, Copy, Debug, Default, PartialEq, Eq)]
struct Met {
    installations: u64,
    kept: u64,
}

impl Met {
    fn of(tally: &Tally) -> Self {
        Met {
            installations: tally.tested_installations,
            kept: tally.readers_kept,
        }
    }

    fn plus(self, other: Met) -> Self {
        Met {
            installations: self.installations + other.installations,
            kept: self.kept + other.kept,
        }
    }

    /// Makes a delivery, and counts it if a machine got an agent with a GRANT that is not rejected.
    fn deliver(&mut self, cluster: &mut Cluster, lock: LockId, index: u8) -> Outcome {
        let state = cluster.locks.get(lock.index());
        let packet = state.and_then(|state| state.wire.get(usize::from(index)));
        let packet = packet.cloned();
        cluster.deliver(lock, index)?;
        if let Some(Packet {
            message: Message::Grant { mode, .. },
            address: Address::Machine(machine),
            rejected: false,
            agent: Some(_),
            ..
        }) = packet
        {
            let agent = &cluster.locks[lock.index()].agents[machine.index()];
            let queue = &agent.as_ref().expect("the agent is installed").queue;
            self.installations += 1;
            self.kept += u64::from(mode == S && queue.iter().any(|waiter| waiter.mode == S));
        }
        Ok(())
    }

    /// Makes the steps of a drain on a copy, up to the last one that is accepted.
    fn drain(&mut self, cluster: &Cluster, call: Call) {
        let mut cluster = cluster.clone();
        for _ in 0..DRAIN_LIMIT {
            match drain_step(&cluster, call) {
                Some(step) if self.perform(&mut cluster, step).is_ok() => (),
                _ => return,
            }
        }
    }

    fn perform(&mut self, cluster: &mut Cluster, call: Call) -> Outcome {
        match call.kind {
            DELIVER => self.deliver(cluster, call.lock, call.index),
            _ => call.perform(cluster).map(|_| ()),
        }
    }
}

/// Carries out a run once more: what its calls meet and what its drains meet.
fn met_by_run(seed: u64, profile: Profile, generator: Generator, cluster: Cluster) -> [Met; 2] {
    let (mut generator, mut cluster) = (generator, cluster);
    let [mut calls, mut drains] = [Met::default(); 2];
    for _ in 0..profile.steps {
        let outputs = generator.eight();
        let call = profile.choose_call(seed, &outputs, &cluster);
        if outputs[0].is_multiple_of(64) {
            drains.drain(&cluster, call);
            if seed / 16 % 2 == 1 {
                let _ = cluster.drain(call.lock);
            }
        }
        let _ = calls.perform(&mut cluster, call);
    }
    [calls, drains]
}

/// Carries out a transcript once more.
fn met_by_transcript(seed: u64) -> Met {
    let (bytes, mut cluster) = (transcript_bytes(seed), Cluster::new());
    let mut met = Met::default();
    // A transcript that is too long is not run.
    let runs = bytes.len() <= 65_535;
    for record in Records::new(&bytes).map_while(Result::ok).filter(|_| runs) {
        let _ = met.perform(&mut cluster, call_of(record));
    }
    met
}

/// Asserts that calls and drains both met readers that were kept, and that all of them were tested.
#[track_caller]
fn assert_all_tested(tally: &Tally, met: &[[Met; 2]]) {
    let sum = |part: usize| {
        met.iter()
            .fold(Met::default(), |sum, of| sum.plus(of[part]))
    };
    let [calls, drains] = [0, 1].map(sum);
    assert!(calls.kept > 0 && drains.kept > 0, "{calls:?} {drains:?}");
    assert_eq!(Met::of(tally), calls.plus(drains));
}

/// All thirteen profiles, with drains that are kept and drains that are not.
#[test]
fn every_installation_of_a_run_is_tested() {
    let met = |seed| {
        let (profile, generator) = (Profile::of_seed(seed), Generator::new(seed));
        met_by_run(seed, profile, generator, run_cluster(seed))
    };
    let met: Vec<[Met; 2]> = (1..=36).map(met).collect();
    assert_all_tested(&tally_of(random_run, 1..=36), &met);
}

/// The states themselves are not tested, their installations are.
#[test]
fn every_installation_of_a_hand_made_state_is_tested() {
    let met = |seed| {
        let mut generator = Generator::new(seed);
        let cluster = hand_made_cluster(seed, &mut generator);
        met_by_run(seed, HAND_MADE, generator, cluster)
    };
    let met: Vec<[Met; 2]> = (1..=1_000).map(met).collect();
    let tally = tally_of(random_state, 1..=1_000);
    assert_all_tested(&tally, &met);
    assert_eq!(tally.tested_states, 0);
}

#[test]
fn every_installation_of_a_transcript_is_tested() {
    let met = (1..=24).map(met_by_transcript);
    let met = met.fold(Met::default(), Met::plus);
    assert!(met.kept > 0, "{met:?}");
    assert_eq!(Met::of(&tally_of(random_transcript, 1..=24)), met);
}
