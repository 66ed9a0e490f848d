//! What is counted in a lock's state, and what holds of it in every run (document 02, §1).

mod common;

use common::*;
use reference::counts::Counts;
use reference::generator::Generator;
use reference::model::{
    Address, Agent, ClientId, Cluster, LockState, MachineId, Message, Mode, Owner, Packet,
};
use reference::random_calls::HAND_MADE;
use reference::random_runs::{random_run, Run};
use reference::random_states::random_state;
use reference::random_transcripts::random_transcript;
use reference::report::Report;

/// Agents, marked ACQUIREs, the decider's incarnation, the agent's, packets.
type Figures = (usize, usize, u8, Option<u8>, usize);

fn figures(cluster: &Cluster) -> Figures {
    let state = lock(cluster);
    let Counts { agents, marked } = Counts::of(state);
    let carried = state.wire.iter().filter_map(|packet| packet.agent.as_ref());
    let agent = state.agents.iter().flatten().chain(carried).next();
    let incarnation = agent.map(|agent| agent.incarnation);
    let (decider, packets) = (state.decider.incarnation, state.wire.len());
    (agents, marked, decider, incarnation, packets)
}

fn assert_figures(cluster: &Cluster, expected: Figures) {
    assert_eq!(figures(cluster), expected);
    assert_eq!(lock(cluster).check_counts(), Ok(()));
}

#[test]
fn fresh_lock_has_nothing_to_count() {
    assert_figures(&Cluster::new(), (0, 0, 0, None, 0));
}

/// The ACQUIRE alone makes no agent; the decider makes it inside the GRANT.
#[test]
fn first_agent_begins_in_a_packet() {
    let mut cluster = Cluster::new();
    accepted(&[acquire(&mut cluster, 0, 0, SHARED)]);
    assert_figures(&cluster, (0, 0, 0, None, 1));
    assert_figures(&d1(), (1, 0, 0, Some(0), 1));
}

/// On the wire are the GRANT and the marked ACQUIRE, which the agent on machine 0 has missed.
#[test]
fn d2_one_mark_is_under_way() {
    assert_figures(&d2(), (1, 1, 1, Some(0), 2));
}

/// The FREE is the third packet and has the agent, on its way out and on its way back.
#[test]
fn d3_agent_is_counted_in_its_packet() {
    let mut sent = d2();
    accepted(&[release(&mut sent, 0, 0)]);
    assert_figures(&sent, (1, 1, 1, Some(0), 3));
    assert_figures(&d3(), (1, 1, 1, Some(0), 3));
}

/// The agent is on machine 0 again, the FREE is gone, the mark is still under way.
#[test]
fn d4_restored_agent_is_still_one_behind() {
    assert_figures(&d4(), (1, 1, 1, Some(0), 2));
}

/// Only the GRANT for 1/0 is left on the wire.
#[test]
fn d5_agent_has_caught_up() {
    assert_figures(&d5(), (1, 0, 1, Some(1), 1));
}

/// The marked ACQUIRE stayed where it was, with the RELEASE behind it.
#[test]
fn d6_returning_release_leaves_the_counts() {
    assert_figures(&d6(), (1, 1, 1, Some(0), 2));
}

/// Sixteen marked ACQUIREs, sixteen RELEASEs, and the FREE that left with incarnation 0.
#[test]
fn d13_every_client_has_two_packets() {
    let cluster = d13();
    assert_figures(&cluster, (1, 16, 16, Some(0), 33));
    let naming = |number| {
        let packets = lock(&cluster).wire.iter();
        let named = packets.filter(|packet| packet.message.client() == Some(ClientId(number)));
        named.count()
    };
    assert!((0..16).all(|number| naming(number) == 2));
}

/// A lock with an owner, and one agent, on machine 0, that has missed nothing.
fn owned(mode: Mode) -> LockState {
    let mut state = LockState::default();
    let machine = MachineId(0);
    state.decider.owner = Some(Owner { mode, machine });
    state.agents[0] = Some(Agent::new(mode));
    assert_eq!(state.check_counts(), Ok(()));
    state
}

fn marked(number: u8) -> Packet {
    plain(request(ClientId(number), Mode::Shared, true), to(0))
}

fn release_of(number: u8) -> Packet {
    let client = ClientId(number);
    plain(Message::Release { client }, Address::Decider)
}

/// Asserts what the test of a state says.
fn says(state: &LockState, expected: &str) {
    assert_eq!(state.check_counts(), Err(String::from(expected)));
}

#[test]
fn lock_that_is_not_free_has_one_agent() {
    for mode in [Mode::Exclusive, Mode::Shared] {
        let mut state = owned(mode);
        state.agents[0] = None;
        says(&state, "0 agents at a lock that is not free");
        let message = grant(ClientId(0), mode);
        let packet = Packet::with_agent(message, to(0), Agent::new(mode));
        state.wire = vec![packet];
        assert_eq!(state.check_counts(), Ok(()));
        state.agents[3] = Some(Agent::new(mode));
        says(&state, "2 agents at a lock that is not free");
        state.wire.clear();
        state.agents[0] = Some(Agent::new(mode));
        says(&state, "2 agents at a lock that is not free");
    }
}

#[test]
fn free_lock_has_no_agent() {
    let mut state = LockState::default();
    state.agents[2] = Some(Agent::new(Mode::Shared));
    says(&state, "1 agent at a free lock");
    state.agents[2] = None;
    let agent = Agent::new(Mode::Shared);
    state.wire = vec![Packet::with_agent(Message::Free, Address::Decider, agent)];
    says(&state, "1 agent at a free lock");
}

#[test]
fn shared_agent_is_behind_by_the_marks() {
    let mut state = owned(Mode::Shared);
    state.decider.incarnation = 1;
    says(
        &state,
        "the decider's incarnation 1 less the agent's 0 is 1, with 0 marked ACQUIREs",
    );
    state.wire = vec![marked(4)];
    assert_eq!(state.check_counts(), Ok(()));
    state.wire.push(marked(5));
    says(
        &state,
        "the decider's incarnation 1 less the agent's 0 is 1, with 2 marked ACQUIREs",
    );
    state.decider.incarnation = 0;
    state.wire = vec![marked(4)];
    says(
        &state,
        "the decider's incarnation 0 less the agent's 0 is 0, with 1 marked ACQUIRE",
    );
}

/// An agent in a packet is compared as well, and an agent ahead is 255 behind.
#[test]
fn carried_agent_is_behind_by_the_marks() {
    let mut state = owned(Mode::Shared);
    let mut agent = Agent::new(Mode::Shared);
    agent.incarnation = 1;
    state.agents[0] = None;
    state.wire = vec![Packet::with_agent(Message::Free, Address::Decider, agent)];
    says(
        &state,
        "the decider's incarnation 0 less the agent's 1 is 255, with 0 marked ACQUIREs",
    );
    state.decider.incarnation = 1;
    assert_eq!(state.check_counts(), Ok(()));
}

#[test]
fn marks_are_counted_past_255() {
    let mut state = owned(Mode::Shared);
    let mut agent = Agent::new(Mode::Shared);
    agent.incarnation = 255;
    state.agents[0] = Some(agent);
    state.decider.incarnation = 1;
    state.wire = vec![marked(4), marked(5)];
    assert_eq!(state.check_counts(), Ok(()));
    let _ = state.wire.pop();
    says(
        &state,
        "the decider's incarnation 1 less the agent's 255 is 2, with 1 marked ACQUIRE",
    );
}

/// 0/0 stays while 1/0 comes and goes 255 times; the next grant brings the decider to 0 again.
#[test]
fn marks_are_counted_past_255_in_a_run() {
    let mut cluster = d1();
    accepted(&[deliver(&mut cluster, 0)]);
    for _ in 0..255 {
        accepted(&[
            acquire(&mut cluster, 1, 0, SHARED),
            deliver(&mut cluster, 0),
            deliver(&mut cluster, 0),
            deliver(&mut cluster, 0),
            release(&mut cluster, 1, 0),
            deliver(&mut cluster, 0),
            deliver(&mut cluster, 0),
        ]);
    }
    assert_figures(&cluster, (1, 0, 255, Some(255), 0));
    accepted(&[
        acquire(&mut cluster, 1, 0, SHARED),
        deliver(&mut cluster, 0),
    ]);
    assert_figures(&cluster, (1, 1, 0, Some(255), 2));
    accepted(&[release(&mut cluster, 0, 0), deliver(&mut cluster, 2)]);
    assert_figures(&cluster, (1, 1, 0, Some(255), 3));
    assert!(lock(&cluster).wire[2].rejected);
}

/// The incarnations of an exclusive lock are not compared, those of a free one cannot be.
#[test]
fn only_a_shared_lock_has_marks() {
    let mut exclusive = owned(Mode::Exclusive);
    exclusive.decider.incarnation = 1;
    assert_eq!(exclusive.check_counts(), Ok(()));
    exclusive.wire = vec![marked(4)];
    says(&exclusive, "1 marked ACQUIRE at a lock that is not shared");
    let free = LockState {
        wire: vec![marked(4), marked(5)],
        ..LockState::default()
    };
    says(&free, "2 marked ACQUIREs at a lock that is not shared");
}

#[test]
fn client_is_named_three_times_at_most() {
    let unmarked = |number| plain(request(ClientId(number), Mode::Shared, false), to(0));
    let mut state = owned(Mode::Shared);
    state.wire = vec![unmarked(15), release_of(7), release_of(15)];
    assert_eq!(state.check_counts(), Ok(()));
    let granted = plain(grant(ClientId(15), Mode::Shared), to(3));
    state.wire.push(granted.clone());
    assert_eq!(state.check_counts(), Ok(()));
    state.wire.push(granted);
    says(&state, "4 packets name client 15");
}

/// A FREE brings an agent, so two are two agents; the second one here has lost its own.
#[test]
fn one_packet_at_most_is_a_free() {
    let mut state = owned(Mode::Shared);
    let agent = state.agents[0].take().expect("an agent on machine 0");
    let free = Packet::with_agent(Message::Free, Address::Decider, agent);
    state.wire = vec![free];
    assert_eq!(state.check_counts(), Ok(()));
    state.wire.push(plain(Message::Free, Address::Decider));
    says(&state, "2 packets are FREEs");
}

/// Three packets of sixteen clients and a FREE are 49; a 50th needs a client beyond the sixteen.
#[test]
fn wire_has_49_packets_at_most() {
    let mut state = owned(Mode::Shared);
    let agent = state.agents[0].take().expect("an agent on machine 0");
    let free = Packet::with_agent(Message::Free, Address::Decider, agent);
    let releases = (0..48).map(|number| release_of(number / 3));
    state.wire = releases.chain([free]).collect();
    assert_eq!(state.check_counts(), Ok(()));
    state.wire.push(release_of(16));
    says(&state, "50 packets on the wire");
}

/// With several things wrong the first in the order of the tests is said.
#[test]
fn tests_have_an_order() {
    let mut state = owned(Mode::Exclusive);
    state.agents[1] = Some(Agent::new(Mode::Exclusive));
    state.wire = vec![plain(Message::Free, Address::Decider); 2];
    state.wire.resize(36, marked(9));
    says(&state, "2 agents at a lock that is not free");
    state.agents[1] = None;
    says(&state, "34 marked ACQUIREs at a lock that is not shared");
    state.wire.truncate(2);
    state.wire.resize(36, release_of(9));
    says(&state, "34 packets name client 9");
    state.wire.truncate(5);
    says(&state, "2 packets are FREEs");
}

/// Asserts where and why the first drain stops the run.
fn assert_drain_stopped(state: &LockState, expected: &str) {
    let line = stopped(READERS, draining_seed(), state);
    let (place, words) = line.split_once(": ").expect("a place and words");
    assert!(place.starts_with("run ") && place.contains(" step 1 lock "));
    assert_eq!(words, expected);
}

#[test]
fn run_stops_at_a_broken_count() {
    let mut state = owned(Mode::Shared);
    state.agents[1] = Some(Agent::new(Mode::Shared));
    let line = stopped(READERS, 4, &state);
    let (place, words) = line.split_once(": ").expect("a place and words");
    assert_eq!(words, "2 agents at a lock that is not free");
    let words: Vec<&str> = place.split(' ').collect();
    // Seed 4 draws the locks 4 and 5; which is called first is left to the generator.
    assert!(matches!(
        words[..],
        ["run", "4", "step", "1", "lock", "4" | "5"]
    ));
}

/// Three requests of a client are not too many to count, but granting one makes four packets.
#[test]
fn run_stops_inside_a_drain() {
    let unmarked = plain(request(ClientId(4), Mode::Shared, false), Address::Decider);
    let mut state = owned(Mode::Shared);
    state.wire = vec![release_of(9), unmarked.clone(), unmarked.clone(), unmarked];
    assert_eq!(state.check_counts(), Ok(()));
    assert_drain_stopped(&state, "drain step 2: 4 packets name client 4");
}

/// Nothing is wrong to count in a GRANT whose client stands in the queue that it has to go back to, but it cannot be placed.
#[test]
fn run_stops_at_a_refusal_9() {
    let mut state = owned(Mode::Exclusive);
    let mut agent = state.agents[0].take().expect("an agent on machine 0");
    agent.queue = waiters(&[(4, Mode::Exclusive)]).into();
    state.wire = vec![Packet {
        rejected: true,
        ..Packet::with_agent(grant(ClientId(4), Mode::Exclusive), to(0), agent)
    }];
    assert_eq!(state.check_counts(), Ok(()));
    assert_drain_stopped(&state, "drain is answered 9");
    assert!(stopped(READERS, 4, &state).ends_with(": deliver is answered 9"));
}

/// On a full wire a shared grant has no room, though nothing is wrong to count.
#[test]
fn run_stops_at_a_refusal_10() {
    let unmarked = |number| {
        plain(
            request(ClientId(number), Mode::Shared, false),
            Address::Decider,
        )
    };
    let mut state = owned(Mode::Shared);
    let agent = state.agents[0].take().expect("an agent on machine 0");
    let free = Packet::with_agent(Message::Free, Address::Decider, agent);
    let releases = (0..32).map(|number| release_of(number / 2));
    let packets = (0..16).map(unmarked).chain(releases);
    state.wire = packets.chain([free]).collect();
    assert_eq!(state.check_counts(), Ok(()));
    assert_drain_stopped(&state, "drain is answered 10");
}

#[test]
fn hand_made_run_is_not_tested() {
    let mut cluster = Cluster::new();
    cluster.locks[4].agents[1] = Some(Agent::new(Mode::Shared));
    let mut written = Vec::new();
    let mut report = Report::new(&mut written, false);
    let run = Run::new("state", 4, HAND_MADE, Generator::new(4), cluster);
    run.finish(&mut report).expect("the run goes to its end");
    assert_eq!(report.tally.tested_states, 0);
}

/// Each call of a lock that exists, answered 1 otherwise, and each step of a drain.
#[test]
fn every_state_of_a_run_is_tested() {
    let tally = tally_of(random_run, 1..=13);
    let calls = [1, 2, 3, 6, 7].map(|kind: usize| tally.answers[kind]);
    let on_a_lock = |answers: &[u64; 19]| answers.iter().sum::<u64>() - answers[1];
    let expected = calls.iter().map(on_a_lock).sum::<u64>() + tally.drain_steps;
    assert_eq!(tally.tested_states, expected);
    assert!(tally.most_packets >= tally.longest_wire);
}

#[test]
fn transcripts_are_tested_and_states_are_not() {
    let tally = tally_of(random_transcript, 4..=6);
    assert!(tally.tested_states > 0);
    let tally = tally_of(random_state, 1..=9);
    assert_eq!(tally.tested_states, 0);
}
