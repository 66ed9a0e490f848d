//! The history of waits and what a drain owes them (document 01, 'Runs, waits and holds'; document 02, §8).

mod common;

use common::*;
use reference::model::{
    Agent, ClientId, ClientStatus, Cluster, LockState, MachineId, Mode, Owner, Packet,
};
use reference::report::Tally;
use reference::transcript::Record;
use reference::waits::{Act, DrainedWaits, EndedWaits, Event, Waits};
use reference::{Drained, Handling, Refusal};

const X: Mode = Mode::Exclusive;
const S: Mode = Mode::Shared;

/// The client of 1/0.
const READER: ClientId = ClientId(4);

/// Makes a call on lock 0 and goes on with the history; the statuses and notes agree.
fn follow(cluster: &mut Cluster, waits: &mut Waits, record: Record) -> Option<Event> {
    let act = Act::of(&record, lock(cluster));
    let outcome = record.run(cluster);
    assert!(outcome.is_ok(), "{record:?}: {outcome:?}");
    let event = act.and_then(|act| waits.follow(act, lock(cluster)));
    assert_eq!(waits.check(lock(cluster)), Ok(()));
    event
}

/// Both ways to be shown a grant, a grant that is lost, one that comes too late, and one that nobody waits for.
#[test]
fn history_agrees_with_the_statuses() {
    let mut cluster = Cluster::new();
    let mut waits = Waits::default();
    let mut call = |record| follow(&mut cluster, &mut waits, record);
    let shown = |number| Some(Event::Shown(ClientId(number)));
    let gave_up = |number| Some(Event::GaveUp(ClientId(number)));
    assert_eq!(call(acquire_record(0, 0, SHARED)), None);
    assert_eq!(
        [call(deliver_record(0)), call(deliver_record(0))],
        [None, shown(0)]
    );
    // 0/1 joins at once; 1/0 asks, is granted, and its GRANT is lost; 2/0 too, but gives up before it comes.
    assert_eq!(call(acquire_record(0, 1, SHARED)), shown(1));
    assert_eq!(
        [call(acquire_record(1, 0, SHARED)), call(deliver_record(0))],
        [None; 2]
    );
    assert_eq!(
        [call(acquire_record(2, 0, SHARED)), call(deliver_record(2))],
        [None; 2]
    );
    assert_eq!(
        [call(lose_record(0)), call(give_up_record(2, 0))],
        [None, gave_up(8)]
    );
    // Now the wire has the marked ACQUIRE of 1/0, the GRANT and the marked ACQUIRE of 2/0, and its RELEASE.
    assert_eq!(
        [call(deliver_record(1)), call(give_up_record(1, 0))],
        [None, gave_up(4)]
    );
    assert_eq!(call(release_record(0, 0)), None);
    assert_eq!(cluster.locks[0].clients[1], ClientStatus::Holding(S));
}

/// Nobody is waiting for the GRANT of a client that gave up, so that its loss is not noted.
#[test]
fn loss_after_giving_up_is_not_noted() {
    let mut cluster = d2();
    let mut waits = Waits::of(lock(&cluster));
    for record in [give_up_record(1, 0), lose_record(0)] {
        let _ = follow(&mut cluster, &mut waits, record);
    }
    assert!(lock(&cluster).lost_grants.is_empty());
}

#[test]
fn acts_are_read_from_calls_and_packets() {
    let state = lock(&d2()).clone();
    let act = |record| Act::of(&record, &state);
    assert_eq!(
        act(acquire_record(3, 1, EXCLUSIVE)),
        Some(Act::Asks(ClientId(13), X))
    );
    assert_eq!(
        act(release_record(3, 1)),
        Some(Act::HandsBack(ClientId(13)))
    );
    assert_eq!(act(give_up_record(3, 1)), Some(Act::GivesUp(ClientId(13))));
    assert_eq!(act(deliver_record(0)), Some(Act::IsBrought(READER)));
    assert_eq!(act(lose_record(0)), Some(Act::Loses(READER)));
    // A marked ACQUIRE, no packet, and what is out of range.
    for record in [
        deliver_record(1),
        lose_record(1),
        deliver_record(2),
        acquire_record(0, 0, 1),
        acquire_record(255, 0, SHARED),
        release_record(0, 4),
        give_up_record(4, 0),
    ] {
        assert_eq!(act(record), None);
    }
}

/// Each falsified status or note is noticed, with the first client that has one.
#[test]
fn wrong_statuses_and_notes_are_noticed() {
    let cluster = d2();
    let waits = Waits::of(lock(&cluster));
    let expected = "Waiting { mode: Shared, lost: false }";
    let says = |state: &LockState, shown: &str| {
        let words = format!("client 4 is {shown} by the state, but {expected} by the calls");
        assert_eq!(waits.check(state), Err(words));
    };
    assert_eq!(waits.check(lock(&cluster)), Ok(()));
    for (status, shown) in [
        (ClientStatus::Idle, "Idle"),
        (ClientStatus::Holding(S), "Holding(Shared)"),
        (
            ClientStatus::Waiting(X),
            "Waiting { mode: Exclusive, lost: false }",
        ),
    ] {
        let mut state = lock(&cluster).clone();
        state.clients[4] = status;
        says(&state, shown);
    }
    let mut state = lock(&cluster).clone();
    state.lost_grants.insert(READER);
    says(&state, "Waiting { mode: Shared, lost: true }");
}

/// 0/0 holds; 1/0 has lost its GRANT, and 2/0 waits in the queue.
fn two_waits() -> Cluster {
    let mut cluster = d2();
    accepted(&[
        lose(&mut cluster, 0),
        deliver(&mut cluster, 0),
        acquire(&mut cluster, 2, 0, EXCLUSIVE),
        deliver(&mut cluster, 0),
        deliver(&mut cluster, 0),
    ]);
    cluster
}

/// What the test says of a drain in which this was met.
fn said(
    events: &[Event],
    outcome: Result<Drained, Refusal>,
    after: &Cluster,
) -> Result<EndedWaits, String> {
    let before = two_waits();
    let mut waits = DrainedWaits::begin(&Waits::of(lock(&before)));
    for &event in events {
        waits.meet(Some(event));
        waits.meet(None);
    }
    waits.check(LOCK, &outcome, &before, after)
}

fn shown(number: u8) -> Event {
    Event::Shown(ClientId(number))
}

fn gave_up(number: u8) -> Event {
    Event::GaveUp(ClientId(number))
}

/// The same of an accepted drain that left everything fresh.
fn said_of(events: &[Event]) -> Result<EndedWaits, String> {
    said(events, drained(9, Handling::Taken), &Cluster::new())
}

#[test]
fn drain_ends_each_wait_once() {
    let ended = |shown, gave_up| Ok(EndedWaits { shown, gave_up });
    assert_eq!(said_of(&[gave_up(4), shown(8)]), ended(1, 1));
    // A client with the note may be shown another grant, where there is one.
    assert_eq!(said_of(&[shown(4), shown(8)]), ended(2, 0));
}

/// Client 4 has the note, 8 waits without it, and nobody else waits.
#[test]
fn wait_that_a_drain_ends_wrongly_is_noticed() {
    let (noted, waits, others) = ((true, true), (true, false), (false, false));
    let cases = [
        (vec![gave_up(4)], 8, waits, [0, 0]),
        (vec![shown(8)], 4, noted, [0, 0]),
        (vec![shown(8), gave_up(4), shown(8)], 8, waits, [2, 0]),
        (vec![gave_up(8), gave_up(4)], 8, waits, [0, 1]),
        (vec![shown(4), gave_up(4), shown(8)], 4, noted, [1, 1]),
        (vec![gave_up(4), gave_up(4), shown(8)], 4, noted, [0, 2]),
        (vec![gave_up(4), shown(8), shown(0)], 0, others, [1, 0]),
        (vec![gave_up(4), shown(8), gave_up(15)], 15, others, [0, 1]),
    ];
    for (events, client, (waited, lost), [grants, times]) in cases {
        let began = format!("client {client} (waited {waited}, lost {lost})");
        let words = format!("{began} was shown {grants} grants and gave up {times} times");
        assert_eq!(said_of(&events), Err(words));
    }
}

#[test]
fn drain_that_leaves_more_than_a_fresh_lock_is_noticed() {
    let events = [Event::GaveUp(READER), Event::Shown(ClientId(8))];
    let accepted = drained(9, Handling::Taken);
    let words = "the drain left more, or changed more, than a fresh lock";
    let mut other_lock = Cluster::new();
    other_lock.locks[7].decider.incarnation = 1;
    let mut bit = Cluster::new();
    bit.locks[0].decider.writer_waits = true;
    for after in [two_waits(), other_lock, bit, fresh(WRITERS)] {
        assert_eq!(said(&events, accepted, &after), Err(String::from(words)));
    }
    for (refusal, number) in [(Refusal::NotQuiescent, 14), (Refusal::WireFull, 10)] {
        let words = format!("drain is answered {number}");
        assert_eq!(said(&events, Err(refusal), &two_waits()), Err(words));
    }
}

/// Nothing is wrong to count here, but nobody will ever serve 1/0.
#[test]
fn run_stops_at_a_wait_that_a_drain_leaves() {
    let mut state = LockState::default();
    let machine = MachineId(0);
    state.decider.owner = Some(Owner { mode: X, machine });
    let mut agent = Agent::new(X);
    agent.queue = waiters(&[(4, S)]).into();
    state.agents[0] = Some(agent);
    state.clients[4] = ClientStatus::Waiting(S);
    let line = stopped(READERS, draining_seed(), &state);
    let words = "client 4 (waited true, lost false) was shown 0 grants and gave up 0 times";
    assert!(line.ends_with(&format!(": {words}")), "{line}");
}

/// A client that the agent lists is idle by its status, and its GRANT with another mode than it asked for is noticed.
#[test]
fn run_stops_at_a_status_that_the_calls_do_not_give() {
    let mut state = LockState::default();
    let machine = MachineId(1);
    state.decider.owner = Some(Owner { mode: X, machine });
    state.clients[4] = ClientStatus::Waiting(S);
    let packet = Packet::with_agent(grant(READER, X), to(1), Agent::new(X));
    state.wire = vec![packet];
    let line = stopped(READERS, draining_seed(), &state);
    let words = "client 4 is Holding(Exclusive) by the state, but Holding(Shared) by the calls";
    assert!(
        line.ends_with(&format!(": drain step 1: {words}")),
        "{line}"
    );
}

#[test]
fn drained_waits_are_tallied() {
    let mut tally = Tally::default();
    for (shown, gave_up) in [(2, 1), (0, 0), (3, 0)] {
        tally.count_drained_waits(EndedWaits { shown, gave_up });
    }
    assert_eq!(
        tally.drained_waits_line(),
        "tested drains 3 shown 5 gave up 1"
    );
}
