//! Lost GRANTs and giving up (document 02, §8), worked out by hand, and the test of each step.

mod common;

use common::*;
use reference::giving_up::{Met, Watched};
use reference::model::{
    Address, Agent, ClientId, ClientStatus, Cluster, LockId, LockState, MachineId, Message, Mode,
    Owner, Packet, TaskId,
};
use reference::reasons::{reason_numbers, Reason};
use reference::report::{GivingUp, Tally};
use reference::transcript::{listing, Record, LISTING_HEADER};
use reference::{Handling, Outcome, Refusal, DRAIN_LIMIT};

const X: Mode = Mode::Exclusive;
const S: Mode = Mode::Shared;
const DECIDER: Address = Address::Decider;

/// The client of 1/0.
const READER: ClientId = ClientId(4);

fn release_of(number: u8) -> Packet {
    let client = ClientId(number);
    plain(Message::Release { client }, DECIDER)
}

fn agent_of(mode: Mode, holders: &[u8], queue: &[(u8, Mode)]) -> Agent {
    let mut agent = Agent::new(mode);
    for &number in holders {
        agent.holders.insert(ClientId(number));
    }
    agent.queue = waiters(queue).into();
    agent
}

fn owned(mode: Mode, machine: u8) -> Option<Owner> {
    let machine = MachineId(machine);
    Some(Owner { mode, machine })
}

/// An otherwise fresh cluster with this lock 0.
fn with_lock(state: &LockState) -> Cluster {
    let mut cluster = Cluster::new();
    cluster.locks[0] = state.clone();
    cluster
}

/// The same lock with its packets in the place of the others.
fn with_wire(state: &LockState, wire: Vec<Packet>) -> LockState {
    LockState {
        wire,
        ..state.clone()
    }
}

fn noted(state: &LockState, clients: &[u8]) -> LockState {
    let mut state = state.clone();
    for &number in clients {
        state.lost_grants.insert(ClientId(number));
    }
    state
}

/// D2 without the GRANT of 1/0.
fn lost() -> Cluster {
    let mut cluster = d2();
    accepted(&[lose(&mut cluster, 0)]);
    cluster
}

/// Makes the calls of a list on lock 0, each accepted: a client number and x or s acquires, r releases, g gives up, d delivers
/// and l loses an index.
fn make(cluster: &mut Cluster, calls: &str) {
    for call in calls.split(' ') {
        let (kind, rest) = call.split_at(1);
        let (number, mode) = match rest.strip_suffix('x') {
            Some(number) => (number, EXCLUSIVE),
            None => (rest.trim_end_matches('s'), SHARED),
        };
        let number: u8 = number.parse().expect("a number");
        let (machine, task) = (number / 4, number % 4);
        let answer = match kind {
            "a" => acquire(cluster, machine, task, mode),
            "r" => release(cluster, machine, task),
            "g" => give_up(cluster, machine, task),
            "d" => deliver(cluster, number),
            "l" => lose(cluster, number),
            _ => panic!("{call}"),
        };
        assert_eq!(answer, 0, "{call}");
    }
}

// Losing a GRANT.

/// The GRANT of 1/0 alone is gone; it waits on, with the note, and that is its reason.
#[test]
fn lost_grant_is_gone_and_noted() {
    let before = d2();
    let cluster = lost();
    let expected = with_wire(lock(&before), vec![lock(&before).wire[1].clone()]);
    assert_eq!(lock(&cluster), &noted(&expected, &[READER.0]));
    assert_eq!(status(&cluster, 1, 0), ClientStatus::Waiting(S));
    let reason = cluster.reason(LOCK, MachineId(1), TaskId(0));
    assert_eq!(reason, Ok(Reason::GrantLost));
    assert_eq!(reason_numbers(&reason), [0, 6]);
}

/// An idle or holding client misses nothing; one with the note already keeps it. The others on the wire keep their order.
#[test]
fn only_a_waiting_client_is_noted() {
    let statuses = [
        (ClientStatus::Idle, false),
        (ClientStatus::Holding(X), false),
        (ClientStatus::Holding(S), false),
        (ClientStatus::Waiting(X), true),
        (ClientStatus::Waiting(S), true),
    ];
    for (status, is_noted) in statuses {
        for machine in 0..4 {
            let mut state = LockState::default();
            state.clients[READER.index()] = status;
            state.clients[5] = ClientStatus::Waiting(S);
            state = noted(&state, &[5]);
            let others = [
                release_of(9),
                plain(grant(READER, S), to(machine)),
                release_of(8),
            ];
            let mut cluster = with_lock(&with_wire(&state, others.to_vec()));
            accepted(&[lose(&mut cluster, 1)]);
            let left = with_wire(&state, vec![release_of(9), release_of(8)]);
            let expected = if is_noted { noted(&left, &[4]) } else { left };
            assert_eq!(lock(&cluster), &expected);
        }
    }
}

/// Nothing but a GRANT without agent, and that only on its way to a machine.
#[test]
fn other_packets_cannot_be_lost() {
    let agent = || Agent::new(S);
    let rejected = |message| Packet {
        rejected: true,
        ..Packet::with_agent(message, to(1), agent())
    };
    let packets = [
        plain(request(READER, S, false), to(1)),
        plain(request(READER, S, true), to(1)),
        plain(request(READER, S, false), DECIDER),
        plain(Message::Release { client: READER }, to(1)),
        release_of(4),
        plain(grant(READER, S), DECIDER),
        Packet::with_agent(grant(READER, S), DECIDER, agent()),
        Packet::with_agent(grant(READER, S), to(1), agent()),
        rejected(grant(READER, S)),
        Packet::with_agent(Message::Free, DECIDER, agent()),
        rejected(Message::Free),
    ];
    for packet in packets {
        let mut cluster = with_lock(&with_wire(lock(&d2()), vec![packet]));
        let given = cluster.clone();
        assert_eq!(lose(&mut cluster, 0), 18, "{given:?}");
        assert_eq!(cluster, given);
    }
}

#[test]
fn refusals_of_lose_have_an_order() {
    let mut cluster = d2();
    assert_eq!(answer(cluster.lose(LockId(8), 99)), 1);
    assert_eq!([lose(&mut cluster, 2), lose(&mut cluster, 255)], [8, 8]);
    assert_eq!([lose(&mut cluster, 1), lose(&mut cluster, 0)], [18, 0]);
    cluster.locks[7].stale_slot = true;
    assert_eq!(answer(cluster.lose(LockId(8), 99)), 11);
    assert_eq!(lose(&mut cluster, 0), 11);
}

// Giving up.

/// Its RELEASE is the last packet, with the count 0; nothing else changes but its status and its note.
#[test]
fn who_gives_up_is_idle_and_sends_a_release() {
    let mut cluster = lost();
    let mut expected = lock(&d2()).clone();
    let marked = expected.wire[1].clone();
    expected.clients[READER.index()] = ClientStatus::Idle;
    expected.wire = vec![marked, release_of(READER.0)];
    accepted(&[give_up(&mut cluster, 1, 0)]);
    assert_eq!(lock(&cluster), &expected);
    assert!(cluster.is_well_formed());
}

/// Also where the agent with the queue is on the client's own machine.
#[test]
fn release_of_a_queued_neighbour_goes_over_the_decider() {
    let mut cluster = Cluster::new();
    make(&mut cluster, "a0x d0 d0 a1x g1");
    assert_eq!(lock(&cluster).wire, [release_of(1)]);
    assert_eq!(agent(&cluster, 0).queue, waiters(&[(1, X)]));
    make(&mut cluster, "d0 d0");
    assert_eq!(lock(&cluster).wire, []);
    assert!(agent(&cluster, 0).queue.is_empty());
    assert_eq!(holders(agent(&cluster, 0)), [0]);
}

/// A wait with 49 packets: 10, but 17 for a client that does not wait; then one packet less.
#[test]
fn refusals_of_give_up_have_an_order() {
    let mut cluster = lost();
    cluster.locks[0].wire = vec![release_of(9); 49];
    let mut call = |lock, machine, task| {
        answer(cluster.give_up(LockId(lock), MachineId(machine), TaskId(task)))
    };
    assert_eq!([call(8, 9, 9), call(0, 4, 9), call(0, 3, 4)], [1, 2, 3]);
    // 0/0 holds, 2/0 is idle, 1/0 waits.
    assert_eq!([call(0, 0, 0), call(0, 2, 0), call(0, 1, 0)], [17, 17, 10]);
    assert_eq!(lock(&cluster).wire.len(), 49);
    let _ = cluster.locks[0].wire.pop();
    assert_eq!(give_up(&mut cluster, 1, 0), 0);
    assert_eq!(lock(&cluster).wire.len(), 49);
    assert_eq!(give_up(&mut cluster, 1, 0), 17);
    cluster.locks[7].stale_slot = true;
    assert_eq!(
        answer(cluster.give_up(LockId(8), MachineId(9), TaskId(9))),
        11
    );
}

/// What was refused so far for a packet that names the client is refused after giving up too.
#[test]
fn who_gave_up_asks_again_when_no_packet_names_it() {
    let mut cluster = lost();
    make(&mut cluster, "g4");
    assert_eq!(acquire(&mut cluster, 1, 0, SHARED), 6);
    // The marked ACQUIRE is taken; the RELEASE goes on and is taken.
    make(&mut cluster, "d0 d0 d0");
    assert_eq!(lock(&cluster).wire, []);
    assert_eq!(holders(agent(&cluster, 0)), [0]);
    assert_eq!(acquire(&mut cluster, 1, 0, SHARED), 0);
}

// Notes.

#[test]
fn note_on_a_client_that_does_not_wait_is_malformed() {
    for (status, is_well_formed) in [
        (ClientStatus::Idle, false),
        (ClientStatus::Holding(S), false),
        (ClientStatus::Holding(X), false),
        (ClientStatus::Waiting(S), true),
        (ClientStatus::Waiting(X), true),
    ] {
        for number in [0, 4, 15] {
            let mut state = LockState::default();
            state.clients[usize::from(number)] = status;
            assert!(with_lock(&state).is_well_formed());
            let mut cluster = with_lock(&noted(&state, &[number]));
            assert_eq!(cluster.is_well_formed(), is_well_formed);
            let expected = if is_well_formed { 8 } else { 11 };
            assert_eq!(deliver(&mut cluster, 0), expected);
        }
    }
}

/// By hand another GRANT may come to a client with the note, with an agent or without.
#[test]
fn who_becomes_holding_drops_the_note() {
    let mut state = LockState::default();
    state.clients[READER.index()] = ClientStatus::Waiting(S);
    state.clients[9] = ClientStatus::Waiting(S);
    let state = noted(&state, &[READER.0, 9]);
    let plain_grant = plain(grant(READER, S), to(1));
    let with_agent = Packet::with_agent(grant(READER, S), to(1), Agent::new(X));
    for packet in [plain_grant, with_agent] {
        let mut cluster = with_lock(&with_wire(&state, vec![packet]));
        accepted(&[deliver(&mut cluster, 0)]);
        assert_eq!(status(&cluster, 1, 0), ClientStatus::Holding(S));
        let left = lock(&cluster).lost_grants;
        assert!(!left.contains(READER) && left.contains(ClientId(9)));
    }
}

/// The lost GRANT is the last of the reasons that is given.
#[test]
fn lost_grant_comes_after_every_other_reason() {
    let mut state = LockState::default();
    state.clients[READER.index()] = ClientStatus::Waiting(X);
    let mut state = noted(&state, &[READER.0]);
    let given = |state: &LockState| with_lock(state).reason(LOCK, MachineId(1), TaskId(0));
    assert_eq!(given(&state), Ok(Reason::GrantLost));
    let inside = agent_of(S, &[], &[(9, S), (READER.0, X)]);
    state.wire = vec![Packet::with_agent(Message::Free, DECIDER, inside.clone())];
    let (index, ahead) = (0, 1);
    assert_eq!(given(&state), Ok(Reason::PacketQueue { index, ahead }));
    state.agents[3] = Some(inside);
    let machine = MachineId(3);
    assert_eq!(given(&state), Ok(Reason::MachineQueue { machine, ahead }));
    state.wire.push(plain(grant(READER, X), DECIDER));
    assert_eq!(given(&state), Ok(Reason::Grant { index: 1 }));
    assert_eq!(state.all_reasons(READER).len(), 4);
}

// Grants for those who gave up.

/// Without an agent nothing but the packet changes; the client may ask again.
#[test]
fn grant_for_an_idle_client_leaves_it_idle() {
    let mut cluster = d2();
    make(&mut cluster, "g4");
    let mut expected = lock(&cluster).clone();
    let _ = expected.wire.remove(0);
    make(&mut cluster, "d0");
    assert_eq!(lock(&cluster), &expected);
    assert_eq!(status(&cluster, 1, 0), ClientStatus::Idle);
}

/// The agent is installed with the idle client among its holders; its RELEASE, which found nobody so far, takes it off.
#[test]
fn agent_for_an_idle_client_is_installed() {
    let mut cluster = Cluster::new();
    make(&mut cluster, "a4x d0 g4 d0");
    assert_eq!(status(&cluster, 1, 0), ClientStatus::Idle);
    assert_eq!(agent(&cluster, 1), &agent_of(X, &[4], &[]));
    assert_eq!(lock(&cluster).wire, [release_of(4)]);
    assert_eq!(cluster.drain(LOCK), drained(3, Handling::Taken));
    assert_eq!(cluster, Cluster::new());
}

/// As for a client that waits, the readers ahead of the first writer leave the queue.
#[test]
fn agent_for_an_idle_client_grants_readers() {
    let inside = agent_of(X, &[], &[(9, S), (13, X), (2, S)]);
    let packet = Packet::with_agent(grant(READER, S), to(1), inside);
    let mut cluster = with_lock(&with_wire(&LockState::default(), vec![packet]));
    accepted(&[deliver(&mut cluster, 0)]);
    assert_eq!(
        agent(&cluster, 1),
        &agent_of(S, &[4, 9], &[(13, X), (2, S)])
    );
    assert_eq!(lock(&cluster).wire, [plain(grant(ClientId(9), S), DECIDER)]);
    assert_eq!(status(&cluster, 1, 0), ClientStatus::Idle);
}

// RELEASEs that come early.

/// It overtakes its ACQUIRE, goes to the wire's end, to the decider, and keeps its count; there is no handling.
#[test]
fn release_at_a_free_decider_goes_to_the_end() {
    for count in [0, 1, 254, 255] {
        let early = with_count(count, release_of(4));
        let asked = plain(request(READER, S, false), DECIDER);
        let state = with_wire(&LockState::default(), vec![early.clone(), asked.clone()]);
        let mut cluster = with_lock(&state);
        assert_eq!(cluster.deliver(LOCK, 0), Ok(Handling::None));
        assert_eq!(lock(&cluster), &with_wire(&state, vec![asked, early]));
    }
    // On a full wire too.
    let full = with_wire(&LockState::default(), vec![release_of(4); 49]);
    let mut cluster = with_lock(&full);
    assert_eq!(cluster.deliver(LOCK, 48), Ok(Handling::None));
    assert_eq!(lock(&cluster), &full);
}

/// The RELEASE goes round until the ACQUIRE ahead of it has made an agent: ACQUIRE, RELEASE on, GRANT, RELEASE taken, FREE. Where
/// the RELEASE is first, it comes to the free decider in one step more.
#[test]
fn early_release_drains() {
    let mut cluster = Cluster::new();
    make(&mut cluster, "a4s g4");
    assert_eq!(cluster.clone().drain(LOCK), drained(5, Handling::Taken));
    cluster.locks[0].wire.reverse();
    assert_eq!(cluster.drain(LOCK), drained(6, Handling::Taken));
    assert_eq!(cluster, Cluster::new());
}

/// By hand, with nothing else on the wire, it goes round for ever: 32,768 steps are not enough.
#[test]
fn early_release_alone_is_refused_with_14() {
    assert_eq!(DRAIN_LIMIT, 32_768);
    let state = with_wire(&LockState::default(), vec![release_of(4)]);
    let mut cluster = with_lock(&state);
    let mut steps = 0;
    let outcome = cluster.drain_with(LOCK, |number, _, after| {
        steps = number;
        assert_eq!(after, &state);
    });
    assert_eq!((outcome, steps), (Err(Refusal::NotQuiescent), 32_768));
    assert_eq!(cluster, with_lock(&state));
}

// Queues.

/// 0/0 hands an exclusive lock back to 0/1, a reader; 1/1, a writer, stands behind it, and 2/1, a reader, behind that one.
fn writer_in_the_middle() -> Cluster {
    let mut cluster = Cluster::new();
    make(&mut cluster, "a0x d0 d0 a1s a5x d0 d0 a9s d0 d0 r0 d0 d0");
    assert_eq!(agent(&cluster, 0), &agent_of(S, &[1], &[(5, X), (9, S)]));
    cluster
}

/// The writer is taken off the queue. Nobody is served: the reader behind it stays, and a later one on the agent's own machine
/// holds the lock before it.
#[test]
fn queued_writer_gives_up() {
    let mut cluster = writer_in_the_middle();
    make(&mut cluster, "g5 d0");
    let on_its_way = plain(release_of(5).message, to(0));
    assert_eq!(lock(&cluster).wire, [on_its_way]);
    assert_eq!(cluster.deliver(LOCK, 0), Ok(Handling::Taken));
    assert_eq!(agent(&cluster, 0), &agent_of(S, &[1], &[(9, S)]));
    assert_eq!(lock(&cluster).wire, []);
    make(&mut cluster, "a2s");
    assert_eq!(status(&cluster, 0, 2), ClientStatus::Holding(S));
    assert_eq!(status(&cluster, 2, 1), ClientStatus::Waiting(S));
    assert_eq!(agent(&cluster, 0), &agent_of(S, &[1, 2], &[(9, S)]));
    // Two releases, the GRANT for 2/1 in two steps, its release and the FREE.
    assert_eq!(cluster.drain(LOCK), drained(6, Handling::None));
    assert_eq!(cluster, Cluster::new());
}

/// Without the last step of it: the RELEASE is still on its way when the agent leaves for the client that gave up.
#[test]
fn agent_leaves_for_a_client_that_gave_up() {
    let mut cluster = writer_in_the_middle();
    make(&mut cluster, "g5 d0 r1");
    let leaving = Packet::with_agent(grant(ClientId(5), X), DECIDER, agent_of(S, &[], &[(9, S)]));
    let released = release_of(5).message;
    assert_eq!(lock(&cluster).wire, [plain(released, to(0)), leaving]);
    // The RELEASE goes back; the GRANT goes to machine 1, where it installs the agent.
    make(&mut cluster, "d0 d0 d1");
    assert_eq!(agent(&cluster, 1), &agent_of(X, &[5], &[(9, S)]));
    assert_eq!(status(&cluster, 1, 1), ClientStatus::Idle);
    assert_eq!(lock(&cluster).wire, [with_count(1, release_of(5))]);
    // The RELEASE on and taken, the GRANT for 2/1 in two steps, its release and the FREE.
    assert_eq!(cluster.drain(LOCK), drained(6, Handling::Taken));
    assert_eq!(cluster, Cluster::new());
}

// Long wires.

/// D13, but each client gives up before its GRANT comes: GRANT, marked ACQUIRE and RELEASE of sixteen clients, and the FREE.
fn full_wire() -> Cluster {
    let mut cluster = d1();
    make(&mut cluster, "d0 r0");
    for number in 0..16 {
        let last = lock(&cluster).wire.len();
        make(&mut cluster, &format!("a{number}s d{last}"));
    }
    for number in 0..16 {
        make(&mut cluster, &format!("g{number}"));
    }
    cluster
}

#[test]
fn fresh_cluster_comes_to_49_packets() {
    let mut cluster = full_wire();
    assert_eq!(lock(&cluster).wire.len(), 49);
    assert_eq!(lock(&cluster).check_counts(), Ok(()));
    assert!(cluster.is_well_formed());
    for number in 0..16 {
        assert_eq!(all_naming(lock(&cluster), ClientId(number)).len(), 3);
        assert_eq!(acquire(&mut cluster, number / 4, number % 4, SHARED), 6);
        assert_eq!(give_up(&mut cluster, number / 4, number % 4), 17);
    }
    assert_eq!([deliver(&mut cluster, 49), lose(&mut cluster, 49)], [8, 8]);
    // The FREE, a marked ACQUIRE and the last RELEASE, which goes on to machine 0 when a GRANT is lost.
    assert_eq!(
        [0, 2, 48, 3].map(|index| lose(&mut cluster, index)),
        [18, 18, 18, 0]
    );
    assert_eq!(deliver(&mut cluster, 47), 0);
    assert_eq!(
        lock(&cluster).wire[47],
        plain(release_of(15).message, to(0))
    );
}

/// The FREE is rejected; 16 GRANTs find nobody, 16 ACQUIREs no agent; 16 RELEASEs go on, the FREE brings the agent, the ACQUIREs go
/// on; 16 RELEASEs come too early, 16 ACQUIREs are taken; the RELEASEs go on and are taken; the FREE.
#[test]
fn full_wire_drains() {
    let mut cluster = full_wire();
    let steps = 1 + 2 * 16 + (16 + 1 + 16) + 2 * 16 + 2 * 16 + 1;
    assert_eq!(steps, 131);
    assert_eq!(cluster.drain(LOCK), drained(steps, Handling::Taken));
    assert_eq!(cluster, Cluster::new());
}

// Drains.

/// The states of a drain of lock 0, its first one too.
fn drain_states(cluster: &Cluster) -> Vec<LockState> {
    let mut states = vec![lock(cluster).clone()];
    let outcome = cluster
        .clone()
        .drain_with(LOCK, |_, _, state| states.push(state.clone()));
    assert!(outcome.is_ok());
    states
}

/// The marked ACQUIRE is taken and 0/0 hands back; then 1/0 gives up, its RELEASE goes on and is taken, and the FREE.
#[test]
fn drain_lets_a_noted_client_give_up() {
    let cluster = lost();
    assert!(!lock(&cluster).is_quiescent());
    let states = drain_states(&cluster);
    assert_eq!(states.len(), 1 + 6);
    assert_eq!(
        states[2].agents[0],
        Some(Agent {
            incarnation: 1,
            ..agent_of(S, &[4], &[])
        })
    );
    assert_eq!(states[2].wire, []);
    assert!(states[2].lost_grants.contains(READER) && !states[2].is_quiescent());
    assert_eq!(states[3].wire, [release_of(READER.0)]);
    assert_eq!(states[3].clients[READER.index()], ClientStatus::Idle);
    assert!(states[3].lost_grants.is_empty());
    assert_eq!(states[6], LockState::default());
    assert_eq!(cluster.clone().drain(LOCK), drained(6, Handling::Taken));
}

/// 3/0 and 1/0 have lost theirs; the lower number gives up first, though it asked later, and only when nobody holds the lock.
#[test]
fn lowest_noted_client_gives_up_first() {
    let mut cluster = d1();
    make(&mut cluster, "d0 a12s d0 l0 d0 a4s d0 l0 d0 a8s d0 d0 d0");
    assert_eq!(holders(agent(&cluster, 0)), [0, 4, 8, 12]);
    assert_eq!(lock(&cluster).wire, []);
    let states = drain_states(&cluster);
    let gave_up = |number: u8| {
        let idle = |state: &LockState| state.clients[usize::from(number)] == ClientStatus::Idle;
        states.iter().position(idle).expect("it becomes idle")
    };
    // 0/0 hands back here, 2/0 with a RELEASE that goes on and is taken; each giving up takes three steps, and then the FREE.
    assert_eq!([0, 8, 4, 12].map(gave_up), [1, 2, 5, 8]);
    assert_eq!(cluster.drain(LOCK), drained(11, Handling::Taken));
    assert_eq!(cluster, Cluster::new());
}

/// A writer, 2/0, waits in the queue for the reader that will not hear of its grant.
#[test]
fn drain_serves_who_waits_behind_a_lost_grant() {
    let mut cluster = lost();
    make(&mut cluster, "d0 a8x d0 d0");
    // 0/0 hands back, 1/0 gives up, its RELEASE in two steps, the GRANT in two, 2/0 hands back, the FREE.
    assert_eq!(cluster.clone().drain(LOCK), drained(8, Handling::Taken));
    let states = drain_states(&cluster);
    assert_eq!(states[6].clients[8], ClientStatus::Holding(X));
    assert_eq!(states[8], LockState::default());
}

/// Without the note a wait by hand keeps no lock from being quiescent.
#[test]
fn wait_without_a_note_gives_nothing_up() {
    let mut state = LockState::default();
    state.clients[READER.index()] = ClientStatus::Waiting(S);
    assert!(state.is_quiescent());
    assert_eq!(with_lock(&state).drain(LOCK), drained(0, Handling::None));
    let mut cluster = with_lock(&noted(&state, &[READER.0]));
    // It gives up, and its RELEASE goes round at a free lock.
    assert_eq!(cluster.drain(LOCK), Err(Refusal::NotQuiescent));
}

// Transcripts.

/// D2, the loss of 1/0's GRANT, and its giving up.
#[test]
fn records_of_both_kinds_are_run() {
    let acquire = |machine| Record::Acquire(LOCK, MachineId(machine), TaskId(0), SHARED);
    let deliver = Record::Deliver(LOCK, 0);
    let records = [
        acquire(0),
        deliver,
        deliver,
        acquire(1),
        deliver,
        lose_record(1),
        lose_record(0),
        give_up_record(0, 0),
        give_up_record(1, 0),
        Record::Lose(LockId(8), 0),
        Record::GiveUp(LockId(8), MachineId(0), TaskId(0)),
        lose_record(9),
        Record::GiveUp(LockId(7), MachineId(9), TaskId(0)),
    ];
    let bytes = records_bytes(&records);
    let mut cluster = Cluster::new();
    let whole = cluster.run_transcript(&bytes);
    assert_eq!((answer(whole.answer), whole.record), (0, 13));
    let mut expected = lost();
    accepted(&[give_up(&mut expected, 1, 0)]);
    assert_eq!(cluster, expected);
    let lines =
        "1 1 0 1\n2 3 0 1\n3 3 0 0\n4 1 0 1\n5 3 0 2\n6 6 18 2\n7 6 0 1\n8 7 17 1\n9 7 0 2\n";
    let refused = "10 6 1 -\n11 7 1 -\n12 6 8 2\n13 7 2 0\n";
    assert_eq!(listing(&bytes), format!("{LISTING_HEADER}{lines}{refused}"));
}

#[test]
fn records_of_both_kinds_have_one_length() {
    let good: [&[u8]; 2] = [&[6, 0, 6, 0, 0, 0], &[7, 0, 7, 0, 0, 0, 0]];
    for record in good {
        assert_eq!(answer(Cluster::new().run_transcript(record).answer), 0);
        for length in (0..=9).filter(|&length| length != record[0]) {
            let mut bytes = vec![length, 0, record[2], 0];
            bytes.resize(usize::from(length).max(8), 0);
            let whole = Cluster::new().run_transcript(&bytes);
            assert_eq!((answer(whole.answer), whole.record), (12, 1), "{bytes:?}");
        }
        for cut in 1..record.len() {
            let whole = Cluster::new().run_transcript(&record[..cut]);
            assert_eq!((answer(whole.answer), whole.record), (12, 1));
        }
    }
    // The kinds 5 and 8 are none, in any length.
    for (kind, length) in [4, 5, 8]
        .into_iter()
        .flat_map(|kind| (6..9).map(move |l| (kind, l)))
    {
        let mut bytes = vec![length, 0, kind, 0];
        bytes.resize(usize::from(length), 0);
        assert_eq!(answer(Cluster::new().run_transcript(&bytes).answer), 12);
    }
}

// The test of each step.

/// What the test says of a call on lock 0, where it was answered so and left this.
fn said(
    before: &LockState,
    record: Record,
    outcome: Outcome,
    after: &LockState,
) -> Result<Option<Met>, String> {
    let watched = Watched::of(&record, before).expect("a step that is tested");
    watched.check(&outcome, after)
}

/// Asserts that the test is content with the call itself, and what it finds in each other state.
#[track_caller]
fn assert_said(before: &LockState, record: Record, met: Met, wrong: &[(LockState, &str)]) {
    let mut cluster = with_lock(before);
    let outcome = record.run(&mut cluster).map(|_| ());
    let after = lock(&cluster);
    assert_eq!(said(before, record, outcome, after), Ok(Some(met)));
    for (state, words) in wrong {
        assert_ne!(state, after);
        let found = said(before, record, outcome, state);
        assert_eq!(found, Err(String::from(*words)));
    }
}

#[test]
fn wrong_loss_is_noticed() {
    let before = lock(&d2()).clone();
    let after = lock(&lost()).clone();
    let without_note = with_wire(&before, after.wire.clone());
    let with_two = noted(&after, &[9]);
    let mut idle = after.clone();
    idle.clients[READER.index()] = ClientStatus::Idle;
    let kept = with_wire(&after, before.wire.clone());
    let words = |part: &str| format!("after the loss of a GRANT {part} not as expected");
    let [notes, statuses, wire] = [
        "the notes of lost GRANTs are",
        "the statuses are",
        "the wire is",
    ];
    let wrong = [
        (without_note, words(notes)),
        (with_two, words(notes)),
        (idle, words(statuses)),
        (kept, words(wire)),
    ];
    let wrong: Vec<(LockState, &str)> = wrong.iter().map(|(s, w)| (s.clone(), &w[..])).collect();
    assert_said(&before, lose_record(0), Met::Loss { noted: true }, &wrong);
    let found = said(&before, lose_record(1), Ok(()), &before);
    assert_eq!(found, Err(String::from("a packet was lost that cannot be")));
    let found = said(&before, lose_record(2), Ok(()), &before);
    let words = "a packet was lost at index 2, where there is none";
    assert_eq!(found, Err(String::from(words)));
}

#[test]
fn refusal_of_a_loss_is_tested() {
    let state = lock(&d2()).clone();
    let test = |index, refusal| said(&state, lose_record(index), Err(refusal), &state);
    assert_eq!(test(1, Refusal::CannotBeLost), Ok(None));
    assert_eq!(test(9, Refusal::IndexOutOfRange), Ok(None));
    let words = "lose is answered 18, but at index 0 the packet is a GRANT on its way";
    assert_eq!(test(0, Refusal::CannotBeLost), Err(String::from(words)));
    let words = "lose is answered 18, but at index 2 there is no packet";
    assert_eq!(test(2, Refusal::CannotBeLost), Err(String::from(words)));
}

#[test]
fn wrong_giving_up_is_noticed() {
    let before = lock(&lost()).clone();
    let record = give_up_record(1, 0);
    let mut cluster = lost();
    accepted(&[give_up(&mut cluster, 1, 0)]);
    let after = lock(&cluster).clone();
    let sent = |packet: Packet| with_wire(&after, vec![before.wire[0].clone(), packet]);
    let released = after.wire[1].clone();
    let first = with_wire(&after, vec![released.clone(), before.wire[0].clone()]);
    let wire = "after giving up the wire is not as expected";
    let wrong = [
        (
            noted(&after, &[4]),
            "after giving up the notes of lost GRANTs are not as expected",
        ),
        (sent(with_count(1, released.clone())), wire),
        (sent(plain(released.message, to(0))), wire),
        (sent(release_of(5)), wire),
        (first, wire),
        (with_wire(&after, before.wire.clone()), wire),
    ];
    assert_said(&before, record, Met::GaveUp, &wrong);
    let found = said(&after, record, Ok(()), &after);
    assert_eq!(
        found,
        Err(String::from("client 4 gave up, but did not wait"))
    );
    let refused = |state| said(state, record, Err(Refusal::NothingToGiveUp), state);
    assert_eq!(refused(&after), Ok(None));
    let words = "give up is answered 17, but client 4 waits";
    assert_eq!(refused(&before), Err(String::from(words)));
}

#[test]
fn give_up_without_room_is_tested() {
    let refused = |number: u8, packets| {
        let state = with_wire(lock(&lost()), vec![release_of(9); packets]);
        let record = give_up_record(number / 4, number % 4);
        said(&state, record, Err(Refusal::WireFull), &state)
    };
    assert_eq!(refused(4, 49), Ok(None));
    let words = "give up is answered 10, but client 4 waits, with 48 packets";
    assert_eq!(refused(4, 48), Err(String::from(words)));
    let words = "give up is answered 10, but client 8 does not wait, with 49 packets";
    assert_eq!(refused(8, 49), Err(String::from(words)));
}

#[test]
fn grant_that_wakes_an_idle_client_is_noticed() {
    let mut cluster = d2();
    make(&mut cluster, "g4");
    let before = lock(&cluster).clone();
    make(&mut cluster, "d0");
    let mut awake = lock(&cluster).clone();
    awake.clients[READER.index()] = ClientStatus::Holding(S);
    let words = "after a GRANT at its client's machine the statuses are not as expected";
    let with_agent = false;
    let met = Met::IdleGrant { with_agent };
    assert_said(&before, deliver_record(0), met, &[(awake, words)]);
    // The same GRANT for a client that waits.
    let before = lock(&d2()).clone();
    let mut asleep = before.clone();
    let _ = asleep.wire.remove(0);
    assert_said(
        &before,
        deliver_record(0),
        Met::ShownGrant,
        &[(asleep, words)],
    );
}

#[test]
fn agent_that_an_idle_client_keeps_away_is_noticed() {
    let mut cluster = Cluster::new();
    make(&mut cluster, "a4x d0 g4");
    let before = lock(&cluster).clone();
    make(&mut cluster, "d0");
    let (mut none, mut unlisted) = (lock(&cluster).clone(), lock(&cluster).clone());
    none.agents[1] = None;
    unlisted.agents[1] = Some(Agent::new(X));
    let words = "no agent on machine 1 lists client 4, whose GRANT brought one";
    let with_agent = true;
    let met = Met::IdleGrant { with_agent };
    assert_said(
        &before,
        deliver_record(0),
        met,
        &[(none, words), (unlisted, words)],
    );
}

#[test]
fn wrong_early_release_is_noticed() {
    let wire = vec![with_count(3, release_of(4)), release_of(5)];
    let before = with_wire(&LockState::default(), wire);
    let again = |count| {
        with_wire(
            &before,
            vec![release_of(5), with_count(count, release_of(4))],
        )
    };
    let words = "after a RELEASE at a free lock the wire is not as expected";
    let wrong = [
        (again(4), words),
        (again(0), words),
        (before.clone(), words),
        (with_wire(&before, vec![release_of(5)]), words),
    ];
    assert_said(&before, deliver_record(0), Met::EarlyRelease, &wrong);
    for (refusal, words) in [
        (
            Refusal::CannotBePlaced,
            "a RELEASE at a free lock is answered 9",
        ),
        (Refusal::WireFull, "a RELEASE at a free lock is answered 10"),
    ] {
        let found = said(&before, deliver_record(0), Err(refusal), &before);
        assert_eq!(found, Err(String::from(words)));
    }
    let found = said(&before, deliver_record(0), Err(Refusal::Malformed), &before);
    assert_eq!(found, Ok(None));
}

/// Acquires and releases, deliveries of other packets, and calls out of range.
#[test]
fn other_steps_are_not_watched() {
    let state = lock(&d2()).clone();
    let acquire = Record::Acquire(LOCK, MachineId(2), TaskId(0), SHARED);
    let release = Record::Release(LOCK, MachineId(0), TaskId(0));
    let nobody = [give_up_record(4, 0), give_up_record(255, 255)];
    let others = [acquire, release, deliver_record(1), deliver_record(2)];
    for record in others.into_iter().chain(nobody) {
        assert_eq!(Watched::of(&record, &state), None);
    }
    // At a lock that is not free a RELEASE goes on, and a rejected GRANT is for nobody.
    let mut state = with_wire(&LockState::default(), vec![release_of(4)]);
    assert!(Watched::of(&deliver_record(0), &state).is_some());
    state.decider.owner = owned(S, 0);
    assert_eq!(Watched::of(&deliver_record(0), &state), None);
    let rejected = Packet {
        rejected: true,
        ..Packet::with_agent(grant(READER, S), to(0), Agent::new(S))
    };
    state.wire = vec![rejected];
    assert_eq!(Watched::of(&deliver_record(0), &state), None);
}

#[test]
fn what_was_met_is_tallied() {
    let mut tally = Tally::default();
    let mut test = |record: Record, state: &LockState| {
        let watched = Watched::of(&record, state);
        let mut cluster = with_lock(state);
        let outcome = record.run(&mut cluster);
        let tested = tally.test_giving_up(watched, &outcome, Some(lock(&cluster)));
        assert_eq!(tested, Ok(()));
        cluster
    };
    let cluster = test(lose_record(0), lock(&d2()));
    let cluster = test(give_up_record(1, 0), lock(&cluster));
    let _ = test(give_up_record(1, 0), lock(&cluster));
    let mut given_up = d2();
    make(&mut given_up, "g4");
    let _ = test(lose_record(0), lock(&given_up));
    let _ = test(deliver_record(0), lock(&given_up));
    let mut with_agent = Cluster::new();
    make(&mut with_agent, "a4x d0 g4");
    let _ = test(deliver_record(0), lock(&with_agent));
    let _ = test(deliver_record(0), lock(&d2()));
    let early = with_wire(&LockState::default(), vec![release_of(4)]);
    let _ = test(deliver_record(0), &early);
    let expected = GivingUp {
        lost: 2,
        noted: 1,
        gave_up: 1,
        idle_grants: 2,
        idle_agents: 1,
        unqueued: 0,
        early: 1,
    };
    assert_eq!(tally.giving_up, expected);
    let line = "lost 2 noted 1 gave up 1 idle grants 2 with agent 1 unqueued 0 early 1";
    assert_eq!(tally.giving_up.line(), line);
}
