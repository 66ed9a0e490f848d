//! What document 02, §8 adds to random runs, worked out once more from docs/random-runs.md.

mod common;

use common::*;
use reference::generator::Generator;
use reference::model::{
    Address, ClientId, ClientStatus, Cluster, LockState, Message, Mode, Packet, LOCKS,
};
use reference::random_calls::{Call, Profile, DELIVER, GIVE_UP, HAND_MADE, LOSE};
use reference::random_runs::random_run;
use reference::random_states::{hand_made_cluster, random_state};
use reference::random_transcripts::{long_transcript_bytes, random_transcript};
use reference::report::{GivingUp, Tally};

// The bytes of a cluster.

/// The note is the second byte of a client: here of 1/0, which waits shared, while 0/1 waits exclusive without one.
#[test]
fn note_is_in_the_bytes_of_a_cluster() {
    let mut cluster = Cluster::new();
    let state = &mut cluster.locks[0];
    state.clients[1] = ClientStatus::Waiting(Mode::Exclusive);
    state.clients[4] = ClientStatus::Waiting(Mode::Shared);
    state.clients[15] = ClientStatus::Holding(Mode::Shared);
    state.lost_grants.insert(ClientId(4));
    // The preference, then lock 0: decider, agent slots, clients.
    let mut bytes = vec![0; 1 + 8 * 41];
    let clients = &mut bytes[1 + 4 + 4..];
    (clients[2], clients[8], clients[9], clients[30]) = (2, 3, 1, 7);
    assert_eq!(cluster_digest(5, &cluster), digest_of(5, &bytes));
}

// The choice of a call.

/// The columns of a profile that its choices need, as they stand in the table.
struct Row {
    locks: u64,
    shared: u64,
    deliver: u64,
    wild: u64,
    delays: &'static str,
    pinned: bool,
    gives_up: u64,
    loses: u64,
}

fn row(columns: [u64; 4], delays: &'static str, pinned: bool, [gives_up, loses]: [u64; 2]) -> Row {
    let [locks, shared, deliver, wild] = columns;
    Row {
        locks,
        shared,
        deliver,
        wild,
        delays,
        pinned,
        gives_up,
        loses,
    }
}

/// The table of the page; the last row is that of hand-made states.
fn table() -> [Row; 14] {
    [
        row([1, 16, 24, 1], "", false, [0, 0]),
        row([1, 60, 32, 1], "G", false, [0, 0]),
        row([2, 40, 32, 1], "A", false, [0, 0]),
        row([1, 62, 24, 1], "GA", false, [0, 0]),
        row([8, 32, 24, 1], "", false, [4, 8]),
        row([2, 32, 32, 32], "", false, [0, 0]),
        row([1, 64, 32, 1], "", true, [0, 0]),
        row([1, 32, 32, 1], "R", false, [0, 0]),
        row([1, 48, 40, 1], "G", false, [0, 0]),
        row([1, 48, 28, 1], "N", false, [8, 16]),
        row([1, 64, 24, 1], "GAN", false, [63, 0]),
        row([2, 32, 40, 1], "Q", false, [48, 0]),
        row([1, 40, 28, 1], "", false, [8, 16]),
        row([2, 32, 32, 2], "", false, [8, 16]),
    ]
}

impl Row {
    fn delays(&self, packet: &Packet) -> bool {
        let letter = match (packet.message, &packet.agent) {
            (_, Some(_)) => 'A',
            (Message::Acquire { granted: true, .. }, _) => 'G',
            (Message::Acquire { .. }, _) if packet.address != Address::Decider => 'R',
            (Message::Acquire { .. }, _) => 'Q',
            (Message::Grant { .. }, None) => 'N',
            _ => return false,
        };
        self.delays.contains(letter)
    }

    fn kind(&self, o: &[u64; 8], state: &LockState, number: usize) -> u8 {
        let (k, u) = (o[2] % 64, o[0] / 64 % 64);
        let deliver = if 63 - u < self.loses { 6 } else { 3 };
        if k < self.deliver {
            return deliver;
        }
        if k >= 62 {
            return 1;
        }
        match state.clients[number] {
            ClientStatus::Idle => 1,
            ClientStatus::Holding(_) if !(self.pinned && number == 0) => 2,
            ClientStatus::Waiting(_) if u < self.gives_up => 7,
            _ => deliver,
        }
    }

    fn index(&self, kind: u8, o: &[u64; 8], wire: &[Packet]) -> u64 {
        let mut index = o[7] % (wire.len() as u64 + 1);
        if (o[1] / 64).is_multiple_of(8) {
            return index;
        }
        // Behind the 49 slots there are no packets.
        while let Some(packet) = wire.iter().take(49).nth(index as usize) {
            let is_grant = matches!(packet.message, Message::Grant { .. });
            let to_machine = packet.address != Address::Decider;
            let passes = match kind {
                6 => !(is_grant && to_machine && packet.agent.is_none()),
                _ => self.delays(packet),
            };
            if !passes {
                break;
            }
            index += 1;
        }
        index
    }

    /// Kind, lock, machine, task, mode and index.
    fn choose(&self, seed: u64, o: &[u64; 8], cluster: &Cluster) -> [u64; 6] {
        if o[1] % 64 < self.wild {
            let kind = [1, 2, 3, 6, 7][(o[2] % 5) as usize];
            return [kind, o[3] % 10, o[4] % 6, o[5] % 6, o[6] % 6, o[7] % 57];
        }
        let lock = (seed + o[3] % self.locks) % 8;
        let (machine, task) = (o[4] % 4, o[5] % 4);
        let mode = if o[6] % 64 < self.shared { 3 } else { 2 };
        let state = &cluster.locks[lock as usize];
        let kind = self.kind(o, state, (4 * machine + task) as usize);
        let index = self.index(kind, o, &state.wire);
        [u64::from(kind), lock, machine, task, mode, index]
    }
}

fn numbers_of(call: &Call) -> [u64; 6] {
    let (lock, machine, task) = (call.lock.0, call.machine.0, call.task.0);
    [call.kind, lock, machine, task, call.mode, call.index].map(u64::from)
}

/// Each call of a run as the page chooses it; how often each kind was chosen.
fn assert_choices(
    seed: u64,
    row: &Row,
    profile: Profile,
    generator: Generator,
    cluster: Cluster,
) -> [u64; 8] {
    let (mut generator, mut cluster) = (generator, cluster);
    let mut kinds = [0; 8];
    for step in 1..=profile.steps {
        let outputs = generator.eight();
        let call = profile.choose_call(seed, &outputs, &cluster);
        let expected = row.choose(seed, &outputs, &cluster);
        assert_eq!(numbers_of(&call), expected, "seed {seed} step {step}");
        kinds[usize::from(call.kind)] += 1;
        let _ = call.perform(&mut cluster);
    }
    kinds
}

#[test]
fn calls_are_chosen_by_the_page() {
    let rows = table();
    for seed in 1..=52 {
        let (number, profile) = ((seed % 13) as usize, Profile::of_seed(seed));
        let row = &rows[number];
        let steps = match number {
            6 => 3_072,
            10 => 1_024,
            _ => 512,
        };
        assert_eq!(profile.steps, steps);
        let generator = Generator::new(seed);
        let kinds = assert_choices(seed, row, profile, generator, run_cluster(seed));
        assert!(kinds[1] > 0 && kinds[3] > 0, "seed {seed}: {kinds:?}");
        assert!(kinds[6] > 0 || row.loses == 0, "seed {seed}: {kinds:?}");
        assert!(kinds[7] > 0 || row.gives_up == 0, "seed {seed}: {kinds:?}");
    }
}

/// With wires that claim more than their 49 slots among them, whose indexes stop there.
#[test]
fn calls_on_hand_made_states_are_chosen_by_the_page() {
    let (rows, mut overlong) = (table(), 0);
    for seed in 1..=1_000 {
        let mut generator = Generator::new(seed);
        let cluster = hand_made_cluster(seed, &mut generator);
        overlong += u64::from(cluster.locks.iter().any(|state| state.wire.len() > 49));
        let _ = assert_choices(seed, &rows[13], HAND_MADE, generator, cluster);
    }
    assert!(overlong > 20);
}

// Hand-made states.

/// The note of each client of a drawn lock, with its fault and v. The draws before the clients are 4 in item 1, 3 of the decider
/// and 38 for each machine.
fn drawn_notes(generator: &mut Generator) -> (u64, u64, Vec<bool>) {
    let lengths = [0, 0, 1, 1, 1, 2, 2, 2, 3, 3, 4, 5, 6, 47, 48, 49];
    let (fault, value) = (generator.draw(17), generator.draw(239));
    let drawn = lengths[generator.draw(16) as usize];
    let packets = if fault == 11 { 49 } else { drawn };
    for _ in 0..1 + 3 + 4 * 38 {
        let _ = generator.output();
    }
    let clients = (0..16).map(|number| {
        let waits = matches!(generator.draw(8), 2 | 3);
        let named = fault == 16 && value % 16 == number;
        let may_be_noted = generator.draw(4) == 0;
        (waits && may_be_noted) || named
    });
    let notes = clients.collect();
    for _ in 0..44 * packets {
        let _ = generator.output();
    }
    (fault, value, notes)
}

/// Of the locks with fault 16 alone those are malformed whose client does not wait.
#[test]
fn hand_made_clients_have_their_notes() {
    let (mut noted, mut alone) = (0, [0; 2]);
    for seed in 1..=5_000 {
        let cluster = hand_made_cluster(seed, &mut Generator::new(seed));
        let mut generator = Generator::new(seed);
        let locks = 1 + (seed / 8 % 2) as usize;
        for place in 0..locks {
            let (fault, value, expected) = drawn_notes(&mut generator);
            let state = &cluster.locks[(seed as usize + place) % LOCKS];
            let notes = (0..16).map(|number| state.lost_grants.contains(ClientId(number)));
            assert!(notes.eq(expected.iter().copied()), "state {seed}");
            noted += expected.iter().filter(|&&has_it| has_it).count();
            if (locks, fault) == (1, 16) {
                let status = state.clients[(value % 16) as usize];
                let waits = matches!(status, ClientStatus::Waiting(_));
                assert_eq!(cluster.is_well_formed(), waits, "state {seed}");
                alone[usize::from(waits)] += 1;
            }
        }
    }
    assert!(
        noted > 1_000 && alone.iter().all(|&times| times > 10),
        "{noted} {alone:?}"
    );
}

// Transcripts.

#[test]
fn long_transcripts_lose_and_give_up() {
    for seed in 1..=26 {
        let bytes = long_transcript_bytes(seed);
        let (mut accepted, mut met) = (0, [0; 8]);
        let whole = Cluster::new().run_transcript_with(&bytes, |_, record, outcome, _| {
            accepted += usize::from(outcome.is_ok());
            met[usize::from(record.kind())] += usize::from(outcome.is_ok());
        });
        assert!(
            2 * accepted > whole.record && met[6] > 0 && met[7] > 0,
            "{seed}: {met:?}"
        );
    }
}

// What was met.

fn is_listed(state: &LockState, machine: usize, asked: ClientId) -> bool {
    let agent = state.agents[machine].as_ref();
    agent.is_some_and(|agent| agent.holders.contains(asked))
}

fn is_queued(state: &LockState, machine: usize, asked: ClientId) -> bool {
    let agent = state.agents[machine].as_ref();
    agent.is_some_and(|agent| agent.queue.iter().any(|waiter| waiter.client == asked))
}

/// Counts a delivery by the state before it, as the papers have it, if it is accepted.
fn count_delivery(met: &mut GivingUp, state: &LockState, packet: &Packet) {
    match (packet.message, packet.address) {
        (Message::Release { .. }, Address::Decider) => {
            met.early += u64::from(state.decider.owner.is_none());
        }
        (Message::Release { client }, Address::Machine(machine)) => {
            let machine = machine.index();
            let unqueued = is_queued(state, machine, client) && !is_listed(state, machine, client);
            met.unqueued += u64::from(unqueued);
        }
        (Message::Grant { client, .. }, Address::Machine(_)) if !packet.rejected => {
            let is_idle = state.clients[client.index()] == ClientStatus::Idle;
            met.idle_grants += u64::from(is_idle);
            met.idle_agents += u64::from(is_idle && packet.agent.is_some());
        }
        _ => (),
    }
}

/// Makes a call, and counts it if it is accepted.
fn perform(call: Call, cluster: &mut Cluster, met: &mut GivingUp) -> bool {
    let before = cluster.locks.get(call.lock.index()).cloned();
    if call.perform(cluster).is_err() {
        return false;
    }
    let before = before.expect("an accepted call has a lock");
    let packet = before.wire.get(usize::from(call.index));
    match call.kind {
        GIVE_UP => met.gave_up += 1,
        LOSE => {
            let client = packet.and_then(|packet| packet.message.client());
            let status = client.map(|client| before.clients[client.index()]);
            met.lost += 1;
            met.noted += u64::from(matches!(status, Some(ClientStatus::Waiting(_))));
        }
        DELIVER => count_delivery(met, &before, packet.expect("a packet is delivered")),
        _ => (),
    }
    true
}

fn met_by_run(seed: u64, profile: Profile, begun: (Generator, Cluster)) -> GivingUp {
    let mut met = GivingUp::default();
    carry_out_run(seed, profile, begun, |call, cluster| {
        perform(call, cluster, &mut met)
    });
    met
}

fn met_by_transcript(seed: u64) -> GivingUp {
    let (mut cluster, mut met) = (Cluster::new(), GivingUp::default());
    for record in run_records(seed) {
        let _ = perform(call_of(record), &mut cluster, &mut met);
    }
    met
}

fn sum(met: impl Iterator<Item = GivingUp>) -> GivingUp {
    met.fold(GivingUp::default(), |sum, of| GivingUp {
        lost: sum.lost + of.lost,
        noted: sum.noted + of.noted,
        gave_up: sum.gave_up + of.gave_up,
        idle_grants: sum.idle_grants + of.idle_grants,
        idle_agents: sum.idle_agents + of.idle_agents,
        unqueued: sum.unqueued + of.unqueued,
        early: sum.early + of.early,
    })
}

fn assert_all_met(met: GivingUp, tally: &Tally) {
    assert_eq!(tally.giving_up, met);
    assert!(0 < met.noted && met.noted < met.lost, "{met:?}");
    assert!(
        0 < met.idle_agents && met.idle_agents < met.idle_grants,
        "{met:?}"
    );
    assert!(
        met.gave_up > 0 && met.unqueued > 0 && met.early > 0,
        "{met:?}"
    );
}

/// All thirteen profiles with each preference, with drains that are kept and drains that are not.
#[test]
fn everything_met_in_runs_is_counted() {
    let met = |seed| {
        let begun = (Generator::new(seed), run_cluster(seed));
        met_by_run(seed, Profile::of_seed(seed), begun)
    };
    assert_all_met(sum((1..=104).map(met)), &tally_of(random_run, 1..=104));
}

#[test]
fn everything_met_in_hand_made_states_is_counted() {
    let met = sum((1..=600).map(|seed| {
        let mut generator = Generator::new(seed);
        let cluster = hand_made_cluster(seed, &mut generator);
        met_by_run(seed, HAND_MADE, (generator, cluster))
    }));
    assert_all_met(met, &tally_of(random_state, 1..=600));
}

#[test]
fn everything_met_in_transcripts_is_counted() {
    let met = sum((1..=120).map(met_by_transcript));
    assert_all_met(met, &tally_of(random_transcript, 1..=120));
}

/// Each drain of a lock that exists ends all waits of that lock.
#[test]
fn every_drain_of_a_run_is_tested() {
    let tally = tally_of(random_run, 1..=52);
    let drains: u64 = tally.answers[4].iter().sum();
    assert_eq!(tally.tested_drains, drains - tally.answers[4][1]);
    assert_eq!(tally.tested_drains, tally.answers[4][0]);
    assert!(tally.drained_waits.shown > 0 && tally.drained_waits.gave_up > 0);
    let tally = tally_of(random_state, 1..=100);
    assert_eq!(tally.tested_drains, 0);
}

/// Two lines for each part.
#[test]
fn program_counts_what_was_met() {
    let text = written_by(&["counts"]);
    let mut lines = text.lines();
    for part in ["runs", "states", "transcripts"] {
        let head = format!("{part} lost ");
        let line = lines.find(|line| line.starts_with(&head)).expect("a line");
        let words: Vec<&str> = line.split(' ').skip(1).collect();
        assert!(words.iter().all(|&word| word != "0"), "{line}");
        let line = lines.next().expect("another line");
        let head = format!("{part} tested drains ");
        let figures = line.strip_prefix(&head).expect("its figures");
        assert_eq!(figures == "0 shown 0 gave up 0", part != "runs", "{line}");
    }
}
