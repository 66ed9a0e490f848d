//! Short ways to drive lock 0 in tests, and the states of the scenarios (document 01, 'Drills').
#![allow(dead_code)]

use reference::digest::Digest;
use reference::generator::Generator;
use reference::model::{
    Address, Agent, ClientId, ClientStatus, Cluster, LockId, LockState, MachineId, Message, Mode,
    Packet, TaskId, Waiter,
};
use reference::random_calls::{Call, Profile, DELIVER, GIVE_UP, HAND_MADE, RELEASE};
use reference::random_runs::Run;
use reference::random_transcripts::transcript_bytes;
use reference::report::{Report, Tally};
use reference::transcript::{Record, Records};
use reference::{answer_number, Drained, Handling, Refusal, DRAIN_LIMIT};
use std::ops::RangeInclusive;
use std::process::Command;

pub const LOCK: LockId = LockId(0);
pub const EXCLUSIVE: u8 = 2;
pub const SHARED: u8 = 3;

/// The preferences (document 02, §5).
pub const READERS: u8 = 0;
pub const WRITERS: u8 = 1;
pub const BOTH: [u8; 2] = [READERS, WRITERS];

/// The fresh cluster with one of the two preferences.
pub fn fresh(preference: u8) -> Cluster {
    let (outcome, cluster) = Cluster::fresh(preference);
    accepted(&[answer(outcome)]);
    cluster
}

/// The cluster that a run starts from (docs/random-runs.md).
pub fn run_cluster(seed: u64) -> Cluster {
    fresh(if seed / 13 % 2 == 1 { WRITERS } else { READERS })
}

pub fn acquire(cluster: &mut Cluster, machine: u8, task: u8, mode: u8) -> u8 {
    answer(cluster.acquire(LOCK, MachineId(machine), TaskId(task), mode))
}

pub fn release(cluster: &mut Cluster, machine: u8, task: u8) -> u8 {
    answer(cluster.release(LOCK, MachineId(machine), TaskId(task)))
}

pub fn deliver(cluster: &mut Cluster, index: u8) -> u8 {
    answer(cluster.deliver(LOCK, index))
}

pub fn lose(cluster: &mut Cluster, index: u8) -> u8 {
    answer(cluster.lose(LOCK, index))
}

pub fn give_up(cluster: &mut Cluster, machine: u8, task: u8) -> u8 {
    answer(cluster.give_up(LOCK, MachineId(machine), TaskId(task)))
}

pub fn answer<T>(outcome: Result<T, Refusal>) -> u8 {
    answer_number(&outcome)
}

/// The outcome of an accepted drain.
pub fn drained(count: u16, handling: Handling) -> Result<Drained, Refusal> {
    Ok(Drained { count, handling })
}

/// Asserts that every call of a list is accepted.
pub fn accepted(answers: &[u8]) {
    assert!(answers.iter().all(|&answer| answer == 0), "{answers:?}");
}

pub fn client(machine: u8, task: u8) -> ClientId {
    ClientId::new(MachineId(machine), TaskId(task))
}

pub fn lock(cluster: &Cluster) -> &LockState {
    &cluster.locks[0]
}

pub fn status(cluster: &Cluster, machine: u8, task: u8) -> ClientStatus {
    lock(cluster).clients[client(machine, task).index()]
}

pub fn agent(cluster: &Cluster, machine: u8) -> &Agent {
    let slot = &lock(cluster).agents[usize::from(machine)];
    slot.as_ref().expect("an agent on the machine")
}

pub fn holders(agent: &Agent) -> Vec<u8> {
    let all = 0..16;
    all.filter(|&c| agent.holders.contains(ClientId(c)))
        .collect()
}

/// The clients and modes of a queue, first come first.
pub fn waiters(queue: &[(u8, Mode)]) -> Vec<Waiter> {
    let waiter = |&(number, mode)| Waiter {
        client: ClientId(number),
        mode,
    };
    queue.iter().map(waiter).collect()
}

pub fn to(machine: u8) -> Address {
    Address::Machine(MachineId(machine))
}

pub fn request(client: ClientId, mode: Mode, granted: bool) -> Message {
    Message::Acquire {
        client,
        mode,
        granted,
    }
}

pub fn grant(client: ClientId, mode: Mode) -> Message {
    Message::Grant { client, mode }
}

pub fn plain(message: Message, address: Address) -> Packet {
    Packet::new(message, address)
}

/// The same packet with another count.
pub fn with_count(count: u8, packet: Packet) -> Packet {
    Packet {
        circled: count,
        ..packet
    }
}

pub fn d1() -> Cluster {
    let mut cluster = Cluster::new();
    accepted(&[
        acquire(&mut cluster, 0, 0, SHARED),
        deliver(&mut cluster, 0),
    ]);
    cluster
}

pub fn d2() -> Cluster {
    let mut cluster = d1();
    accepted(&[
        deliver(&mut cluster, 0),
        acquire(&mut cluster, 1, 0, SHARED),
        deliver(&mut cluster, 0),
    ]);
    cluster
}

pub fn d3() -> Cluster {
    let mut cluster = d2();
    accepted(&[release(&mut cluster, 0, 0), deliver(&mut cluster, 2)]);
    cluster
}

pub fn d4() -> Cluster {
    let mut cluster = d3();
    accepted(&[deliver(&mut cluster, 2)]);
    cluster
}

pub fn d5() -> Cluster {
    let mut cluster = d4();
    accepted(&[deliver(&mut cluster, 1)]);
    cluster
}

pub fn d6() -> Cluster {
    let mut cluster = d2();
    accepted(&[
        deliver(&mut cluster, 0),
        release(&mut cluster, 1, 0),
        deliver(&mut cluster, 1),
        deliver(&mut cluster, 1),
    ]);
    cluster
}

/// 0/0 holds exclusively; a = 1/0 shared, b = 2/0 exclusive and c = 3/0 shared are queued.
pub fn d12_queue(preference: u8) -> Cluster {
    let mut cluster = fresh(preference);
    accepted(&[
        acquire(&mut cluster, 0, 0, EXCLUSIVE),
        deliver(&mut cluster, 0),
        deliver(&mut cluster, 0),
    ]);
    for (machine, mode) in [(1, SHARED), (2, EXCLUSIVE), (3, SHARED)] {
        accepted(&[
            acquire(&mut cluster, machine, 0, mode),
            deliver(&mut cluster, 0),
            deliver(&mut cluster, 0),
        ]);
    }
    cluster
}

/// The exclusive holder has released, and a has got the agent.
pub fn d12() -> Cluster {
    d12_with(READERS)
}

pub fn d12_with(preference: u8) -> Cluster {
    let mut cluster = d12_queue(preference);
    accepted(&[
        release(&mut cluster, 0, 0),
        deliver(&mut cluster, 0),
        deliver(&mut cluster, 0),
    ]);
    cluster
}

/// Drains lock 0 by calls: whom the GRANTs were for that a machine showed, in order, and the number of steps.
pub fn shown_by_draining(cluster: &mut Cluster) -> (Vec<u8>, u16) {
    let (mut shown, mut steps) = (Vec::new(), 0);
    loop {
        let holding = |&number: &u8| {
            let status = status(cluster, number / 4, number % 4);
            matches!(status, ClientStatus::Holding(_))
        };
        let lowest = (0..16).find(holding);
        match (lock(cluster).wire.first(), lowest) {
            (Some(packet), _) => {
                let to_machine = packet.address != Address::Decider;
                if let (Message::Grant { client, .. }, true, false) =
                    (packet.message, to_machine, packet.rejected)
                {
                    shown.push(client.0);
                }
                accepted(&[deliver(cluster, 0)]);
            }
            (None, Some(number)) => accepted(&[release(cluster, number / 4, number % 4)]),
            (None, None) => return (shown, steps),
        }
        steps += 1;
    }
}

/// All sixteen clients have come and gone; nothing reached the agent.
pub fn d13() -> Cluster {
    let mut cluster = d1();
    accepted(&[deliver(&mut cluster, 0), release(&mut cluster, 0, 0)]);
    for number in 0..16 {
        let (machine, task) = (number / 4, number % 4);
        let last = lock(&cluster).wire.len() as u8;
        accepted(&[
            acquire(&mut cluster, machine, task, SHARED),
            deliver(&mut cluster, last),
            deliver(&mut cluster, last),
        ]);
    }
    for number in 0..16 {
        accepted(&[release(&mut cluster, number / 4, number % 4)]);
    }
    cluster
}

/// The indexes of all packets that name a client; a wire that claims more than 49 packets has 49.
pub fn all_naming(state: &LockState, asked: ClientId) -> Vec<usize> {
    let client_of = |packet: &Packet| match packet.message {
        Message::Acquire { client, .. } => Some(client),
        Message::Grant { client, .. } => Some(client),
        Message::Release { client } => Some(client),
        Message::Free => None,
    };
    let all = 0..state.wire.len().min(49);
    all.filter(|&index| client_of(&state.wire[index]) == Some(asked))
        .collect()
}

/// The numbers of item 4 of a step (docs/random-runs.md), from the list of all packets that name the client.
pub fn named_numbers(cluster: &Cluster, call: &Call) -> Vec<u8> {
    if call.lock.0 > 7 || call.machine.0 > 3 || call.task.0 > 3 {
        return vec![];
    }
    let state = &cluster.locks[call.lock.index()];
    let asked = ClientId(4 * call.machine.0 + call.task.0);
    match all_naming(state, asked)[..] {
        [] => vec![0],
        [first, ..] => vec![1, first as u8],
    }
}

/// A record as a call; what the record has not is 0.
pub fn call_of(record: Record) -> Call {
    let nowhere = (MachineId(0), TaskId(0));
    let (lock, (machine, task), mode, index) = match record {
        Record::Acquire(lock, machine, task, mode) => (lock, (machine, task), mode, 0),
        Record::Release(lock, machine, task) | Record::GiveUp(lock, machine, task) => {
            (lock, (machine, task), 0, 0)
        }
        Record::Deliver(lock, index) | Record::Lose(lock, index) => (lock, nowhere, 0, index),
    };
    Call {
        kind: record.kind() as u8,
        lock,
        machine,
        task,
        mode,
        index,
    }
}

pub fn acquire_record(machine: u8, task: u8, mode: u8) -> Record {
    Record::Acquire(LOCK, MachineId(machine), TaskId(task), mode)
}

pub fn release_record(machine: u8, task: u8) -> Record {
    Record::Release(LOCK, MachineId(machine), TaskId(task))
}

pub fn give_up_record(machine: u8, task: u8) -> Record {
    Record::GiveUp(LOCK, MachineId(machine), TaskId(task))
}

pub fn deliver_record(index: u8) -> Record {
    Record::Deliver(LOCK, index)
}

pub fn lose_record(index: u8) -> Record {
    Record::Lose(LOCK, index)
}

/// The good records of a random transcript; one that is too long is not run.
pub fn run_records(seed: u64) -> Vec<Record> {
    let bytes = transcript_bytes(seed);
    let records = Records::new(&bytes).map_while(Result::ok);
    records.filter(|_| bytes.len() <= 65_535).collect()
}

/// Carries out a run once more. Each call, and on a copy each step of a drain, is made by `make`, which says whether it was accepted.
pub fn carry_out_run(
    seed: u64,
    profile: Profile,
    (mut generator, mut cluster): (Generator, Cluster),
    mut make: impl FnMut(Call, &mut Cluster) -> bool,
) {
    for _ in 0..profile.steps {
        let outputs = generator.eight();
        let call = profile.choose_call(seed, &outputs, &cluster);
        if outputs[0].is_multiple_of(64) {
            let mut copy = cluster.clone();
            let mut next =
                |_: &u16| drain_step(&copy, call).is_some_and(|step| make(step, &mut copy));
            let _ = (0..DRAIN_LIMIT).take_while(|number| next(number)).count();
            if seed / 16 % 2 == 1 {
                let _ = cluster.drain(call.lock);
            }
        }
        let _ = make(call, &mut cluster);
    }
}

/// The bytes of a transcript with these records, worked out once more.
pub fn records_bytes(records: &[Record]) -> Vec<u8> {
    let bytes = |record: &Record| match *record {
        Record::Acquire(lock, machine, task, mode) => {
            vec![8, 0, 1, 0, lock.0, machine.0, task.0, mode]
        }
        Record::Release(lock, machine, task) => vec![7, 0, 2, 0, lock.0, machine.0, task.0],
        Record::Deliver(lock, index) => vec![6, 0, 3, 0, lock.0, index],
        Record::Lose(lock, index) => vec![6, 0, 6, 0, lock.0, index],
        Record::GiveUp(lock, machine, task) => vec![7, 0, 7, 0, lock.0, machine.0, task.0],
    };
    records.iter().flat_map(bytes).collect()
}

/// The next step of a drain of the call's lock, none where it is quiescent or does not exist.
pub fn drain_step(cluster: &Cluster, call: Call) -> Option<Call> {
    let state = cluster.locks.get(call.lock.index())?;
    let holding = |&c: &u8| matches!(state.clients[usize::from(c)], ClientStatus::Holding(_));
    let noted = |&c: &u8| state.lost_grants.contains(ClientId(c));
    let (kind, number) = match (state.wire.is_empty(), (0..16).find(holding)) {
        (false, _) => (DELIVER, 0),
        (true, Some(holder)) => (RELEASE, holder),
        (true, None) => (GIVE_UP, (0..16).find(noted)?),
    };
    Some(Call {
        kind,
        machine: MachineId(number / 4),
        task: TaskId(number % 4),
        index: 0,
        ..call
    })
}

/// The digest of docs/random-runs.md, worked out once more.
pub fn digest_of(start: u64, bytes: &[u8]) -> u64 {
    let next = |h: u64, &byte: &u8| (h * 65_599 + u64::from(byte) + 1) % 4_294_967_291;
    bytes.iter().fold(start, next)
}

pub fn cluster_digest(start: u64, cluster: &Cluster) -> u64 {
    let mut digest = Digest::new(start);
    digest.cluster(cluster);
    digest.value()
}

/// The line that stops a run from this state of all locks, tested as if it were a reached one.
pub fn stopped(preference: u8, seed: u64, state: &LockState) -> String {
    let mut cluster = fresh(preference);
    cluster.locks.fill(state.clone());
    let mut written = Vec::new();
    let mut report = Report::new(&mut written, false);
    let run = Run::new("run", seed, HAND_MADE, Generator::new(seed), cluster);
    let stop = run.tested().finish(&mut report);
    assert!(written.is_empty());
    stop.expect_err("the run is stopped").to_string()
}

/// A seed with a drain of a lock in its first step, before the first call.
pub fn draining_seed() -> u64 {
    let drains =
        |outputs: [u64; 8]| outputs[0].is_multiple_of(64) && outputs[1] % 64 >= HAND_MADE.wild;
    let mut seeds = 1..1_000;
    let seed = seeds.find(|&seed| drains(Generator::new(seed).eight()));
    seed.expect("one step in 64 drains a lock")
}

/// One seed of a part of docs/random-runs.md.
pub type RunSeed = fn(u64, &mut Report) -> std::io::Result<()>;

/// The lines of each step of a run, and its tally.
pub fn lines_of(run: RunSeed, seed: u64) -> (Vec<String>, Tally) {
    let mut written = Vec::new();
    let mut report = Report::new(&mut written, true);
    run(seed, &mut report).expect("nothing is broken");
    let tally = report.tally;
    let text = String::from_utf8(written).expect("lines are text");
    let lines = text.lines().filter(|line| line.contains(" kind "));
    (lines.map(String::from).collect(), tally)
}

pub fn tally_of(run: RunSeed, seeds: RangeInclusive<u64>) -> Tally {
    let mut nowhere = std::io::sink();
    let mut report = Report::new(&mut nowhere, false);
    for seed in seeds {
        run(seed, &mut report).expect("nothing is broken");
    }
    report.tally
}

pub fn program(arguments: &[&str]) -> Command {
    let mut command = Command::new(env!("CARGO_BIN_EXE_reference"));
    command.args(arguments);
    command
}

/// What the program writes; it has to end well.
pub fn written_by(arguments: &[&str]) -> String {
    let output = program(arguments).output().expect("the program runs");
    assert!(output.status.success());
    String::from_utf8(output.stdout).expect("lines are text")
}
