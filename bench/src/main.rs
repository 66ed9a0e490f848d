//! The proved engine beside the reference, on the same work, in one run on one machine, both built for release. Each figure is the best of
//! several rounds in which the two take turns.

use std::hint::black_box;
use std::time::Instant;

use reference::answer::answer_number;
use reference::digest::Digest;
use reference::generator::Generator;
use reference::model::{ClientId, ClientStatus, Cluster, LockId, MachineId, TaskId};
use reference::transcript::{Record, Records};

extern "C" {
    fn domezatsy_digest(bytes: *const u8, len: usize) -> u32;
    fn domezatsy_replays(bytes: *const u8, len: usize, times: u32) -> u32;
    fn domezatsy_calls(bytes: *const u8, len: usize) -> u32;
    fn domezatsy_drains(bytes: *const u8, len: usize, lock: u8, times: u32) -> u32;
    fn domezatsy_reasons(bytes: *const u8, len: usize, lock: u8, client: u8, times: u32) -> u32;
}

const ROUNDS: usize = 9;
const DRAINS: u32 = 2_000;
const QUESTIONS: u32 = 2_000;
const REFUSED: usize = 8_000;
/// The sizes of the engine's states, which its functions take and give by value.
const LOCK_BYTES: usize = 3_202;
const CLUSTER_BYTES: usize = 25_617;

/// A record's bytes.
fn encode(record: &Record) -> Vec<u8> {
    let fields = record.arguments();
    let mut bytes = vec![4 + fields.len() as u8, 0, record.kind() as u8, 0];
    bytes.extend(fields);
    bytes
}

/// A call that is nearly always accepted: a delivery from anywhere on the wire, or what the client can do next.
fn choose(cluster: &Cluster, draws: &mut Generator, locks: u64) -> Record {
    let lock = LockId(draws.draw(locks) as u8);
    let (machine, task) = (MachineId(draws.draw(4) as u8), TaskId(draws.draw(4) as u8));
    let state = &cluster.locks[lock.index()];
    let wire = state.wire.len() as u64;
    if wire > 0 && draws.draw(8) < 5 {
        return Record::Deliver(lock, draws.draw(wire) as u8);
    }
    match state.clients[ClientId::new(machine, task).index()] {
        ClientStatus::Idle => Record::Acquire(lock, machine, task, 2 + (draws.draw(4) > 0) as u8),
        ClientStatus::Holding(_) => Record::Release(lock, machine, task),
        _ => Record::Deliver(lock, 0),
    }
}

/// A transcript of at most so many bytes over so many locks.
fn transcript(seed: u64, limit: usize, locks: u64) -> Vec<u8> {
    let mut draws = Generator::new(seed);
    let mut cluster = Cluster::new();
    let mut bytes = Vec::new();
    loop {
        let record = choose(&cluster, &mut draws, locks);
        let _ = record.run(&mut cluster);
        let more = encode(&record);
        if bytes.len() + more.len() > limit {
            return bytes;
        }
        bytes.extend(more);
    }
}

/// One client after the other acquires lock 0, shared, is granted and releases, each behind the packets that the ones before left on the wire.
fn visits(clients: u8) -> Vec<Record> {
    let lock = LockId(0);
    let visit = |client: u8| {
        let (machine, task, place) = (MachineId(client / 4), TaskId(client % 4), 1 + 2 * client);
        let arrives = Record::Deliver(lock, place);
        [Record::Acquire(lock, machine, task, 3), arrives, arrives, Record::Release(lock, machine, task)]
    };
    (0..clients).flat_map(visit).collect()
}

/// Document 01's D13, and its FREE delivered: a wire of 33 packets, of which the first names client 0/0, which is idle.
fn full_wire() -> Vec<Record> {
    let (lock, machine, task) = (LockId(0), MachineId(0), TaskId(0));
    let first = Record::Deliver(lock, 0);
    let mut records = vec![Record::Acquire(lock, machine, task, 3), first, first, Record::Release(lock, machine, task)];
    records.extend(visits(16));
    records.push(first);
    records
}

/// Acquires of client 0/0 on that wire, each refused with 6: inside a run, and by public calls. What leads to the wire is taken off.
fn refusals() -> [(f64, f64); 2] {
    let asks = Record::Acquire(LockId(0), MachineId(0), TaskId(0), 3);
    let begun: Vec<u8> = full_wire().iter().flat_map(encode).collect();
    let mut bytes = begun.clone();
    (0..REFUSED).for_each(|_| bytes.extend(encode(&asks)));
    let (mut cluster, _) = checked(&bytes);
    assert_eq!((cluster.locks[0].wire.len(), answer_number(&asks.run(&mut cluster))), (33, 6));
    let less = |whole: (f64, f64), part: (f64, f64)| (whole.0 - part.0, whole.1 - part.1);
    let runs = less(race(|| engine_runs(&bytes, 1), || reference_runs(&bytes, 1)), race(|| engine_runs(&begun, 1), || reference_runs(&begun, 1)));
    let calls = less(race(|| engine_calls(&bytes), || reference_calls(&bytes)), race(|| engine_calls(&begun), || reference_calls(&begun)));
    [runs, calls]
}

/// The best time of each of two jobs, in nanoseconds, over rounds in which they take turns.
fn race(mut ours: impl FnMut(), mut theirs: impl FnMut()) -> (f64, f64) {
    let mut best = (f64::MAX, f64::MAX);
    for _ in 0..ROUNDS {
        let start = Instant::now();
        ours();
        best.0 = best.0.min(start.elapsed().as_nanos() as f64);
        let start = Instant::now();
        theirs();
        best.1 = best.1.min(start.elapsed().as_nanos() as f64);
    }
    best
}

fn row(name: &str, best: (f64, f64), units: f64) {
    let (ours, theirs) = (best.0 / units, best.1 / units);
    println!("| {name} | {ours:.0} | {theirs:.0} | {:.2} |", ours / theirs);
}

fn engine_runs(bytes: &[u8], times: u32) {
    black_box(unsafe { domezatsy_replays(bytes.as_ptr(), bytes.len(), times) });
}

fn reference_runs(bytes: &[u8], times: u32) {
    for _ in 0..times {
        black_box(Cluster::new().run_transcript(bytes));
    }
}

fn engine_calls(bytes: &[u8]) {
    black_box(unsafe { domezatsy_calls(bytes.as_ptr(), bytes.len()) });
}

fn reference_calls(bytes: &[u8]) {
    let mut cluster = Cluster::new();
    for record in Records::new(bytes) {
        let _ = black_box(record.expect("a good record").run(&mut cluster));
    }
}

fn drains_of(bytes: &[u8], cluster: &Cluster) -> (f64, f64) {
    race(
        || {
            black_box(unsafe { domezatsy_drains(bytes.as_ptr(), bytes.len(), 0, DRAINS) });
        },
        || {
            for _ in 0..DRAINS {
                black_box(cluster.clone().drain(LockId(0)).expect("a drain ends"));
            }
        },
    )
}

/// Asks so often why a client waits, one that does; a reason is answered with 0.
fn questions_of(bytes: &[u8], cluster: &Cluster) -> (f64, f64) {
    let waits = |status: &ClientStatus| matches!(status, ClientStatus::Waiting(_));
    let client = cluster.locks[0].clients.iter().position(waits).expect("a client waits") as u8;
    let (machine, task) = (client / 4, client % 4);
    race(
        || {
            let (from, len) = (bytes.as_ptr(), bytes.len());
            let total = unsafe { domezatsy_reasons(from, len, 0, client, QUESTIONS) };
            assert_eq!(black_box(total), QUESTIONS, "the client has a reason");
        },
        || {
            for _ in 0..QUESTIONS {
                let reason = cluster.reason(LockId(0), MachineId(machine), TaskId(task));
                black_box(reason.expect("the client has a reason"));
            }
        },
    )
}

/// What passing a state by value costs by itself: so many bytes copied into a call and out of it, so many times.
fn copies(size: usize, times: usize) {
    let (mut state, mut passed) = (vec![0u8; size], vec![0u8; size]);
    for _ in 0..times {
        black_box(&mut passed).copy_from_slice(black_box(&state));
        black_box(&mut state).copy_from_slice(black_box(&passed));
    }
}

/// The two programs agree on where the transcript leads before anything is measured.
fn checked(bytes: &[u8]) -> (Cluster, f64) {
    let mut cluster = Cluster::new();
    let outcome = cluster.run_transcript(bytes);
    let mut digest = Digest::new(0);
    digest.cluster(&cluster);
    let ours = unsafe { domezatsy_digest(bytes.as_ptr(), bytes.len()) };
    assert_eq!(u64::from(ours), digest.value(), "the two programs differ");
    (cluster, outcome.record as f64)
}

fn main() {
    let short = transcript(1, 6_500, 2);
    let full = transcript(2, 65_535, 2);
    let busy = transcript(3, 3_000, 1);
    let all_locks = transcript(4, 6_500, 8);
    let (_, short_records) = checked(&short);
    let (_, full_records) = checked(&full);
    let (_, all_records) = checked(&all_locks);
    let (mut cluster, _) = checked(&busy);
    println!("| work | engine, ns | reference, ns | ratio |");
    println!("|---|---|---|---|");
    let runs = race(|| engine_runs(&short, 20), || reference_runs(&short, 20));
    row(&format!("a step inside a run of {short_records}"), runs, 20.0 * short_records);
    let runs = race(|| engine_runs(&full, 2), || reference_runs(&full, 2));
    row(&format!("a step inside a run of {full_records}"), runs, 2.0 * full_records);
    let calls = race(|| engine_calls(&short), || reference_calls(&short));
    row("a public call, two locks in use", calls, short_records);
    let calls = race(|| engine_calls(&all_locks), || reference_calls(&all_locks));
    row("a public call, all locks in use", calls, all_records);
    let runs = race(|| engine_runs(&full, 1), || reference_runs(&full, 1));
    row("a full-size transcript", runs, 1.0);
    row("a question for a reason", questions_of(&busy, &cluster), f64::from(QUESTIONS));
    let [runs, calls] = refusals();
    row("an acquire refused with 6 inside a run, by the first of 33 packets", runs, REFUSED as f64);
    row("the same by a public call", calls, REFUSED as f64);
    let drains = drains_of(&busy, &cluster);
    let steps = cluster.drain(LockId(0)).expect("a drain ends").count;
    row(&format!("a drain of {steps} steps"), drains, f64::from(DRAINS));
    println!();
    println!("| what passing by value costs by itself | ns | the reference's whole work, ns | ratio |");
    println!("|---|---|---|---|");
    let lock = race(|| copies(LOCK_BYTES, full_records as usize), || reference_runs(&full, 1));
    row("a lock's state, into a step and out of it", lock, full_records);
    let cluster = race(|| copies(CLUSTER_BYTES, short_records as usize), || reference_calls(&short));
    row("a cluster, into a public call and out of it", cluster, short_records);
}
