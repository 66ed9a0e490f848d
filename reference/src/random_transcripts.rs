//! Random transcripts, some of them damaged (docs/random-runs.md).

use crate::answer::{answer_number, StepOutcome};
use crate::circled::Origin;
use crate::digest::Digest;
use crate::drain_test::Book;
use crate::generator::Generator;
use crate::handlings::StepHandlings;
use crate::model::{Cluster, LOCKS};
use crate::random_calls::{Profile, TRANSCRIPT};
use crate::report::{Incoming, Report, Tally};
use crate::transcript::{listing, Record, TRANSCRIPT_LIMIT};
use std::io;

pub const FIRST_TRANSCRIPT: u64 = 1;
pub const LAST_TRANSCRIPT: u64 = 312;

/// One byte more than a transcript may have.
const BUFFER: usize = TRANSCRIPT_LIMIT + 1;
/// The last number of records fills the buffer.
const RECORDS: [u64; 8] = [0, 1, 3, 10, 40, 160, 640, 11_000];

/// The fewest records of a long transcript, and how many more it may have.
const LONG_RECORDS: (u64, u64) = (2_000, 8_000);
/// A long transcript takes the next profile after so many records.
const PROFILE_RECORDS: u64 = 256;
/// One in so many refused calls stays in a long transcript.
const KEPT_REFUSALS: u64 = 8;

/// Runs one seed of `transcripts`.
pub fn random_transcript(seed: u64, report: &mut Report) -> io::Result<()> {
    let bytes = transcript_bytes(seed);
    let text = listing(&bytes);
    let mut digest = Digest::new(seed);
    digest.bytes(text.as_bytes());
    if report.each_step {
        report.out.write_all(text.as_bytes())?;
    }
    count_answers(seed, &bytes, report)?;
    let (length, lines, digest) = (bytes.len(), text.lines().count(), digest.value());
    writeln!(
        report.out,
        "transcript {seed} bytes {length} lines {lines} digest {digest}"
    )
}

/// Counts the answers, and tests each call as in a run, since the cluster was fresh here too.
fn count_answers(seed: u64, bytes: &[u8], report: &mut Report) -> io::Result<()> {
    let tally = &mut report.tally;
    let mut tested = Ok(());
    let mut past = Past::default();
    let whole = Cluster::new().run_transcript_with(bytes, |number, record, outcome, cluster| {
        tally.count(record.kind() as u8, answer_number(&outcome));
        // A transcript cannot be stopped from here; after a failure it goes on untested.
        if tested.is_ok() {
            let result = past.test_record(record, &outcome, cluster, tally);
            tested = result.map_err(|broken| {
                let place = format!("transcript {seed} record {number} lock {}", record.lock().0);
                io::Error::other(format!("{place}: {broken}"))
            });
        }
        follow(record, cluster, &mut past.before);
    });
    tally.count(TRANSCRIPT, answer_number(&whole.answer));
    tested?;
    let result = tally.test_last_handling(TRANSCRIPT, &past.steps, whole.handling);
    result.map_err(|broken| io::Error::other(format!("transcript {seed}: {broken}")))
}

/// What the tests of a record need of the records before it.
#[derive(Default)]
struct Past {
    before: Cluster,
    steps: StepHandlings,
    books: [Book; LOCKS],
}

impl Past {
    fn test_record(
        &mut self,
        record: &Record,
        outcome: &StepOutcome,
        cluster: &Cluster,
        tally: &mut Tally,
    ) -> Result<(), String> {
        let (kind, lock) = (record.kind() as u8, record.lock().index());
        self.steps.push(outcome.unwrap_or_default());
        let incoming = Incoming::of(&self.before, record);
        let book = self.books.get_mut(lock);
        tally.test_step(
            kind,
            incoming,
            outcome,
            (cluster, lock),
            book,
            Origin::Fresh,
        )
    }
}

/// Brings the cluster before a record to the one after it; only the record's lock has changed.
fn follow(record: &Record, after: &Cluster, before: &mut Cluster) {
    let lock = record.lock().index();
    if let Some(state) = before.locks.get_mut(lock) {
        state.clone_from(&after.locks[lock]);
    }
}

/// The bytes of the transcript with this seed.
pub fn transcript_bytes(seed: u64) -> Vec<u8> {
    let mut generator = Generator::new(seed);
    let records = RECORDS[(seed % 8) as usize];
    let damaged = generator.draw(2 * records + 2);
    let damage = generator.draw(8);
    let cut = generator.draw(16) as usize;
    let profile = Profile::of_seed(seed);
    let mut cluster = Cluster::new();
    let mut bytes = Vec::new();
    for number in 1..=records {
        let call = profile.choose_call(seed, &generator.eight(), &cluster);
        let damage = (number == damaged).then_some(damage);
        push_record(&call.record(), damage, &mut bytes);
        // The cluster moves on only to give the next record likely arguments.
        let _ = call.perform(&mut cluster);
    }
    bytes.truncate(BUFFER);
    if cut < 8 {
        bytes.truncate(bytes.len().saturating_sub(cut));
    }
    bytes
}

/// The bytes of the long transcript with this seed: no damage, all profiles in
/// turn, and most of its calls accepted.
pub fn long_transcript_bytes(seed: u64) -> Vec<u8> {
    let mut generator = Generator::new(seed);
    let (fewest, more) = LONG_RECORDS;
    let records = fewest + generator.draw(more + 1);
    let mut cluster = Cluster::new();
    let mut bytes = Vec::new();
    let mut made = 0;
    while made < records {
        let part = seed + made / PROFILE_RECORDS;
        let profile = Profile::of_seed(part);
        let call = profile.choose_call(part, &generator.eight(), &cluster);
        // A refused call changes nothing, so it can be left out.
        if call.perform(&mut cluster).is_err() && generator.draw(KEPT_REFUSALS) > 0 {
            continue;
        }
        let length = bytes.len();
        push_record(&call.record(), None, &mut bytes);
        if bytes.len() > TRANSCRIPT_LIMIT {
            bytes.truncate(length);
            break;
        }
        made += 1;
    }
    bytes
}

fn push_record(record: &Record, damage: Option<u64>, bytes: &mut Vec<u8>) {
    let arguments = record.arguments();
    let (length, kind) = (4 + arguments.len() as u16, record.kind());
    let (length, kind) = match damage {
        Some(0) => (length, 0),
        Some(1) => (length, 4),
        Some(2) => (length, kind + 256),
        Some(3) => (length + 1, kind),
        Some(4) => (length - 1, kind),
        Some(5) => (length + 256, kind),
        Some(6) => (length, 5),
        Some(_) => (length, 8),
        None => (length, kind),
    };
    bytes.extend_from_slice(&length.to_le_bytes());
    bytes.extend_from_slice(&kind.to_le_bytes());
    bytes.extend_from_slice(&arguments);
}
