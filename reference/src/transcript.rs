//! Transcripts: reading records, running them, and the listing (document 01,
//! 'Transcripts and the desk program'; document 02, §4 and §8).

use crate::answer::{answer_number, without_handling, Handling, Outcome, Refusal, StepOutcome};
use crate::model::{Cluster, LockId, LockState, MachineId, TaskId};
use std::fmt::Write;

/// A longer transcript is refused with 13.
pub const TRANSCRIPT_LIMIT: usize = 65_535;

/// The first line of every listing.
pub const LISTING_HEADER: &str = "n kind answer wire\n";

/// Length and kind, two bytes each, come before the arguments.
const PREFIX: usize = 4;

#[derive(Clone, Copy, Debug, PartialEq, Eq)]
pub enum Record {
    Acquire(LockId, MachineId, TaskId, u8),
    Release(LockId, MachineId, TaskId),
    Deliver(LockId, u8),
    Lose(LockId, u8),
    GiveUp(LockId, MachineId, TaskId),
}

impl Record {
    pub fn kind(&self) -> u16 {
        match self {
            Record::Acquire(..) => 1,
            Record::Release(..) => 2,
            Record::Deliver(..) => 3,
            Record::Lose(..) => 6,
            Record::GiveUp(..) => 7,
        }
    }

    pub fn lock(&self) -> LockId {
        match *self {
            Record::Acquire(lock, ..)
            | Record::Release(lock, ..)
            | Record::Deliver(lock, _)
            | Record::Lose(lock, _)
            | Record::GiveUp(lock, ..) => lock,
        }
    }

    /// The bytes behind length and kind.
    pub fn arguments(&self) -> Vec<u8> {
        match *self {
            Record::Acquire(lock, machine, task, mode) => vec![lock.0, machine.0, task.0, mode],
            Record::Release(lock, machine, task) | Record::GiveUp(lock, machine, task) => {
                vec![lock.0, machine.0, task.0]
            }
            Record::Deliver(lock, index) | Record::Lose(lock, index) => vec![lock.0, index],
        }
    }

    pub fn run(&self, cluster: &mut Cluster) -> StepOutcome {
        cluster.check_well_formed()?;
        self.run_checked(cluster)
    }

    /// The same on a cluster that is known to be well formed: each call keeps
    /// it so, and a run tests it once.
    fn run_checked(&self, cluster: &mut Cluster) -> StepOutcome {
        match *self {
            Record::Acquire(lock, machine, task, mode) => {
                without_handling(cluster.acquire_checked(lock, machine, task, mode))
            }
            Record::Release(lock, machine, task) => {
                without_handling(cluster.ask_checked(lock, machine, task, LockState::release))
            }
            Record::Deliver(lock, index) => cluster.deliver_checked(lock, index),
            Record::Lose(lock, index) => without_handling(cluster.lose_checked(lock, index)),
            Record::GiveUp(lock, machine, task) => {
                without_handling(cluster.ask_checked(lock, machine, task, LockState::give_up))
            }
        }
    }

    fn parse(kind: u16, arguments: &[u8]) -> Option<Record> {
        match (kind, arguments) {
            (1, &[lock, machine, task, mode]) => Some(Record::Acquire(
                LockId(lock),
                MachineId(machine),
                TaskId(task),
                mode,
            )),
            (2, &[lock, machine, task]) => Some(Record::Release(
                LockId(lock),
                MachineId(machine),
                TaskId(task),
            )),
            (3, &[lock, index]) => Some(Record::Deliver(LockId(lock), index)),
            (6, &[lock, index]) => Some(Record::Lose(LockId(lock), index)),
            (7, &[lock, machine, task]) => Some(Record::GiveUp(
                LockId(lock),
                MachineId(machine),
                TaskId(task),
            )),
            _ => None,
        }
    }
}

/// An iterator over the records of a transcript; it ends after a bad record.
pub struct Records<'a> {
    rest: &'a [u8],
}

impl<'a> Records<'a> {
    pub fn new(bytes: &'a [u8]) -> Self {
        Records { rest: bytes }
    }

    /// Reads one record and its whole length, or nothing when it is bad.
    fn read(&self) -> Option<(Record, usize)> {
        let length = usize::from(u16::from_le_bytes(self.rest.get(0..2)?.try_into().ok()?));
        let kind = u16::from_le_bytes(self.rest.get(2..PREFIX)?.try_into().ok()?);
        let arguments = self.rest.get(PREFIX..length)?;
        Some((Record::parse(kind, arguments)?, length))
    }
}

impl Iterator for Records<'_> {
    type Item = Result<Record, Refusal>;

    fn next(&mut self) -> Option<Self::Item> {
        if self.rest.is_empty() {
            return None;
        }
        match self.read() {
            Some((record, length)) => {
                self.rest = &self.rest[length..];
                Some(Ok(record))
            }
            None => {
                self.rest = &[];
                Some(Err(Refusal::RecordInvalid))
            }
        }
    }
}

/// The outcome of a whole transcript. `record` is how many records an accepted
/// one has, or which record is bad, and 0 for any other refusal. `handling` is
/// the last one of the records that were run, or none.
#[derive(Clone, Copy, Debug, PartialEq, Eq)]
pub struct TranscriptOutcome {
    pub answer: Outcome,
    pub record: usize,
    pub handling: Handling,
}

impl Cluster {
    pub fn run_transcript(&mut self, bytes: &[u8]) -> TranscriptOutcome {
        self.run_transcript_with(bytes, |_, _, _, _| ())
    }

    /// Runs a transcript and shows every good record, with its number, its
    /// outcome and the cluster after it.
    pub fn run_transcript_with(
        &mut self,
        bytes: &[u8],
        mut show: impl FnMut(usize, &Record, StepOutcome, &Cluster),
    ) -> TranscriptOutcome {
        let mut whole = TranscriptOutcome {
            answer: self.check_transcript(bytes),
            record: 0,
            handling: Handling::None,
        };
        if whole.answer.is_err() {
            return whole;
        }
        for read in Records::new(bytes) {
            whole.record += 1;
            match read {
                // Refused or accepted, the next record follows (document 01,
                // 'Zero and the refusals').
                Ok(step) => {
                    let outcome = step.run_checked(self);
                    whole.handling.meet(outcome.unwrap_or_default());
                    show(whole.record, &step, outcome, self);
                }
                // No record follows a bad one.
                Err(refusal) => whole.answer = Err(refusal),
            }
        }
        whole
    }

    /// Refusal 11, then 13, for the whole transcript (document 01, 'Zero and
    /// the refusals').
    fn check_transcript(&self, bytes: &[u8]) -> Outcome {
        self.check_well_formed()?;
        if bytes.len() > TRANSCRIPT_LIMIT {
            return Err(Refusal::TranscriptTooLong);
        }
        Ok(())
    }
}

/// The listing of a transcript that runs on a fresh cluster.
pub fn listing(bytes: &[u8]) -> String {
    let mut text = String::from(LISTING_HEADER);
    let outcome = Cluster::new().run_transcript_with(bytes, |number, step, outcome, cluster| {
        let (kind, answer) = (step.kind(), answer_number(&outcome));
        // A lock out of range has no wire to count.
        let wire = match cluster.locks.get(step.lock().index()) {
            Some(state) => state.wire.len().to_string(),
            None => String::from("-"),
        };
        writeln!(text, "{number} {kind} {answer} {wire}").expect("a string takes every write");
    });
    if let Err(refusal) = outcome.answer {
        let (record, answer) = (outcome.record, refusal.number());
        writeln!(text, "{record} - {answer} -").expect("a string takes every write");
    }
    text
}
