//! The test of one drain: of each of its steps, and of what the whole gives.

use crate::answer::{Handling, Refusal};
use crate::circled::{Origin, TrueNumbers};
use crate::drain::Drained;
use crate::handlings::StepHandlings;
use crate::model::{ClientId, ClientStatus, Cluster, LockId, LockState, TaskId, CLIENTS};
use crate::random_calls::DRAIN;
use crate::report::{Incoming, Tally};
use crate::transcript::Record;
use crate::waits::{DrainedWaits, Waits};

/// What is kept of a lock beside its state, from the history of its steps.
#[derive(Clone, Debug, Default)]
pub struct Book {
    /// How often its packets were sent back.
    pub numbers: TrueNumbers,
    pub waits: Waits,
}

impl Book {
    /// Of a lock that nothing has been done to yet.
    pub fn of(state: &LockState) -> Self {
        Book {
            numbers: TrueNumbers::of(state),
            waits: Waits::of(state),
        }
    }
}

/// A drain in progress, of a lock that may be out of range.
pub struct DrainTest<'a> {
    cluster: &'a Cluster,
    lock: LockId,
    origin: Origin,
    /// What the next step needs of the state before it.
    next: Incoming,
    book: Book,
    steps: StepHandlings,
    waits: DrainedWaits,
    tested: Result<(), String>,
}

impl<'a> DrainTest<'a> {
    pub fn begin(cluster: &'a Cluster, lock: LockId, book: Book, origin: Origin) -> Self {
        let state = cluster.locks.get(lock.index());
        let next = state.map(|state| incoming(lock, state, cluster.preference));
        DrainTest {
            cluster,
            lock,
            origin,
            next: next.unwrap_or_default(),
            steps: StepHandlings::default(),
            waits: DrainedWaits::begin(&book.waits),
            book,
            tested: Ok(()),
        }
    }

    /// A drain cannot be stopped from here; after a failure it goes on untested.
    pub fn step(&mut self, number: u16, handling: Handling, state: &LockState, tally: &mut Tally) {
        if self.tested.is_ok() {
            let result = self.test_step(handling, state, tally);
            self.tested = result.map_err(|broken| format!("drain step {number}: {broken}"));
        }
    }

    fn test_step(
        &mut self,
        handling: Handling,
        state: &LockState,
        tally: &mut Tally,
    ) -> Result<(), String> {
        let next = incoming(self.lock, state, self.cluster.preference);
        let incoming = std::mem::replace(&mut self.next, next);
        tally.count_unqueued(incoming.arrival.as_ref(), handling);
        self.steps
            .test_step(incoming.arrival.as_ref(), handling, state)?;
        let act = incoming.act;
        let (book, after) = (Some(&mut self.book), Some(state));
        tally.test_incoming(incoming, &Ok(handling), after, book, self.origin)?;
        if self.origin == Origin::Fresh {
            tally.test_state(state, self.cluster.preference)?;
            let event = tally.test_waits(act, Some(state), Some(&mut self.book))?;
            self.waits.meet(event);
        }
        Ok(())
    }

    /// Tests what the drain gives; gives the book after it. A refused drain is as if its steps had not been.
    pub fn end(
        self,
        outcome: &Result<Drained, Refusal>,
        after: &Cluster,
        begun: Book,
        tally: &mut Tally,
    ) -> Result<Book, String> {
        self.tested?;
        let (steps, book) = match outcome {
            Ok(_) => (self.steps, self.book),
            Err(_) => (StepHandlings::default(), begun),
        };
        let handling = outcome.unwrap_or_default().handling;
        tally.test_last_handling(DRAIN, &steps, handling)?;
        if self.origin == Origin::Fresh {
            // The last step has tested the state already.
            tally.test_call(DRAIN, outcome, None, self.cluster.preference)?;
            if self.lock.is_valid() {
                let ended = self.waits.check(self.lock, outcome, self.cluster, after)?;
                tally.count_drained_waits(ended);
            }
        }
        Ok(book)
    }
}

/// What the next step of a drain needs of the state before it; a quiescent lock has none.
fn incoming(lock: LockId, state: &LockState, preference: u8) -> Incoming {
    let step = next_step(lock, state);
    step.map_or(Incoming::default(), |step| {
        Incoming::at(state, &step, preference)
    })
}

/// The oldest packet is delivered; with none the lowest holder releases; with neither the lowest client with the note gives up.
fn next_step(lock: LockId, state: &LockState) -> Option<Record> {
    if !state.wire.is_empty() {
        return Some(Record::Deliver(lock, 0));
    }
    let mut noted = None;
    for client in (0..CLIENTS as u8).map(ClientId) {
        let (machine, task) = (client.machine(), TaskId(client.0 % 4));
        if matches!(state.clients[client.index()], ClientStatus::Holding(_)) {
            return Some(Record::Release(lock, machine, task));
        }
        if state.lost_grants.contains(client) && noted.is_none() {
            noted = Some(Record::GiveUp(lock, machine, task));
        }
    }
    noted
}
