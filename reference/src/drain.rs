//! The drain of one lock (document 01, 'Draining a lock'; document 02, §4 and §8).

use crate::answer::{without_handling, Handling, Refusal, StepOutcome};
use crate::model::{ClientId, Cluster, LockId, LockState, Preference};

/// A drain that needs more steps is refused with 14 (document 02, §8).
pub const DRAIN_LIMIT: u16 = 32_768;

enum DrainStep {
    DeliverOldest,
    Release(ClientId),
    GiveUp(ClientId),
}

/// What an accepted drain gives; the default is what a refused one has.
#[derive(Clone, Copy, Debug, Default, PartialEq, Eq)]
pub struct Drained {
    /// The number of steps.
    pub count: u16,
    /// The last handling that a step had, or none.
    pub handling: Handling,
}

impl Cluster {
    /// Drains a lock; a refused drain leaves the cluster as given.
    pub fn drain(&mut self, lock: LockId) -> Result<Drained, Refusal> {
        self.drain_with(lock, |_, _, _| ())
    }

    /// Drains a lock and shows its state after every step, with the step's number and handling.
    pub fn drain_with(
        &mut self,
        lock: LockId,
        show: impl FnMut(u16, Handling, &LockState),
    ) -> Result<Drained, Refusal> {
        self.check_well_formed()?;
        let preference = self.checked_preference();
        let state = self.lock_mut(lock)?;
        let mut drained = state.clone();
        let outcome = drained.drain(preference, show)?;
        *state = drained;
        Ok(outcome)
    }
}

impl LockState {
    /// Whether nothing is in flight, no client holds the lock and none waits for a GRANT that was lost.
    pub fn is_quiescent(&self) -> bool {
        self.next_drain_step().is_none()
    }

    fn drain(
        &mut self,
        preference: Preference,
        mut show: impl FnMut(u16, Handling, &LockState),
    ) -> Result<Drained, Refusal> {
        let mut drained = Drained::default();
        while let Some(step) = self.next_drain_step() {
            if drained.count == DRAIN_LIMIT {
                return Err(Refusal::NotQuiescent);
            }
            let handling = self.perform(step, preference)?;
            drained.count += 1;
            drained.handling.meet(handling);
            show(drained.count, handling, self);
        }
        Ok(drained)
    }

    /// Packets before holders, and these before clients whose GRANT was lost; the oldest packet and the lowest client first; none
    /// once the lock is quiescent.
    fn next_drain_step(&self) -> Option<DrainStep> {
        if !self.wire.is_empty() {
            return Some(DrainStep::DeliverOldest);
        }
        let holder = self.holding_clients().lowest();
        holder.map(DrainStep::Release).or_else(|| {
            let loser = self.lost_grants.lowest();
            loser.map(DrainStep::GiveUp)
        })
    }

    fn perform(&mut self, step: DrainStep, preference: Preference) -> StepOutcome {
        match step {
            DrainStep::DeliverOldest => self.deliver(0, preference),
            DrainStep::Release(client) => without_handling(self.release(client)),
            DrainStep::GiveUp(client) => without_handling(self.give_up(client)),
        }
    }
}
