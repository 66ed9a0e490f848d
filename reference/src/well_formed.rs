//! Which clusters are well formed (document 01, 'What stands on the bench'; document 02, §5, §7 and §8).

use crate::answer::{Outcome, Refusal};
use crate::model::{
    Address, Agent, ClientSet, Cluster, LockState, Message, Packet, Preference, QUEUE_CAPACITY,
    WIRE_CAPACITY,
};

impl Cluster {
    pub fn is_well_formed(&self) -> bool {
        self.has_allowed_preference() && self.locks.iter().all(LockState::is_well_formed)
    }

    /// One of the two; where readers are preferred no decider has the bit for a writer.
    fn has_allowed_preference(&self) -> bool {
        match Preference::from_number(self.preference) {
            Some(Preference::Readers) => self.locks.iter().all(|lock| !lock.decider.writer_waits),
            Some(Preference::Writers) => true,
            None => false,
        }
    }

    /// Whom a well-formed cluster prefers.
    pub(crate) fn checked_preference(&self) -> Preference {
        let preference = Preference::from_number(self.preference);
        preference.expect("a well-formed cluster has one of the two")
    }

    /// Refusal 11 comes before every other test of every call.
    pub(crate) fn check_well_formed(&self) -> Outcome {
        if self.is_well_formed() {
            Ok(())
        } else {
            Err(Refusal::Malformed)
        }
    }
}

impl LockState {
    pub fn is_well_formed(&self) -> bool {
        let owner_in_range = self.decider.owner.is_none_or(|o| o.machine.is_valid());
        owner_in_range
            && !self.stale_slot
            && self.lost_grants.is_within(self.waiting_clients())
            && self.agents.iter().flatten().all(Agent::is_well_formed)
            && self.wire.len() <= WIRE_CAPACITY
            && self.wire.iter().all(Packet::is_well_formed)
    }
}

impl Agent {
    /// The queue is short enough, and its clients are in range and distinct.
    fn is_well_formed(&self) -> bool {
        let mut seen = ClientSet::default();
        self.queue.len() <= QUEUE_CAPACITY
            && self.queue.iter().all(|waiter| {
                let new = waiter.client.is_valid() && !seen.contains(waiter.client);
                if new {
                    seen.insert(waiter.client);
                }
                new
            })
    }
}

impl Packet {
    fn is_well_formed(&self) -> bool {
        let address_in_range = match self.address {
            Address::Decider => true,
            Address::Machine(machine) => machine.is_valid(),
        };
        address_in_range
            && self.message.client().is_none_or(|client| client.is_valid())
            && self.agent.as_ref().is_none_or(Agent::is_well_formed)
            && self.has_allowed_agent()
            && self.has_allowed_mark()
            && self.has_allowed_count()
    }

    /// An agent travels in every FREE and in some GRANTs, in nothing else.
    fn has_allowed_agent(&self) -> bool {
        match self.message {
            Message::Free => self.agent.is_some(),
            Message::Grant { .. } => true,
            Message::Acquire { .. } | Message::Release { .. } => self.agent.is_none(),
        }
    }

    /// Only an agent is rejected, and the decider sends it to a machine; so a
    /// FREE goes to the decider unless it is rejected.
    fn has_allowed_mark(&self) -> bool {
        if self.rejected {
            let kind = matches!(self.message, Message::Free | Message::Grant { .. });
            kind && self.agent.is_some() && self.address != Address::Decider
        } else {
            self.message != Message::Free || self.address == Address::Decider
        }
    }

    /// No machine sends a GRANT or FREE back, so neither has circled.
    fn has_allowed_count(&self) -> bool {
        match self.message {
            Message::Grant { .. } | Message::Free => self.circled == 0,
            Message::Acquire { .. } | Message::Release { .. } => true,
        }
    }
}
