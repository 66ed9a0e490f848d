//! What holds of the preference (document 02, §5): of readers where a writer waits, and of the decider's bit.
//!
//! It is read from the states before and after a step, so that a fault in the rules shows. Hand-made states keep to what is said
//! of readers, but not to what is said of the bit.

use crate::counts::check;
use crate::model::{
    Address, Agent, ClientId, Cluster, LockId, LockState, MachineId, Message, Mode, Packet,
    Preference, TaskId, Waiter,
};

/// A reader's unmarked request to an agent with a writer in its queue, as things are before its step.
#[derive(Clone, Debug, PartialEq, Eq)]
pub struct BehindWriter {
    preference: Preference,
    machine: MachineId,
    client: ClientId,
    agent: Agent,
    /// How many packets are on the wire besides that of the request.
    packets: usize,
}

impl BehindWriter {
    /// The request of an acquire, if it is accepted.
    pub fn of_acquire(
        cluster: &Cluster,
        lock: LockId,
        machine: MachineId,
        task: TaskId,
        mode: u8,
    ) -> Option<Self> {
        let (state, client) = cluster.lock_and_client(lock, machine, task).ok()?;
        if Mode::from_number(mode) != Some(Mode::Shared) {
            return None;
        }
        let test = BehindWriter {
            preference: Preference::from_number(cluster.preference)?,
            machine,
            client,
            agent: agent_on(state, machine)?.clone(),
            packets: state.wire.len(),
        };
        test.if_it_applies()
    }

    /// The request that the delivery of an index brings a machine, if it is accepted.
    pub fn of_delivery(preference: Preference, state: &LockState, index: usize) -> Option<Self> {
        let packet = state.wire.get(index)?;
        let (machine, client) = unmarked_reader(packet)?;
        let test = BehindWriter {
            preference,
            machine,
            client,
            agent: agent_on(state, machine)?.clone(),
            packets: state.wire.len() - 1,
        };
        test.if_it_applies()
    }

    /// With the readers' preference nothing is said of an exclusive agent.
    fn if_it_applies(self) -> Option<Self> {
        let mut queue = self.agent.queue.iter();
        let has_writer = queue.any(|waiter| waiter.mode == Mode::Exclusive);
        let is_said = match self.preference {
            Preference::Readers => self.agent.mode == Mode::Shared,
            Preference::Writers => true,
        };
        (has_writer && is_said).then_some(self)
    }

    pub fn preference(&self) -> Preference {
        self.preference
    }

    /// Tests the state after the step.
    pub fn check(&self, after: &LockState) -> Result<(), String> {
        let machine = self.machine.0;
        let agent = agent_on(after, self.machine);
        let agent = agent.ok_or_else(|| format!("no agent on machine {machine}"))?;
        match self.preference {
            Preference::Readers => self.check_joined(agent),
            Preference::Writers => {
                self.check_holders(agent)?;
                self.check_queue(agent)?;
                self.check_nothing_sent(after)
            }
        }
    }

    fn check_joined(&self, agent: &Agent) -> Result<(), String> {
        let (client, machine) = (self.client.0, self.machine.0);
        check(agent.holders.contains(self.client), || {
            format!("client {client} is not among the holders on machine {machine}")
        })
    }

    fn check_holders(&self, agent: &Agent) -> Result<(), String> {
        let machine = self.machine.0;
        check(agent.holders == self.agent.holders, || {
            format!("the holders on machine {machine} are others now, past a writer")
        })
    }

    /// The queue is as it was, with the client behind it.
    fn check_queue(&self, agent: &Agent) -> Result<(), String> {
        let (client, machine) = (self.client, self.machine.0);
        let mode = Mode::Shared;
        let mut expected = self.agent.queue.clone();
        expected.push_back(Waiter { client, mode });
        check(agent.queue == expected, || {
            let client = client.0;
            format!("client {client} does not stand behind the queue on machine {machine}")
        })
    }

    fn check_nothing_sent(&self, after: &LockState) -> Result<(), String> {
        check(after.wire.len() == self.packets, || {
            let client = self.client.0;
            format!("something was sent for client {client}, behind a writer")
        })
    }
}

impl LockState {
    /// The bit in every run from the fresh cluster with this preference.
    pub fn check_writer_bit(&self, preference: u8) -> Result<(), String> {
        let is_clear = !self.decider.writer_waits;
        let prefers_readers = Preference::from_number(preference) == Some(Preference::Readers);
        check(is_clear || !prefers_readers, || {
            String::from("the bit for a writer is set with the readers' preference")
        })?;
        check(is_clear || self.decider.owner.is_some(), || {
            String::from("the bit for a writer is set at a free lock")
        })
    }
}

/// The machine and the client of a shared ACQUIRE, not granted, that is addressed to a machine.
fn unmarked_reader(packet: &Packet) -> Option<(MachineId, ClientId)> {
    match (packet.message, packet.address) {
        (
            Message::Acquire {
                client,
                mode: Mode::Shared,
                granted: false,
            },
            Address::Machine(machine),
        ) => Some((machine, client)),
        _ => None,
    }
}

/// The agent on a machine, which by hand may be out of range.
fn agent_on(state: &LockState, machine: MachineId) -> Option<&Agent> {
    state.agents.get(machine.index())?.as_ref()
}
