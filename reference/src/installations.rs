//! What holds of every installation of an agent by a GRANT that is not rejected (document 02, §3).
//!
//! It is read from the packet as it was delivered, what the step sent and what it left, so that a fault in
//! the rule shows. Hand-made states keep to it too.

use crate::model::{Address, LockState, MachineId, Message, Mode, Packet, Waiter};

/// A GRANT that brings a machine an agent, as it is before its delivery.
#[derive(Clone, Debug, PartialEq, Eq)]
pub struct Installation {
    machine: MachineId,
    mode: Mode,
    /// The queue inside the packet.
    queue: Vec<Waiter>,
    /// How many packets are on the wire, with this one.
    packets: usize,
}

impl Installation {
    /// What the delivery of an index installs, if it is accepted.
    pub fn at(state: &LockState, index: usize) -> Option<Self> {
        let packet = state.wire.get(index)?;
        match (packet.message, packet.address, packet.rejected) {
            (Message::Grant { mode, .. }, Address::Machine(machine), false) => {
                let agent = packet.agent.as_ref()?;
                Some(Installation {
                    machine,
                    mode,
                    queue: agent.queue.iter().copied().collect(),
                    packets: state.wire.len(),
                })
            }
            _ => None,
        }
    }

    /// Tests the state after the delivery; says whether a reader stays in the queue of a shared agent.
    pub fn check(&self, after: &LockState) -> Result<bool, String> {
        let stays = self.stays(after)?;
        let left = self.left(after)?;
        self.check_places(&left, &stays)?;
        self.check_left(&left)?;
        self.check_first(&stays)?;
        let is_reader = |waiter: &Waiter| waiter.mode == Mode::Shared;
        Ok(self.mode == Mode::Shared && stays.iter().any(is_reader))
    }

    /// The queue of the agent on its machine.
    fn stays(&self, after: &LockState) -> Result<Vec<Waiter>, String> {
        let machine = self.machine.index();
        match &after.agents[machine] {
            Some(agent) => Ok(agent.queue.iter().copied().collect()),
            None => Err(format!("no agent on machine {machine}")),
        }
    }

    /// Whom the step sent GRANTs for, in the order that they were sent.
    fn left(&self, after: &LockState) -> Result<Vec<Waiter>, String> {
        // The delivered packet is gone, and what was sent is behind the others.
        let sent = after.wire.iter().skip(self.packets - 1);
        sent.map(granted_waiter).collect()
    }

    /// Those who left and then those who stay are the queue as it came.
    fn check_places(&self, left: &[Waiter], stays: &[Waiter]) -> Result<(), String> {
        let mut after = left.iter().chain(stays);
        for (place, waiter) in self.queue.iter().enumerate() {
            let found = after.next();
            if found == Some(waiter) {
                continue;
            }
            let (name, passed) = (found.map(name_of), name_of(waiter));
            return Err(match name {
                Some(name) if place < left.len() => format!("{name} left the queue past {passed}"),
                Some(name) => format!("{name} passed {passed} in the queue"),
                None => format!("{passed} is neither granted nor in the queue"),
            });
        }
        after.next().map_or(Ok(()), |added| {
            Err(format!("{} was not in the queue", name_of(added)))
        })
    }

    /// Only readers leave, and none of them with an exclusive agent.
    fn check_left(&self, left: &[Waiter]) -> Result<(), String> {
        for waiter in left {
            let name = name_of(waiter);
            if self.mode == Mode::Exclusive {
                return Err(format!("{name} left the queue of an exclusive agent"));
            }
            if waiter.mode == Mode::Exclusive {
                return Err(format!("{name} left the queue"));
            }
        }
        Ok(())
    }

    /// With a shared agent nobody but a writer stays first.
    fn check_first(&self, stays: &[Waiter]) -> Result<(), String> {
        match stays.first() {
            Some(first) if self.mode == Mode::Shared && first.mode == Mode::Shared => {
                let name = name_of(first);
                Err(format!("{name} stays first in the queue of a shared agent"))
            }
            _ => Ok(()),
        }
    }
}

/// The waiter that a packet takes a grant to, over the decider.
fn granted_waiter(packet: &Packet) -> Result<Waiter, String> {
    match (packet.message, packet.address, &packet.agent) {
        (Message::Grant { client, mode }, Address::Decider, None) => Ok(Waiter { client, mode }),
        _ => Err(String::from(
            "a packet was sent that is no GRANT for a waiter",
        )),
    }
}

fn name_of(waiter: &Waiter) -> String {
    let mode = match waiter.mode {
        Mode::Exclusive => "exclusive",
        Mode::Shared => "shared",
    };
    format!("{mode} client {}", waiter.client.0)
}
