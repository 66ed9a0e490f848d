//! Why a client waits (document 02, §2 and §8): the call that names the reason, and what holds of reasons in every run.

use crate::answer::{answer_number, Refusal};
use crate::model::{
    Agent, ClientId, ClientStatus, Cluster, LockId, LockState, MachineId, Message, Packet, TaskId,
    CLIENTS,
};

/// Where the request of a waiting client is; the kinds stand in the order of document 02.
#[derive(Clone, Copy, Debug, PartialEq, Eq)]
pub enum Reason {
    /// Its ACQUIRE, not marked, at this index of the wire.
    Request { index: usize },
    /// Its GRANT, not rejected, at this index.
    Grant { index: usize },
    /// Its GRANT, rejected, at this index.
    RejectedGrant { index: usize },
    /// The queue of the agent on a machine.
    MachineQueue { machine: MachineId, ahead: usize },
    /// The queue of the agent inside the packet at this index.
    PacketQueue { index: usize, ahead: usize },
    /// The note that its GRANT was lost.
    GrantLost,
}

/// How many kinds of reasons there are.
pub const REASON_KINDS: usize = 6;

impl Reason {
    /// The kind from 1 to 6, the index or machine, which a lost GRANT has not, and for a queue how many are ahead.
    fn numbers(self) -> (u8, Option<usize>, Option<usize>) {
        match self {
            Reason::Request { index } => (1, Some(index), None),
            Reason::Grant { index } => (2, Some(index), None),
            Reason::RejectedGrant { index } => (3, Some(index), None),
            Reason::MachineQueue { machine, ahead } => (4, Some(machine.index()), Some(ahead)),
            Reason::PacketQueue { index, ahead } => (5, Some(index), Some(ahead)),
            Reason::GrantLost => (6, None, None),
        }
    }

    /// The kind, counted from 0.
    pub fn kind_index(self) -> usize {
        usize::from(self.numbers().0) - 1
    }
}

/// The number of the answer and, after a 0, those of the reason (docs/random-runs.md).
pub fn reason_numbers(outcome: &Result<Reason, Refusal>) -> Vec<u8> {
    let mut numbers = vec![answer_number(outcome)];
    if let Ok(reason) = outcome {
        let (kind, index, ahead) = reason.numbers();
        numbers.push(kind);
        // An index of a well-formed cluster is at most 48, and at most 15 are ahead.
        numbers.extend([index, ahead].into_iter().flatten().map(|n| n as u8));
    }
    numbers
}

impl Cluster {
    /// Why a client waits for a lock; the cluster is only read.
    pub fn reason(
        &self,
        lock: LockId,
        machine: MachineId,
        task: TaskId,
    ) -> Result<Reason, Refusal> {
        self.check_well_formed()?;
        let (state, client) = self.lock_and_client(lock, machine, task)?;
        state.reason(client)
    }
}

impl LockState {
    /// The reason of one of the sixteen clients, or refusal 15.
    pub fn reason(&self, client: ClientId) -> Result<Reason, Refusal> {
        let reason = match self.clients[client.index()] {
            ClientStatus::Waiting(_) => self.first_reason(client),
            ClientStatus::Idle | ClientStatus::Holding(_) => None,
        };
        // A hand-made wait may have no reason, and is answered like no wait.
        reason.ok_or(Refusal::NotWaiting)
    }

    /// The first kind that is true, at its lowest index or machine.
    fn first_reason(&self, client: ClientId) -> Option<Reason> {
        let first = |wanted: fn(&Packet, ClientId) -> bool| {
            let mut wire = self.wire.iter();
            wire.position(|packet| wanted(packet, client))
        };
        if let Some(index) = first(Packet::is_unmarked_request_of) {
            return Some(Reason::Request { index });
        }
        if let Some(index) = first(|packet, client| packet.is_grant_of(client) && !packet.rejected)
        {
            return Some(Reason::Grant { index });
        }
        if let Some(index) = first(|packet, client| packet.is_grant_of(client) && packet.rejected) {
            return Some(Reason::RejectedGrant { index });
        }
        let on_machine = self.first_machine_queue(client);
        let queue = on_machine.or_else(|| self.first_packet_queue(client));
        let lost = self.lost_grants.contains(client);
        queue.or_else(|| lost.then_some(Reason::GrantLost))
    }

    fn first_machine_queue(&self, client: ClientId) -> Option<Reason> {
        let mut slots = (0..).zip(&self.agents);
        slots.find_map(|(number, slot)| {
            let ahead = slot.as_ref()?.place_in_queue(client)?;
            let machine = MachineId(number);
            Some(Reason::MachineQueue { machine, ahead })
        })
    }

    fn first_packet_queue(&self, client: ClientId) -> Option<Reason> {
        let mut packets = self.wire.iter().enumerate();
        packets.find_map(|(index, packet)| {
            let ahead = packet.agent.as_ref()?.place_in_queue(client)?;
            Some(Reason::PacketQueue { index, ahead })
        })
    }
}

impl Packet {
    fn is_unmarked_request_of(&self, asked: ClientId) -> bool {
        matches!(self.message, Message::Acquire { client, granted: false, .. } if client == asked)
    }

    fn is_grant_of(&self, asked: ClientId) -> bool {
        matches!(self.message, Message::Grant { client, .. } if client == asked)
    }
}

/// The test of a state. It finds the reasons in its own way, so that a fault in the search above shows.
impl LockState {
    /// All that is true of a client, whether it waits or not: machines first, then the wire by index, then its note.
    pub fn all_reasons(&self, client: ClientId) -> Vec<Reason> {
        let mut reasons = Vec::new();
        for (number, slot) in self.agents.iter().enumerate() {
            let machine = MachineId(number as u8);
            push_queue(slot, client, &mut reasons, |ahead| Reason::MachineQueue {
                machine,
                ahead,
            });
        }
        for (index, packet) in self.wire.iter().enumerate() {
            match (packet.message, packet.rejected) {
                (message, _) if message.client() != Some(client) => (),
                (Message::Acquire { granted, .. }, _) if !granted => {
                    reasons.push(Reason::Request { index });
                }
                (Message::Grant { .. }, false) => reasons.push(Reason::Grant { index }),
                (Message::Grant { .. }, true) => reasons.push(Reason::RejectedGrant { index }),
                _ => (),
            }
            push_queue(&packet.agent, client, &mut reasons, |ahead| {
                Reason::PacketQueue { index, ahead }
            });
        }
        if self.lost_grants.contains(client) {
            reasons.push(Reason::GrantLost);
        }
        reasons
    }

    /// Each waiting client has one reason and is given it, no other is given any; says how many wait.
    pub fn check_reasons(&self) -> Result<usize, String> {
        let mut waits = 0;
        for number in 0..CLIENTS as u8 {
            let client = ClientId(number);
            let given = self.reason(client);
            let checked = if matches!(self.clients[client.index()], ClientStatus::Waiting(_)) {
                waits += 1;
                check_wait(&self.all_reasons(client), given)
            } else {
                check_no_wait(given)
            };
            checked.map_err(|broken| format!("client {number} {broken}"))?;
        }
        Ok(waits)
    }
}

/// Adds a reason for each time that a client stands in the queue of an agent.
fn push_queue(
    slot: &Option<Agent>,
    client: ClientId,
    reasons: &mut Vec<Reason>,
    reason: impl Fn(usize) -> Reason,
) {
    let queue = slot.iter().flat_map(|agent| &agent.queue);
    for (ahead, waiter) in queue.enumerate() {
        if waiter.client == client {
            reasons.push(reason(ahead));
        }
    }
}

fn check_wait(all: &[Reason], given: Result<Reason, Refusal>) -> Result<(), String> {
    match (all, given) {
        ([only], Ok(given)) if *only == given => Ok(()),
        ([only], _) => {
            let (only, given) = (reason_numbers(&Ok(*only)), reason_numbers(&given));
            Err(format!("waits with reason {only:?}, given {given:?}"))
        }
        _ => Err(format!("waits with {} reasons", all.len())),
    }
}

fn check_no_wait(given: Result<Reason, Refusal>) -> Result<(), String> {
    match given {
        Err(Refusal::NotWaiting) => Ok(()),
        _ => Err(format!(
            "does not wait, but is given {:?}",
            reason_numbers(&given)
        )),
    }
}
