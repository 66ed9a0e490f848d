//! What holds of refusal 6 (document 02, §6), by all packets that name the client of an acquire.
//!
//! They are found in the state before the acquire, in another way than the search finds the first one, so that a fault in the
//! search shows. Hand-made states keep to it too.

use crate::answer::{answer_number, Refusal};
use crate::counts::{check, number_of};
use crate::model::{ClientId, Cluster, LockId, LockState, MachineId, Message, TaskId};

/// The packets that name the client of an acquire, as things are before it.
#[derive(Clone, Debug, PartialEq, Eq)]
pub struct StillNamed {
    client: ClientId,
    /// The index of each of them.
    indexes: Vec<usize>,
    /// What the search gives.
    pub found: Option<usize>,
}

impl StillNamed {
    /// Out of range there is no wire, or no client, to look for.
    pub fn of_acquire(
        cluster: &Cluster,
        lock: LockId,
        machine: MachineId,
        task: TaskId,
    ) -> Option<Self> {
        let (state, client) = cluster.lock_and_client(lock, machine, task).ok()?;
        Some(StillNamed {
            client,
            indexes: all_indexes(state, client),
            found: state.first_naming(client),
        })
    }

    /// How many they are.
    pub fn packets(&self) -> usize {
        self.indexes.len()
    }

    /// The first of them, whatever the search gives.
    pub fn lowest(&self) -> Option<usize> {
        self.indexes.iter().copied().min()
    }

    /// Tests the answer of the acquire, and what the search gives.
    pub fn check<T>(&self, outcome: &Result<T, Refusal>) -> Result<(), String> {
        match outcome {
            Err(Refusal::ClientOnWire) => self.check_named()?,
            Ok(_) | Err(Refusal::CannotBePlaced | Refusal::WireFull) => {
                self.check_not_named(answer_number(outcome))?;
            }
            // An earlier cause says nothing of the wire.
            Err(_) => return Ok(()),
        }
        self.check_found()
    }

    fn check_named(&self) -> Result<(), String> {
        check(self.packets() > 0, || {
            let client = self.client.0;
            format!("acquire is answered 6, but no packet names client {client}")
        })
    }

    fn check_not_named(&self, answer: u8) -> Result<(), String> {
        check(self.packets() == 0, || {
            let packets = number_of(self.packets(), "packet");
            let client = self.client.0;
            format!("acquire is answered {answer}, with {packets} of client {client}")
        })
    }

    fn check_found(&self) -> Result<(), String> {
        check(self.found == self.lowest(), || {
            let (found, lowest) = (place_of(self.found), place_of(self.lowest()));
            let client = self.client.0;
            format!("the search for client {client} gives {found}, not {lowest}")
        })
    }
}

/// Read from the kinds of the packets: a FREE names nobody, and the agent inside a packet does not count.
fn all_indexes(state: &LockState, asked: ClientId) -> Vec<usize> {
    let mut indexes = Vec::new();
    for (index, packet) in state.wire.iter().enumerate() {
        let names = match packet.message {
            Message::Acquire { client, .. }
            | Message::Grant { client, .. }
            | Message::Release { client } => client == asked,
            Message::Free => false,
        };
        if names {
            indexes.push(index);
        }
    }
    indexes
}

fn place_of(index: Option<usize>) -> String {
    index.map_or(String::from("none"), |index| format!("index {index}"))
}
