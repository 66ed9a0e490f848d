//! What holds of lost GRANTs, of giving up, and of the packets that find an idle client or a free lock (document 02, §8).
//!
//! It is read from the step's arguments, the packet that it takes and the states before and after, so that a fault in the rules
//! shows. Hand-made states keep to it too.

use crate::answer::{answer_number, Refusal};
use crate::counts::check;
use crate::model::{
    Address, ClientId, ClientStatus, LockState, MachineId, Message, Mode, Packet, WIRE_CAPACITY,
};
use crate::requests::checked_client;
use crate::transcript::Record;

/// A step that §8 says something of, with the lock's state before it.
#[derive(Clone, Debug, PartialEq, Eq)]
pub struct Watched {
    case: Case,
    before: LockState,
}

#[derive(Clone, Copy, Debug, PartialEq, Eq)]
enum Case {
    Loss(usize),
    GiveUp(ClientId),
    /// A GRANT that is not rejected comes to a machine.
    Grant(usize, Arriving),
    /// A RELEASE comes to the decider while the lock is free.
    EarlyRelease(usize),
}

#[derive(Clone, Copy, Debug, PartialEq, Eq)]
struct Arriving {
    client: ClientId,
    mode: Mode,
    machine: MachineId,
}

/// What an accepted step turned out to be.
#[derive(Clone, Copy, Debug, PartialEq, Eq)]
pub enum Met {
    Loss { noted: bool },
    GaveUp,
    IdleGrant { with_agent: bool },
    ShownGrant,
    EarlyRelease,
}

impl Watched {
    pub fn of(step: &Record, state: &LockState) -> Option<Self> {
        let case = match *step {
            Record::Lose(_, index) => Case::Loss(usize::from(index)),
            Record::GiveUp(_, machine, task) => Case::GiveUp(checked_client(machine, task).ok()?),
            Record::Deliver(_, index) => case_of_delivery(state, usize::from(index))?,
            Record::Acquire(..) | Record::Release(..) => return None,
        };
        let before = state.clone();
        Some(Watched { case, before })
    }

    /// Tests the answer of the step and the state after it; a refused step has met nothing.
    pub fn check<T>(
        &self,
        outcome: &Result<T, Refusal>,
        after: &LockState,
    ) -> Result<Option<Met>, String> {
        match outcome {
            Ok(_) => self.check_accepted(after).map(Some),
            Err(refusal) => self.check_refused(*refusal).map(|()| None),
        }
    }

    fn check_accepted(&self, after: &LockState) -> Result<Met, String> {
        match self.case {
            Case::Loss(index) => self.check_loss(index, after),
            Case::GiveUp(client) => self.check_give_up(client, after),
            Case::Grant(index, arriving) => self.check_grant(index, arriving, after),
            Case::EarlyRelease(index) => self.check_early_release(index, after),
        }
    }

    /// The GRANT alone is gone, and a client that waits for it has the note.
    fn check_loss(&self, index: usize, after: &LockState) -> Result<Met, String> {
        let mut expected = self.before.clone();
        check(index < expected.wire.len(), || {
            format!("a packet was lost at index {index}, where there is none")
        })?;
        let packet = expected.wire.remove(index);
        let Some(client) = losable_client(&packet) else {
            return Err(String::from("a packet was lost that cannot be"));
        };
        let noted = self.waits(client);
        if noted {
            expected.lost_grants.insert(client);
        }
        self.check_state(after, &expected, "the loss of a GRANT")?;
        Ok(Met::Loss { noted })
    }

    /// The client is idle without a note, its RELEASE is last, and nothing else has changed.
    fn check_give_up(&self, client: ClientId, after: &LockState) -> Result<Met, String> {
        let number = client.0;
        check(self.waits(client), || {
            format!("client {number} gave up, but did not wait")
        })?;
        let mut expected = self.before.clone();
        expected.clients[client.index()] = ClientStatus::Idle;
        expected.lost_grants.remove(client);
        let message = Message::Release { client };
        expected.wire.push(Packet {
            message,
            address: Address::Decider,
            rejected: false,
            circled: 0,
            agent: None,
        });
        self.check_state(after, &expected, "giving up")?;
        Ok(Met::GaveUp)
    }

    /// Who is idle stays so, anyone else holds the lock; the agent inside is installed in either case.
    fn check_grant(
        &self,
        index: usize,
        arriving: Arriving,
        after: &LockState,
    ) -> Result<Met, String> {
        let Arriving { client, mode, .. } = arriving;
        let is_idle = self.before.clients[client.index()] == ClientStatus::Idle;
        let mut expected = self.before.clone();
        let with_agent = expected.wire.remove(index).agent.is_some();
        if !is_idle {
            expected.clients[client.index()] = ClientStatus::Holding(mode);
            expected.lost_grants.remove(client);
        }
        if with_agent {
            // What else an installation does is left to its own test.
            check_installed(arriving, after)?;
            expected.agents.clone_from(&after.agents);
            expected.wire.clone_from(&after.wire);
        }
        self.check_state(after, &expected, "a GRANT at its client's machine")?;
        Ok(match is_idle {
            true => Met::IdleGrant { with_agent },
            false => Met::ShownGrant,
        })
    }

    /// The packet goes to the wire's end just as it is.
    fn check_early_release(&self, index: usize, after: &LockState) -> Result<Met, String> {
        let mut expected = self.before.clone();
        let packet = expected.wire.remove(index);
        expected.wire.push(packet);
        self.check_state(after, &expected, "a RELEASE at a free lock")?;
        Ok(Met::EarlyRelease)
    }

    fn check_refused(&self, refusal: Refusal) -> Result<(), String> {
        match (self.case, refusal) {
            (Case::Loss(index), Refusal::CannotBeLost) => self.check_not_losable(index),
            (Case::GiveUp(client), Refusal::NothingToGiveUp) => check(!self.waits(client), || {
                format!("give up is answered 17, but client {} waits", client.0)
            }),
            (Case::GiveUp(client), Refusal::WireFull) => self.check_no_room(client),
            // It takes one packet off and sends one, so nothing but its arguments can be wrong.
            (Case::EarlyRelease(_), Refusal::CannotBePlaced | Refusal::WireFull) => {
                let answer = answer_number::<()>(&Err(refusal));
                Err(format!("a RELEASE at a free lock is answered {answer}"))
            }
            // An earlier or later cause says nothing of these.
            _ => Ok(()),
        }
    }

    /// Whether there is room is asked only for a client that waits.
    fn check_no_room(&self, client: ClientId) -> Result<(), String> {
        let packets = self.before.wire.len();
        check(self.waits(client) && packets >= WIRE_CAPACITY, || {
            let waits = if self.waits(client) {
                "waits"
            } else {
                "does not wait"
            };
            let client = client.0;
            format!("give up is answered 10, but client {client} {waits}, with {packets} packets")
        })
    }

    fn check_not_losable(&self, index: usize) -> Result<(), String> {
        let words = match self.before.wire.get(index) {
            None => "there is no packet",
            Some(packet) if losable_client(packet).is_some() => "the packet is a GRANT on its way",
            Some(_) => return Ok(()),
        };
        Err(format!("lose is answered 18, but at index {index} {words}"))
    }

    fn check_state(
        &self,
        after: &LockState,
        expected: &LockState,
        what: &str,
    ) -> Result<(), String> {
        check(after == expected, || {
            let part = different_part(after, expected);
            format!("after {what} {part} not as expected")
        })
    }

    fn waits(&self, client: ClientId) -> bool {
        matches!(
            self.before.clients[client.index()],
            ClientStatus::Waiting(_)
        )
    }
}

/// Only two kinds of packets meet something new where they are delivered.
fn case_of_delivery(state: &LockState, index: usize) -> Option<Case> {
    let packet = state.wire.get(index)?;
    match (packet.message, packet.address) {
        (Message::Grant { client, mode }, Address::Machine(machine)) if !packet.rejected => {
            let arriving = Arriving {
                client,
                mode,
                machine,
            };
            Some(Case::Grant(index, arriving))
        }
        (Message::Release { .. }, Address::Decider) if state.decider.owner.is_none() => {
            Some(Case::EarlyRelease(index))
        }
        _ => None,
    }
}

/// Whose plain GRANT the packet is, if it is one on its way to a machine.
fn losable_client(packet: &Packet) -> Option<ClientId> {
    match (packet.message, packet.address, &packet.agent) {
        (Message::Grant { client, .. }, Address::Machine(_), None) => Some(client),
        _ => None,
    }
}

fn check_installed(arriving: Arriving, after: &LockState) -> Result<(), String> {
    let (client, machine) = (arriving.client, arriving.machine);
    let agent = after.agents[machine.index()].as_ref();
    let lists = agent.is_some_and(|agent| agent.holders.contains(client));
    check(lists, || {
        let (client, machine) = (client.0, machine.0);
        format!("no agent on machine {machine} lists client {client}, whose GRANT brought one")
    })
}

/// The first part in which two states differ.
fn different_part(after: &LockState, expected: &LockState) -> &'static str {
    if after.decider != expected.decider {
        "the decider is"
    } else if after.agents != expected.agents {
        "the agents are"
    } else if after.clients != expected.clients {
        "the statuses are"
    } else if after.lost_grants != expected.lost_grants {
        "the notes of lost GRANTs are"
    } else {
        "the wire is"
    }
}
