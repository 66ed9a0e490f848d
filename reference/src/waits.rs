//! Who waits and who holds by the calls' own history, and what a drain owes those who wait (document 01, 'Runs, waits and holds';
//! document 02, §8).
//!
//! The history is read from the calls and the packets that they take, never from a status or a note, so that a fault in those
//! shows. Nothing is known of the past of a hand-made state.

use crate::answer::{answer_number, Refusal};
use crate::counts::check;
use crate::drain::Drained;
use crate::model::{
    Address, ClientId, ClientStatus, Cluster, LockId, LockState, Message, Mode, CLIENTS,
};
use crate::requests::checked_client;
use crate::transcript::Record;

/// What a step does to a client's wait, if it is accepted.
#[derive(Clone, Copy, Debug, PartialEq, Eq)]
pub enum Act {
    Asks(ClientId, Mode),
    HandsBack(ClientId),
    /// A GRANT that is not rejected comes to a machine.
    IsBrought(ClientId),
    Loses(ClientId),
    GivesUp(ClientId),
}

impl Act {
    /// Out of range, and with any other packet, there is nothing to do.
    pub fn of(step: &Record, state: &LockState) -> Option<Self> {
        match *step {
            Record::Acquire(_, machine, task, mode) => {
                let client = checked_client(machine, task).ok()?;
                Some(Act::Asks(client, Mode::from_number(mode)?))
            }
            Record::Release(_, machine, task) => {
                checked_client(machine, task).ok().map(Act::HandsBack)
            }
            Record::GiveUp(_, machine, task) => {
                checked_client(machine, task).ok().map(Act::GivesUp)
            }
            Record::Deliver(_, index) => granted_client(state, index).map(Act::IsBrought),
            Record::Lose(_, index) => granted_client(state, index).map(Act::Loses),
        }
    }
}

/// The client of the GRANT, not rejected, that is addressed to a machine and stands at an index.
fn granted_client(state: &LockState, index: u8) -> Option<ClientId> {
    let packet = state.wire.get(usize::from(index))?;
    match (packet.message, packet.address) {
        (Message::Grant { client, .. }, Address::Machine(_)) if !packet.rejected => Some(client),
        _ => None,
    }
}

/// What a client met in a step.
#[derive(Clone, Copy, Debug, PartialEq, Eq)]
pub enum Event {
    Shown(ClientId),
    GaveUp(ClientId),
}

/// A client as its history has it.
#[derive(Clone, Copy, Debug, Default, PartialEq, Eq)]
enum Standing {
    #[default]
    Idle,
    Waiting {
        mode: Mode,
        lost: bool,
    },
    Holding(Mode),
}

/// All clients of a lock.
#[derive(Clone, Debug, Default, PartialEq, Eq)]
pub struct Waits([Standing; CLIENTS]);

impl Waits {
    /// A fresh lock has no waits; of a hand-made one the statuses are all that is known.
    pub fn of(state: &LockState) -> Self {
        let clients = (0..CLIENTS as u8).map(ClientId);
        let mut waits = Waits::default();
        for client in clients {
            waits.0[client.index()] = shown_standing(state, client);
        }
        waits
    }

    /// Goes on past an accepted step, to the state after it.
    pub fn follow(&mut self, act: Act, after: &LockState) -> Option<Event> {
        match act {
            Act::Asks(client, mode) => self.ask(client, mode, after),
            Act::IsBrought(client) => self.show(client),
            Act::HandsBack(client) => {
                self.0[client.index()] = Standing::Idle;
                None
            }
            Act::GivesUp(client) => {
                self.0[client.index()] = Standing::Idle;
                Some(Event::GaveUp(client))
            }
            Act::Loses(client) => {
                if let Standing::Waiting { lost, .. } = &mut self.0[client.index()] {
                    *lost = true;
                }
                None
            }
        }
    }

    /// Whom the agent on its machine lists now is shown the grant at once.
    fn ask(&mut self, client: ClientId, mode: Mode, after: &LockState) -> Option<Event> {
        let agent = after.agents[client.machine().index()].as_ref();
        let joined = agent.is_some_and(|agent| agent.holders.contains(client));
        let lost = false;
        self.0[client.index()] = match joined {
            true => Standing::Holding(mode),
            false => Standing::Waiting { mode, lost },
        };
        joined.then_some(Event::Shown(client))
    }

    /// Who is idle is shown nothing; the lock is held in the mode that was asked for.
    fn show(&mut self, client: ClientId) -> Option<Event> {
        let standing = &mut self.0[client.index()];
        match *standing {
            Standing::Idle => None,
            Standing::Waiting { mode, .. } | Standing::Holding(mode) => {
                *standing = Standing::Holding(mode);
                Some(Event::Shown(client))
            }
        }
    }

    /// Tests each status and each note of the lock.
    pub fn check(&self, state: &LockState) -> Result<(), String> {
        for (number, &expected) in (0..).zip(&self.0) {
            let shown = shown_standing(state, ClientId(number));
            check(shown == expected, || {
                format!("client {number} is {shown:?} by the state, but {expected:?} by the calls")
            })?;
        }
        Ok(())
    }

    fn is_waiting(&self, client: ClientId) -> bool {
        matches!(self.0[client.index()], Standing::Waiting { .. })
    }

    fn has_lost(&self, client: ClientId) -> bool {
        matches!(self.0[client.index()], Standing::Waiting { lost: true, .. })
    }
}

fn shown_standing(state: &LockState, client: ClientId) -> Standing {
    let lost = state.lost_grants.contains(client);
    match state.clients[client.index()] {
        ClientStatus::Idle => Standing::Idle,
        ClientStatus::Waiting(mode) => Standing::Waiting { mode, lost },
        ClientStatus::Holding(mode) => Standing::Holding(mode),
    }
}

/// What the clients that waited when a drain began have met in it.
#[derive(Clone, Debug, Default)]
pub struct DrainedWaits {
    begun: Waits,
    events: Vec<Event>,
}

/// How many waits a drain ended in each of the two ways.
#[derive(Clone, Copy, Debug, Default, PartialEq, Eq)]
pub struct EndedWaits {
    pub shown: u64,
    pub gave_up: u64,
}

impl DrainedWaits {
    pub fn begin(waits: &Waits) -> Self {
        DrainedWaits {
            begun: waits.clone(),
            events: Vec::new(),
        }
    }

    pub fn meet(&mut self, event: Option<Event>) {
        self.events.extend(event);
    }

    /// Tests demand 3 for the drain of a lock that exists, on a cluster that a fresh one came to.
    pub fn check(
        &self,
        lock: LockId,
        outcome: &Result<Drained, Refusal>,
        before: &Cluster,
        after: &Cluster,
    ) -> Result<EndedWaits, String> {
        check(outcome.is_ok(), || {
            format!("drain is answered {}", answer_number(outcome))
        })?;
        let mut ended = EndedWaits::default();
        for client in (0..CLIENTS as u8).map(ClientId) {
            self.check_client(client, &mut ended)?;
        }
        check_only_fresh(lock, before, after)?;
        Ok(ended)
    }

    /// One grant, or none and one giving up of a client whose GRANT was lost; nothing for those who did not wait.
    fn check_client(&self, client: ClientId, ended: &mut EndedWaits) -> Result<(), String> {
        let times = |event| self.events.iter().filter(|&&met| met == event).count();
        let (shown, gave_up) = (times(Event::Shown(client)), times(Event::GaveUp(client)));
        let (waited, lost) = (self.begun.is_waiting(client), self.begun.has_lost(client));
        match (shown, gave_up) {
            (0, 0) if !waited => (),
            (1, 0) if waited => ended.shown += 1,
            (0, 1) if lost => ended.gave_up += 1,
            _ => {
                let number = client.0;
                let began = format!("waited {waited}, lost {lost}");
                let met = format!("was shown {shown} grants and gave up {gave_up} times");
                return Err(format!("client {number} ({began}) {met}"));
            }
        }
        Ok(())
    }
}

/// The drained lock is as in a fresh cluster, everything else as before.
fn check_only_fresh(lock: LockId, before: &Cluster, after: &Cluster) -> Result<(), String> {
    let (_, mut fresh) = Cluster::fresh(before.preference);
    let mut expected = before.clone();
    let slot = &mut fresh.locks[lock.index()];
    expected.locks[lock.index()] = std::mem::take(slot);
    check(after == &expected, || {
        String::from("the drain left more, or changed more, than a fresh lock")
    })
}
