//! The state of the cluster: locks, machines, tasks and packets in flight
//! (document 01, 'What stands on the bench'), its preference, the counts of
//! packets and the notes of lost GRANTs (document 02, §5, §7 and §8).
//!
//! The types can also hold states outside the bounds of document 01, so that
//! hand-made malformed states can be represented and refused.

use crate::answer::{Outcome, Refusal};
use std::collections::VecDeque;

pub const LOCKS: usize = 8;
pub const MACHINES: usize = 4;
pub const TASKS_PER_MACHINE: usize = 4;
pub const CLIENTS: usize = MACHINES * TASKS_PER_MACHINE;
pub const QUEUE_CAPACITY: usize = 16;
/// Three packets of each client and one FREE (document 02, §8).
pub const WIRE_CAPACITY: usize = 49;

#[derive(Clone, Copy, Debug, PartialEq, Eq)]
pub struct LockId(pub u8);

#[derive(Clone, Copy, Debug, PartialEq, Eq)]
pub struct MachineId(pub u8);

#[derive(Clone, Copy, Debug, PartialEq, Eq)]
pub struct TaskId(pub u8);

/// A client number, 4 × machine + task; hand-made states may pass 15.
#[derive(Clone, Copy, Debug, PartialEq, Eq)]
pub struct ClientId(pub u8);

impl LockId {
    pub fn is_valid(self) -> bool {
        self.index() < LOCKS
    }

    pub fn index(self) -> usize {
        usize::from(self.0)
    }
}

impl MachineId {
    pub fn is_valid(self) -> bool {
        self.index() < MACHINES
    }

    pub fn index(self) -> usize {
        usize::from(self.0)
    }
}

impl TaskId {
    pub fn is_valid(self) -> bool {
        usize::from(self.0) < TASKS_PER_MACHINE
    }
}

impl ClientId {
    /// The client of a valid machine and a valid task.
    pub fn new(machine: MachineId, task: TaskId) -> Self {
        ClientId(machine.0 * TASKS_PER_MACHINE as u8 + task.0)
    }

    pub fn is_valid(self) -> bool {
        self.index() < CLIENTS
    }

    pub fn index(self) -> usize {
        usize::from(self.0)
    }

    pub fn machine(self) -> MachineId {
        MachineId(self.0 / TASKS_PER_MACHINE as u8)
    }
}

/// A mode that a request, a waiter or an agent may have.
#[derive(Clone, Copy, Debug, PartialEq, Eq)]
pub enum Mode {
    Exclusive,
    Shared,
}

impl Mode {
    pub fn number(self) -> u8 {
        match self {
            Mode::Exclusive => 2,
            Mode::Shared => 3,
        }
    }

    pub fn from_number(number: u8) -> Option<Self> {
        match number {
            2 => Some(Mode::Exclusive),
            3 => Some(Mode::Shared),
            _ => None,
        }
    }
}

/// Whom a site prefers.
#[derive(Clone, Copy, Debug, PartialEq, Eq)]
pub enum Preference {
    Readers,
    Writers,
}

impl Preference {
    pub fn from_number(number: u8) -> Option<Self> {
        match number {
            0 => Some(Preference::Readers),
            1 => Some(Preference::Writers),
            _ => None,
        }
    }
}

/// A set of the sixteen clients, one bit for each.
#[derive(Clone, Copy, Debug, Default, PartialEq, Eq)]
pub struct ClientSet(u16);

impl ClientSet {
    pub fn insert(&mut self, client: ClientId) {
        self.0 |= 1 << client.0;
    }

    pub fn remove(&mut self, client: ClientId) {
        self.0 &= !(1 << client.0);
    }

    pub fn contains(self, client: ClientId) -> bool {
        self.0 & (1 << client.0) != 0
    }

    pub fn is_empty(self) -> bool {
        self.0 == 0
    }

    /// Whether every client of this set is in the other one too.
    pub fn is_within(self, other: ClientSet) -> bool {
        self.0 & !other.0 == 0
    }

    /// The client with the lowest number.
    pub fn lowest(self) -> Option<ClientId> {
        let lowest = self.0.trailing_zeros();
        (!self.is_empty()).then_some(ClientId(lowest as u8))
    }

    /// Whether the set would be empty without this client.
    pub fn is_only(self, client: ClientId) -> bool {
        self.0 == 1 << client.0
    }
}

#[derive(Clone, Copy, Debug, PartialEq, Eq)]
pub struct Waiter {
    pub client: ClientId,
    pub mode: Mode,
}

#[derive(Clone, Debug, PartialEq, Eq)]
pub struct Agent {
    pub mode: Mode,
    pub holders: ClientSet,
    pub queue: VecDeque<Waiter>,
    pub incarnation: u8,
}

impl Agent {
    pub fn new(mode: Mode) -> Self {
        Agent {
            mode,
            holders: ClientSet::default(),
            queue: VecDeque::new(),
            incarnation: 0,
        }
    }

    /// Whether an unmarked request joins the holders; otherwise it is queued. Sites that prefer writers let no reader pass one
    /// in the queue (document 02, §5).
    pub(crate) fn admits(&self, mode: Mode, preference: Preference) -> bool {
        let both_shared = self.mode == Mode::Shared && mode == Mode::Shared;
        both_shared && (preference == Preference::Readers || !self.has_queued_writer())
    }

    pub(crate) fn has_queued_writer(&self) -> bool {
        self.queue
            .iter()
            .any(|waiter| waiter.mode == Mode::Exclusive)
    }

    /// Where a client stands in the queue, if it does: so many are ahead of it.
    pub(crate) fn place_in_queue(&self, client: ClientId) -> Option<usize> {
        self.queue.iter().position(|waiter| waiter.client == client)
    }

    /// Whether the queue has room and does not have the client yet; otherwise a
    /// step is refused with 9 (document 01, 'Zero and the refusals').
    pub fn can_enqueue(&self, client: ClientId) -> bool {
        self.queue.len() < QUEUE_CAPACITY && self.place_in_queue(client).is_none()
    }
}

/// The mode of a lock that is not free and the machine of its agent.
#[derive(Clone, Copy, Debug, PartialEq, Eq)]
pub struct Owner {
    pub mode: Mode,
    pub machine: MachineId,
}

/// A free lock has no owner.
#[derive(Clone, Copy, Debug, Default, PartialEq, Eq)]
pub struct Decider {
    pub owner: Option<Owner>,
    pub incarnation: u8,
    /// Keeps later readers out; only sites that prefer writers set it.
    pub writer_waits: bool,
}

#[derive(Clone, Copy, Debug, Default, PartialEq, Eq)]
pub enum ClientStatus {
    #[default]
    Idle,
    Waiting(Mode),
    Holding(Mode),
}

#[derive(Clone, Copy, Debug, PartialEq, Eq)]
pub enum Message {
    Acquire {
        client: ClientId,
        mode: Mode,
        granted: bool,
    },
    Grant {
        client: ClientId,
        mode: Mode,
    },
    Release {
        client: ClientId,
    },
    Free,
}

impl Message {
    /// The client that the message is about; a FREE is about none.
    pub fn client(&self) -> Option<ClientId> {
        match *self {
            Message::Acquire { client, .. } => Some(client),
            Message::Grant { client, .. } => Some(client),
            Message::Release { client } => Some(client),
            Message::Free => None,
        }
    }
}

#[derive(Clone, Copy, Debug, PartialEq, Eq)]
pub enum Address {
    Decider,
    Machine(MachineId),
}

#[derive(Clone, Debug, PartialEq, Eq)]
pub struct Packet {
    pub message: Message,
    pub address: Address,
    pub rejected: bool,
    /// How often a machine has sent the packet back, and 255 also where it was more often.
    pub circled: u8,
    pub agent: Option<Agent>,
}

impl Packet {
    /// A packet that is not rejected, has not circled and carries no agent.
    pub fn new(message: Message, address: Address) -> Self {
        Packet {
            message,
            address,
            rejected: false,
            circled: 0,
            agent: None,
        }
    }

    /// Whether `lose` may take the packet off the wire: a GRANT without agent on its last way, to a machine.
    pub fn can_be_lost(&self) -> bool {
        let is_plain_grant = matches!(self.message, Message::Grant { .. }) && self.agent.is_none();
        is_plain_grant && self.address != Address::Decider
    }

    /// A packet that is not rejected, has not circled and carries an agent.
    pub fn with_agent(message: Message, address: Address, agent: Agent) -> Self {
        Packet {
            agent: Some(agent),
            ..Packet::new(message, address)
        }
    }
}

/// The state of one lock.
#[derive(Clone, Debug, Default, PartialEq, Eq)]
pub struct LockState {
    pub decider: Decider,
    pub agents: [Option<Agent>; MACHINES],
    pub clients: [ClientStatus; CLIENTS],
    /// The waiting clients whose GRANT was lost; hand-made states may note others.
    pub lost_grants: ClientSet,
    /// Packets in flight, oldest first.
    pub wire: Vec<Packet>,
    /// Stands for an unused slot that is not blank in a fixed-slot layout.
    pub stale_slot: bool,
}

/// The default cluster is the fresh one that prefers readers.
#[derive(Clone, Debug, Default, PartialEq, Eq)]
pub struct Cluster {
    /// The number of a preference; hand-made clusters may have any.
    pub preference: u8,
    pub locks: [LockState; LOCKS],
}

impl LockState {
    /// The clients that wait.
    pub(crate) fn waiting_clients(&self) -> ClientSet {
        self.clients_with(|status| matches!(status, ClientStatus::Waiting(_)))
    }

    /// The clients that hold the lock by their status.
    pub(crate) fn holding_clients(&self) -> ClientSet {
        self.clients_with(|status| matches!(status, ClientStatus::Holding(_)))
    }

    fn clients_with(&self, wanted: fn(ClientStatus) -> bool) -> ClientSet {
        let mut found = ClientSet::default();
        for (number, &status) in (0..).zip(&self.clients) {
            if wanted(status) {
                found.insert(ClientId(number));
            }
        }
        found
    }
}

impl Cluster {
    pub fn new() -> Self {
        Cluster::default()
    }

    /// The fresh cluster with a preference. Beside refusal 16 it is the one that prefers readers.
    pub fn fresh(preference: u8) -> (Outcome, Self) {
        match Preference::from_number(preference) {
            Some(_) => (
                Ok(()),
                Cluster {
                    preference,
                    ..Cluster::new()
                },
            ),
            None => (Err(Refusal::PreferenceInvalid), Cluster::new()),
        }
    }
}
