//! The bytes of a cluster and the digest over bytes (docs/random-runs.md).

use crate::model::{
    Address, Agent, ClientId, ClientStatus, Cluster, LockState, Message, Packet, CLIENTS,
    QUEUE_CAPACITY, WIRE_CAPACITY,
};

const FACTOR: u64 = 65_599;
/// The greatest prime below 2^32.
const MODULUS: u64 = 4_294_967_291;

/// A running digest, always below the modulus.
#[derive(Clone, Copy, Debug, PartialEq, Eq)]
pub struct Digest(u64);

impl Digest {
    pub fn new(start: u64) -> Self {
        Digest(start % MODULUS)
    }

    pub fn value(self) -> u64 {
        self.0
    }

    pub fn byte(&mut self, byte: u8) {
        self.0 = (self.0 * FACTOR + u64::from(byte) + 1) % MODULUS;
    }

    pub fn bytes(&mut self, bytes: &[u8]) {
        for &byte in bytes {
            self.byte(byte);
        }
    }

    pub fn cluster(&mut self, cluster: &Cluster) {
        self.byte(cluster.preference);
        for lock in &cluster.locks {
            self.lock(lock);
        }
    }

    fn lock(&mut self, lock: &LockState) {
        let owner = lock.decider.owner;
        self.byte(owner.map_or(0, |o| o.mode.number()));
        self.byte(owner.map_or(0, |o| o.machine.0));
        self.byte(lock.decider.incarnation);
        self.byte(u8::from(lock.decider.writer_waits));
        for agent in &lock.agents {
            self.optional_agent(agent.as_ref());
        }
        for (number, status) in (0..).zip(&lock.clients) {
            self.byte(match status {
                ClientStatus::Idle => 0,
                ClientStatus::Waiting(mode) => mode.number(),
                ClientStatus::Holding(mode) => 4 + mode.number(),
            });
            let lost = lock.lost_grants.contains(ClientId(number));
            self.byte(u8::from(lost));
        }
        self.byte(lock.wire.len() as u8);
        // A length above the capacity has no packets beyond the capacity.
        for packet in lock.wire.iter().take(WIRE_CAPACITY) {
            self.packet(packet);
        }
    }

    fn packet(&mut self, packet: &Packet) {
        let (kind, mode, granted) = match packet.message {
            Message::Acquire { mode, granted, .. } => (1, mode.number(), granted),
            Message::Grant { mode, .. } => (2, mode.number(), false),
            Message::Release { .. } => (3, 0, false),
            Message::Free => (4, 0, false),
        };
        let (to_machine, machine) = match packet.address {
            Address::Decider => (false, 0),
            Address::Machine(machine) => (true, machine.0),
        };
        let client = packet.message.client().map_or(0, |client| client.0);
        self.bytes(&[kind, client, mode, u8::from(granted)]);
        self.bytes(&[u8::from(to_machine), machine, u8::from(packet.rejected)]);
        self.byte(packet.circled);
        self.optional_agent(packet.agent.as_ref());
    }

    fn optional_agent(&mut self, agent: Option<&Agent>) {
        let Some(agent) = agent else {
            self.byte(0);
            return;
        };
        self.bytes(&[1, agent.mode.number(), agent.incarnation]);
        for client in 0..CLIENTS as u8 {
            self.byte(u8::from(agent.holders.contains(ClientId(client))));
        }
        self.byte(agent.queue.len() as u8);
        for waiter in agent.queue.iter().take(QUEUE_CAPACITY) {
            self.bytes(&[waiter.client.0, waiter.mode.number()]);
        }
    }
}
