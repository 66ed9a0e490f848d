//! Hand-made states, many of them malformed (docs/random-runs.md).

use crate::generator::Generator;
use crate::model::{
    Address, Agent, ClientId, ClientStatus, Cluster, Decider, LockState, MachineId, Message, Mode,
    Owner, Packet, Waiter, CLIENTS, LOCKS, MACHINES, QUEUE_CAPACITY, WIRE_CAPACITY,
};
use crate::random_calls::HAND_MADE;
use crate::random_runs::Run;
use crate::report::Report;
use std::io;

pub const FIRST_STATE: u64 = 1;
pub const LAST_STATE: u64 = 5_000;

const WIRE_LENGTHS: [usize; 16] = [0, 0, 1, 1, 1, 2, 2, 2, 3, 3, 4, 5, 6, 47, 48, 49];
const QUEUE_LENGTHS: [usize; 8] = [0, 0, 0, 1, 2, 3, 15, 16];
/// How many of sixteen clients hold the lock, about.
const HOLDER_DENSITIES: [u64; 4] = [0, 1, 4, 12];
/// Counts of ACQUIREs and RELEASEs: few times back, or near to where they stay.
const COUNTS: [u8; 6] = [0, 0, 1, 253, 254, 255];

/// The one way in which a drawn lock may be malformed.
#[derive(Clone, Copy, Debug, PartialEq, Eq)]
enum Fault {
    None,
    WaiterOutOfRange,
    WaiterTwice,
    QueueTooLong,
    AddressOutOfRange,
    ClientOutOfRange,
    RejectedFlipped,
    AgentFlipped,
    AddressFlipped,
    StaleAgentSlot,
    OwnerOutOfRange,
    WireTooLong,
    StaleWireSlot,
    PreferenceOutOfRange,
    BitSet,
    CountAboveZero,
    NoteWithoutWait,
}

/// The faults by their numbers.
const FAULTS: [Fault; 17] = [
    Fault::None,
    Fault::WaiterOutOfRange,
    Fault::WaiterTwice,
    Fault::QueueTooLong,
    Fault::AddressOutOfRange,
    Fault::ClientOutOfRange,
    Fault::RejectedFlipped,
    Fault::AgentFlipped,
    Fault::AddressFlipped,
    Fault::StaleAgentSlot,
    Fault::OwnerOutOfRange,
    Fault::WireTooLong,
    Fault::StaleWireSlot,
    Fault::PreferenceOutOfRange,
    Fault::BitSet,
    Fault::CountAboveZero,
    Fault::NoteWithoutWait,
];

/// A fault, the number for what is out of range, and the slot that has it:
/// 0 to 3 the agents of the machines, from 4 on the packets.
#[derive(Clone, Copy)]
struct Flaw {
    fault: Fault,
    value: u8,
    target: usize,
}

impl Flaw {
    /// The flaw as one slot has it.
    fn at(self, slot: usize) -> Flaw {
        match self.target == slot {
            true => self,
            false => Flaw {
                fault: Fault::None,
                ..self
            },
        }
    }
}

/// Runs one seed of `states`.
pub fn random_state(seed: u64, report: &mut Report) -> io::Result<()> {
    let mut generator = Generator::new(seed);
    let cluster = hand_made_cluster(seed, &mut generator);
    report.tally.malformed_states += u64::from(!cluster.is_well_formed());
    Run::new("state", seed, HAND_MADE, generator, cluster).finish(report)
}

/// One or two hand-made locks; the others are fresh.
pub fn hand_made_cluster(seed: u64, generator: &mut Generator) -> Cluster {
    let preference = (seed / 32 % 2) as u8;
    let (_, mut cluster) = Cluster::fresh(preference);
    let first = (seed % LOCKS as u64) as usize;
    let second = (first + 1) % LOCKS;
    let drawn = [first, second]
        .into_iter()
        .take(1 + (seed / 8 % 2) as usize);
    for lock in drawn {
        let (state, flaw) = draw_lock(generator, preference);
        cluster.locks[lock] = state;
        if flaw.fault == Fault::PreferenceOutOfRange {
            cluster.preference = 2 + flaw.value;
        }
    }
    cluster
}

/// A lock of a cluster that without faults has this preference, and the flaw that was drawn for it.
fn draw_lock(generator: &mut Generator, preference: u8) -> (LockState, Flaw) {
    let fault = FAULTS[generator.draw(17) as usize];
    let value = generator.draw(239) as u8;
    let drawn = WIRE_LENGTHS[generator.draw(16) as usize];
    let packets = match fault {
        Fault::WireTooLong => WIRE_CAPACITY,
        _ => drawn,
    };
    let target = generator.draw((MACHINES + packets) as u64) as usize;
    let flaw = Flaw {
        fault,
        value,
        target,
    };
    let mut lock = LockState {
        decider: draw_decider(generator, flaw, preference),
        stale_slot: fault == Fault::StaleWireSlot && packets < WIRE_CAPACITY,
        ..LockState::default()
    };
    draw_agents(generator, flaw, &mut lock);
    draw_clients(generator, flaw, &mut lock);
    for index in 0..packets {
        let packet = draw_packet(generator, flaw.at(MACHINES + index), &mut lock.stale_slot);
        lock.wire.push(packet);
    }
    if fault == Fault::WireTooLong {
        let filler = lock.wire[0].clone();
        lock.wire.resize(50 + usize::from(value % 206), filler);
    }
    (lock, flaw)
}

fn draw_decider(generator: &mut Generator, flaw: Flaw, preference: u8) -> Decider {
    let mode = match generator.draw(4) {
        0 => None,
        1 => Some(Mode::Exclusive),
        _ => Some(Mode::Shared),
    };
    let drawn = generator.draw(4) as u8;
    let machine = MachineId(match flaw.fault {
        Fault::OwnerOutOfRange => 4 + flaw.value,
        _ => drawn,
    });
    Decider {
        owner: mode.map(|mode| Owner { mode, machine }),
        incarnation: draw_incarnation(generator),
        writer_waits: flaw.fault == Fault::BitSet || (preference == 1 && flaw.value % 2 == 1),
    }
}

/// Mostly the machine of the decider has an agent.
fn draw_agents(generator: &mut Generator, flaw: Flaw, lock: &mut LockState) {
    let owner = lock.decider.owner.map(|owner| owner.machine.index());
    for machine in 0..MACHINES {
        let likely = owner == Some(machine);
        let present = generator.draw(8) < if likely { 6 } else { 1 };
        let flaw = flaw.at(machine);
        lock.agents[machine] = draw_agent(generator, present, flaw, &mut lock.stale_slot);
    }
}

/// 254, 255, 0 or 1, so that equal and wrapping ones are common.
fn draw_incarnation(generator: &mut Generator) -> u8 {
    ((254 + generator.draw(4)) % 256) as u8
}

fn draw_mode(generator: &mut Generator) -> Mode {
    match generator.draw(2) {
        0 => Mode::Exclusive,
        _ => Mode::Shared,
    }
}

/// Some of those who wait have the note that their GRANT was lost.
fn draw_clients(generator: &mut Generator, flaw: Flaw, lock: &mut LockState) {
    for number in 0..CLIENTS as u8 {
        let status = draw_status(generator);
        let may_be_noted = generator.draw(4) == 0;
        lock.clients[usize::from(number)] = status;
        if may_be_noted && matches!(status, ClientStatus::Waiting(_)) {
            lock.lost_grants.insert(ClientId(number));
        }
    }
    if flaw.fault == Fault::NoteWithoutWait {
        lock.lost_grants.insert(ClientId(flaw.value % 16));
    }
}

fn draw_status(generator: &mut Generator) -> ClientStatus {
    match generator.draw(8) {
        2 => ClientStatus::Waiting(Mode::Exclusive),
        3 => ClientStatus::Waiting(Mode::Shared),
        6 => ClientStatus::Holding(Mode::Exclusive),
        7 => ClientStatus::Holding(Mode::Shared),
        _ => ClientStatus::Idle,
    }
}

/// Draws an agent in any case, so that the number of draws is fixed.
fn draw_agent(
    generator: &mut Generator,
    present: bool,
    flaw: Flaw,
    stale_slot: &mut bool,
) -> Option<Agent> {
    let mut agent = Agent::new(draw_mode(generator));
    agent.incarnation = draw_incarnation(generator);
    let density = HOLDER_DENSITIES[generator.draw(4) as usize];
    for client in 0..CLIENTS as u8 {
        if generator.draw(16) < density {
            agent.holders.insert(ClientId(client));
        }
    }
    let length = QUEUE_LENGTHS[generator.draw(8) as usize];
    let first = generator.draw(16);
    for index in 0..QUEUE_CAPACITY as u64 {
        // An odd stride gives sixteen different clients.
        let client = ClientId(((first + 5 * index) % 16) as u8);
        let mode = draw_mode(generator);
        agent.queue.push_back(Waiter { client, mode });
    }
    shape_queue(&mut agent, length, flaw);
    let has_unused_slot = !present || length < QUEUE_CAPACITY;
    *stale_slot |= flaw.fault == Fault::StaleAgentSlot && has_unused_slot;
    present.then_some(agent)
}

/// Cuts the queue to its length and applies the faults of queues.
fn shape_queue(agent: &mut Agent, length: usize, flaw: Flaw) {
    if flaw.fault == Fault::QueueTooLong {
        let filler = agent.queue[0];
        agent.queue.resize(17 + usize::from(flaw.value), filler);
        return;
    }
    agent.queue.truncate(length);
    if flaw.fault == Fault::WaiterOutOfRange && length >= 1 {
        agent.queue[length - 1].client = ClientId(16 + flaw.value);
    }
    if flaw.fault == Fault::WaiterTwice && length >= 2 {
        agent.queue[length - 1].client = agent.queue[0].client;
    }
}

fn draw_packet(generator: &mut Generator, flaw: Flaw, stale_slot: &mut bool) -> Packet {
    let kind = generator.draw(8);
    let message = draw_message(generator, kind, flaw);
    let address = generator.draw(8);
    let agent_draw = generator.draw(2);
    let rejected_draw = generator.draw(3);
    let is_free = message == Message::Free;
    let is_grant = matches!(message, Message::Grant { .. });
    let has_agent = is_free || (is_grant && agent_draw == 0);
    let rejected = has_agent && rejected_draw == 0;
    // What may circle carries no agent, so these two draws are free for its count.
    let may_circle = !is_free && !is_grant;
    let drawn_count = COUNTS[(3 * agent_draw + rejected_draw) as usize];
    let to_machine = rejected || (!is_free && address >= 4);
    let present = has_agent != (flaw.fault == Fault::AgentFlipped);
    Packet {
        message,
        address: shape_address(to_machine, (address % 4) as u8, flaw),
        rejected: rejected != (flaw.fault == Fault::RejectedFlipped),
        circled: match flaw.fault {
            Fault::CountAboveZero => 1 + flaw.value,
            _ if may_circle => drawn_count,
            _ => 0,
        },
        agent: draw_agent(generator, present, flaw, stale_slot),
    }
}

fn draw_message(generator: &mut Generator, kind: u64, flaw: Flaw) -> Message {
    let drawn = generator.draw(16) as u8;
    let client = ClientId(match flaw.fault {
        Fault::ClientOutOfRange => 16 + flaw.value,
        _ => drawn,
    });
    let mode = draw_mode(generator);
    let granted = generator.draw(4) == 0;
    match kind {
        0..=2 => Message::Acquire {
            client,
            mode,
            granted,
        },
        3..=5 => Message::Grant { client, mode },
        6 => Message::Release { client },
        _ => Message::Free,
    }
}

/// The address with the faults of addresses.
fn shape_address(to_machine: bool, machine: u8, flaw: Flaw) -> Address {
    if flaw.fault == Fault::AddressOutOfRange {
        return Address::Machine(MachineId(4 + flaw.value));
    }
    if to_machine != (flaw.fault == Fault::AddressFlipped) {
        Address::Machine(MachineId(machine))
    } else {
        Address::Decider
    }
}
