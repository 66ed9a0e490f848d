//! How a step of a random run chooses its call (docs/random-runs.md).

use crate::answer::{Refusal, StepOutcome};
use crate::model::{
    Address, ClientId, ClientStatus, Cluster, LockId, LockState, MachineId, Message, Mode, Packet,
    TaskId, LOCKS, WIRE_CAPACITY,
};
use crate::reasons::Reason;
use crate::report::Incoming;
use crate::transcript::Record;
use std::fmt;

/// No step chooses this kind; it stands for a whole transcript.
pub const TRANSCRIPT: u8 = 0;
pub const ACQUIRE: u8 = 1;
pub const RELEASE: u8 = 2;
pub const DELIVER: u8 = 3;
pub const DRAIN: u8 = 4;
/// No step chooses this kind; one such ask follows each call.
pub const REASON: u8 = 5;
pub const LOSE: u8 = 6;
pub const GIVE_UP: u8 = 7;
/// No step chooses this kind; all such calls come before the runs.
pub const FRESH: u8 = 8;

/// Which kind a wild call has.
const WILD_KINDS: [u8; 5] = [ACQUIRE, RELEASE, DELIVER, LOSE, GIVE_UP];

/// From this number on, out of 64, a client acquires whatever its status is.
const BOLD: u64 = 62;

/// The weights of a run; `shared`, `deliver`, `wild`, `gives_up` and `loses` are out of 64.
#[derive(Clone, Copy, Debug)]
pub struct Profile {
    pub steps: u64,
    pub locks: u64,
    pub shared: u64,
    pub deliver: u64,
    pub wild: u64,
    pub delay_granted: bool,
    pub delay_agents: bool,
    pub delay_requests_to_machines: bool,
    pub delay_requests_to_decider: bool,
    pub delay_plain_grants: bool,
    pub pin_client_0: bool,
    pub gives_up: u64,
    pub loses: u64,
}

const BASE: Profile = Profile {
    steps: 512,
    locks: 1,
    shared: 32,
    deliver: 32,
    wild: 1,
    delay_granted: false,
    delay_agents: false,
    delay_requests_to_machines: false,
    delay_requests_to_decider: false,
    delay_plain_grants: false,
    pin_client_0: false,
    gives_up: 0,
    loses: 0,
};

const CONTENTION: Profile = Profile {
    shared: 16,
    deliver: 24,
    ..BASE
};
const STARVED_READERS: Profile = Profile {
    shared: 60,
    delay_granted: true,
    ..BASE
};
const DELAYED_AGENTS: Profile = Profile {
    locks: 2,
    shared: 40,
    delay_agents: true,
    ..BASE
};
const LONG_WIRES: Profile = Profile {
    shared: 62,
    deliver: 24,
    delay_granted: true,
    delay_agents: true,
    ..BASE
};
const UNIFORM: Profile = Profile {
    locks: 8,
    deliver: 24,
    gives_up: 4,
    loses: 8,
    ..BASE
};
const WILD: Profile = Profile {
    locks: 2,
    wild: 32,
    ..BASE
};
/// Long enough for an incarnation to wrap.
const PINNED_READER: Profile = Profile {
    steps: 3_072,
    shared: 64,
    pin_client_0: true,
    ..BASE
};
const LATE_REQUESTS: Profile = Profile {
    delay_requests_to_machines: true,
    ..BASE
};
const LATE_WRITERS: Profile = Profile {
    shared: 48,
    deliver: 40,
    delay_granted: true,
    ..BASE
};

/// A GRANT that stays long on the wire is lost more often, and its client has time to give up.
const LOST_GRANTS: Profile = Profile {
    shared: 48,
    deliver: 28,
    delay_plain_grants: true,
    gives_up: 8,
    loses: 16,
    ..BASE
};
/// Who gives up before its GRANT comes has three packets; with only readers and no losses all clients can have them at once.
const LONGEST_WIRES: Profile = Profile {
    steps: 1_024,
    shared: 64,
    delay_plain_grants: true,
    gives_up: 63,
    ..LONG_WIRES
};
/// The RELEASE of a client that gave up overtakes its ACQUIRE on the way to the decider.
const EARLY_RELEASES: Profile = Profile {
    locks: 2,
    deliver: 40,
    delay_requests_to_decider: true,
    gives_up: 48,
    ..BASE
};
const IMPATIENT_WAITERS: Profile = Profile {
    shared: 40,
    deliver: 28,
    gives_up: 8,
    loses: 16,
    ..BASE
};

pub const PROFILES: [Profile; 13] = [
    CONTENTION,
    STARVED_READERS,
    DELAYED_AGENTS,
    LONG_WIRES,
    UNIFORM,
    WILD,
    PINNED_READER,
    LATE_REQUESTS,
    LATE_WRITERS,
    LOST_GRANTS,
    LONGEST_WIRES,
    EARLY_RELEASES,
    IMPATIENT_WAITERS,
];

/// The profile of the calls on a hand-made state.
pub const HAND_MADE: Profile = Profile {
    steps: 16,
    locks: 2,
    wild: 2,
    gives_up: 8,
    loses: 16,
    ..BASE
};

/// One call or drain with all the arguments that its step drew.
#[derive(Clone, Copy, Debug)]
pub struct Call {
    pub kind: u8,
    pub lock: LockId,
    pub machine: MachineId,
    pub task: TaskId,
    pub mode: u8,
    pub index: u8,
}

impl Profile {
    pub fn of_seed(seed: u64) -> Self {
        PROFILES[(seed % PROFILES.len() as u64) as usize]
    }

    pub fn choose_call(&self, seed: u64, outputs: &[u64; 8], cluster: &Cluster) -> Call {
        if outputs[1] % 64 < self.wild {
            return wild_call(outputs);
        }
        let lock = (seed + outputs[3] % self.locks) % LOCKS as u64;
        let state = &cluster.locks[lock as usize];
        let machine = MachineId((outputs[4] % 4) as u8);
        let task = TaskId((outputs[5] % 4) as u8);
        let mode = if outputs[6] % 64 < self.shared {
            Mode::Shared
        } else {
            Mode::Exclusive
        };
        let kind = self.choose_kind(outputs, state, ClientId::new(machine, task));
        Call {
            kind,
            lock: LockId(lock as u8),
            machine,
            task,
            mode: mode.number(),
            index: self.choose_index(kind, outputs, state),
        }
    }

    /// A client mostly does what its status allows, or a packet is delivered or lost.
    fn choose_kind(&self, outputs: &[u64; 8], state: &LockState, client: ClientId) -> u8 {
        let (number, other) = (outputs[2] % 64, outputs[0] / 64 % 64);
        let stays = self.pin_client_0 && client == ClientId(0);
        match state.clients[client.index()] {
            // Gives up and losses are at the two ends of one number, so that each has its own share.
            _ if number < self.deliver => self.deliver_or_lose(other),
            _ if number >= BOLD => ACQUIRE,
            ClientStatus::Idle => ACQUIRE,
            ClientStatus::Holding(_) if !stays => RELEASE,
            ClientStatus::Waiting(_) if other < self.gives_up => GIVE_UP,
            _ => self.deliver_or_lose(other),
        }
    }

    fn deliver_or_lose(&self, number: u64) -> u8 {
        match 63 - number < self.loses {
            true => LOSE,
            false => DELIVER,
        }
    }

    /// An index up to the wire's length, mostly past the packets that are not wanted.
    fn choose_index(&self, kind: u8, outputs: &[u64; 8], state: &LockState) -> u8 {
        let length = state.wire.len();
        let mut index = (outputs[7] % (length as u64 + 1)) as usize;
        let hurries = (outputs[1] / 64).is_multiple_of(8);
        let passes = |packet: &Packet| match kind {
            LOSE => !packet.can_be_lost(),
            _ => self.delays(packet),
        };
        // A hand-made wire that claims more has no packets beyond the capacity.
        let slots = length.min(WIRE_CAPACITY);
        while !hurries && index < slots && passes(&state.wire[index]) {
            index += 1;
        }
        index as u8
    }

    fn delays(&self, packet: &Packet) -> bool {
        let to_machine = packet.address != Address::Decider;
        match packet.message {
            Message::Acquire { granted: true, .. } => self.delay_granted,
            Message::Acquire { .. } if to_machine => self.delay_requests_to_machines,
            Message::Acquire { .. } => self.delay_requests_to_decider,
            Message::Grant { .. } if packet.agent.is_none() => self.delay_plain_grants,
            _ => self.delay_agents && packet.agent.is_some(),
        }
    }
}

/// A call that does not look at the cluster and may be out of every range.
fn wild_call(outputs: &[u64; 8]) -> Call {
    Call {
        kind: WILD_KINDS[(outputs[2] % 5) as usize],
        lock: LockId((outputs[3] % 10) as u8),
        machine: MachineId((outputs[4] % 6) as u8),
        task: TaskId((outputs[5] % 6) as u8),
        mode: (outputs[6] % 6) as u8,
        index: (outputs[7] % 57) as u8,
    }
}

impl Call {
    /// The call as a record, with the arguments that its kind has.
    pub fn record(&self) -> Record {
        let (lock, machine, task) = (self.lock, self.machine, self.task);
        match self.kind {
            ACQUIRE => Record::Acquire(lock, machine, task, self.mode),
            RELEASE => Record::Release(lock, machine, task),
            LOSE => Record::Lose(lock, self.index),
            GIVE_UP => Record::GiveUp(lock, machine, task),
            _ => Record::Deliver(lock, self.index),
        }
    }

    pub fn perform(&self, cluster: &mut Cluster) -> StepOutcome {
        self.record().run(cluster)
    }

    /// What the tests of the call need of the cluster before it.
    pub fn incoming(&self, cluster: &Cluster) -> Incoming {
        Incoming::of(cluster, &self.record())
    }

    /// Why the chosen client waits, also where the call itself has no client.
    pub fn ask_reason(&self, cluster: &Cluster) -> Result<Reason, Refusal> {
        cluster.reason(self.lock, self.machine, self.task)
    }

    /// Whether a packet names the chosen client, and the index of the first that does; no number where an argument is out of range.
    pub fn named_numbers(&self, cluster: &Cluster) -> Vec<u8> {
        let asked = cluster.lock_and_client(self.lock, self.machine, self.task);
        let Ok((state, client)) = asked else {
            return vec![];
        };
        match state.first_naming(client) {
            // A wire has 49 packets at most, by hand too.
            Some(index) => vec![1, index as u8],
            None => vec![0],
        }
    }
}

impl fmt::Display for Call {
    fn fmt(&self, f: &mut fmt::Formatter) -> fmt::Result {
        let (lock, machine, task) = (self.lock.0, self.machine.0, self.task.0);
        let (kind, mode, index) = (self.kind, self.mode, self.index);
        write!(f, "kind {kind} args {lock} {machine} {task} {mode} {index}")
    }
}
