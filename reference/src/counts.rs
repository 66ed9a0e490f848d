//! What can be counted in a lock's state, and what holds of it in every run (document 02, §1 and §8).
//!
//! Hand-made states need not keep to any of it, so no call looks at it.

use crate::model::{Agent, LockState, Message, Mode, WIRE_CAPACITY};

/// A client's marked ACQUIRE, its GRANT and, where it gave up before that came, its RELEASE.
const PACKETS_OF_A_CLIENT: u16 = 3;
/// A client's number is one byte, also in a hand-made state.
const CLIENT_NUMBERS: usize = 256;

/// The two counts of a lock's state.
#[derive(Clone, Copy, Debug, PartialEq, Eq)]
pub struct Counts {
    /// Agents on machines and in packets.
    pub agents: usize,
    /// ACQUIREs on the wire that the decider has granted.
    pub marked: usize,
}

impl Counts {
    pub fn of(state: &LockState) -> Self {
        let is_marked = |message| matches!(message, Message::Acquire { granted: true, .. });
        let wire = state.wire.iter();
        Counts {
            agents: state.all_agents().count(),
            marked: wire.filter(|packet| is_marked(packet.message)).count(),
        }
    }
}

impl LockState {
    /// What is not as in every run from the fresh cluster: the first such thing, with its figures.
    pub fn check_counts(&self) -> Result<(), String> {
        let Counts { agents, marked } = Counts::of(self);
        self.check_agents(agents)?;
        self.check_marked(marked)?;
        self.check_named_clients()?;
        self.check_frees()?;
        self.check_packets()
    }

    /// Agents wherever they are, on machines first.
    fn all_agents(&self) -> impl Iterator<Item = &Agent> {
        let carried = self.wire.iter().filter_map(|packet| packet.agent.as_ref());
        self.agents.iter().flatten().chain(carried)
    }

    /// One agent at a lock that is not free, none at a free one.
    fn check_agents(&self, agents: usize) -> Result<(), String> {
        let (expected, place) = match self.decider.owner {
            Some(_) => (1, "a lock that is not free"),
            None => (0, "a free lock"),
        };
        check(agents == expected, || {
            format!("{} at {place}", number_of(agents, "agent"))
        })
    }

    /// A shared agent has missed as many grants as are marked; no other lock has marks.
    fn check_marked(&self, marked: usize) -> Result<(), String> {
        let marks = || number_of(marked, "marked ACQUIRE");
        if self.decider.owner.map(|owner| owner.mode) != Some(Mode::Shared) {
            return check(marked == 0, || {
                format!("{} at a lock that is not shared", marks())
            });
        }
        let decider = self.decider.incarnation;
        for agent in self.all_agents().map(|agent| agent.incarnation) {
            // Either may have passed 255 alone, so the difference wraps too.
            let missed = decider.wrapping_sub(agent);
            check(usize::from(missed) == marked, || {
                let difference = format!("incarnation {decider} less the agent's {agent}");
                format!("the decider's {difference} is {missed}, with {}", marks())
            })?;
        }
        Ok(())
    }

    fn check_named_clients(&self) -> Result<(), String> {
        let mut named = [0; CLIENT_NUMBERS];
        for client in self.wire.iter().filter_map(|p| p.message.client()) {
            named[client.index()] += 1;
        }
        let excess = named.iter().position(|&n| n > PACKETS_OF_A_CLIENT);
        excess.map_or(Ok(()), |client| {
            Err(format!("{} packets name client {client}", named[client]))
        })
    }

    fn check_frees(&self) -> Result<(), String> {
        let is_free = |message| message == Message::Free;
        let frees = self.wire.iter().filter(|p| is_free(p.message)).count();
        check(frees <= 1, || format!("{frees} packets are FREEs"))
    }

    fn check_packets(&self) -> Result<(), String> {
        let packets = self.wire.len();
        check(packets <= WIRE_CAPACITY, || {
            format!("{packets} packets on the wire")
        })
    }
}

/// The words are made only where something is wrong.
pub(crate) fn check(holds: bool, words: impl FnOnce() -> String) -> Result<(), String> {
    if holds {
        Ok(())
    } else {
        Err(words())
    }
}

pub(crate) fn number_of(count: usize, thing: &str) -> String {
    let ending = if count == 1 { "" } else { "s" };
    format!("{count} {thing}{ending}")
}
