//! What holds of the handling that a step, a drain or a transcript gives (document 02, §4 and §8).
//!
//! It is read from the packet as it was delivered and from the states before and after, so that a fault in the
//! rule shows. Hand-made states keep to it too.

use crate::answer::Handling;
use crate::counts::check;
use crate::model::{
    Address, Agent, ClientId, ClientSet, LockState, MachineId, Message, Packet, Waiter,
};
use std::collections::VecDeque;

/// An ACQUIRE or RELEASE that comes to a machine, as it is before its delivery.
#[derive(Clone, Debug, PartialEq, Eq)]
pub struct Arrival {
    machine: MachineId,
    index: usize,
    before: LockState,
}

impl Arrival {
    /// What the delivery of an index brings a machine, if it is accepted.
    pub fn at(state: &LockState, index: usize) -> Option<Self> {
        let packet = state.wire.get(index)?;
        match packet.address {
            Address::Machine(machine) if is_request_or_release(packet) => Some(Arrival {
                machine,
                index,
                before: state.clone(),
            }),
            _ => None,
        }
    }

    /// Tests the handling of the delivery by the state after it.
    pub fn check(&self, handling: Handling, after: &LockState) -> Result<(), String> {
        match handling {
            Handling::None => {
                let machine = self.machine.0;
                let packet = format!("an ACQUIRE or RELEASE that came to machine {machine}");
                Err(format!("{packet} has no handling"))
            }
            Handling::NoAgent => {
                self.check_no_agent()?;
                self.check_sent_back(after)
            }
            Handling::NotHolder => {
                self.check_not_holder()?;
                self.check_sent_back(after)
            }
            Handling::Taken => {
                self.check_taker()?;
                if self.is_of_queued() {
                    return self.check_taken_off_queue(after);
                }
                self.check_nothing_sent_on(after)?;
                self.check_lists(after)
            }
        }
    }

    /// Whether it is the RELEASE of a client that the agent has in its queue, and does not list.
    pub fn is_of_queued(&self) -> bool {
        matches!((self.agent(), self.released()), (Some(agent), Some(client))
            if !agent.holders.contains(client) && has_in_queue(agent, client))
    }

    fn check_no_agent(&self) -> Result<(), String> {
        check(self.agent().is_none(), || {
            format!("no agent, but there is one on machine {}", self.machine.0)
        })
    }

    /// There is an agent, and it neither lists the client of the RELEASE nor has it in its queue.
    fn check_not_holder(&self) -> Result<(), String> {
        let machine = self.machine.0;
        let words = match (self.agent(), self.released()) {
            (_, None) => String::from("the packet is no RELEASE"),
            (None, _) => format!("there is no agent on machine {machine}"),
            (Some(agent), Some(client)) if agent.holders.contains(client) => {
                format!("client {} is listed on machine {machine}", client.0)
            }
            (Some(agent), Some(client)) if has_in_queue(agent, client) => {
                format!("client {} is queued on machine {machine}", client.0)
            }
            _ => return Ok(()),
        };
        Err(format!("not a holder, but {words}"))
    }

    /// There is an agent, and it lists the client of a RELEASE or has it in its queue.
    fn check_taker(&self) -> Result<(), String> {
        let machine = self.machine.0;
        let words = match (self.agent(), self.released()) {
            (None, _) => format!("there is no agent on machine {machine}"),
            (Some(agent), Some(client))
                if !agent.holders.contains(client) && !has_in_queue(agent, client) =>
            {
                let client = client.0;
                format!("client {client} is neither listed nor queued on machine {machine}")
            }
            _ => return Ok(()),
        };
        Err(format!("taken, but {words}"))
    }

    /// The packet is the last one on the wire, to the decider; all else, but for its count, is as before.
    fn check_sent_back(&self, after: &LockState) -> Result<(), String> {
        let mut expected = self.before.clone();
        let mut packet = expected.wire.remove(self.index);
        packet.address = Address::Decider;
        // How often it has circled is left to the test of the counts.
        packet.circled = after.wire.last().map_or(0, |last| last.circled);
        expected.wire.push(packet);
        check(*after == expected, || {
            String::from("the step did more, or less, than send the packet back")
        })
    }

    /// The packet and the client's place in the queue are gone, and all else is as before.
    fn check_taken_off_queue(&self, after: &LockState) -> Result<(), String> {
        let mut expected = self.before.clone();
        let released = expected.wire.remove(self.index).message.client();
        if let Some(agent) = &mut expected.agents[self.machine.index()] {
            agent.queue.retain(|waiter| Some(waiter.client) != released);
        }
        check(*after == expected, || {
            String::from("the step did more, or less, than take the client off the queue")
        })
    }

    fn check_nothing_sent_on(&self, after: &LockState) -> Result<(), String> {
        check(!self.sent(after).iter().any(is_request_or_release), || {
            String::from("taken, but an ACQUIRE or RELEASE was sent")
        })
    }

    /// Who is listed and who is queued, once the packet of a holder or an ACQUIRE is taken.
    fn check_lists(&self, after: &LockState) -> Result<(), String> {
        let Some(before) = self.agent().map(Lists::of) else {
            return Ok(());
        };
        match self.before.wire[self.index].message {
            Message::Release { client } => self.check_taken_off_holders(before, client, after),
            Message::Acquire { client, mode, .. } => {
                let waiter = Waiter { client, mode };
                self.check_listed_or_queued(before, waiter, after)
            }
            Message::Grant { .. } | Message::Free => Ok(()),
        }
    }

    /// The client alone is off the lists, whether the agent stays or was sent away.
    fn check_taken_off_holders(
        &self,
        before: Lists,
        client: ClientId,
        after: &LockState,
    ) -> Result<(), String> {
        let mut expected = before;
        expected.holders.remove(client);
        let stays = after.agents[self.machine.index()].as_ref().map(Lists::of);
        let sent = self.sent(after).iter().filter_map(Lists::of_sent);
        // An agent that is in both places, or in none, is as wrong as one with other lists.
        check(stays.into_iter().chain(sent).eq([expected]), || {
            let client = client.0;
            format!("the step did more, or less, than take client {client} off the holders")
        })
    }

    /// The client is among the holders or last in the queue, and nobody else has come or gone.
    fn check_listed_or_queued(
        &self,
        before: Lists,
        asks: Waiter,
        after: &LockState,
    ) -> Result<(), String> {
        let (mut listed, mut queued) = (before.clone(), before);
        listed.holders.insert(asks.client);
        queued.queue.push_back(asks);
        let stays = after.agents[self.machine.index()].as_ref().map(Lists::of);
        check(stays == Some(listed) || stays == Some(queued), || {
            let client = asks.client.0;
            format!("the step did more, or less, than list client {client} or queue it last")
        })
    }

    /// The delivered packet is gone, and what was sent is behind the others.
    fn sent<'a>(&self, after: &'a LockState) -> &'a [Packet] {
        let stayed = self.before.wire.len() - 1;
        after.wire.get(stayed..).unwrap_or_default()
    }

    /// The agent that was on the machine.
    fn agent(&self) -> Option<&Agent> {
        self.before.agents[self.machine.index()].as_ref()
    }

    /// The client of a RELEASE.
    fn released(&self) -> Option<ClientId> {
        match self.before.wire[self.index].message {
            Message::Release { client } => Some(client),
            _ => None,
        }
    }
}

/// Whom an agent lists, and whom it has in its queue.
#[derive(Clone, Debug, PartialEq, Eq)]
struct Lists {
    holders: ClientSet,
    queue: VecDeque<Waiter>,
}

impl Lists {
    fn of(agent: &Agent) -> Self {
        Lists {
            holders: agent.holders,
            queue: agent.queue.clone(),
        }
    }

    /// Those of the agent in a packet, as they were before it left: the client of its GRANT was the first in the queue.
    fn of_sent(packet: &Packet) -> Option<Self> {
        let mut lists = Lists::of(packet.agent.as_ref()?);
        if let Message::Grant { client, mode } = packet.message {
            lists.queue.push_front(Waiter { client, mode });
        }
        Some(lists)
    }
}

/// The handlings of the steps of a drain or a transcript, in their order.
#[derive(Clone, Debug, Default)]
pub struct StepHandlings(Vec<Handling>);

impl StepHandlings {
    pub fn push(&mut self, handling: Handling) {
        self.0.push(handling);
    }

    /// Tests one more step, and keeps its handling.
    pub fn test_step(
        &mut self,
        arrival: Option<&Arrival>,
        handling: Handling,
        after: &LockState,
    ) -> Result<(), String> {
        self.push(handling);
        check_step(arrival, handling, Some(after))
    }

    /// Tests what the whole gives: the last that a step had, none where no step had one.
    pub fn check_last(&self, given: Handling) -> Result<(), String> {
        let mut backwards = self.0.iter().rev();
        let last = backwards.find(|&&handling| handling != Handling::None);
        let last = last.copied().unwrap_or(Handling::None);
        check(given == last, || {
            let (given, last) = (name_of(given), name_of(last));
            format!("the last handling is given as {given}, but is {last}")
        })
    }
}

/// Tests the handling of a step; one without an arrival, or a refused one, has none.
pub fn check_step(
    arrival: Option<&Arrival>,
    handling: Handling,
    after: Option<&LockState>,
) -> Result<(), String> {
    match (arrival, after) {
        (Some(arrival), Some(after)) => arrival.check(handling, after),
        _ => check(handling == Handling::None, || {
            format!("{}, of a step that has no handling", name_of(handling))
        }),
    }
}

fn has_in_queue(agent: &Agent, client: ClientId) -> bool {
    agent.queue.iter().any(|waiter| waiter.client == client)
}

pub(crate) fn is_request_or_release(packet: &Packet) -> bool {
    matches!(
        packet.message,
        Message::Acquire { .. } | Message::Release { .. }
    )
}

fn name_of(handling: Handling) -> &'static str {
    match handling {
        Handling::None => "none",
        Handling::NoAgent => "no agent",
        Handling::NotHolder => "not a holder",
        Handling::Taken => "taken",
    }
}
