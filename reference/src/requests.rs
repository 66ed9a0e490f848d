//! Acquire, release and give up by a client, and the loss of its GRANT (document 01, 'Asking and handing back'; document 02, §5,
//! §6 and §8).

use crate::answer::{Outcome, Refusal};
use crate::model::{
    Address, ClientId, ClientStatus, Cluster, LockId, LockState, MachineId, Message, Mode, Packet,
    Preference, TaskId, Waiter, WIRE_CAPACITY,
};

impl Cluster {
    pub fn acquire(&mut self, lock: LockId, machine: MachineId, task: TaskId, mode: u8) -> Outcome {
        self.check_well_formed()?;
        self.acquire_checked(lock, machine, task, mode)
    }

    /// An acquire on a cluster that is known to be well formed.
    pub(crate) fn acquire_checked(
        &mut self,
        lock: LockId,
        machine: MachineId,
        task: TaskId,
        mode: u8,
    ) -> Outcome {
        let preference = self.checked_preference();
        let state = self.lock_mut(lock)?;
        let client = checked_client(machine, task)?;
        let mode = Mode::from_number(mode).ok_or(Refusal::ModeInvalid)?;
        state.acquire(client, mode, preference)
    }

    pub fn release(&mut self, lock: LockId, machine: MachineId, task: TaskId) -> Outcome {
        self.check_well_formed()?;
        self.ask_checked(lock, machine, task, LockState::release)
    }

    pub fn give_up(&mut self, lock: LockId, machine: MachineId, task: TaskId) -> Outcome {
        self.check_well_formed()?;
        self.ask_checked(lock, machine, task, LockState::give_up)
    }

    /// A release or a give up on a cluster that is known to be well formed.
    pub(crate) fn ask_checked(
        &mut self,
        lock: LockId,
        machine: MachineId,
        task: TaskId,
        ask: fn(&mut LockState, ClientId) -> Outcome,
    ) -> Outcome {
        let state = self.lock_mut(lock)?;
        ask(state, checked_client(machine, task)?)
    }

    pub fn lose(&mut self, lock: LockId, index: u8) -> Outcome {
        self.check_well_formed()?;
        self.lose_checked(lock, index)
    }

    /// A loss on a cluster that is known to be well formed.
    pub(crate) fn lose_checked(&mut self, lock: LockId, index: u8) -> Outcome {
        self.lock_mut(lock)?.lose(usize::from(index))
    }

    /// The state of a lock, or refusal 1.
    pub(crate) fn lock_mut(&mut self, lock: LockId) -> Result<&mut LockState, Refusal> {
        self.locks
            .get_mut(lock.index())
            .ok_or(Refusal::LockOutOfRange)
    }

    /// The state of a lock, only to be read, and a client, or refusals 1 to 3, in this order.
    pub(crate) fn lock_and_client(
        &self,
        lock: LockId,
        machine: MachineId,
        task: TaskId,
    ) -> Result<(&LockState, ClientId), Refusal> {
        let state = self.locks.get(lock.index());
        let state = state.ok_or(Refusal::LockOutOfRange)?;
        Ok((state, checked_client(machine, task)?))
    }
}

/// Refusals 2 and 3, in this order.
pub(crate) fn checked_client(machine: MachineId, task: TaskId) -> Result<ClientId, Refusal> {
    if !machine.is_valid() {
        return Err(Refusal::MachineOutOfRange);
    }
    if !task.is_valid() {
        return Err(Refusal::TaskOutOfRange);
    }
    Ok(ClientId::new(machine, task))
}

impl LockState {
    /// The index of the first packet on the wire that names a client, none if no packet does (document 02, §6).
    pub fn first_naming(&self, client: ClientId) -> Option<usize> {
        // A hand-made wire that claims more has no packets beyond the capacity.
        let mut wire = self.wire.iter().take(WIRE_CAPACITY);
        wire.position(|packet| packet.message.client() == Some(client))
    }

    fn acquire(&mut self, client: ClientId, mode: Mode, preference: Preference) -> Outcome {
        if self.clients[client.index()] != ClientStatus::Idle {
            return Err(Refusal::ClientNotIdle);
        }
        if self.first_naming(client).is_some() {
            return Err(Refusal::ClientOnWire);
        }
        self.clients[client.index()] = match &mut self.agents[client.machine().index()] {
            Some(agent) if agent.admits(mode, preference) => {
                agent.holders.insert(client);
                ClientStatus::Holding(mode)
            }
            Some(agent) if agent.can_enqueue(client) => {
                agent.queue.push_back(Waiter { client, mode });
                ClientStatus::Waiting(mode)
            }
            Some(_) => return Err(Refusal::CannotBePlaced),
            None => {
                check_wire_length(self.wire.len() + 1)?;
                let granted = false;
                let message = Message::Acquire {
                    client,
                    mode,
                    granted,
                };
                self.wire.push(Packet::new(message, Address::Decider));
                ClientStatus::Waiting(mode)
            }
        };
        Ok(())
    }

    pub(crate) fn release(&mut self, client: ClientId) -> Outcome {
        if !matches!(self.clients[client.index()], ClientStatus::Holding(_)) {
            return Err(Refusal::ClientNotHolding);
        }
        let machine = client.machine();
        let is_listed = self.is_listed(machine, client);
        let sent = if is_listed {
            self.sent_by_removal(machine, client)
        } else {
            1
        };
        check_wire_length(self.wire.len() + sent)?;
        self.clients[client.index()] = ClientStatus::Idle;
        if is_listed {
            self.remove_holder(machine, client);
        } else {
            self.send_release(client);
        }
        Ok(())
    }

    /// Ends a wait. Wherever the request is, what undoes it goes over the decider, also with an agent on the client's machine.
    pub(crate) fn give_up(&mut self, client: ClientId) -> Outcome {
        if !self.waiting_clients().contains(client) {
            return Err(Refusal::NothingToGiveUp);
        }
        check_wire_length(self.wire.len() + 1)?;
        self.clients[client.index()] = ClientStatus::Idle;
        self.lost_grants.remove(client);
        self.send_release(client);
        Ok(())
    }

    /// Takes a GRANT off the wire; only a client that waits can miss it.
    fn lose(&mut self, index: usize) -> Outcome {
        let packet = self.wire.get(index).ok_or(Refusal::IndexOutOfRange)?;
        if !packet.can_be_lost() {
            return Err(Refusal::CannotBeLost);
        }
        let lost = self.wire.remove(index).message.client();
        let waiting = self.waiting_clients();
        if let Some(client) = lost.filter(|&client| waiting.contains(client)) {
            self.lost_grants.insert(client);
        }
        Ok(())
    }

    fn send_release(&mut self, client: ClientId) {
        let message = Message::Release { client };
        self.wire.push(Packet::new(message, Address::Decider));
    }

    /// Whether the machine has an agent that lists the client as a holder.
    pub(crate) fn is_listed(&self, machine: MachineId, client: ClientId) -> bool {
        let agent = self.agents[machine.index()].as_ref();
        agent.is_some_and(|agent| agent.holders.contains(client))
    }

    /// The number of packets that `remove_holder` would send.
    pub(crate) fn sent_by_removal(&self, machine: MachineId, client: ClientId) -> usize {
        let agent = self.agents[machine.index()].as_ref();
        usize::from(agent.is_some_and(|agent| agent.holders.is_only(client)))
    }

    /// Removes a listed holder. After the last one the agent leaves, in a GRANT
    /// for the next waiter or, when nobody waits, in a FREE.
    pub(crate) fn remove_holder(&mut self, machine: MachineId, client: ClientId) {
        let slot = &mut self.agents[machine.index()];
        let Some(agent) = slot.as_mut() else {
            return;
        };
        agent.holders.remove(client);
        if !agent.holders.is_empty() {
            return;
        }
        let next = agent.queue.pop_front();
        let Some(agent) = slot.take() else {
            return;
        };
        let message = match next {
            Some(Waiter { client, mode }) => Message::Grant { client, mode },
            None => Message::Free,
        };
        self.wire
            .push(Packet::with_agent(message, Address::Decider, agent));
    }
}

/// Refusal 10, from the length that the wire would have after the step.
pub(crate) fn check_wire_length(length: usize) -> Outcome {
    if length > WIRE_CAPACITY {
        Err(Refusal::WireFull)
    } else {
        Ok(())
    }
}
