//! Delivery of a packet (document 01, 'At the decider' and 'At a machine'; document 02, §3 to §5, §7 and §8).
//!
//! A delivery first chooses its action, which tests refusal 9, then counts the
//! packets that the action sends, which tests refusal 10, and only then
//! changes the lock state.

use crate::answer::{Handling, Refusal, StepOutcome};
use crate::model::{
    Address, Agent, ClientId, ClientStatus, Cluster, Decider, LockId, LockState, MachineId,
    Message, Mode, Owner, Packet, Preference, Waiter,
};
use crate::requests::check_wire_length;

/// What a delivery does, one variant for each rule of the two sections.
#[derive(Clone, Copy, Debug)]
enum Action {
    /// The decider of a free lock makes a new agent for the request.
    CreateAgent,
    /// The decider grants a shared request and informs the agent.
    GrantShared(Owner),
    /// The decider sends the packet on to a machine, otherwise as it is.
    Forward(MachineId),
    /// The decider accepts a FREE.
    FreeLock,
    /// The decider accepts a GRANT with agent.
    TransferAgent,
    /// The decider rejects the agent that the packet carries.
    RejectAgent(Owner),
    /// The decider of a free lock keeps a RELEASE under way until there is an agent for it.
    Postpone,
    /// A machine shows a client its grant, which brings no agent.
    ShowGrant,
    /// A machine shows a client its grant and installs the agent with it.
    InstallAgent(MachineId),
    /// A machine without an agent sends an ACQUIRE or RELEASE back.
    SendBackWithoutAgent,
    /// A machine sends back the RELEASE of a client that its agent neither lists nor has in its queue.
    SendBackUnknown,
    /// The agent lists the client of an ACQUIRE that the decider granted.
    ConfirmHolder(MachineId),
    /// The agent lists the client of a shared request and grants it.
    AddHolder(MachineId),
    /// The agent queues the client of a request.
    Enqueue(MachineId),
    /// The agent removes a holder.
    RemoveHolder(MachineId),
    /// The agent takes a client that gave up off its queue.
    RemoveWaiter(MachineId),
    /// A machine takes a rejected agent back.
    RestoreAgent(MachineId),
}

impl Action {
    /// What a machine made of an ACQUIRE or RELEASE; no other packet, and nothing at the decider, has a handling.
    fn handling(self) -> Handling {
        match self {
            Action::SendBackWithoutAgent => Handling::NoAgent,
            Action::SendBackUnknown => Handling::NotHolder,
            Action::ConfirmHolder(_)
            | Action::AddHolder(_)
            | Action::Enqueue(_)
            | Action::RemoveHolder(_)
            | Action::RemoveWaiter(_) => Handling::Taken,
            Action::CreateAgent
            | Action::GrantShared(_)
            | Action::Forward(_)
            | Action::FreeLock
            | Action::TransferAgent
            | Action::RejectAgent(_)
            | Action::Postpone
            | Action::ShowGrant
            | Action::InstallAgent(_)
            | Action::RestoreAgent(_) => Handling::None,
        }
    }
}

impl Cluster {
    pub fn deliver(&mut self, lock: LockId, index: u8) -> StepOutcome {
        self.check_well_formed()?;
        self.deliver_checked(lock, index)
    }

    /// A delivery on a cluster that is known to be well formed.
    pub(crate) fn deliver_checked(&mut self, lock: LockId, index: u8) -> StepOutcome {
        let preference = self.checked_preference();
        let state = self.lock_mut(lock)?;
        state.deliver(usize::from(index), preference)
    }
}

impl LockState {
    pub(crate) fn deliver(&mut self, index: usize, preference: Preference) -> StepOutcome {
        let packet = self.wire.get(index).ok_or(Refusal::IndexOutOfRange)?;
        let action = match packet.address {
            Address::Decider => self.decider.action_for(packet)?,
            Address::Machine(machine) => self.machine_action(machine, packet, preference)?,
        };
        let expected = self.wire.len() - 1 + self.sent_by(action, packet);
        check_wire_length(expected)?;
        let packet = self.wire.remove(index);
        match packet.address {
            Address::Decider => self.apply_at_decider(action, packet, preference),
            Address::Machine(_) => self.apply_at_machine(action, packet),
        }
        debug_assert_eq!(self.wire.len(), expected);
        Ok(action.handling())
    }

    /// The number of packets that an action sends.
    fn sent_by(&self, action: Action, packet: &Packet) -> usize {
        match action {
            Action::GrantShared(_) => 2,
            Action::CreateAgent
            | Action::Forward(_)
            | Action::TransferAgent
            | Action::RejectAgent(_)
            | Action::Postpone
            | Action::SendBackWithoutAgent
            | Action::SendBackUnknown
            | Action::AddHolder(_) => 1,
            Action::FreeLock
            | Action::ShowGrant
            | Action::ConfirmHolder(_)
            | Action::Enqueue(_)
            | Action::RemoveWaiter(_)
            | Action::RestoreAgent(_) => 0,
            Action::InstallAgent(_) => packet.leaving_waiters(),
            Action::RemoveHolder(machine) => match packet.message.client() {
                Some(client) => self.sent_by_removal(machine, client),
                None => 0,
            },
        }
    }

    fn machine_action(
        &self,
        machine: MachineId,
        packet: &Packet,
        preference: Preference,
    ) -> Result<Action, Refusal> {
        let installed = self.agents[machine.index()].as_ref();
        if let Some(carried) = &packet.agent {
            return carried_agent_action(machine, installed, carried, packet);
        }
        match (packet.message, installed) {
            (Message::Grant { .. }, _) => Ok(Action::ShowGrant),
            (Message::Acquire { .. } | Message::Release { .. }, None) => {
                Ok(Action::SendBackWithoutAgent)
            }
            (Message::Acquire { granted: true, .. }, Some(agent)) => match agent.mode {
                Mode::Shared => Ok(Action::ConfirmHolder(machine)),
                // What the decider granted is shared, so it cannot belong to an
                // exclusive agent (document 01, 'Zero and the refusals').
                Mode::Exclusive => Err(Refusal::CannotBePlaced),
            },
            (Message::Acquire { client, mode, .. }, Some(agent)) => {
                if agent.admits(mode, preference) {
                    Ok(Action::AddHolder(machine))
                } else if agent.can_enqueue(client) {
                    Ok(Action::Enqueue(machine))
                } else {
                    Err(Refusal::CannotBePlaced)
                }
            }
            (Message::Release { client }, Some(agent)) => Ok(agent.release_action(machine, client)),
            (Message::Free, _) => unreachable!("a well-formed FREE carries an agent"),
        }
    }

    fn apply_at_decider(&mut self, action: Action, mut packet: Packet, preference: Preference) {
        match action {
            Action::CreateAgent => self.create_agent(packet.message),
            Action::GrantShared(owner) => self.grant_shared(owner, packet.message),
            Action::Forward(machine) => {
                let is_writer = packet.message.unmarked_mode() == Some(Mode::Exclusive);
                self.decider.writer_waits |= preference == Preference::Writers && is_writer;
                packet.address = Address::Machine(machine);
                self.wire.push(packet);
            }
            Action::FreeLock => self.decider = Decider::default(),
            Action::TransferAgent => self.transfer_agent(packet, preference),
            Action::RejectAgent(owner) => {
                packet.rejected = true;
                packet.address = Address::Machine(owner.machine);
                self.wire.push(packet);
            }
            Action::Postpone => self.wire.push(packet),
            _ => unreachable!("the action belongs to a machine"),
        }
    }

    fn create_agent(&mut self, request: Message) {
        let Message::Acquire { client, mode, .. } = request else {
            unreachable!("only an ACQUIRE creates an agent");
        };
        let machine = client.machine();
        self.decider = Decider {
            owner: Some(Owner { mode, machine }),
            incarnation: 0,
            // No writer is sent on, so nothing is said of the bit.
            writer_waits: self.decider.writer_waits,
        };
        self.wire.push(Packet::with_agent(
            Message::Grant { client, mode },
            Address::Machine(machine),
            Agent::new(mode),
        ));
    }

    fn grant_shared(&mut self, owner: Owner, request: Message) {
        let Message::Acquire { client, mode, .. } = request else {
            unreachable!("only an ACQUIRE is granted at once");
        };
        // A u8 that wraps (document 01, 'What stands on the bench').
        self.decider.incarnation = self.decider.incarnation.wrapping_add(1);
        self.wire.push(Packet::new(
            Message::Grant { client, mode },
            Address::Machine(client.machine()),
        ));
        // The marked copy is a packet of its own, so its count begins at 0 (document 02, §7).
        let granted = true;
        self.wire.push(Packet::new(
            Message::Acquire {
                client,
                mode,
                granted,
            },
            Address::Machine(owner.machine),
        ));
    }

    fn transfer_agent(&mut self, mut packet: Packet, preference: Preference) {
        let (Message::Grant { client, mode }, Some(agent)) = (packet.message, &mut packet.agent)
        else {
            unreachable!("only a GRANT with agent transfers an agent");
        };
        let machine = client.machine();
        self.decider = Decider {
            owner: Some(Owner { mode, machine }),
            incarnation: 0,
            writer_waits: preference == Preference::Writers && agent.has_queued_writer(),
        };
        agent.incarnation = 0;
        packet.address = Address::Machine(machine);
        self.wire.push(packet);
    }

    fn apply_at_machine(&mut self, action: Action, packet: Packet) {
        let client = packet.message.client();
        match (action, packet.message, client) {
            (Action::SendBackWithoutAgent | Action::SendBackUnknown, ..) => self.send_back(packet),
            (Action::RestoreAgent(machine), ..) => self.restore_agent(machine, packet),
            (Action::ShowGrant, Message::Grant { client, mode }, _) => {
                self.show_grant(client, mode);
            }
            (Action::InstallAgent(machine), Message::Grant { client, mode }, _) => {
                self.show_grant(client, mode);
                self.install_agent(machine, client, mode, packet.agent);
            }
            (Action::ConfirmHolder(machine), _, Some(client)) => {
                let agent = self.agent_mut(machine);
                agent.holders.insert(client);
                agent.incarnation = agent.incarnation.wrapping_add(1);
            }
            (Action::AddHolder(machine), Message::Acquire { client, mode, .. }, _) => {
                self.agent_mut(machine).holders.insert(client);
                self.send_plain_grant(client, mode);
            }
            (Action::Enqueue(machine), Message::Acquire { client, mode, .. }, _) => {
                let queue = &mut self.agent_mut(machine).queue;
                queue.push_back(Waiter { client, mode });
            }
            (Action::RemoveHolder(machine), _, Some(client)) => self.remove_holder(machine, client),
            (Action::RemoveWaiter(machine), _, Some(client)) => {
                let queue = &mut self.agent_mut(machine).queue;
                queue.retain(|waiter| waiter.client != client);
            }
            _ => unreachable!("the action does not belong to the packet"),
        }
    }

    /// Who gave up does not wait for the grant any more, and stays idle.
    fn show_grant(&mut self, client: ClientId, mode: Mode) {
        let status = &mut self.clients[client.index()];
        if *status != ClientStatus::Idle {
            *status = ClientStatus::Holding(mode);
            self.lost_grants.remove(client);
        }
    }

    /// Sends the decider the packet that a machine cannot use, counted once more.
    fn send_back(&mut self, packet: Packet) {
        let address = Address::Decider;
        // The count has eight bits and, unlike an incarnation, does not wrap (document 02, §7).
        let circled = packet.circled.saturating_add(1);
        self.wire.push(Packet {
            address,
            circled,
            ..packet
        });
    }

    fn install_agent(
        &mut self,
        machine: MachineId,
        client: ClientId,
        mode: Mode,
        carried: Option<Agent>,
    ) {
        let mut agent = carried.expect("the GRANT carries an agent");
        agent.mode = mode;
        agent.holders.insert(client);
        if mode == Mode::Shared {
            // Readers share, but none of them passes a writer that came earlier (document 02, §3).
            let readers = agent.readers_in_front();
            for waiter in agent.queue.drain(..readers) {
                agent.holders.insert(waiter.client);
                self.send_plain_grant(waiter.client, waiter.mode);
            }
        }
        self.agents[machine.index()] = Some(agent);
    }

    fn restore_agent(&mut self, machine: MachineId, packet: Packet) {
        let mut agent = packet.agent.expect("a rejected packet carries an agent");
        if let Message::Grant { client, mode } = packet.message {
            agent.queue.push_front(Waiter { client, mode });
        }
        self.agents[machine.index()] = Some(agent);
    }

    /// Sends the decider a GRANT without agent.
    fn send_plain_grant(&mut self, client: ClientId, mode: Mode) {
        let message = Message::Grant { client, mode };
        self.wire.push(Packet::new(message, Address::Decider));
    }

    fn agent_mut(&mut self, machine: MachineId) -> &mut Agent {
        let slot = &mut self.agents[machine.index()];
        slot.as_mut().expect("the action was chosen for an agent")
    }
}

impl Decider {
    fn action_for(&self, packet: &Packet) -> Result<Action, Refusal> {
        if let (Message::Grant { client, .. }, None) = (packet.message, &packet.agent) {
            return Ok(Action::Forward(client.machine()));
        }
        let unmarked_mode = packet.message.unmarked_mode();
        let Some(owner) = self.owner else {
            return free_decider_action(packet);
        };
        let Some(agent) = &packet.agent else {
            let both_shared = owner.mode == Mode::Shared && unmarked_mode == Some(Mode::Shared);
            return Ok(if both_shared && !self.writer_waits {
                Action::GrantShared(owner)
            } else {
                Action::Forward(owner.machine)
            });
        };
        // An agent that missed a shared grant must not leave. After a wrap it may
        // have the greater number, so nothing but equality will do
        // (document 01, 'At the decider').
        Ok(if agent.incarnation != self.incarnation {
            Action::RejectAgent(owner)
        } else if packet.message == Message::Free {
            Action::FreeLock
        } else {
            Action::TransferAgent
        })
    }
}

impl Message {
    /// The mode of an ACQUIRE that the decider has not granted.
    fn unmarked_mode(&self) -> Option<Mode> {
        match *self {
            Message::Acquire { mode, granted, .. } if !granted => Some(mode),
            _ => None,
        }
    }
}

impl Packet {
    /// How many waiters a shared GRANT with agent grants as well.
    fn leaving_waiters(&self) -> usize {
        let is_shared = |mode: Mode| mode == Mode::Shared;
        match (self.message, &self.agent) {
            (Message::Grant { mode, .. }, Some(agent)) if is_shared(mode) => {
                agent.readers_in_front()
            }
            _ => 0,
        }
    }
}

impl Agent {
    /// What becomes of the RELEASE of a client at the agent on this machine; who is a holder leaves as one.
    fn release_action(&self, machine: MachineId, client: ClientId) -> Action {
        if self.holders.contains(client) {
            Action::RemoveHolder(machine)
        } else if self.place_in_queue(client).is_some() {
            Action::RemoveWaiter(machine)
        } else {
            Action::SendBackUnknown
        }
    }

    /// How many shared waiters stand ahead of the first exclusive one.
    fn readers_in_front(&self) -> usize {
        let mut queue = self.queue.iter();
        let writer = queue.position(|waiter| waiter.mode == Mode::Exclusive);
        writer.unwrap_or(self.queue.len())
    }
}

/// A free lock has no agent, so nothing else makes sense here (document 01, 'Zero and the refusals').
fn free_decider_action(packet: &Packet) -> Result<Action, Refusal> {
    match packet.message {
        Message::Acquire { granted: false, .. } => Ok(Action::CreateAgent),
        // It may have overtaken the request that it undoes (document 02, §8).
        Message::Release { .. } => Ok(Action::Postpone),
        _ => Err(Refusal::CannotBePlaced),
    }
}

/// The action for a packet with an agent that arrives at a machine.
fn carried_agent_action(
    machine: MachineId,
    installed: Option<&Agent>,
    carried: &Agent,
    packet: &Packet,
) -> Result<Action, Refusal> {
    // A machine has room for one agent (document 01, 'Zero and the refusals').
    if installed.is_some() {
        return Err(Refusal::CannotBePlaced);
    }
    if !packet.rejected {
        return Ok(Action::InstallAgent(machine));
    }
    // The client of a rejected GRANT goes back to the queue; a FREE has none.
    match packet.message.client() {
        Some(client) if !carried.can_enqueue(client) => Err(Refusal::CannotBePlaced),
        _ => Ok(Action::RestoreAgent(machine)),
    }
}
