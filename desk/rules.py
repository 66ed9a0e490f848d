"""What each rule of docs/protocol.md did in a step: its sentences, from the packet, what was sent, and the states before and after."""
from desk.lines import IDLE, fresh
from desk.words import CIRCLES, EXCLUSIVE, MODES, SHARED, circled, client, clients, left, packet


def at(step, number=0):
    """Where a packet that was sent stands on the wire."""
    return f"at index {step.first + number}"


def agent_before(step):
    return step.before["agents"][step.machine]


def agent_after(step):
    return step.after["agents"][step.machine]


def sent_one(step, kind, to):
    """The only packet sent, which must be of this kind and of the step's client, go there and be a new one."""
    step.need(len(step.sent) == 1 and step.sent[0]["kind"] == kind and step.sent[0]["to"] == to and not step.sent[0]["circled"])
    step.need(step.sent[0]["client"] == step.client)
    return step.sent[0]


def status_before(step):
    """What the step's client did: idle, waiting or holding."""
    return step.before["clients"][step.client]["status"]


def lists(agent, number):
    return agent is not None and number in agent["holders"]


def has_queued(agent, number):
    return any(waiter["client"] == number for waiter in agent["queue"])


def preferred(step, agent):
    """The first who asks exclusively in an agent's queue, to whom readers give way; None where nobody does, or readers are preferred."""
    writers = [waiter["client"] for waiter in agent["queue"] if waiter["mode"] == EXCLUSIVE]
    return writers[0] if writers and step.prefers_writers else None


def both_shared(agent, mode):
    return agent["mode"] == mode == SHARED


def joins(step, agent, mode):
    """Whether a request that is not marked joins the agent's holders; otherwise it is queued."""
    return both_shared(agent, mode) and preferred(step, agent) is None


def listed(step):
    """The agent's holders, the client among them."""
    return sorted({*agent_before(step)["holders"], step.client})


def queued(step, mode, who):
    """A request that does not join: where agent and request are both shared, a writer is why."""
    agent = agent_before(step)
    step.agent_is_as_it_was(queue=[*agent["queue"], {"client": step.client, "mode": mode}])
    step.need(not step.sent)
    goes = f"{who} goes to the end of the queue of the agent on machine {step.machine}."
    if not both_shared(agent, mode):
        return [goes.capitalize()]
    return [f"Agent and request are shared, but a writer, {client(preferred(step, agent))}, stands in the queue: {goes}"]


# At a client.

def client_acquires(step):
    mode = step.line["mode"]
    if agent_before(step) is None:
        asked = sent_one(step, "ACQUIRE", None)
        return [f"Machine {step.machine} has no agent: {packet(asked)}, goes to the decider, {at(step)}."]
    if not joins(step, agent_before(step), mode):
        return queued(step, mode, "it")
    step.agent_is_as_it_was(holders=listed(step))
    step.need(not step.sent)
    return [f"Agent and request are shared: the agent on machine {step.machine} lists it, and it holds at once."]


def client_releases(step):
    if lists(agent_before(step), step.client):
        return strikes_off(step)
    released = sent_one(step, "RELEASE", None)
    return [f"{not_listed(step)}: {packet(released)} goes to the decider, {at(step)}."]


def not_listed(step, words="does not list {}"):
    """Why an agent cannot strike the client off."""
    if agent_before(step) is None:
        return f"Machine {step.machine} has no agent"
    return f"The agent on machine {step.machine} {words.format(client(step.client))}"


def strikes_off(step):
    """An agent strikes a holder off, and leaves where it was the last."""
    begun = f"The agent on machine {step.machine} strikes {client(step.client)} off"
    if agent_after(step) is not None:
        step.need(not step.sent and not lists(agent_after(step), step.client))
        return [f"{begun} and stays."]
    step.need(len(step.sent) == 1 and step.sent[0]["agent"] is not None)
    if step.sent[0]["kind"] == "FREE":
        return [f"{begun}, its last holder, and nobody waits: the agent leaves for the decider in a FREE, {at(step)}."]
    granted = client(step.sent[0]["client"])
    return [f"{begun}, its last holder: the agent leaves for the decider in a GRANT for {granted}, the first of its queue, {at(step)}."]


def client_gives_up(step):
    """Whoever gives up sends a RELEASE, also where the agent on its machine has it in its queue: what is left of its request goes on."""
    step.need(status_before(step) == "waiting")
    was, released = step.before["clients"][step.client], sent_one(step, "RELEASE", None)
    note = ["The note that its GRANT was lost is dropped."] if was["lost"] else []
    return [f"{packet(released)} goes to the decider, {at(step)}.", *note, *left(was["reason"])]


# On the wire.

MISSED = {"waiting": "is noted as having lost it", "idle": "has given up and does not miss it", "holding": "holds already and does not miss it"}


def can_be_lost(one):
    return one["kind"] == "GRANT" and one["agent"] is None and one["to"] is not None


def grant_lost(step):
    step.need(can_be_lost(step.packet) and not step.sent)
    return [f"The GRANT never arrives: {client(step.client)} {MISSED[status_before(step)]}."]


# At the decider.

def acquire_at_decider(step):
    if step.before["decider"]["mode"] == 0:
        return granted_first(step)
    why = why_sent_on(step)
    if why is None:
        return granted_at_decider(step)
    knew, asks = step.before["decider"]["writer"], step.packet["mode"] == EXCLUSIVE and not step.packet["granted"]
    notes = step.prefers_writers and asks and not knew
    return [*sent_on(step, why + ": it", writer=knew or notes), *["The decider notes that a writer waits."] * notes]


def granted_first(step):
    """A request at a free lock."""
    owner, mode = step.client // 4, step.packet["mode"]
    becomes_owner(step)
    granted = sent_one(step, "GRANT", owner)
    return [f"The lock was free: machine {owner} is its owner now, {MODES[mode]}, and gets a new agent.",
            f"{packet(granted)}, goes to machine {owner}, {at(step)}."]


def becomes_owner(step, **but):
    """The machine of the packet's client owns the lock now, and the decider counts anew."""
    step.decider_is_as_it_was(mode=step.packet["mode"], machine=step.client // 4, incarnation=0, **but)


def why_sent_on(step):
    """Why an ACQUIRE of a lock that is not free is for the agent to decide; None where the decider grants it."""
    decider, asked = step.before["decider"], step.packet
    if asked["granted"]:
        return "It is marked, so granted already"
    if not decider["mode"] == asked["mode"] == SHARED:
        return "Lock and request are not both shared"
    return "Lock and request are shared, but the decider knows that a writer waits" if decider["writer"] else None


def granted_at_decider(step):
    """A shared request at a shared lock."""
    step.decider_is_as_it_was(incarnation=(step.before["decider"]["incarnation"] + 1) % 256)
    step.need(len(step.sent) == 2)
    grant, marked = step.sent
    step.need(grant["kind"] == "GRANT" and marked["kind"] == "ACQUIRE" and marked["granted"] and not marked["circled"])
    anew = ["The marked ACQUIRE is a new packet: it has not circled."] if step.packet["circled"] else []
    return [f"Lock and request are shared: granted on the spot, and the decider counts up to {step.after['decider']['incarnation']}.",
            f"{packet(grant)}, goes to machine {grant['to']}, {at(step)}; "
            f"the ACQUIRE, now marked, goes to machine {marked['to']}, the owner, {at(step, 1)}.", *anew]


def sent_on(step, it, **but):
    step.decider_is_as_it_was(**but)
    owner = step.after["decider"]["machine"]
    step.need(step.sent == [{**step.packet, "to": owner}])
    return [f"{it} is sent on to machine {owner}, the owner, {at(step)}."]


def release_at_decider(step):
    if step.before["decider"]["mode"]:
        return sent_on(step, "It")
    step.decider_is_as_it_was()
    step.need(step.sent == [step.packet])
    return [f"The lock is free: the RELEASE goes to the end of the wire, {at(step)}, still for the decider."]


def counts(step):
    """The incarnations of the agent in the packet and of the decider."""
    return step.packet["agent"]["incarnation"], step.before["decider"]["incarnation"]


def is_current(step):
    """Whether agent and decider have counted the same; otherwise the packet is rejected."""
    agents, deciders = counts(step)
    return agents == deciders


def rejected(step):
    """A FREE or a GRANT with the agent, sent back."""
    step.decider_is_as_it_was()
    agents, deciders = counts(step)
    owner = step.after["decider"]["machine"]
    step.need(step.sent == [{**step.packet, "to": owner, "rejected": True}])
    return [f"The agent has counted {agents}, the decider {deciders}: the {step.packet['kind']} is rejected.",
            f"It goes to machine {owner}, the owner, {at(step)}; nothing else changes."]


def free_at_decider(step):
    if not is_current(step):
        return rejected(step)
    step.need(step.after["decider"] == fresh()["decider"] and not step.sent)
    forgets = ["The decider forgets that a writer waits."] if step.before["decider"]["writer"] else []
    return [f"Agent and decider have both counted {counts(step)[0]}: the lock is free now.", *forgets]


def grant_at_decider(step):
    if step.packet["agent"] is None:
        step.decider_is_as_it_was()
        told = sent_one(step, "GRANT", step.client // 4)
        return [f"It is sent on to machine {told['to']}, where its client is, {at(step)}."]
    if not is_current(step):
        return rejected(step)
    owner = step.client // 4
    becomes_owner(step, writer=preferred(step, step.packet["agent"]) is not None)
    step.need(step.sent == [{**step.packet, "to": owner, "agent": {**step.packet["agent"], "incarnation": 0}}])
    return [f"Agent and decider have both counted {counts(step)[0]}: machine {owner} is the owner now, {MODES[step.packet['mode']]}.",
            f"The GRANT with the agent goes to machine {owner}, {at(step)}; both incarnations are 0 now.", *learns(step)]


def learns(step):
    """What the queue of the agent in a GRANT tells the decider of writers, whatever it knew before."""
    knew, writer = step.before["decider"]["writer"], preferred(step, step.packet["agent"])
    if writer is None:
        return ["The agent's queue has no writer: the decider forgets that a writer waits."] if knew else []
    return [f"The decider {'still knows' if knew else 'notes'} that a writer waits: {client(writer)} is in the agent's queue."]


# At a machine.

def grant_at_machine(step):
    of, gave_up = client(step.client), status_before(step) == "idle"
    if step.packet["rejected"]:
        return brought_back(step, f", and {of} stands first in its queue again" + (", though it has given up" if gave_up else ""))
    if step.packet["agent"] is None:
        step.need(not step.sent and agent_after(step) == agent_before(step))
        return [f"{of} has given up and stays idle; the agent is not inside." if gave_up else f"It makes {of} a holder; the agent is not inside."]
    return installed(step, [f"{of} has given up and stays idle: the agent lists it all the same, until its RELEASE comes."] if gave_up else [])


def installed(step, gave_up):
    """An agent that arrives in a GRANT, who joins its holders from the queue and who stays there."""
    carried, of = step.packet["agent"], client(step.client)
    holders = {*carried["holders"], step.client, *(sent["client"] for sent in step.sent)}
    step.need(agent_before(step) is None and agent_after(step) is not None)
    step.need(agent_after(step) == {**carried, "mode": step.packet["mode"], "holders": sorted(holders), "queue": agent_after(step)["queue"]})
    told = [f"{client(sent['client'])} joins the holders from the queue: {packet(sent)}, goes to the decider, {at(step, number)}."
            for number, sent in enumerate(step.sent)]
    return [f"The agent is installed on machine {step.machine}, {MODES[step.packet['mode']]}, and lists {of}.", *gave_up, *told, *stays(step)]


def stays(step):
    """Who stays in the queue of an agent that is installed: with a shared one, the first who asks exclusively and whoever is behind it."""
    staying = agent_after(step)["queue"]
    left = [{"client": sent["client"], "mode": sent["mode"]} for sent in step.sent]
    step.need(left + staying == step.packet["agent"]["queue"])
    if agent_after(step)["mode"] == EXCLUSIVE:
        step.need(not left)
        return []
    step.need(all(waiter["mode"] != EXCLUSIVE for waiter in left))
    if not staying:
        return []
    step.need(staying[0]["mode"] == EXCLUSIVE)
    behind = clients(waiter["client"] for waiter in staying[1:])
    return [f"{client(staying[0]['client'])} asks exclusively: it stays in the queue" + (f", and so does whoever is behind it: {behind}." if behind else ".")]


def brought_back(step, more=""):
    carried, again = step.packet["agent"], [] if step.client is None else [{"client": step.client, "mode": step.packet["mode"]}]
    step.need(agent_before(step) is None and agent_after(step) == {**carried, "queue": [*again, *carried["queue"]]} and not step.sent)
    return [f"The agent is back on machine {step.machine} as it left{more}."]


def free_at_machine(step):
    step.need(step.packet["rejected"])
    return brought_back(step)


def sent_back(step):
    """An ACQUIRE or a RELEASE that a machine returns, counted once more and otherwise as it is."""
    return step.sent == [{**step.packet, "to": None, "circled": min(step.packet["circled"] + 1, CIRCLES)}]


def goes_back(step):
    """Where it goes, and how often it has circled now."""
    return f"the {step.packet['kind']} goes back to the decider, {at(step)}. It has {circled(step.sent[0]['circled'])}."


def handled(step):
    """The handling that the states show: whether the machine has an agent, and for a RELEASE whether that lists its client or has it in its queue."""
    agent = agent_before(step)
    if agent is None:
        return "no agent"
    return "taken" if step.packet["kind"] == "ACQUIRE" or lists(agent, step.client) or has_queued(agent, step.client) else "not a holder"


def came_back(step):
    """A request that is not taken goes back and leaves the agent as it is, and no other does."""
    step.need(sent_back(step) == (step.line["handling"] != "taken"))
    step.need(not sent_back(step) or agent_after(step) == agent_before(step))
    return sent_back(step)


def acquire_at_machine(step):
    of = client(step.client)
    if came_back(step):
        return [f"Machine {step.machine} has no agent: {goes_back(step)}"]
    if step.packet["granted"]:
        return marked_at_machine(step)
    if not joins(step, agent_before(step), step.packet["mode"]):
        return queued(step, step.packet["mode"], of)
    step.agent_is_as_it_was(holders=listed(step))
    told = sent_one(step, "GRANT", None)
    return [f"Agent and request are shared: the agent on machine {step.machine} lists {of}.",
            f"{packet(told)}, goes to the decider, {at(step)}."]


def marked_at_machine(step):
    """A marked ACQUIRE joins the holders, also where a writer is preferred."""
    of, counted, writer = client(step.client), (agent_before(step)["incarnation"] + 1) % 256, preferred(step, agent_before(step))
    step.agent_is_as_it_was(holders=listed(step), incarnation=counted)
    step.need(not step.sent)
    told = [f"The agent on machine {step.machine} lists {of} and counts up to {counted}."]
    if writer is None:
        return told
    return [*told, f"A writer, {client(writer)}, stands in the queue, but {of} joins all the same: its ACQUIRE is marked, so granted already."]


def release_at_machine(step):
    if came_back(step):
        return [f"{not_listed(step, 'neither lists {} nor has it in its queue')}: {goes_back(step)}"]
    return strikes_off(step) if lists(agent_before(step), step.client) else taken_off(step)


def taken_off(step):
    """Whoever has given up leaves the queue: nobody joins the holders for that, and no agent leaves."""
    step.agent_is_as_it_was(queue=[waiter for waiter in agent_before(step)["queue"] if waiter["client"] != step.client])
    step.need(not step.sent)
    return [f"The agent on machine {step.machine} takes {client(step.client)} off its queue and stays; nobody joins its holders for that."]


AT_CLIENT = {"acquire": client_acquires, "release": client_releases, "give up": client_gives_up}
AT_DECIDER = {"ACQUIRE": acquire_at_decider, "GRANT": grant_at_decider, "RELEASE": release_at_decider, "FREE": free_at_decider}
AT_MACHINE = {"ACQUIRE": acquire_at_machine, "GRANT": grant_at_machine, "RELEASE": release_at_machine, "FREE": free_at_machine}


def becomes(step):
    """What is new of the step's client afterwards."""
    kind = step.line["kind"]
    if kind in ("release", "give up"):
        return IDLE
    if kind == "acquire":
        agent, mode = agent_before(step), step.line["mode"]
        return {"status": "holding" if agent is not None and joins(step, agent, mode) else "waiting", "mode": mode}
    if kind == "lose":
        return {"lost": True} if status_before(step) == "waiting" else {}
    granted = step.machine is not None and step.packet["kind"] == "GRANT" and not step.packet["rejected"]
    return {"status": "holding", "mode": step.packet["mode"], "lost": False} if granted and status_before(step) != "idle" else {}


def rule_of(step):
    """The rule by which an accepted step went."""
    if step.packet is None:
        return AT_CLIENT[step.line["kind"]]
    if step.line["kind"] == "lose":
        return grant_lost
    return (AT_DECIDER if step.machine is None else AT_MACHINE)[step.packet["kind"]]


def said(step):
    """The sentences of that rule. Only a request at a machine has a handling, only a step at the decider changes the decider, and only one at a machine the
    agent there."""
    delivered, rule = step.line["kind"] == "deliver", rule_of(step)
    requested = delivered and step.machine is not None and step.packet["kind"] in ("ACQUIRE", "RELEASE")
    step.need(step.line["handling"] == (handled(step) if requested else None))
    if step.machine is not None:
        step.decider_is_as_it_was()
    step.agents_are_as_they_were(but=None if rule in (grant_lost, client_gives_up) else step.machine)
    sentences = rule(step)
    step.clients_are_as_they_were(**becomes(step))
    return sentences
