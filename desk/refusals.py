"""Why a step was refused: a sentence for each answer of docs/protocol.md, from the record and the state that it met."""
from desk.lines import CLIENTS, LOCKS, MACHINES, READERS, WIRE, WRITERS
from desk.rules import can_be_lost, has_queued, joins
from desk.words import MODES, client, count, packet, place, status


def caller(step):
    """The client that acquires, releases or gives up as the state has it."""
    return step.after["clients"][step.client]


def no_mode(step):
    step.need(step.line["mode"] not in MODES)
    return f"Mode {step.line['mode']} is neither 2, exclusive, nor 3, shared."


def not_idle(step):
    step.need(caller(step)["status"] != "idle")
    return f"The client is not idle: it {status(caller(step))}."


def still_named(step):
    """Which packet the acquire was refused for, and which others are of the client, by index."""
    first, wire = step.line["named"], step.after["wire"]
    behind = [f"index {index}, {packet(one)}" for index, one in enumerate(wire) if index > first and one["client"] == step.client]
    others = f" Behind it: {'; '.join(behind)}." if behind else ""
    return f"The client is idle, but the packet at index {first} is still of it: {packet(wire[first])}.{others}"


def not_holding(step):
    step.need(caller(step)["status"] != "holding")
    return f"The client does not hold: it {status(caller(step))}."


def not_waiting(step):
    step.need(caller(step)["status"] != "waiting")
    return f"The client does not wait: it {status(caller(step))}."


def no_packet(step):
    packets, index = len(step.after["wire"]), step.line["index"]
    step.need(index >= packets)
    there = "the wire is empty" if not packets else f"the wire has {count(packets, 'packet')}, and indexes count from 0"
    return f"There is no packet at index {index}: {there}."


def named_packet(step):
    """The packet at the index of a delivery or a loss, which must be there."""
    step.need(step.line["index"] < len(step.after["wire"]))
    return step.after["wire"][step.line["index"]]


def not_lost(step):
    stays = named_packet(step)
    step.need(not can_be_lost(stays))
    return f"This packet cannot be lost, {packet(stays)}, to {place(stays['to'])}: only a GRANT without agent on its way to a machine can."


def no_place(step):
    """Which of the causes of answer 9 it is."""
    if step.line["kind"] != "deliver":
        return "There is no place for what comes: " + queue_refuses(step, step.after["agents"][step.machine], step.client, step.line.get("mode"))
    comes = named_packet(step)
    begun = f"There is no place for what comes, {packet(comes)}: "
    if comes["to"] is None:
        step.need(step.after["decider"]["mode"] == 0 and (comes["granted"] or comes["agent"] is not None))
        return begun + "the lock is free and has no owner to send it to."
    there = step.after["agents"][comes["to"]]
    if there is not None and comes["agent"] is not None:
        return begun + f"machine {comes['to']} has an agent already."
    if there is not None and comes["granted"] and there["mode"] == 2:
        return begun + f"the agent on machine {comes['to']} is exclusive and takes no marked ACQUIRE."
    step.need(comes["rejected"] or comes["kind"] == "ACQUIRE" and not comes["granted"])
    return begun + queue_refuses(step, there or comes["agent"], comes["client"], comes["mode"] if there else None)


def queue_refuses(step, agent, number, mode):
    """Why a client that asks in a mode cannot join an agent's queue, or, without a mode here, go back to it."""
    step.need(agent is not None and number is not None and not joins(step, agent, mode))
    if has_queued(agent, number):
        return f"{client(number)} stands in the agent's queue already."
    step.need(len(agent["queue"]) >= CLIENTS)
    return f"the agent's queue has {count(len(agent['queue']), 'client')}, and {CLIENTS} is the most."


def no_room(step):
    """A client's own step sends one packet at most, and only a client that waits can give up."""
    step.need(step.line["kind"] == "deliver" or len(step.after["wire"]) == WIRE)
    step.need(step.line["kind"] != "give up" or caller(step)["status"] == "waiting")
    return f"The wire has no room for what is sent: it has {count(len(step.after['wire']), 'packet')}, and {WIRE} is the most."


def malformed(step):
    """Which bound is broken, where it is one of those on the preference."""
    preference = step.line["preference"]
    if preference not in (READERS, WRITERS):
        return f"The cluster is malformed: its preference is {preference}, neither 0, for readers, nor 1, for writers."
    if preference == READERS and step.after["decider"]["writer"]:
        return "The cluster is malformed: the decider knows that a writer waits, though readers are preferred."
    return "The cluster is malformed: it breaks a bound of docs/protocol.md."


REASONS = {
    1: lambda step: f"There is no lock {step.line['lock']}: the locks are 0 to {LOCKS - 1}.",
    2: lambda step: f"There is no machine {step.line['machine']}: the machines are 0 to {MACHINES - 1}.",
    3: lambda step: f"There is no task {step.line['task']}: the tasks of a machine are 0 to {CLIENTS // MACHINES - 1}.",
    4: no_mode,
    5: not_idle,
    6: still_named,
    7: not_holding,
    8: no_packet,
    9: no_place,
    10: no_room,
    11: malformed,
    17: not_waiting,
    18: not_lost,
}


def in_range(step):
    """Whether the record's bytes are in range as far as its answer says that they are."""
    answer, line = step.line["answer"], step.line
    if answer == 11:
        return True
    limits = [("lock", LOCKS, 1), ("machine", MACHINES, 2), ("task", CLIENTS // MACHINES, 3)]
    return all((line[field] >= most) if answer == cause else (answer < cause or line[field] < most)
               for field, most, cause in limits if field in line)


def reason(step):
    """Why a step was refused, in words."""
    step.need(in_range(step))
    return REASONS[step.line["answer"]](step)
