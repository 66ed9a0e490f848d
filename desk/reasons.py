"""Why each client of a lock waits, from the lock's state, as docs/inspect.md has it. Of several reasons, which only a state made by hand has, the first of
the order below goes."""

ON_WIRE = ("ACQUIRE", "GRANT", "rejected GRANT")  # in the order in which they go; behind them come the queues
GRANT_LOST = "grant lost"  # the last


def reason(kind, index=None, machine=None, ahead=None):
    return {"kind": kind, "index": index, "machine": machine, "ahead": ahead}


def kind_of(packet):
    """Which reason a packet is for its client; None for one that is none, as a marked ACQUIRE is: its GRANT was sent with it."""
    if packet["kind"] == "GRANT":
        return "rejected GRANT" if packet["rejected"] else "GRANT"
    return "ACQUIRE" if packet["kind"] == "ACQUIRE" and not packet["granted"] else None


def from_packets(wire):
    """Each client that a packet gives a reason, with the reason: by kinds, the lowest index first."""
    kinds = [kind_of(packet) for packet in wire]
    for kind in ON_WIRE:
        yield from ((wire[index]["client"], reason(kind, index=index)) for index, one in enumerate(kinds) if one == kind)


def from_queue(agent, index=None, machine=None):
    """The same for those in an agent's queue."""
    for ahead, waiter in enumerate(agent["queue"]):
        yield waiter["client"], reason("queue", index, machine, ahead)


def from_queues(state):
    """The same for all agents: those on machines, then those in packets, the lowest number first."""
    for machine, agent in enumerate(state["agents"]):
        if agent is not None:
            yield from from_queue(agent, machine=machine)
    for index, packet in enumerate(state["wire"]):
        if packet["agent"] is not None:
            yield from from_queue(packet["agent"], index=index)


def from_notes(clients):
    """The same for those who have the note that their GRANT was lost."""
    return ((number, reason(GRANT_LOST)) for number, client in enumerate(clients) if client["lost"])


def reasons(state):
    """The reason of each client, by number: for a waiting one the first that is true; None for the others, and where none is true."""
    first = {}
    for number, found in (*from_packets(state["wire"]), *from_queues(state), *from_notes(state["clients"])):
        first.setdefault(number, found)
    return [first.get(number) if client["status"] == "waiting" else None for number, client in enumerate(state["clients"])]
