"""The lines that `inspect` writes, as docs/inspect.md has them: each is read, held to its form, and given as a dictionary."""
import json

from desk.reasons import GRANT_LOST, ON_WIRE, reasons

LOCKS, MACHINES, CLIENTS, WIRE, DRAIN = 8, 4, 16, 49, 32768  # at most so many packets on a wire, and steps of a drain
ANSWERS = {"acquire": (0, 1, 2, 3, 4, 5, 6, 9, 10, 11), "release": (0, 1, 2, 3, 7, 9, 10, 11), "deliver": (0, 1, 8, 9, 10, 11), "lose": (0, 1, 8, 11, 18),
           "give up": (0, 1, 2, 3, 10, 11, 17)}
ENDS = {"end": 0, "bad record": 12, "too long": 13, "bad preference": 16}
READERS, WRITERS, MALFORMED = 0, 1, 11  # the preferences, and the answer of a cluster made by hand that has another
STILL_NAMED = 6  # the answer of an acquire while a packet names its client
HANDLINGS = "no agent", "not a holder", "taken"
IDLE = {"status": "idle", "mode": None, "lost": False}


class NotLines(Exception):
    """What was read is not what `inspect` writes."""


def number(most):
    return lambda value: type(value) is int and 0 <= value <= most


def one_of(*values):
    return lambda value: any(type(value) is type(one) and value == one for one in values)


def or_null(test):
    return lambda value: value is None or test(value)


def rows(test, count=None):
    return lambda value: type(value) is list and count in (None, len(value)) and all(map(test, value))


def thing(name):
    """An object of that name: its fields, in order, and what goes for all of it."""
    return lambda value: (type(value) is dict and list(value) == list(FORMS[name])
                          and all(test(value[field]) for field, test in FORMS[name].items())
                          and WHOLE.get(name, lambda whole: True)(value))


BYTE, CLIENT, MODE, FLAG = number(255), number(CLIENTS - 1), one_of(2, 3), one_of(True, False)
HANDLING = or_null(one_of(*HANDLINGS))


def record(kind, *fields, **found):
    """A record's line: its number and kind, its bytes, the answer and what was found, the handling, the preference, the state and what is counted in it."""
    return {"n": number(65535), "kind": one_of(kind), **{field: BYTE for field in fields}, "answer": one_of(*ANSWERS[kind]), **found, "handling": HANDLING,
            "preference": BYTE, "state": or_null(thing("state")), "counts": or_null(thing("counts"))}


FORMS = {
    "acquire": record("acquire", "lock", "machine", "task", "mode", named=or_null(number(WIRE - 1))),
    "release": record("release", "lock", "machine", "task"),
    "deliver": record("deliver", "lock", "index"),
    "lose": record("lose", "lock", "index"),
    "give up": record("give up", "lock", "machine", "task"),
    "counts": {"agents": number(MACHINES + WIRE), "marked": number(WIRE)},
    "state": {"decider": thing("decider"), "agents": rows(or_null(thing("agent")), MACHINES),
              "clients": rows(thing("client"), CLIENTS), "wire": rows(thing("packet"))},
    "decider": {"mode": one_of(0, 2, 3), "machine": or_null(number(MACHINES - 1)), "incarnation": BYTE, "writer": FLAG},
    "agent": {"mode": MODE, "holders": rows(CLIENT), "queue": rows(thing("waiter")), "incarnation": BYTE},
    "waiter": {"client": CLIENT, "mode": MODE},
    "client": {"status": one_of("idle", "waiting", "holding"), "mode": or_null(MODE), "lost": FLAG, "reason": or_null(thing("reason"))},
    "reason": {"kind": one_of(*ON_WIRE, "queue", GRANT_LOST), "index": or_null(number(WIRE - 1)), "machine": or_null(number(MACHINES - 1)),
               "ahead": or_null(number(CLIENTS - 1))},
    "packet": {"kind": one_of("ACQUIRE", "GRANT", "RELEASE", "FREE"), "to": or_null(number(MACHINES - 1)), "client": or_null(CLIENT),
               "mode": or_null(MODE), "granted": FLAG, "rejected": FLAG, "circled": BYTE, "agent": or_null(thing("agent"))},
    "end": {"end": one_of(*ENDS), "answer": one_of(*ENDS.values()), "records": number(65535), "handling": HANDLING, "preference": BYTE,
            "drains": rows(thing("drain"), LOCKS)},
    "drain": {"lock": number(LOCKS - 1), "answer": one_of(0, 9, 10, 11, 14), "count": number(DRAIN), "handling": HANDLING},
}


def whole_packet(packet):
    """What a packet of its kind has, and what it does not have."""
    kind, carries = packet["kind"], packet["agent"] is not None
    return ((packet["client"] is None) == (kind == "FREE") and (packet["mode"] is None) == (kind in ("FREE", "RELEASE"))
            and (not packet["granted"] or kind == "ACQUIRE") and (not packet["rejected"] or carries and packet["to"] is not None)
            and (not packet["circled"] or kind in ("ACQUIRE", "RELEASE"))
            and (carries if kind == "FREE" else not carries or kind == "GRANT"))


def whole_reason(reason):
    """What a reason of its kind has, and what it does not have: an index or a machine, but a lost GRANT neither; only a queue has a machine and a number
    ahead."""
    queue, places = reason["kind"] == "queue", sum(reason[field] is not None for field in ("index", "machine"))
    return (places == (reason["kind"] != GRANT_LOST) and (reason["ahead"] is not None) == queue
            and (queue or reason["machine"] is None))


def whole_client(client):
    """An idle client has no mode, and only a waiting one a reason, or the note that its GRANT was lost."""
    return ((client["status"] == "idle") == (client["mode"] is None)
            and (client["status"] == "waiting" or client["reason"] is None and not client["lost"]))


def whole_state(state):
    """The reasons are those that the state gives."""
    return [client["reason"] for client in state["clients"]] == reasons(state)


def status_of(client):
    """A client without its reason, which can change while its status stays."""
    return {field: client[field] for field in ("status", "mode", "lost")}


def agents_of(state):
    """The agents, on machines and in packets."""
    return [agent for agent in [*state["agents"], *(packet["agent"] for packet in state["wire"])] if agent is not None]


def shown(state):
    """A state, or null, and what is counted in it: how a record's line ends."""
    counts = state and {"agents": len(agents_of(state)), "marked": sum(packet["granted"] for packet in state["wire"])}
    return {"state": state, "counts": counts}


def prefers(preference, state):
    """Whether a well-formed cluster can have this preference, and this state of a lock: only where writers are preferred the decider's bit is set."""
    return preference == WRITERS or preference == READERS and not (state and state["decider"]["writer"])


def whole_record(line):
    """There is a state exactly where there is such a lock, and what is counted is what it has. Only an accepted delivery has a handling."""
    return ((line["state"] is None) == (line["answer"] == 1) and line["counts"] == shown(line["state"])["counts"]
            and (line["handling"] is None or line["kind"] == "deliver" and line["answer"] == 0)
            and (line["answer"] == MALFORMED or prefers(line["preference"], line["state"])))


def first_naming(state, client):
    """The index of the first packet on the wire that names the client, or None."""
    return next((index for index, packet in enumerate(state["wire"]) if packet["client"] == client), None)


def whole_acquire(line):
    """Refused with 6, and only then, it has the packet for which it was."""
    if line["answer"] != STILL_NAMED:
        return whole_record(line) and line["named"] is None
    return whole_record(line) and line["named"] is not None and line["named"] == first_naming(line["state"], 4 * line["machine"] + line["task"])


def whole_end(end):
    """A drain of each lock; another preference than the two refuses them all, and beside a bad one the cluster is fresh, for readers."""
    drains = end["drains"]
    return (end["answer"] == ENDS[end["end"]] and [drain["lock"] for drain in drains] == list(range(LOCKS))
            and (prefers(end["preference"], None) or all(drain["answer"] == MALFORMED for drain in drains))
            and (end["end"] != "bad preference" or end["preference"] == READERS and not any(drain["answer"] or drain["count"] for drain in drains)))


WHOLE = {
    "acquire": whole_acquire, "release": whole_record, "deliver": whole_record, "lose": whole_record, "give up": whole_record,
    "packet": whole_packet, "reason": whole_reason, "client": whole_client, "state": whole_state,
    "decider": lambda decider: (decider["mode"] == 0) == (decider["machine"] is None),
    "agent": lambda agent: agent["holders"] == sorted(set(agent["holders"])),
    "end": whole_end,
    "drain": lambda drain: drain["handling"] is None or drain["count"] > 0,
}


def fresh():
    """The state of a lock at the beginning."""
    return {"decider": {"mode": 0, "machine": None, "incarnation": 0, "writer": False}, "agents": [None] * MACHINES,
            "clients": [{**IDLE, "reason": None} for _ in range(CLIENTS)], "wire": []}


def name_of(line):
    """Which object a line should be: a record's kind, or the end."""
    if type(line) is not dict:
        return None
    kind = line.get("kind") if "kind" in line else "end"
    return kind if kind in (*ANSWERS, "end") else None


def parsed(text):
    """A line's object, or None where it is none that `inspect` writes."""
    try:
        line = json.loads(text)
        name = name_of(line)
    except (ValueError, TypeError, RecursionError):
        return None
    return line if name and thing(name)(line) else None


def in_order(line, number):
    """Records are numbered from 1, and the end says how many there are or the number of the bad one; with 0 it stands alone where no record was run."""
    if "n" in line:
        return line["n"] == number
    if line["end"] in ("too long", "bad preference"):
        return line["records"] == 0 and number == 1
    return line["records"] == (number - 1 if line["end"] == "end" else number)


def goes_with(line, first, last):
    """All lines have the preference of the first one, and the end has the last handling of the others."""
    return line["preference"] == first["preference"] and ("n" in line or line["handling"] == last)


def read(texts):
    """Each line's object in order; the last line, and no other, is the end."""
    line = first = last = None
    for number, text in enumerate(texts, 1):
        if line and "end" in line:
            raise NotLines(f"line {number} stands behind the last line of inspect")
        line = parsed(text)
        first = first or line
        if line is None or not in_order(line, number) or not goes_with(line, first, last):
            raise NotLines(f"line {number} is not one that inspect writes (docs/inspect.md)")
        last = line["handling"] or last
        yield line
    if line is None or "end" not in line:
        raise NotLines("the last line of inspect is missing (docs/inspect.md)")
