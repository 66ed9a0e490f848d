"""The parts of a lock in the words of docs/protocol.md."""
from desk.reasons import GRANT_LOST

EXCLUSIVE, SHARED = 2, 3
CIRCLES = 255  # the most that a packet's count says
MODES = {EXCLUSIVE: "exclusive", SHARED: "shared"}
VERBS = {"acquire": "acquires", "release": "releases", "give up": "gives up", "deliver": "is delivered", "lose": "is lost"}
STATUSES = {"idle": "is idle", "waiting": "waits", "holding": "holds"}
UNDER_WAY = {"ACQUIRE": "its ACQUIRE is", "GRANT": "its GRANT is", "rejected GRANT": "its GRANT was rejected and is"}


def client(number):
    return f"{number // 4}/{number % 4}"


def clients(numbers):
    return ", ".join(client(number) for number in numbers)


def place(to):
    """Where a packet goes."""
    return "the decider" if to is None else f"machine {to}"


def count(number, word):
    return f"{number} {word}" if number == 1 else f"{number} {word}s"


def circled(number):
    """How often a packet has circled; at 255 its count stays."""
    often = {1: "once", 2: "twice", CIRCLES: f"{CIRCLES} times or more"}
    return f"circled {often.get(number, f'{number} times')}"


def packet(packet):
    """A packet without its address: its marks, its kind, its client and mode, whether the agent is inside, and how often it has circled, if it has."""
    words = ("rejected " if packet["rejected"] else "") + ("marked " if packet["granted"] else "") + packet["kind"]
    if packet["client"] is not None:
        words += (" for " if packet["kind"] == "GRANT" else " of ") + client(packet["client"])
    if packet["mode"] is not None:
        words += ", " + MODES[packet["mode"]]
    if packet["agent"] is not None:
        words += " with the agent" if packet["kind"] == "FREE" else ", with the agent"
    return f"{words}, {circled(packet['circled'])}" if packet["circled"] else words


def status(client, when=""):
    """What a client does: is idle; waits, shared; holds now, exclusive."""
    words = STATUSES[client["status"]] + when
    return words if client["mode"] is None else f"{words}, {MODES[client['mode']]}"


def why(reason, still=""):
    """The reason for a client's wait; a state made by hand may give none."""
    if reason is None:
        return "no reason is found"
    if reason["kind"] == GRANT_LOST:
        return "its GRANT was lost"
    if reason["kind"] != "queue":
        return f"{UNDER_WAY[reason['kind']]}{still} on the wire, at index {reason['index']}"
    whose = f"of the agent in the packet at index {reason['index']}" if reason["machine"] is None else f"on machine {reason['machine']}"
    ahead = f"behind {count(reason['ahead'], 'other')}" if reason["ahead"] else "first"
    return f"{ahead} in the queue {whose}"


def left(reason):
    """What is left of the request of a client that gives up, which waited for this reason; nothing where its GRANT was lost."""
    if reason is None or reason["kind"] == GRANT_LOST:
        return []
    words = why(reason, " still")
    return [f"It is still {words}." if reason["kind"] == "queue" else f"I{words[1:]}."]


def status_and_why(client, when=""):
    """What a client does, and for one that waits the reason: holds, shared; waits now, shared: first in the queue on machine 0."""
    return status(client, when) + (f": {why(client['reason'])}" if client["status"] == "waiting" else "")


def queue(waiters):
    return ", ".join(f"{client(waiter['client'])} {MODES[waiter['mode']]}" for waiter in waiters)


def agent(agent):
    """An agent's mode, holders, queue and incarnation."""
    holders = f"holders {clients(agent['holders'])}" if agent["holders"] else "no holders"
    waiters = f"queue {queue(agent['queue'])}" if agent["queue"] else "nobody waits"
    return f"{MODES[agent['mode']]}; {holders}; {waiters}; incarnation {agent['incarnation']}"


def decider(decider):
    owned = f"{MODES[decider['mode']]}, owner machine {decider['machine']}" if decider["mode"] else "free"
    return f"{owned}; incarnation {decider['incarnation']}" + ("; a writer waits" if decider["writer"] else "")
