"""The cases of tests/explain: a state, steps with their answers and states, and what should be said of them. In a file NAME.cases each line is one of

    # ..                       a comment
    case NAME                  begins a case
    options WORD ..            options for the command
    preference N               the cluster's preference, where it is not 0; it stands before the steps
    given STATE                the state of lock 0 before the first step, where it is not fresh; a refused delivery shows it, as record 1
    STEP = ANSWER              a step as ./assemble takes it, and its answer; behind it the handling, if it has one, and behind a 6 the packet's index
    after STATE                the lock's state after it; without this line it is as before
    end RECORDS = ANSWER DRAINS   the last line of inspect, with the last handling of the steps, and the drains whose count is not 0 as {"LOCK":COUNT},
                                  {"LOCK":[COUNT,ANSWER]} or {"LOCK":[COUNT,ANSWER,HANDLING]}
    > TEXT                     a line that the command should write; a case without text is only run

A line that begins with a blank goes on with the one before it. A STATE is written as in docs/inspect.md, with these shorter forms: whatever is as in a fresh
lock, null, false, empty or 0 is left out; the decider is [MODE,MACHINE,INCARNATION], and [MODE,MACHINE,INCARNATION,true] where it knows that a writer waits;
agents and clients are given by number, a client as [STATUS,MODE], and [STATUS,MODE,true] where it has the note that its GRANT was lost, and a waiter as
[CLIENT,MODE]; a packet with "times" stands that often. The clients' reasons are put in from the rest of the state."""
import json

from desk.lines import FORMS, LOCKS, fresh, shown
from desk.reasons import reasons

KINDS = {"acquire": ["lock", "machine", "task", "mode"], "release": ["lock", "machine", "task"], "deliver": ["lock", "index"], "lose": ["lock", "index"],
         "give-up": ["lock", "machine", "task"]}
MODES = {"shared": 3, "exclusive": 2}
ENDS = {0: "end", 12: "bad record", 13: "too long", 16: "bad preference"}


class Case:
    """A case as it is read: the objects of inspect's lines, and the text expected."""

    def __init__(self, name):
        self.name, self.options, self.objects, self.expected = name, [], [], []
        self.given = False  # whether record 1 only shows the first state
        self.preference = 0
        self.states = {}

    def lines(self):
        """The lines of inspect, with a plain last line where the case has none."""
        objects = self.objects if "end" in self.objects[-1] else [*self.objects, self.end(f"{len(self.objects)} = 0 {{}}")]
        return [json.dumps(one, separators=(",", ":")) for one in objects]

    def told(self):
        """The last handling of the steps, or None."""
        return ([None] + [one["handling"] for one in self.objects if one["handling"]])[-1]

    def end(self, text):
        return end_of(text, self.told(), self.preference)

    def add_step(self, text, state=None):
        words, answer = text.rsplit(" = ", 1)
        number, _, told = answer.partition(" ")
        step = numbered(len(self.objects) + 1, words, int(number), told or None, self.preference)
        lock = step["lock"]
        if lock < LOCKS:
            self.states[lock] = state or self.states.get(lock) or fresh()
        self.objects.append({**step, **shown(self.states.get(lock))})

    def put_state(self, state):
        """The state after the last step."""
        self.states[self.objects[-1]["lock"]] = state
        self.objects[-1].update(shown(state))


def numbered(number, words, answer, told=None, preference=0):
    """A record's line, as far as its preference. What is told is a handling, or of an acquire the index of the packet for which it was refused."""
    kind, *rest = words.split()
    values = [part for word in rest for part in word.split("/")]
    fields = zip(KINDS[kind], (MODES.get(value) or int(value) for value in values), strict=True)
    told = {"named": told and int(told), "handling": None} if kind == "acquire" else {"handling": told}
    return {"n": number, "kind": kind.replace("-", " "), **dict(fields), "answer": answer, **told, "preference": preference}


def agent_of(short):
    if short is None:
        return None
    queue = [{"client": client, "mode": mode} for client, mode in short.get("queue", [])]
    return {"mode": short["mode"], "holders": short.get("holders", []), "queue": queue, "incarnation": short.get("incarnation", 0)}


def packet_of(short):
    blank = {"granted": False, "rejected": False, "circled": 0}
    whole = {field: short.get(field, blank.get(field)) for field in FORMS["packet"]}
    return {**whole, "agent": agent_of(short.get("agent"))}


def state_of(text):
    """A lock's state from its short form."""
    short, state = json.loads(text), fresh()
    if "decider" in short:
        state["decider"].update(zip(FORMS["decider"], short["decider"]))
    for machine, agent in short.get("agents", {}).items():
        state["agents"][int(machine)] = agent_of(agent)
    for number, (status, mode, *note) in short.get("clients", {}).items():
        state["clients"][int(number)].update(status=status, mode=mode, lost=bool(note))
    state["wire"] = [packet_of(packet) for packet in short.get("wire", []) for _ in range(packet.get("times", 1))]
    for client, found in zip(state["clients"], reasons(state)):
        client["reason"] = found
    return state


def drain_of(lock, count=0, answer=0, handling=None):
    return {"lock": lock, "answer": answer, "count": count, "handling": handling}


def end_of(text, handling=None, preference=0):
    """The last line of inspect."""
    records, answer, drains = text.replace("= ", "").split(" ", 2)
    given = {int(lock): drain if isinstance(drain, list) else [drain] for lock, drain in json.loads(drains).items()}
    return {"end": ENDS[int(answer)], "answer": int(answer), "records": int(records), "handling": handling, "preference": preference,
            "drains": [drain_of(lock, *given.get(lock, [])) for lock in range(LOCKS)]}


def put(case, word, text):
    """Adds a line of the file to its case."""
    if word == "options":
        case.options = text.split()
    elif word == "preference":
        case.preference = int(text)
    elif word == "given":
        case.given = not case.objects
        case.add_step("deliver 0 255 = 8", state_of(text))
    elif word == "after":
        case.put_state(state_of(text))
    elif word == "end":
        case.objects.append(case.end(text))
    elif word == ">":
        case.expected.append(text)
    else:
        case.add_step(f"{word} {text}")


def cases_of(path):
    """The cases of a file."""
    cases = []
    for line in path.read_text().replace("\n ", "").split("\n"):
        word, _, text = line.partition(" ")
        if word == "case":
            cases.append(Case(text))
        elif word and not word.startswith("#"):
            put(cases[-1], word, text)
    return cases
