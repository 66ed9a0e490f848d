"""explain: what each step of a transcript did, in words, from the lines that inspect writes."""
from desk.command import Options, run
from desk.lines import WRITERS, agents_of
from desk.refusals import reason
from desk.rules import said
from desk.step import steps
from desk.words import MODES, VERBS, agent, client, count, decider, packet, place, status_and_why, why

INDENT = "   "
LAST = {"no agent": "came back, no agent", "not a holder": "came back, not a holder", "taken": "was taken"}
LATER = {"no agent": "comes back, no agent", "not a holder": "comes back, not a holder", "taken": "is taken"}


def asked(line):
    """What a client's step or a refused delivery or loss asked for, with the record's bytes as they are."""
    lock, verb = f"lock {line['lock']}", VERBS[line["kind"]]
    if "index" in line:
        return f"Index {line['index']} of {lock} {verb}"
    mode = f", {MODES.get(line['mode'], 'mode ' + str(line['mode']))}" if "mode" in line else ""
    return f"Client {line['machine']}/{line['task']} {verb} {lock}{mode}"


def delivered(step):
    """What an accepted delivery brought, or what was lost, and where."""
    if step.packet is None:
        return ""
    way = " on its way" if step.line["kind"] == "lose" else ""
    return f"{way} to {place(step.packet['to'])}, {packet(step.packet)}"


def but_index(one):
    """A reason without its index, which moves with every delivery of another packet."""
    return one and {**one, "index": None}


def change_of(number, old, new):
    """What is new of a client: its status, or why it still waits; nothing where only an index moved."""
    if (old["status"], old["mode"]) != (new["status"], new["mode"]):
        yield f"{client(number)} {status_and_why(new, ' now')}."
    elif but_index(old["reason"]) != but_index(new["reason"]):
        yield f"{client(number)} still waits: {why(new['reason'])}."


def changes(step):
    """Who holds, waits or is idle now, and why one still waits; and what the agents that changed have now."""
    for number, (old, new) in enumerate(zip(step.before["clients"], step.after["clients"])):
        yield from change_of(number, old, new)
    for machine, (old, new) in enumerate(zip(step.before["agents"], step.after["agents"])):
        if new is not None and old != new:
            yield f"Agent on machine {machine}: {agent(new)}."


def accepted(line):
    """The answer of an accepted step, and what a machine made of the request that it brought."""
    return f"accepted, {line['handling']}" if line["handling"] else "accepted"


def explained(step):
    """A step's lines: what was asked, with the answer, and what came of it."""
    begun = f"{step.line['n']}. {asked(step.line)}"
    if step.line["answer"]:
        return [f"{begun}: refused, {step.line['answer']}.", f"{INDENT}{reason(step)}", f"{INDENT}Nothing moved."]
    sentences = [*said(step), *changes(step)]
    return [f"{begun}{delivered(step)}: {accepted(step.line)}.", *(INDENT + sentence for sentence in sentences)]


def on_wire(number, one):
    inside = f" ({agent(one['agent'])})" if one["agent"] else ""
    return f"{number}: {packet(one)}{inside}, to {place(one['to'])}"


def counted(counts, state):
    """Agents and marked ACQUIREs, and by how much the one agent is behind the decider."""
    words = f"{count(counts['agents'], 'agent')}; {count(counts['marked'], 'marked ACQUIRE')}"
    if counts["agents"] != 1:
        return words
    behind = state["decider"]["incarnation"], agents_of(state)[0]["incarnation"]
    return f"{words}; the decider's {behind[0]} less the agent's {behind[1]} is {(behind[0] - behind[1]) % 256}"


def table(counts, state):
    """The whole state of a lock, and what is counted in it."""
    agents = [f"machine {machine}: {agent(one)}" for machine, one in enumerate(state["agents"]) if one]
    busy = [f"{client(number)} {status_and_why(one)}" for number, one in enumerate(state["clients"]) if one["mode"]]
    wire = [on_wire(number, one) for number, one in enumerate(state["wire"])]
    parts = [("decider", [decider(state["decider"])]), ("agents", agents or ["none on a machine"]),
             ("clients", busy or ["all idle"]), ("wire", wire or ["empty"]), ("counts", [counted(counts, state)])]
    for name, rows in parts:
        for number, row in enumerate(rows):
            yield f"{INDENT}| {'' if number else name:8}| {row}"


def ended(end):
    """How the transcript ended, and what became of the last request that reached a machine, if one did."""
    if end["end"] == "bad preference":
        return ["The preference is neither 0, for readers, nor 1, for writers: answer 16. No record was run."]
    if end["end"] == "too long":
        return ["The transcript has more than 65,535 bytes: answer 13. No record of it was run."]
    told = [f"The last request that reached a machine {LAST[end['handling']]}."] if end["handling"] else []
    if end["end"] == "end":
        return [f"The transcript was read to its end: {count(end['records'], 'record')}.", *told]
    hint = " Is it a .steps file? ./assemble makes a transcript of it." if end["records"] == 1 else ""
    return [f"Record {end['records']} is bad: answer 12. Reading stopped there, after {count(end['records'] - 1, 'record')}.{hint}", *told]


def drained(end):
    """What a drain of each lock would come to, from the last state."""
    left = [drain for drain in end["drains"] if drain["answer"] or drain["count"]]
    if not left:
        return ["Nothing is left to drain: every lock is quiescent, with no packet, no holder and no note of a lost GRANT."]
    return [f"A drain of lock {drain['lock']} from here is refused: answer {drain['answer']}." if drain["answer"]
            else f"A drain of lock {drain['lock']} from here takes {count(drain['count'], 'step')}{told_by(drain)}." for drain in left]


def told_by(drain):
    return f"; the last request that reaches a machine {LATER[drain['handling']]}" if drain["handling"] else ""


def preference(line):
    """Whom the cluster prefers, in words for writers alone."""
    return ["Writers are preferred: the cluster's preference is 1."] if line["preference"] == WRITERS else []


def text(options, lines):
    out = []
    for step in steps(lines):
        out = out or preference(step if isinstance(step, dict) else step.line)
        if isinstance(step, dict):
            out += [*ended(step), *drained(step)]
            continue
        out += explained(step)
        if options.state and step.after:
            out += table(step.line["counts"], step.after)
    return "\n".join(out) + "\n"


def main():
    parser = Options("explain", "Says in words what each step of a transcript did, who holds and who waits.")
    parser.add_argument("--state", action="store_true",
                        help="after each step a table of its lock: decider, agents, clients that are not idle and why they wait, wire, counts")
    run(parser, text)
