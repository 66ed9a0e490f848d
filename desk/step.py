"""A step as its line and the state before it show it: the packet that it took out and those that it sent. Packets have no names: a delivery or a loss takes
one out at its index, the later ones move up, and what is sent stands behind them."""
from dataclasses import dataclass

from desk.lines import WRITERS, NotLines, fresh, status_of


@dataclass
class Step:
    """A step with the states before and after it, the same for a refused one."""

    line: dict
    before: dict
    after: dict
    packet: dict  # what a delivery or a loss took out, else None
    sent: list
    first: int  # the index of the first packet sent

    def need(self, condition):
        """What a rule takes for granted: where it is not so, the lines are not those of a run."""
        if not condition:
            raise NotLines(f"line {self.line['n']} does not follow from the state before it (docs/protocol.md)")

    @property
    def client(self):
        """The number of the client that acquires, releases or gives up, or that the packet is of."""
        return self.packet["client"] if self.packet else 4 * self.line["machine"] + self.line["task"]

    @property
    def machine(self):
        """The machine at which the step happens, or to which a lost packet was on its way; None for the decider."""
        return self.packet["to"] if self.packet else self.line["machine"]

    @property
    def prefers_writers(self):
        return self.line["preference"] == WRITERS

    def decider_is_as_it_was(self, **but):
        """The decider after the step is the one before it, but for these fields."""
        self.need(self.after["decider"] == {**self.before["decider"], **but})

    def agent_is_as_it_was(self, **but):
        """The same for the agent on the machine."""
        self.need(self.after["agents"][self.machine] == {**self.before["agents"][self.machine], **but})

    def agents_are_as_they_were(self, but):
        """The agent on every machine is as it was, but for this machine's, or for none."""
        kept = [[agent for machine, agent in enumerate(state["agents"]) if machine != but] for state in (self.before, self.after)]
        self.need(kept[0] == kept[1])

    def clients_are_as_they_were(self, **but):
        """Every client does what it did, whatever its reason is now, but for these fields of the step's own."""
        expected = [status_of(one) for one in self.before["clients"]]
        if but:
            expected[self.client].update(but)
        self.need([status_of(one) for one in self.after["clients"]] == expected)


def step_of(line, before):
    """The step of a line, from the state before it."""
    after = line["state"]
    step = Step(line, before, after, None, [], 0)
    if line["answer"]:
        step.need(after in (None, before))
        return step
    rest = list(before["wire"])
    if "index" in line:
        step.need(line["index"] < len(rest))
        step.packet = rest.pop(line["index"])
    else:
        step.need(line["machine"] < 4 and line["task"] < 4)
    step.need(after["wire"][:len(rest)] == rest)
    step.sent, step.first = after["wire"][len(rest):], len(rest)
    return step


def steps(lines):
    """The step of each record, and at last the end's line as it is. Every lock is fresh to begin with; only a refused step, which changes nothing, may show
    another state at first, one made by hand."""
    states = {}
    for line in lines:
        if "end" in line:
            yield line
            continue
        begun = line["state"] if line["answer"] else fresh()
        yield step_of(line, states.get(line["lock"], begun))
        states[line["lock"]] = line["state"]
