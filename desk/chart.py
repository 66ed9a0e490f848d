"""What a picture of one lock shows, by rows: a row for each step, and behind them one for each packet still on the wire at the end."""
from dataclasses import dataclass, field

from desk.lines import CLIENTS, IDLE, MACHINES, fresh, status_of
from desk.rules import sent_back
from desk.step import steps


@dataclass
class Flight:
    """A packet on its way, from the row that sent it to the row that delivered it, or where it was lost."""

    packet: dict
    sender: int  # a machine's number; None for the decider
    begin: int
    back: bool  # whether a machine sent it back to the decider
    end: int = None
    delivered: bool = False
    lost: bool = False

    @property
    def goes_round(self):
        """Whether the decider sent it to itself, as a RELEASE that finds the lock free."""
        return self.sender is None and self.packet["to"] is None


@dataclass
class Span:
    """A client that waits or holds, or an agent that is on a machine, from a row to a row; the last row where it goes on to the end."""

    what: object
    begin: int
    end: int = None


@dataclass
class Chart:
    lock: int
    steps: list = field(default_factory=list)
    flights: list = field(default_factory=list)
    left: list = field(default_factory=list)  # the flights still on the wire at the end, by index
    clients: list = field(default_factory=lambda: [[] for _ in range(CLIENTS)])  # the spans of each client
    agents: list = field(default_factory=lambda: [[] for _ in range(MACHINES)])  # the spans of the agent on each machine
    writer: list = field(default_factory=list)  # the spans in which the decider knows that a writer waits

    def prefers_writers(self):
        return any(step.prefers_writers for step in self.steps)

    def gives_up(self):
        """Whether it has losses or clients that give up, which have marks of their own."""
        return any(step.line["kind"] in ("lose", "give up") for step in self.steps)

    def rows(self):
        return len(self.steps) + len(self.left)


def change(spans, old, new, row, idle):
    """Ends the span of what was, and begins one of what is."""
    if old == new:
        return
    if old != idle:
        spans[-1].end = row
    if new != idle:
        spans.append(Span(new, row))


def add_spans(chart, before, after, row):
    for spans, old, new in zip(chart.clients, before["clients"], after["clients"]):
        change(spans, status_of(old), status_of(new), row, IDLE)
    for spans, old, new in zip(chart.agents, before["agents"], after["agents"]):
        change(spans, old is not None, new is not None, row, False)
    change(chart.writer, before["decider"]["writer"], after["decider"]["writer"], row, False)


def add_flights(chart, step, row):
    """Takes out what the step delivered or lost, and puts what it sent at the end."""
    if step.packet:
        flight, lost = chart.left.pop(step.line["index"]), step.line["kind"] == "lose"
        flight.end, flight.delivered, flight.lost = row, not lost, lost
    back = step.packet is not None and step.machine is not None and sent_back(step)
    sent = [Flight(packet, step.machine, row, back) for packet in step.sent]
    chart.flights += sent
    chart.left += sent


def chart_of(lock, lines):
    """The chart of a lock from the lines of inspect."""
    chart = Chart(lock)
    for step in steps(lines):
        if isinstance(step, dict) or step.line["lock"] != lock:
            continue
        step.need(len(step.before["wire"]) == len(chart.left))
        row = len(chart.steps)
        if row == 0:
            add_spans(chart, fresh(), step.before, row)  # what a state made by hand begins with
        chart.steps.append(step)
        if not step.line["answer"]:
            add_spans(chart, step.before, step.after, row)
            add_flights(chart, step, row)
    for number, flight in enumerate(chart.left):
        flight.end = len(chart.steps) + number
    return chart
