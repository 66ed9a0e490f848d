"""picture: a sequence chart of one lock as SVG, from the lines that inspect writes. Time goes down, a row to a step. Every packet goes from or to the
decider, whose lane is on the left; each row has one label, so no two meet."""
from desk.chart import chart_of
from desk.command import Options, Refused, run
from desk.lines import CLIENTS, LOCKS, MACHINES
from desk.words import MODES, VERBS, client, count

MOST = 60  # steps in a picture

# colours of Okabe and Ito, which differ for every kind of colour vision
BLACK, GREY, FAINT, ORANGE, GREEN, BLUE, VERMILION, PURPLE = "#222222", "#999999", "#EEEEEE", "#E69F00", "#009E73", "#0072B2", "#D55E00", "#CC79A7"
# the look of an arrow: colour, width, dashes once delivered, dashes while on the wire
LOOKS = {"plain": (BLACK, 1.2, "", "8 4"), "rejected": (VERMILION, 3, "", "8 4"), "back": (BLUE, 1.8, "2 3", "8 3 2 3")}
LOST, NOTED = "lost", "noted"  # an arrow that ends in a cross, and the dashes of a wait after it
COLOURS = {"waiting": ORANGE, "holding": GREEN}
WIDTHS = {"waiting": 4, "holding": 10}

ROW, TOP, LINE = 30, 84, 12  # the heights of a row, of the head and of a line of text
LETTER, LABEL, BOW = 6, 120, 40  # the widths of a letter, of a label at most and of a bow
STEP, DECIDER, FIRST = 12, 200, 296  # where the steps' numbers, the decider's lane and the first machine's lane stand
GROUP, BARS, BAR = 206, 136, 17  # the width of a machine's part, where its clients' spans begin, and the distance of two
WIDTH = FIRST + MACHINES * GROUP
LEGEND = 24  # the height of a line of the legend


def lane(machine):
    """Where the lane of a machine stands, or of the decider."""
    return DECIDER if machine is None else FIRST + machine * GROUP


def bar(number):
    """Where the spans of a client stand."""
    return lane(number // 4) + BARS + (number % 4) * BAR


def tag(name, text=None, **attributes):
    words = "".join(f' {key.replace("_", "-")}="{value}"' for key, value in attributes.items() if value != "")
    return f"<{name}{words}/>" if text is None else f"<{name}{words}>{text}</{name}>"


def label(x, y, lines, anchor="", **more):
    """One or two lines of text about the height y, each on a white ground so that an arrow behind it does not disturb."""
    lines = [line for line in lines if line]
    for number, text in enumerate(lines):
        base, width = y + 4 - LINE * (len(lines) - 1) / 2 + LINE * number, min(LETTER * len(text), LABEL)
        yield tag("rect", x=x - width if anchor else x, y=f"{base - LINE + 3:g}", width=width, height=LINE, fill="white")
        yield tag("text", text, x=x, y=f"{base:g}", text_anchor=anchor, **more)


# What is written beside an arrow or a step.

def packet_lines(flight):
    """A packet's label: marks, kind and client; mode, whether the agent is inside, whether it was sent back, went round or was lost."""
    packet = flight.packet
    marks = ["rejected"] * packet["rejected"] + ["marked"] * packet["granted"]
    who = [] if packet["client"] is None else [client(packet["client"])]
    more = [MODES[packet["mode"]]] if packet["mode"] else []
    more += ["with agent"] * (packet["agent"] is not None) + ["sent back"] * flight.back + ["went round"] * flight.goes_round + ["lost"] * flight.lost
    return [" ".join([*marks, packet["kind"], *who]), ", ".join(more)]


def step_lines(step):
    """The label of a step that takes no packet off the wire: who asked for what, and the answer of a refused one."""
    line = step.line
    refused = f"refused: {line['answer']}" if line["answer"] else ""
    if "index" in line:
        return [refused]
    asked = f"{line['machine']}/{line['task']} {VERBS[line['kind']]}"
    if line["kind"] == "acquire":
        mode = MODES.get(line["mode"], f"mode {line['mode']}")
        return [f"{asked},", ", ".join(filter(None, [mode, refused]))]
    return [asked, refused] if refused else [asked]


# The parts of the picture.

class Picture:
    """A chart's parts as SVG, each with its height from the rows."""

    def __init__(self, chart):
        self.chart = chart
        self.bottom = self.y(chart.rows()) - ROW / 2 + 6

    def y(self, row):
        """The height of a row; the packets that are left stand a little lower, under a line of their own."""
        return TOP + ROW * row + (ROW if row >= len(self.chart.steps) and self.chart.left else 0)

    def heads(self):
        """The names of lanes and clients, and the lanes."""
        whom = ", writers are preferred" if self.chart.prefers_writers() else ""
        yield tag("text", f"Lock {self.chart.lock}: {count(len(self.chart.steps), 'step')}{whom}", x=STEP, y=22, font_size=14, font_weight="bold")
        for machine in (None, *range(MACHINES)):
            yield from head(machine)
            yield tag("line", x1=lane(machine), y1=TOP - 22, x2=lane(machine), y2=f"{self.bottom:g}", stroke=GREY)
        for number in range(CLIENTS):
            yield tag("text", client(number), x=bar(number), y=TOP - 30, text_anchor="middle", font_size=9)
            yield tag("line", x1=bar(number), y1=TOP - 22, x2=bar(number), y2=f"{self.bottom:g}", stroke=FAINT)

    def rules(self):
        """A faint line for each row, and the line under which the packets stand that are left."""
        for row in range(self.chart.rows()):
            yield tag("line", x1=STEP, y1=self.y(row), x2=WIDTH - 6, y2=self.y(row), stroke=FAINT)
        if self.chart.left:
            yield from label(STEP, self.y(len(self.chart.steps)) - ROW, ["Still on the wire at the end:"], font_style="italic")

    def spans(self):
        """Where the agent is, where the decider knows of a writer, and who waits and holds."""
        for span in self.chart.writer:
            yield writer_bar(DECIDER, **self.height(span))
        for machine, spans in enumerate(self.chart.agents):
            for span in spans:
                yield agent_bar(lane(machine), **self.height(span))
        for number, spans in enumerate(self.chart.clients):
            for span in spans:
                yield span_bar(bar(number), span.what, **self.height(span))

    def height(self, span):
        top = self.y(span.begin)
        end = self.y(span.end) if span.end is not None else self.y(len(self.chart.steps) - 1) + ROW / 2
        return {"y": top, "height": f"{end - top:g}"}

    def arrows(self):
        for flight in self.chart.flights:
            begin, end = lane(flight.sender), lane(flight.packet["to"])
            # an arrow ends short of its lane, one with a cross so far that the cross is clear of it
            side = (4 if end > begin else -4) * (2 if flight.lost else 1)
            yield arrow(look(flight), flight.delivered or flight.lost, begin, self.y(flight.begin), end - side, self.y(flight.end), flight.goes_round)

    def labels(self):
        """Beside each row what came or was asked, and on the left its number."""
        comes = {flight.end: flight for flight in self.chart.flights}
        for row, step in enumerate(self.chart.steps):
            below = f"{step.line['kind']} {step.line['index']}" if "index" in step.line else step.line["kind"]
            yield from label(STEP, self.y(row), [str(step.line["n"]), below])
            yield from self.label_of(row, comes[row]) if row in comes else self.asked(row, step)
        for number, flight in enumerate(self.chart.left):
            yield from label(STEP, self.y(flight.end), [f"index {number}"])
            yield from self.label_of(flight.end, flight)

    def label_of(self, row, flight):
        return beside(flight.packet["to"], self.y(row), packet_lines(flight))

    def asked(self, row, step):
        """A client's own step, or a refused delivery or loss: a dot, or a cross where it was refused."""
        line, y = step.line, self.y(row)
        at = line.get("machine")
        at = at if at in range(MACHINES) else None
        if not line["answer"]:
            yield dot(lane(at), y)
        elif at is not None:
            yield cross(lane(at), y)
        yield from beside(at, y, step_lines(step))


def head(machine):
    """The name of a lane, on a ground as wide as the lane's labels and spans."""
    begin, width = (DECIDER - LABEL - 8, LABEL + 12) if machine is None else (lane(machine) - 4, GROUP - 6)
    yield tag("rect", x=begin, y=TOP - 44, width=width, height=20, fill=FAINT)
    if machine is None:
        yield tag("text", "decider", x=DECIDER, y=TOP - 30, text_anchor="end", font_weight="bold")
    else:
        yield tag("text", f"machine {machine}", x=lane(machine), y=TOP - 30, font_weight="bold")


def beside(machine, y, lines):
    """A label beside its lane, on the side from which no arrow of this lane comes."""
    if machine is None:
        return label(DECIDER - 8, y, lines, anchor="end")
    return label(lane(machine) + 8, y, lines)


def look(flight):
    return LOST if flight.lost else "rejected" if flight.packet["rejected"] else "back" if flight.back else "plain"


def arrow(name, ended, x1, y1, x2, y2, bow=False):
    """An arrow of a look; while its packet is on the wire, dashed and with an open head; a bow where it comes back to its own lane."""
    colour, width, dashes, open_dashes = LOOKS["plain" if name == LOST else name]
    head = f"url(#{name}{'' if ended else '-open'})"
    strokes = {"stroke": colour, "stroke_width": width, "stroke_dasharray": dashes if ended else open_dashes, "marker_end": head}
    if bow:
        return tag("path", d=f"M{x1} {y1:g}C{x1 + BOW} {y1:g} {x1 + BOW} {y2:g} {x2} {y2:g}", fill="none", **strokes)
    return tag("line", x1=x1, y1=f"{y1:g}", x2=x2, y2=f"{y2:g}", **strokes)


def span_bar(x, client, y, height):
    """A client's span: narrow while it waits, wide while it holds; solid for exclusive, hatched for shared, dashed where its GRANT was lost."""
    status, width = client["status"], WIDTHS[client["status"]]
    fill, stroke = COLOURS[status] if client["mode"] == 2 else f"url(#{status})", COLOURS[status]
    if client["lost"]:
        fill, stroke = f"url(#{NOTED})", "none"
    return tag("rect", x=f"{x - width / 2:g}", y=y, width=width, height=height, fill=fill, stroke=stroke)


def agent_bar(x, y, height, fill=GREY):
    return tag("rect", x=x - 3, y=f"{y:g}", width=6, height=height, fill=fill)


def writer_bar(x, y, height):
    return agent_bar(x, y, height, PURPLE)


def dot(x, y):
    return tag("circle", cx=x, cy=f"{y:g}", r=4, fill=BLACK)


def cross(x, y):
    return tag("path", d=f"M{x - 4} {y - 4:g}l8 8m0 -8l-8 8", stroke=BLACK, stroke_width=2)


def pattern(name, size, *shapes):
    """What a bar is filled with."""
    inside = "\n".join(shapes)
    return tag("pattern", f"\n{inside}\n", id=name, width=size, height=size, patternUnits="userSpaceOnUse")


def marker(name, shape, tip):
    """An arrow's end, whose tip comes to the end of its line."""
    return tag("marker", f"\n{shape}\n", id=name, markerWidth=12, markerHeight=10, refX=tip, refY=5, orient="auto", markerUnits="userSpaceOnUse")


def definitions(gives_up):
    """The arrows' heads and the hatchings, and where somebody may give up the cross of what is lost and the dashes of who waits for it."""
    for name, (colour, _, _, _) in LOOKS.items():
        for end, fill in (("", colour), ("-open", "white")):
            yield marker(name + end, tag("path", d="M1 1L11 5L1 9z", fill=fill, stroke=colour), 11)
    for status, colour in COLOURS.items():
        ground, lines = tag("rect", width=4, height=4, fill="white"), tag("path", d="M0 4L4 0M-1 1L1 -1M3 5L5 3", stroke=colour, stroke_width=1)
        yield pattern(status, 4, ground, lines)
    if gives_up:
        yield marker(LOST, tag("path", d="M1 1L9 9M1 9L9 1", stroke=VERMILION, stroke_width=2.5), 5)
        yield pattern(NOTED, 8, tag("rect", width=8, height=5, fill=COLOURS["waiting"]))


ARROWS = [("plain", True, "packet"), ("rejected", True, "rejected"), ("back", True, "sent back by a machine"), ("plain", False, "still on the wire")]
SPANS = [("waiting", 2, "waits, exclusive"), ("waiting", 3, "waits, shared"), ("holding", 2, "holds, exclusive"), ("holding", 3, "holds, shared")]


def legend(y, writers):
    """What arrows, spans and marks mean; where writers are preferred, also the decider's bar."""
    places = range(STEP, WIDTH, 175)
    for x, (name, delivered, words) in zip(places, ARROWS):
        yield arrow(name, delivered, x, y, x + 36, y)
        yield from label(x + 44, y, [words])
    for x, (status, mode, words) in zip(places, SPANS):
        yield span_bar(x + 30, {"status": status, "mode": mode, "lost": False}, y + 14, 20)
        yield from label(x + 44, y + LEGEND, [words])
    yield from (dot(places[4] + 30, y), cross(places[5] + 30, y), agent_bar(places[4] + 30, y + 14, 20))
    yield from label(places[4] + 44, y, ["acquires or releases"])
    yield from label(places[5] + 44, y, ["is refused"])
    yield from label(places[4] + 44, y + LEGEND, ["the agent is here"])
    if writers:
        yield writer_bar(places[5] + 30, y + 14, 20)
        yield from label(places[5] + 44, y + LEGEND, ["a writer is known to wait"])


def legend_of_losses(y):
    """The same for what is lost and for who gives up, in a line of its own."""
    places = range(STEP, WIDTH, 175)
    yield arrow(LOST, True, places[0], y, places[0] + 30, y)
    yield span_bar(places[1] + 30, {"status": "waiting", "mode": 3, "lost": True}, y - 10, 20)
    yield arrow("plain", True, places[3] + 6, y - 8, places[3] + 10, y + 8, bow=True)
    yield dot(places[5] + 30, y)
    for place, words in ((0, "lost"), (1, "waits, its GRANT was lost"), (3, "goes round: the lock is free"), (5, "gives up")):
        yield from label(places[place] + 44, y, [words])


def drawn(chart):
    """The whole picture."""
    picture, gives_up = Picture(chart), chart.gives_up()
    height = picture.bottom + 56 + LEGEND * gives_up
    yield (f'<svg xmlns="http://www.w3.org/2000/svg" width="{WIDTH}" height="{height:g}" viewBox="0 0 {WIDTH} {height:g}" '
           'font-family="Helvetica, Arial, sans-serif" font-size="10">')
    yield tag("title", f"Lock {chart.lock}, by steps")
    yield from ("<defs>", *definitions(gives_up), "</defs>", tag("rect", width=WIDTH, height=f"{height:g}", fill="white"))
    yield from (*picture.rules(), *picture.heads(), *picture.spans(), *picture.arrows(), *picture.labels(),
                *legend(picture.bottom + 18, chart.prefers_writers()), *(legend_of_losses(picture.bottom + 18 + 2 * LEGEND) if gives_up else ()))
    yield "</svg>"


def text(options, lines):
    chart = chart_of(options.lock, lines)
    if not chart.steps:
        raise Refused(f"there is no step of lock {options.lock}")
    if len(chart.steps) > MOST:
        raise Refused(f"lock {options.lock} has {len(chart.steps)} steps, and a picture shows at most {MOST}")
    return "\n".join(drawn(chart)) + "\n"


def main():
    parser = Options("picture", "Draws the steps of one lock as a sequence chart, in SVG.")
    parser.add_argument("--lock", metavar="N", type=int, choices=range(LOCKS), default=0, help="the lock's number, 0 to 7; without it, 0")
    run(parser, text)
