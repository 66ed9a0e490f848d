"""What explain, picture, inspect and replay refuse: a command, its standard input, and the one line that it should write on standard error."""
import json
import pathlib

from cases import cases_of, end_of, numbered, packet_of, state_of
from desk.lines import fresh, shown
from desk.reasons import GRANT_LOST, reason


def lines(*objects):
    return "".join(json.dumps(one, separators=(",", ":")) + "\n" for one in objects).encode()


def refused(number, lock=0):
    """A delivery from an empty wire."""
    return {**numbered(number, f"deliver {lock} 0", 8), **shown(fresh())}


def after(number, words, state, answer=0):
    return {**numbered(number, words, answer), **shown(state_of(state))}


def replaced(line, **fields):
    return {**line, **fields}


def changed(line, writer):
    """A line with another bit of the decider."""
    return {**line, "state": {**line["state"], "decider": {**line["state"]["decider"], "writer": writer}}}


def client(status, mode, lost, why):
    return {"status": status, "mode": mode, "lost": lost, "reason": why}


RIGHT = {case.name: case.objects for case in cases_of(pathlib.Path(__file__).parent / "reasons.cases")}


def with_reason(name, number, client, wrong):
    """The state of a case's line, shown by a refused delivery, in which a client has a wrong reason."""
    state = json.loads(json.dumps(RIGHT[name][number - 1]["state"]))
    state["clients"][client]["reason"] = wrong
    return lines({**numbered(1, "deliver 0 255", 8), **shown(state)}, end_of("1 = 0 {}"))


END = end_of("0 = 0 {}")
ASKED = after(1, "acquire 0 0/0 shared", '{"clients":{"0":["waiting",3]},"wire":[{"kind":"ACQUIRE","client":0,"mode":3}]}')
RUN = next([json.loads(line) for line in case.lines()] for case in cases_of(pathlib.Path(__file__).parent / "runs.cases") if case.name == "examples/rejected")
TURNED = {"kind": ASKED["kind"], **ASKED}
FIRST = "line 1 is not one that inspect writes (docs/inspect.md)"
MISSING = "the last line of inspect is missing (docs/inspect.md)"
FOLLOWS = "line 1 does not follow from the state before it (docs/protocol.md)"

SECOND = FIRST.replace("1", "2", 1)
ENDED = end_of("1 = 0 {}")
MALFORMED = replaced(refused(1), answer=11, preference=2)
ALL_REFUSED = end_of('1 = 0 {"0":[0,11],"1":[0,11],"2":[0,11],"3":[0,11],"4":[0,11],"5":[0,11],"6":[0,11],"7":[0,11]}', preference=2)
BAD = end_of("0 = 16 {}")

# input that is not inspect's lines, and what both filters say of it
NOT_LINES = [
    (b"", MISSING),
    (b"\n", FIRST),
    (b"n kind answer wire\n1 1 0 1\n", FIRST),
    (b"\xff\xfe", FIRST),
    (b"[" * 100000, FIRST),
    (b"9" * 5000, FIRST),
    (b"null\n", FIRST),
    (b"[]\n", FIRST),
    (b"{}\n", FIRST),
    (b'{"kind":[]}\n', FIRST),
    (lines(ASKED), MISSING),
    (lines(END, END), "line 2 stands behind the last line of inspect"),
    (lines(END) + b"\n", "line 2 stands behind the last line of inspect"),
    (lines(replaced(END, records=1)), FIRST),
    (lines(replaced(END, answer=12)), FIRST),
    (lines(replaced(END, handling="taken")), FIRST),
    (lines(end_of('0 = 0 {"3":[1,0,"lost"]}')), FIRST),
    (lines(*RUN[:8], replaced(RUN[8], handling="lost"), RUN[9], replaced(RUN[10], handling="lost")), FIRST.replace("1", "9", 1)),
    (lines(replaced(end_of("0 = 13 {}"), handling="taken")), FIRST),
    (lines(replaced(ASKED, handling="taken"), end_of("1 = 0 {}", "taken")), FIRST),
    (lines(replaced(refused(1), handling="no agent"), end_of("1 = 0 {}", "no agent")), FIRST),
    (lines(end_of('0 = 0 {"3":[0,0,"taken"]}')), FIRST),
    (lines(end_of('0 = 0 {"3":[0,14,"taken"]}')), FIRST),
    (lines(*RUN[:-1], replaced(RUN[-1], handling=None)), FIRST.replace("1", "11", 1)),
    (lines(*RUN[:-1], replaced(RUN[-1], handling="no agent")), FIRST.replace("1", "11", 1)),
    (lines(replaced(END, drains=END["drains"][1:])), FIRST),
    (lines(refused(2), end_of("1 = 0 {}")), FIRST),
    (lines(refused(1), replaced(END, records=2)), "line 2 is not one that inspect writes (docs/inspect.md)"),
    (lines(TURNED, end_of("1 = 0 {}")), FIRST),
    (lines(replaced(ASKED, more=0), end_of("1 = 0 {}")), FIRST),
    (lines(replaced(ASKED, state=None), end_of("1 = 0 {}")), FIRST),
    (lines(replaced(ASKED, state=None, counts=None), end_of("1 = 0 {}")), FIRST),
    (lines(replaced(ASKED, counts=None), end_of("1 = 0 {}")), FIRST),
    (lines(replaced(ASKED, counts={"agents": 1, "marked": 0}), end_of("1 = 0 {}")), FIRST),
    (lines(replaced(ASKED, counts={"agents": 0, "marked": 1}), end_of("1 = 0 {}")), FIRST),
    (lines(replaced(ASKED, counts={"marked": 0, "agents": 0}), end_of("1 = 0 {}")), FIRST),
    (lines(replaced(ASKED, answer=8), end_of("1 = 0 {}")), FIRST),
    (lines(replaced(ASKED, lock=True), end_of("1 = 0 {}")), FIRST),
    (lines(replaced(ASKED, task=256), end_of("1 = 0 {}")), FIRST),
    (lines(after(1, "acquire 0 0/0 shared", '{"wire":[{"kind":"ACQUIRE","client":16,"mode":3}]}'), end_of("1 = 0 {}")), FIRST),
    (lines(after(1, "acquire 0 0/0 shared", '{"wire":[{"kind":"FREE","mode":3}]}'), end_of("1 = 0 {}")), FIRST),
    (lines(after(1, "acquire 0 0/0 shared", '{"decider":[0,1,0]}'), end_of("1 = 0 {}")), FIRST),
    (lines(after(1, "acquire 0 0/0 shared", '{"clients":{"0":["idle",3]}}'), end_of("1 = 0 {}")), FIRST),
    (lines(after(1, "acquire 0 0/0 shared", '{"agents":{"0":{"mode":3,"holders":[1,0]}}}'), end_of("1 = 0 {}")), FIRST),
    (lines({**numbered(1, "release 0 0/0", 7), **shown(None)}, end_of("1 = 0 {}")), FIRST),
    (lines({**numbered(1, "deliver 0 0", 8), **shown(None)}, end_of("1 = 0 {}")), FIRST),
    (lines(after(1, "deliver 0 0", '{}'), end_of("1 = 0 {}")), FOLLOWS),
    (lines(refused(1), after(2, "deliver 0 1", '{"decider":[3,0,0]}', 8), end_of("2 = 0 {}")), FOLLOWS.replace("1", "2", 1)),
]

# what a line has of the preference and of the decider's bit
NOT_LINES += [(lines(*objects), wrong) for wrong, *objects in [
    (FIRST, replaced(ASKED, preference=2), replaced(ENDED, preference=2)),
    (FIRST, replaced(refused(1), preference=2), replaced(ENDED, preference=2)),
    (FIRST, replaced(refused(1), preference=2), ALL_REFUSED),
    (FIRST, {**numbered(1, "deliver 8 0", 1, preference=2), **shown(None)}, ALL_REFUSED),
    (FIRST, replaced(MALFORMED, preference=256), replaced(ALL_REFUSED, preference=256)),
    (FIRST, replaced(ASKED, preference=True), replaced(ENDED, preference=1)),
    (FIRST, replaced(ASKED, preference=None), ENDED),
    (FIRST, {field: value for field, value in ASKED.items() if field != "preference"}, ENDED),
    (FIRST, {**{field: value for field, value in ASKED.items() if field != "preference"}, "preference": 0}, ENDED),
    (FIRST, changed(ASKED, True), ENDED),
    (FIRST, changed(refused(1), True), ENDED),
    (FIRST, changed(ASKED, 0), ENDED),
    (FIRST, changed(ASKED, None), ENDED),
    (SECOND, ASKED, replaced(refused(2, 1), preference=1), replaced(end_of("2 = 0 {}"), preference=1)),
    (SECOND, replaced(ASKED, preference=1), refused(2, 1), end_of("2 = 0 {}")),
    (SECOND, ASKED, replaced(ENDED, preference=1)),
    (SECOND, replaced(ASKED, preference=1), ENDED),
    (SECOND, MALFORMED, ENDED),
    (SECOND, MALFORMED, replaced(ENDED, preference=2)),
    (SECOND, MALFORMED, replaced(ALL_REFUSED, drains=[*ALL_REFUSED["drains"][:7], ENDED["drains"][7]])),
    (FIRST, replaced(END, preference=2)),
    (FIRST, replaced(END, preference=True)),
    (FIRST, {field: value for field, value in END.items() if field != "preference"}),
]]

# the end of a transcript that a bad preference refused
NOT_LINES += [(lines(*objects), wrong) for wrong, *objects in [
    (FIRST, replaced(BAD, answer=0)),
    (FIRST, replaced(BAD, answer=13)),
    (FIRST, replaced(BAD, end="end")),
    (FIRST, replaced(BAD, end="too long")),
    (FIRST, replaced(BAD, records=1)),
    (FIRST, replaced(BAD, handling="taken")),
    (FIRST, replaced(BAD, preference=1)),
    (FIRST, replaced(BAD, preference=2)),
    (FIRST, replaced(BAD, preference=2, drains=ALL_REFUSED["drains"])),
    (FIRST, replaced(BAD, drains=ALL_REFUSED["drains"])),
    (FIRST, end_of('0 = 16 {"3":5}')),
    (SECOND, refused(1), BAD),
    (SECOND, refused(1), replaced(BAD, records=1)),
    (SECOND, refused(1), end_of("0 = 13 {}")),
]]

# the packet for which an acquire was refused with 6: there is none, it is not said, the last, one ahead of it, one past the wire, no number, a FREE; and one
# that is said beside another answer
STILL = '{"wire":[{"kind":"RELEASE","client":5},{"kind":"RELEASE","client":4},{"kind":"RELEASE","client":4}]}'
FREE = '{"wire":[{"kind":"FREE","agent":{"mode":3}}]}'
WAITS = '{"clients":{"4":["waiting",3]},"wire":[{"kind":"ACQUIRE","client":4,"mode":3}]}'
NOT_LINES += [(lines({**numbered(1, "acquire 0 1/0 shared", answer), "named": wrong, **shown(state_of(state))}, ENDED), FIRST) for answer, wrong, state in [
    (6, 0, "{}"), (6, None, "{}"), (6, None, STILL), (6, 2, STILL), (6, 0, STILL), (6, 3, STILL), (6, 49, STILL), (6, True, STILL), (6, "1", STILL),
    (5, 0, WAITS), (0, 0, WAITS), (9, 1, STILL)]]
NOT_LINES += [
    (lines({**numbered(1, "acquire 0 0/0 shared", 6), "named": 0, **shown(state_of(FREE))}, ENDED), FIRST),
    (lines({**numbered(1, "acquire 8 1/0 shared", 1), "named": 0, **shown(None)}, ENDED), FIRST),
    (lines({field: value for field, value in ASKED.items() if field != "named"}, ENDED), FIRST),
    (lines({**refused(1), "named": None}, ENDED), FIRST),
]

# of a loss and of giving up: another kind, an answer of another call, a handling, a field too many, too few or of another call
LOST = '{"decider":[3,0,1],"clients":{"4":["waiting",3,true]},"wire":[{"kind":"ACQUIRE","to":0,"client":4,"mode":3,"granted":true}]}'
NOT_LINES += [(lines(after(1, words, LOST, answer), ENDED), FIRST) for words, answers in [
    ("lose 0 0", (2, 3, 4, 5, 6, 7, 9, 10, 12, 14, 15, 16, 17, 19, True)), ("give-up 0 1/0", (4, 5, 6, 7, 8, 9, 12, 14, 15, 16, 18, 19, True)),
    ("acquire 0 1/0 shared", (17, 18)), ("release 0 1/0", (17, 18)), ("deliver 0 0", (17, 18))] for answer in answers]
LOSS, GIVES_UP = after(1, "lose 0 0", LOST, 18), after(1, "give-up 0 0/0", LOST, 17)
NOT_LINES += [(lines(*objects), FIRST) for objects in [
    *((replaced(LOSS, kind=wrong), ENDED) for wrong in ("give up", "loses", "lost", "LOSE")),
    *((replaced(GIVES_UP, kind=wrong), ENDED) for wrong in ("lose", "give-up", "gives up", "giveup", 7)),
    *((replaced(one, answer=0, handling="taken"), replaced(ENDED, handling="taken")) for one in (LOSS, GIVES_UP)),
    (replaced(LOSS, index=256), ENDED), (replaced(GIVES_UP, task=256), ENDED), (replaced(LOSS, machine=0), ENDED), (replaced(GIVES_UP, mode=3), ENDED),
    ({field: value for field, value in GIVES_UP.items() if field != "task"}, ENDED), (replaced(LOSS, state=None, counts=None), ENDED),
    ({**numbered(1, "lose 8 0", 1), **shown(fresh())}, ENDED), ({**numbered(1, "give-up 8 0/0", 1), **shown(fresh())}, ENDED),
    (end_of('0 = 0 {"3":32769}'),),
]]

REJECTED, MOVED, NOTHING = "a rejected GRANT, and two in the queue of its agent", "only indexes move", "nothing of a client is under way"
KINDS, LOWEST = "two reasons of different kinds", "two reasons of one kind"
NOTED, BOTH = "two who have the note, before and behind one whose GRANT is on the wire", "the note and another reason"
# a reason that the state of a case's line does not give to this client
WRONG_REASONS = [
    (REJECTED, 1, 0, reason("ACQUIRE", index=1)),  # it is idle
    (REJECTED, 1, 4, reason("ACQUIRE", index=1)),  # it holds, and the ACQUIRE is marked
    (REJECTED, 1, 8, None),
    (REJECTED, 1, 8, {}),
    (REJECTED, 1, 8, reason("rejected GRANT", index=0)),
    (REJECTED, 2, 8, reason("GRANT", index=1)),
    (REJECTED, 3, 8, reason("queue", index=0, ahead=0)),
    (REJECTED, 3, 13, reason("queue", machine=0, ahead=3)),  # 2 are ahead
    (REJECTED, 3, 13, reason("queue", machine=1, ahead=2)),
    (REJECTED, 2, 12, reason("queue", index=0, ahead=0)),
    (REJECTED, 3, 12, reason("queue", machine=0, ahead=True)),
    (REJECTED, 3, 12, dict(reversed(reason("queue", machine=0, ahead=1).items()))),
    (MOVED, 2, 5, reason("GRANT", index=5)),  # the index of its marked ACQUIRE
    (MOVED, 3, 5, reason("GRANT", index=2)),  # the index before the step
    (NOTHING, 2, 3, reason("ACQUIRE", index=0)),
    (KINDS, 2, 4, reason("GRANT", index=0)),  # true, but another comes first
    (KINDS, 2, 7, reason("queue", index=2, ahead=0)),
    (KINDS, 2, 10, reason("ACQUIRE", index=5)),
    (LOWEST, 2, 4, reason("ACQUIRE", index=1)),
    (LOWEST, 2, 8, reason("queue", machine=3, ahead=0)),
    (LOWEST, 2, 10, reason("queue", index=4, ahead=0)),  # it stands there and is idle
    (NOTED, 2, 4, None),
    (NOTED, 2, 4, reason("GRANT", index=0)),  # that one is for another
    (NOTED, 2, 8, reason(GRANT_LOST)),  # its GRANT is on the wire, and it has no note
    (NOTHING, 2, 3, reason(GRANT_LOST)),
    (NOTED, 3, 8, reason("GRANT", index=0)),  # it was lost
    *((BOTH, 2, number, reason(GRANT_LOST)) for number in (4, 5, 6, 7, 9)),  # true, but another comes first
]
NOT_LINES += [(with_reason(*wrong), FIRST) for wrong in WRONG_REASONS]

# what is no reason in any state, and no client: the form alone refuses it
NOT_IN_FORM = [
    *(("reason", wrong) for wrong in [
        reason("RELEASE", index=0), reason("GRANT"), reason("GRANT", machine=0), reason("GRANT", index=0, machine=0), reason("ACQUIRE", index=0, ahead=0),
        reason("queue", index=0), reason("queue", machine=0), reason("queue", ahead=0), reason("queue", index=0, machine=0, ahead=0),
        reason("GRANT", index=49), reason("queue", machine=4, ahead=0), reason("queue", machine=0, ahead=16), reason("GRANT", index=False)]),
    *(("reason", reason(GRANT_LOST, *wrong)) for wrong in [(0, None, None), (None, 0, None), (None, None, 0), (0, 0, None), (None, 0, 0)]),
    *(("client", client(status, mode, False, reason("GRANT", index=0))) for status, mode in [("idle", None), ("holding", 3)]),
    *(("client", client(status, mode, True, why)) for status, mode in [("idle", None), ("holding", 2), ("holding", 3)] for why in (None, reason(GRANT_LOST))),
    *(("client", client("waiting", 3, wrong, reason(GRANT_LOST))) for wrong in (None, 1, 0, "true", [])),
    ("client", dict(reversed(client("waiting", 3, True, reason(GRANT_LOST)).items()))),
    *(("packet", packet_of({"client": 0, **more})) for more in [
        {"kind": "GRANT", "mode": 3, "circled": 1}, {"kind": "GRANT", "mode": 3, "agent": {"mode": 3}, "circled": 255},
        {"kind": "FREE", "client": None, "agent": {"mode": 3}, "circled": 1}, {"kind": "RELEASE", "circled": 256}, {"kind": "RELEASE", "circled": -1},
        {"kind": "RELEASE", "circled": True}, {"kind": "RELEASE", "circled": None}]),
]

NO_LOCK = lines({**numbered(1, "deliver 7 0", 1), **shown(None)}, end_of("1 = 0 {}"))
LONG = lines(*(refused(number) for number in range(1, 62)), end_of("61 = 0 {}"))

TWICE = "--preference goes with a transcript, not with --lines: the lines say it themselves"
USAGES = {"inspect": "inspect [--preference N] [TRANSCRIPT]", "replay": "replay [TRANSCRIPT]"}

ERRORS = [
    *(([f"./{name}", *words, "no/such/file"], b"", f"{name}: cannot read no/such/file: No such file or directory")
      for name in ("explain", "picture") for words in ([], ["--lines"])),
    *(([f"./{name}", "--lines", "docs"], b"", f"{name}: cannot read docs: Is a directory") for name in ("explain", "picture")),
    *(([f"./{name}", "--unknown"], b"", f"{name}: unrecognized arguments: --unknown (see {name} --help)") for name in ("explain", "picture")),
    *(([f"./{name}", "one", "two"], b"", f"{name}: unrecognized arguments: two (see {name} --help)") for name in ("explain", "picture")),
    *(([f"./{name}", "--preference", number, "no/such/file"], b"", f"{name}: argument --preference: takes a decimal number, not '{number}' (see {name} --help)")
      for name in ("explain", "picture") for number in ("writers", "-1", "1.0", " 1", "0x1", "", "\u0661")),
    *(([f"./{name}", "--preference"], b"", f"{name}: argument --preference: expected one argument (see {name} --help)") for name in ("explain", "picture")),
    *(([f"./{name}", "--lines", "--preference", number], lines(END), f"{name}: {TWICE}") for name in ("explain", "picture") for number in "01"),
    *(([f"./{name}", "--lines"], given, f"{name}: {wrong}") for name in ("explain", "picture") for given, wrong in NOT_LINES),
    (["./explain", "--lines"], NO_LOCK, f"explain: {FOLLOWS}"),
    (["./picture", "--lines", "--lock", "8"], LONG, "picture: argument --lock: invalid choice: 8 (choose from 0, 1, 2, 3, 4, 5, 6, 7) (see picture --help)"),
    (["./picture", "--lines", "--lock", "x"], LONG, "picture: argument --lock: invalid int value: 'x' (see picture --help)"),
    (["./picture", "--lines"], LONG, "picture: lock 0 has 61 steps, and a picture shows at most 60"),
    (["./picture", "--lines", "--lock", "3"], LONG, "picture: there is no step of lock 3"),
    *(([f"./{name}", *words], b"", f"{name}: {wrong}") for name, usage in USAGES.items() for words, wrong in [
        (["no/such/file"], "cannot read no/such/file"),
        (["docs"], "cannot read docs"),
        (["--unknown"], f"unknown option --unknown (usage: {usage})"),
        (["--preference=1"], f"unknown option --preference=1 (usage: {usage})"),
        (["one", "two"], f"more than one file (usage: {usage})"),
    ]),
    (["./replay", "--preference", "1"], b"", f"replay: unknown option --preference (usage: {USAGES['replay']})"),
    *((["./inspect", *words], b"", f"inspect: {wrong}") for words, wrong in [
        (["--preference", "1", "no/such/file"], "cannot read no/such/file"),
        (["--preference", "1", "--unknown"], f"unknown option --unknown (usage: {USAGES['inspect']})"),
        (["--preference", "1", "one", "two"], f"more than one file (usage: {USAGES['inspect']})"),
        (["one", "--preference", "1"], f"more than one file (usage: {USAGES['inspect']})"),
        (["--preference"], f"--preference takes a decimal number, not '' (usage: {USAGES['inspect']})"),
        *((["--preference", number, "no/such/file"], f"--preference takes a decimal number, not '{number}' (usage: {USAGES['inspect']})")
          for number in ("writers", "-1", "1.0", " 1", "0x1", "", "\u0661")),
    ]),
]
