"""The fields of inspect's lines as the tables of docs/inspect.md name them, and whether a line has exactly these, in their order."""
import json
import pathlib
import re

from desk.lines import NotLines, name_of, read

PAGE = pathlib.Path(__file__).resolve().parent.parent / "docs/inspect.md"
# which object a field holds, or a list of which
INSIDE = {"state": "state", "counts": "counts", "decider": "decider", "agents": "agent", "clients": "client", "wire": "packet", "queue": "waiter",
          "agent": "agent", "reason": "reason", "drains": "drain"}


def tables():
    """The fields of each object, from the page's tables: `| object | fields, in order |`."""
    found, inside = {}, False
    for line in PAGE.read_text().split("\n"):
        inside = line.startswith("| object | fields, in order |") or inside and line.startswith("|")
        row = re.fullmatch(r"\| ([\w ]+) \| ((?:`\w+` ?)+)\|", line)
        if inside and row:
            found[row.group(1)] = re.findall(r"`(\w+)`", row.group(2))
    return found


def difference(name, value, fields):
    """What is wrong with the fields of an object, or of one inside it; None where nothing is."""
    if not isinstance(value, dict) or list(value) != fields[name]:
        has = " ".join(value) if isinstance(value, dict) else json.dumps(value)
        return f"{name} should have the fields {' '.join(fields[name])}, and has {has}"
    for field, held in value.items():
        # the agents of counts are a number
        if field not in INSIDE or name == "counts":
            continue
        for one in held if isinstance(held, list) else [held]:
            wrong = None if one is None else difference(INSIDE[field], one, fields)
            if wrong:
                return wrong
    return None


def wrong_line(text, fields):
    """What is wrong with a line by itself."""
    try:
        line = json.loads(text)
    except ValueError:
        return "is not JSON"
    name = name_of(line)
    if name is None:
        return "is no object of a record or of the end"
    if json.dumps(line, separators=(",", ":")) != text:
        return "is not written without blanks, or has a field twice"
    return difference(name, line, fields)


def first_wrong(texts):
    """The first line that is not as the page says, and what is wrong with it; None where all are right."""
    fields = tables()
    for number, text in enumerate(texts, 1):
        wrong = wrong_line(text, fields)
        if wrong:
            return f"line {number} {wrong}"
    try:
        for _ in read(texts):
            pass
    except NotLines as error:
        return str(error)
    return None
