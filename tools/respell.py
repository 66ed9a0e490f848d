#!/usr/bin/env python3
"""respell.py [--list]: brings the repository's own definitions, fields, constructors and lemmas, in crates/*/specs and crates/*/proofs, to the
spelling of today's Rattle: words in snake case. Run once, at the top, after /opt/rattle/port/port.py. Names of src/, exported names, strings,
inputs and outputs stay. Where a lemma would get the name of the definition that it is about, it gets `_lem`; any other names that would fall
together stop the script. --list prints the table and changes nothing."""
import collections
import pathlib
import re
import sys

HEAD = r"(?:(?:abbrev|unfoldable|pub|private|data|record) )*"
DEFINED = re.compile(r"^\s*" + HEAD + r"([^\s:(){}\[\],;.λ\"]+)\s+:\s")
DATA = re.compile(r"^\s*(?:pub )?(?:data|record) ([^\s:(){}]+)")
WORD = re.compile(r"[^\s(){}\[\],;.:@λ\"`|/]+")
# words of the older library inside our names, which port.py turned elsewhere
OLDER = {"getD": "get_or"}
# fields and constructors of statements whose names a definition has too
APART = {"at-decider": "at_the_decider", "at-machine": "at_a_machine", "drain-refused": "drain_was_refused", "no-agent": "told_no_agent",
         "sent-on": "when_sent_on", "on-machine": "on_its_machine", "last-told": "told_last"}
# lemmas of std under an older name
ALIASES = {"List·getD-eq-default": "get_or-eq_default"}
# lemmas in snake case already, by port.py, whose names their definitions get now
LEMMAS = ("as_seen", "sent_back")
LEMMAS_IN = "theorems"
PAGES = ("README.md", "docs/protocol.md", "docs/DECISIONS.md", "docs/why-49.md", "docs/changes/*.md", "reference/README.md")


def paths():
    for path in sorted(pathlib.Path("crates").rglob("*.antt")):
        if "out" not in path.parts:
            yield path


def is_goal_file(path):
    return "proofs" in path.parts and path.name in ("Proof.antt", "Answers.antt", "Invariants.antt")


def own_names():
    """Every name that the repository's antt files define."""
    names = collections.OrderedDict()
    for path in paths():
        for line in path.read_text().split("\n"):
            found = DEFINED.match(line) or DATA.match(line)
            if not found or line.lstrip().startswith("--"):
                continue
            name = found.group(1)
            if is_goal_file(path):
                continue
            names.setdefault(name, path)
    return names


def snake(word):
    """camelCase in snake case; a capital at the start, as of a type, stays."""
    return re.sub(r"(?<=[a-z0-9])([A-Z])", lambda m: "_" + m.group(1).lower(), word)


def respelled(name):
    if name in LEMMAS:
        return name + "_lem"
    if name in APART:
        return APART[name]
    if name[0].isupper() or "◌" in name:
        return name
    return "_".join(snake(OLDER.get(part, part)) for part in name.split("-"))


def table():
    """Each name that changes, with its new spelling."""
    names = own_names()
    turned = {name: respelled(name) for name in names}
    taken = collections.Counter(turned.values())
    for name, to in turned.items():
        if taken[to] > 1 and "-" in name:
            turned[name] = to + "_lem"
    wrong = [f"{name}: {to} is taken" for name, to in turned.items() if list(turned.values()).count(to) > 1]
    return {name: to for name, to in turned.items() if name != to} | ALIASES, wrong


def in_text(text, turned):
    return WORD.sub(lambda m: turned.get(m.group(0), m.group(0)), text)


def in_quotes(text, turned):
    """What stands between backticks."""
    return re.sub(r"`[^`\n]+`", lambda m: in_text(m.group(0), turned), text)


def in_page(text, turned):
    """A page: a name between backticks. One that an example has too is a lemma's only behind its file."""
    examples = {path.stem for path in pathlib.Path("examples").iterdir()}
    turn = lambda m: m.group(1) + "`" + (m.group(2) if m.group(2) in examples and not m.group(1) else turned.get(m.group(2), m.group(2))) + "`"
    return re.sub(r"((?:\.antt`: )?)`([^`\n ]+)`", turn, text)


def in_comment(text, turned):
    """A comment: a word with a dash is a name only between backticks."""
    return in_quotes(in_text(text, {name: to for name, to in turned.items() if "-" not in name}), turned)


def in_file(mark):
    """What changes a file whose comments begin with the mark; strings stay."""
    def change(text, turned):
        lines = []
        for line in text.split("\n"):
            code, found, comment = line.partition(mark) if line.lstrip().startswith(mark) or " " + mark in line else (line, "", "")
            parts = re.split(r'("(?:[^"\\]|\\.)*")', code)
            code = "".join(part if i % 2 else in_text(part, turned) for i, part in enumerate(parts))
            code = re.sub(r"([^\s{},]+) as \1(?=[,}])", r"\1", code)
            lines.append(code + found + in_comment(comment, turned))
        return "\n".join(lines)
    return change


def main():
    turned, wrong = table()
    for name, to in sorted(turned.items()) if "--list" in sys.argv else ():
        print(name, to)
    if wrong:
        sys.exit("\n".join(wrong) + "\nnothing was changed")
    if "--list" in sys.argv:
        return
    kinds = [("crates/*/specs/**/*.antt", in_file("--")), ("crates/*/proofs/**/*.antt", in_file("--")), ("crates/*/src/**/*.rt", in_file("//")),
             ("crates/*/must-fail/*.edit", in_file("#")), ("crates/*/model-edits/*.edit", in_file("#"))]
    kinds += [(page, in_page) for page in PAGES]
    for pattern, change in kinds:
        for path in pathlib.Path().glob(pattern):
            here = turned if LEMMAS_IN in path.parts else {name: to for name, to in turned.items() if name not in LEMMAS}
            path.write_text(change(path.read_text(), here))


if __name__ == "__main__":
    main()
