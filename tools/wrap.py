#!/usr/bin/env python3
"""wrap.py FILE..: breaks the lines of definitions, proofs and clauses (.antt, .rt) that have more than 120 columns, at the
outermost joint of the sentence.
Behind it `rt fmt` in the crate's folder lays out what was broken, and `rt check` says that it means what it did."""
import re
import sys

LIMIT = 120
STEP = 4
# Words that a line shall not end with, or begin with.
JOINTS = "→ × ⊎ ≡ ++ ∙ ∷ && || + ↦ | ≤ < - *".split()
OPENERS = "λ let elim : as | if".split()


def spaces(text):
    """Each space outside of strings, with the number of brackets around it."""
    depth, quoted, found = 0, False, []
    for at, c in enumerate(text):
        if c == '"':
            quoted = not quoted
        elif quoted:
            continue
        elif c in "([{":
            depth += 1
        elif c in ")]}":
            depth -= 1
        elif c == " ":
            found.append((at, depth))
    return found


def cost(text, at, depth):
    """What a break at this space costs: least where it is outermost, at a joint, and far to the right."""
    before, after = text[:at].rsplit(" ", 1)[-1], text[at + 1 :].split(" ", 1)[0]
    clause = name.endswith(".rt")
    kind = 9 if clause else 5
    if after == "}":
        kind = 99
    elif before in ("=", "in") or (before if clause else after) == "→":
        kind = 0
    elif after in ("×", "⊎"):
        kind = 2
    elif after in ("≡", "∙"):
        kind = 3 if clause else 6
    elif after in ("++", "&&", "||", "+", "∷"):
        kind = 7
    elif before in JOINTS + OPENERS or after in [*JOINTS, "=", ":", "as"]:
        kind = 12
    if re.search(r"[(\[]?λ[^.]*$", text[:at]):
        kind = 13
    return depth * 5 + kind + (LIMIT - at) / 10


def sentence(line):
    """A line of code in several."""
    indent = len(line) - len(line.lstrip())
    found, rest, margin = [], line, indent
    while len(rest) > LIMIT:
        low = margin + 24
        places = [(cost(rest, at, depth), at) for at, depth in spaces(rest) if low <= at <= LIMIT]
        if not places:
            break
        at = min(places)[1]
        outermost = dict(spaces(rest))[at] <= 0
        follows = indent > 0 and outermost and line.lstrip().startswith("→ ") and rest[at + 1 :].startswith("→ ")
        margin = indent if follows else indent + STEP
        found.append(rest[:at].rstrip())
        rest = " " * margin + rest[at + 1 :].lstrip()
    return [*found, rest]


def comment(line):
    """A comment in several lines."""
    mark = re.match(r"--|//[/!]?", line.lstrip())[0]
    head = line[: len(line) - len(line.lstrip())] + mark
    found, now = [], head
    for word in line.strip()[len(mark):].split():
        if len(now) + 1 + len(word) > LIMIT:
            found.append(now)
            now = head
        now += " " + word
    return [*found, now]


def imports(line):
    """A `use` of many names as several of fewer, since `rt fmt` gives each name of a broken one a line of its own."""
    tail = "};" if line.rstrip().endswith("};") else "}"
    tail = "};" if line.rstrip().endswith("};") else "}"
    head, items = line.rstrip().removesuffix(tail).split("{", 1)
    head += "{"
    found = split(items.split(", "), LIMIT - len(head) - len(tail))
    for narrower in range(LIMIT - len(head) - len(tail), 0, -1):
        if len(again := split(items.split(", "), narrower)) > len(found):
            break
        found = again
    return [head + ", ".join(it) + tail for it in found]


def split(items, width):
    """Names in as few lists as have at most so many characters each."""
    found = [[]]
    for item in items:
        if found[-1] and len(", ".join([*found[-1], item])) > width:
            found.append([])
        found[-1].append(item)
    return found


def wrapped(line):
    if len(line) <= LIMIT:
        return [line]
    if line.lstrip().startswith(("--", "//")):
        return comment(line)
    if re.match(r"\s*(unfoldable |ghost )?(pub )?use [^{]*\.\{", line):
        return imports(line)
    return sentence(line)


for name in sys.argv[1:]:
    with open(name) as file:
        lines = file.read().split("\n")
    with open(name, "w") as file:
        file.write("\n".join(short for line in lines for short in wrapped(line)))
