#!/usr/bin/env python3
"""Draws docs/phases.svg from docs/phases.txt by Graphviz's `dot`: the phases of one client and one block, seen by what is
recorded, what is on its way, and what the client holds. Usage: docs/phases.py, in any folder; docs/phases.py --check says
whether the drawing is that of the list as it stands, and needs no `dot`."""

import hashlib
import pathlib
import re
import subprocess
import sys

DOCS = pathlib.Path(__file__).parent
LIST, DRAWING = DOCS / "phases.txt", DOCS / "phases.svg"
NODE = re.compile(r"\s*(\d+)\*?\s*\| .*?\| (.*?)\s*\|")
STEP = re.compile(r"\s+(.*?)\s*-> (.*)$")
# What leads on: the words of the list, those of the drawing, and a colour and dashes that tell them apart.
STEPS = {
    "A taken, granted": ("granted", "#15803d", "solid"),
    "env last report: granted": ("granted", "#15803d", "solid"),
    "D Grant taken": ("Grant taken", "#15803d", "dashed"),
    "env service starts, probed": ("probed", "#6d28d9", "solid"),
    "B Probe taken": ("Probe taken", "#6d28d9", "dashed"),
    "C report taken": ("ProbeAck taken", "#1d4ed8", "dashed"),
    "ask Release": ("Release asked", "#b45309", "solid"),
    "C Release taken": ("Release taken", "#b45309", "dashed"),
}
# What is recorded, and the colour of its boxes.
RECORDS = {"T": ("Trunk is recorded", "#fef3c7"), "B": ("Branch is recorded", "#e0f2fe"), "N": ("nothing is recorded", "#f8fafc")}


def read():
    """The views (what stands in the second column), and the steps between two of them."""
    views, steps, current = {}, [], None
    for line in LIST.read_text().splitlines():
        if node := NODE.match(line):
            current = int(node[1])
            views[current] = node[2]
        elif not line.startswith("#") and (step := STEP.match(line)):
            for target in step[2].split(","):
                steps.append((current, step[1], int(target.strip(" ~"))))
    return views, steps


def edges(views, steps):
    """The steps from one view to another, each once by its words in the drawing."""
    found = {(views[source], views[target], STEPS[label]) for source, label, target in steps if label in STEPS}
    return sorted(edge for edge in found if edge[0] != edge[1])


def legend():
    """The three kinds of boxes, and the words of the arrows, each in their colour."""
    kinds = sorted(set(STEPS.values()))
    cells = "".join(
        f'<td><font color="{colour}">{"- - -" if dashes == "dashed" else "&#8212;&#8212;"}&#62; {name}</font></td>' for name, colour, dashes in kinds
    )
    boxes = "".join(f'<td border="1" style="rounded" bgcolor="{fill}">{title}</td>' for title, fill in RECORDS.values())
    row = '<table border="0" cellspacing="12"><tr>{}</tr></table>'.format
    return f"<<table border='0'><tr><td>{row(boxes)}</td></tr><tr><td>{row(cells)}</td></tr></table>>"


def graph():
    """The drawing in the language of `dot`: a box of boxes for each record."""
    views, steps = read()
    out = [
        "digraph phases {",
        'rankdir=TB; nodesep=0.2; ranksep=0.45; bgcolor=white; fontname="DejaVu Sans"; fontsize=16; labelloc=b;',
        f"label={legend()};",
        'node [shape=box, style="rounded,filled", color="#334155", fontname="DejaVu Sans", fontsize=13];',
        "edge [arrowsize=0.7, penwidth=1.3];",
    ]
    out += [f'"{view}" [fillcolor="{RECORDS[view[0]][1]}"];' for view in sorted(set(views.values()))]
    for source, target, (name, colour, dashes) in edges(views, steps):
        words = f"{source} to {target}: {name}"
        out.append(f'"{source}" -> "{target}" [color="{colour}", style={dashes}, tooltip="{words}"];')
    return "\n".join([*out, "}"])


def mark():
    """What ties a drawing to the list and the program that it was made of: a comment at the drawing's end."""
    made_of = hashlib.sha256(LIST.read_bytes() + pathlib.Path(__file__).read_bytes()).hexdigest()
    return f"<!-- of phases.txt and phases.py: {made_of} -->\n"


if __name__ == "__main__":
    if "--check" in sys.argv:
        sys.exit(0 if DRAWING.read_text().endswith(mark()) else "docs/phases.svg is not of this phases.txt: run docs/phases.py")
    drawn = subprocess.run(["dot", "-Tsvg"], input=graph(), capture_output=True, text=True, check=True).stdout
    DRAWING.write_text(drawn + mark())
