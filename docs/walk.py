#!/usr/bin/env python3
"""walk.py TOOL: runs the commands that README.md and docs/*.md show, and compares what they write with what the pages show.

A block of lines that are indented by four spaces is a session where one of them begins with '$ '. What follows a command,
up to the next '$ ', is what it writes; a line '...' stands for any lines. A backslash at the end of a command's line continues it.
A block without '$ ' isn't run. Each page's sessions run in one shell after another, in a copy of the folder of examples, with TOOL
on the path. Ends with 'walk: N passed, M failed'."""
import os
import pathlib
import re
import shutil
import subprocess
import sys
import tempfile

ROOT = pathlib.Path(__file__).resolve().parent.parent
PAGES = ["README.md", "docs/COMMANDS.md", "docs/CI.md", "docs/TUTORIAL.md", "docs/FORMATS.md", "docs/PROTOCOL.md"]
# What sets up the reader's shell, which the walk has done.
LEFT_OUT = re.compile(r"export PATH=|cd crates/|cp -r ")


def sessions(text):
    """The blocks of a page, each a list of commands with what the page shows of them."""
    for block in re.findall(r"(?:^    .*\n|^\n(?=    ))+", text, re.M):
        lines = [line[4:] for line in block.splitlines() if line.strip() or line.startswith("    ")]
        if not any(line.startswith("$ ") for line in lines):
            continue
        commands, here, goes_on = [], None, False
        for line in lines:
            if line.startswith("$ "):
                commands.append([line[2:], []])
                here = re.search(r"<<'(\w+)'", line)
                goes_on = line.endswith("\\")
            elif goes_on:
                commands[-1][0] += "\n" + line
                goes_on = line.endswith("\\")
            elif here:
                commands[-1][0] += "\n" + line
                here = None if line == here[1] else here
            elif commands:
                commands[-1][1].append(line)
        yield commands


def agrees(shown, written):
    """Whether lines are as shown, where a line '...' stands for any."""
    pattern = "".join(r"(?:.*\n)*" if line == "..." else re.escape(line) + r"\n" for line in shown)
    return re.fullmatch(pattern, written) is not None


def walk(page, text, run):
    """Runs a page's commands by `run`, which returns what one wrote, and returns how many wrote what is shown and how many
    did not."""
    passed = failed = 0
    for commands in sessions(text):
        for command, shown in commands:
            if LEFT_OUT.match(command):
                continue
            written = run(command)
            if agrees(shown, written):
                passed += 1
            else:
                failed += 1
                print(f"{page}: $ {command}\nshown:\n" + "\n".join(shown) + f"\nwritten:\n{written}")
    return passed, failed


def walk_here(page, tool, room):
    """The same in a copy of the folder of examples, with TOOL on the path."""
    place = room / page.replace("/", "-")
    shutil.copytree(ROOT / "crates/tl_examples/data", place)
    how = {"cwd": place, "env": {**os.environ, "PATH": f"{tool.parent}:{os.environ['PATH']}"}, "timeout": 120}

    def run(command):
        ran = subprocess.run(["bash", "-c", command], capture_output=True, text=True, **how)
        return ran.stdout + ran.stderr

    return walk(page, (ROOT / page).read_text(), run)


def main():
    tool = pathlib.Path(sys.argv[1]).resolve()
    with tempfile.TemporaryDirectory() as room:
        counts = [walk_here(page, tool, pathlib.Path(room)) for page in PAGES]
    passed, failed = map(sum, zip(*counts))
    print(f"walk: {passed} passed, {failed} failed")
    return 1 if failed else 0


if __name__ == "__main__":
    sys.exit(main())
