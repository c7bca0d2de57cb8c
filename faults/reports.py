#!/usr/bin/env python3
"""reports.py TOOL DATA: judges traces of the folder DATA with TOOL's `--report` and `--junit`, reads what was written by Python's
json and xml, and compares it with what is computed here of the trace, and with what the command writes without them. Ends with
'reports: N passed, M failed'."""
import collections
import hashlib
import json
import pathlib
import re
import shutil
import subprocess
import sys
import tempfile
import xml.etree.ElementTree

from traces.beats import COMMITS, KINDS, OPCODES
from traces.reports import CLEAN, LETTERS

# How a trace is given: as a file or on standard input, and what is done to it before.
TRACES = [
    ("two_caches.trace", "cat"),
    ("wrong_report.trace", "cat"),
    ("three_faults.trace", "cat"),
    ("three_faults.trace", "head -c -1"),
    ("three_faults.trace", "tail -n +2"),
    ("rules/M1.trace", "cat"),
    ("rules/M3_right.trace", "cat"),
    ("two_caches.trace", "head -n 1"),
    ("two_caches.trace", "head -c 0"),
    ("two_caches.trace", "sed '1s/$/ \"\\\\é/'"),
    ("two_caches.trace", "sed '5s/$/\"/'"),
    ("two_caches.trace", "sed '1s/.*/tltrace 4 8 early,drops C C/'"),
    ("two_caches.trace", "sed '1s/.*/tltrace 4 8 ids,drops C C/'"),
    ("wrong_report.trace", "sed '1s/.*/tltrace 4 8 standard C/'"),
    ("rules/M6.trace", "cat"),
    ("rules/M7_dropped.trace", "cat"),
    ("rules/M5_begun.trace", "cat"),
    ("rules/M6_right.trace", "sed '1s/C+/UH C C+/; s/^00/02/'"),
    ("rules/M6.trace", "sed '5s/ 05$//'"),
    ("two_caches.trace", "sed -e '1s/.*/tltrace 4 8 none C+ C+/' -e '11a 00 S 0 00000000 5a' -e '19a 01 I 3 00000008' -e '19a 00 L 0 00000000 5a'"),
]
OPTIONS = [[], ["--all", "1"], ["--all", "2"], ["--all", "100"]]


def run(words, place, **given):
    ran = subprocess.run([*map(str, words)], cwd=place, capture_output=True, timeout=60, **given)
    return ran.returncode, ran.stdout.decode(), ran.stderr.decode()


def kind(line):
    """The link, channel and message of a beat's line, or the letter and kind of a commit's."""
    link, letter, third = line.split(" ")[:3]
    if letter in COMMITS:
        return int(link, 16), letter, KINDS[COMMITS.index(letter)]
    return int(link, 16), letter, "GrantAck" if letter == "E" else OPCODES[letter][int(third, 16)]


def rank(kind):
    """The rank of an entry: by link, and then the beats by channel and opcode, and the commits."""
    link, letter, message = kind
    return link, LETTERS.index(letter), OPCODES.get(letter, [message]).index(message)


def judged(tool, command, most, trace, place):
    """The lines at fault, at most so many, the header, and the lines whose beats are taken, by the command's text alone."""
    _, text, _ = run([tool, command, "--all", most, trace], place)
    faults = [(int(number), code) for number, code in re.findall(r"^line (\d+) (\w+)$", text, re.M)]
    lines = trace.read_bytes().decode("latin-1").split("\n")
    if faults[:1] == [(1, "F7")]:
        return faults, None, []
    ended = faults[-1][0] if len(faults) == int(most) else len(lines)
    at_fault = {number for number, _ in faults}
    return faults, lines[0], [line for number, line in enumerate(lines, 1) if 1 < number <= ended and number not in at_fault and line]


class Checks:
    def __init__(self):
        self.passed, self.failed = 0, 0

    def want(self, what, found, wanted):
        if found == wanted:
            self.passed += 1
        else:
            self.failed += 1
            print(f"{what}: {found!r}; wanted {wanted!r}")


def sentences(tool, place):
    """What `explain` says of a code."""
    return lambda code: run([tool, "explain", code], place)[1].split("\n")[0]


def one(checks, tool, command, options, trace, piped, place, version, says):
    what = f"{command} {' '.join(options)} of {trace.name}"
    words = [tool, command, *options]
    plain = run([*words, trace], place)
    given = {"input": trace.read_bytes()} if piped else {}
    reports = ["--report", "r.json", "--junit", "r.xml"]
    told = run([*words, *reports, *([] if piped else [trace])], place, **given)
    checks.want(f"{what}: the same verdict", told, plain)
    faults, header, taken = judged(tool, command, options[1] if options else "1", trace, place)
    bytes_read = trace.read_bytes()
    counts = collections.Counter(map(kind, taken))
    text = (place / "r.json").read_text()
    checks.want(f"{what}: one line", text.count("\n"), 1)
    checks.want(f"{what}: the report", json.loads(text), {
        "beats": len(taken),
        "command": command,
        "counts": [{"beats": counts[it], "channel": it[1], "link": it[0], "message": it[2]} for it in sorted(counts, key=rank)],
        "faults": [{"line": number, "rule": code, "sentence": says(code)} for number, code in faults],
        "input": {"bytes": len(bytes_read), "header": header, "sha256": hashlib.sha256(bytes_read).hexdigest()},
        "tool": {"name": "tltool", "proved_with": version[1], "version": version[0]},
        "verdict": "broken" if faults else CLEAN[command],
    })
    suite = xml.etree.ElementTree.parse(place / "r.xml").getroot()
    checks.want(f"{what}: the suite", (suite.tag, suite.attrib), ("testsuite", {"name": f"tltool {command}", "tests": str(max(1, len(faults))), "failures": str(len(faults))}))
    checks.want(f"{what}: its properties", {it.get("name"): it.get("value") for it in suite.find("properties")}, {
        "version": version[0], "proved_with": version[1], "sha256": hashlib.sha256(bytes_read).hexdigest(), "bytes": str(len(bytes_read)), "beats": str(len(taken)),
    })
    cases = [(it.attrib, [(inner.tag, inner.attrib) for inner in it]) for it in suite.findall("testcase")]
    named = lambda name: {"classname": f"tltool.{command}", "name": name}
    checks.want(f"{what}: its test cases", cases, [
        (named(f"line {number}"), [("failure", {"type": code, "message": says(code)})]) for number, code in faults
    ] or [(named(CLEAN[command]), [])])


def failing(checks, tool, place):
    """A report that can't be written: status 3, and the verdict as it is."""
    for command in ("monitor two_caches.trace", "coherent wrong_report.trace", "monitor --all 5 three_faults.trace"):
        plain = run([tool, *command.split()], place)
        for option in ("--report", "--junit"):
            for target, said in (("/dev/full", "tltool: write failed\n"), ("nowhere/r", "tltool: cannot open nowhere/r\n"), (".", "tltool: cannot open .\n")):
                told = run([tool, *command.split(), option, target], place)
                checks.want(f"{command} {option} {target}", told, (3, plain[1], said))
        both = run([tool, *command.split(), "--report", "/dev/full", "--junit", "kept.xml"], place)
        checks.want(f"{command}: one of two reports fails", both, (3, plain[1], "tltool: write failed\n"))
        checks.want(f"{command}: the other is written", (place / "kept.xml").read_text()[:5], "<?xml")


def main():
    tool, data = (pathlib.Path(it).resolve() for it in sys.argv[1:3])
    checks = Checks()
    with tempfile.TemporaryDirectory() as room:
        place = pathlib.Path(shutil.copytree(data, pathlib.Path(room) / "data"))
        says = sentences(tool, place)
        first, second = run([tool, "--version"], place)[1].splitlines()
        version = (first.removeprefix("tltool "), second.removeprefix("proved with "))
        for number, (name, change) in enumerate(TRACES):
            trace = place / f"trace_{number}"
            subprocess.run(["bash", "-c", f"{change} {name} >{trace.name}"], cwd=place, check=True)
            for command in ("monitor", "coherent"):
                for options in OPTIONS:
                    one(checks, tool, command, options, trace, number % 2 == 1, place, version, says)
        seeded = place / "seeded"
        subprocess.run(["bash", "-c", f"{tool} random --seed 7 --events 20000 | {tool} run --trace >{seeded.name}"], cwd=place, check=True)
        for command in ("monitor", "coherent"):
            one(checks, tool, command, [], seeded, False, place, version, says)
        failing(checks, tool, place)
    print(f"reports: {checks.passed} passed, {checks.failed} failed")
    return 1 if checks.failed else 0


if __name__ == "__main__":
    sys.exit(main())
