#!/usr/bin/env python3
"""conformance.py MAP..: tries the example's designs, each without a bug and with each of its bugs, by `tl-conform` with 20 seeds, and
writes rows for docs/CONFORMANCE.md: in how many seeds a bug is found, by what, in which cycle (median and last), and the situations.
MAP is one of the maps in benches/conformance, as tl_cache. Words of the form --NAME=VALUE go to tl-conform. What is built lies in
benches/out."""
import collections
import pathlib
import re
import statistics
import subprocess
import sys
import xml.etree.ElementTree as ElementTree

ROOT = pathlib.Path(__file__).resolve().parent.parent
FOLDER = ROOT / "benches/conformance"
SIDES = {"tl_home": ("manager", 3), "tl_cache": ("client", 9), "tl_liberal_cache": ("client", 7), "tl_device": ("client", 0), "tl_ram": ("device", 9)}


def run(name, bug, words):
    """What the command writes, and the report of its seeds."""
    side, _ = SIDES[name]
    out = ROOT / f"benches/out/table_{name}"
    done = subprocess.run([FOLDER / "tl-conform", f"--{side}", "--map", FOLDER / f"{name}.toml", "--out", out, *words,
                           *(["--set", f"bug={bug}"] if bug else [])], stdout=subprocess.PIPE, stderr=subprocess.PIPE, text=True)
    if done.returncode > 1:
        sys.exit(done.stderr)
    return done.stdout, ElementTree.parse(out / "junit.xml").getroot()


def row(name, bug, words):
    told, suite = run(name, bug, words)
    cycles = collections.defaultdict(list)
    for failure in suite.iter("failure"):
        cycles[failure.get("message")].append(int(re.match(r"cycle (\d+)", failure.text)[1]))
    found = sum(map(len, cycles.values()))
    by = sorted(cycles, key=lambda it: -len(cycles[it]))
    names = ", ".join(it if len(by) == 1 else f"{it} ({len(cycles[it])})" for it in by) or "not found"
    places = "; ".join(f"{statistics.median(cycles[it]):.0f}, {max(cycles[it])}" if len(cycles[it]) > 1 else str(cycles[it][0]) for it in by)
    situations = next(it for it in told.splitlines() if " situations seen" in it)
    return f"| {bug} | {found} of {suite.get('tests')} | {names} | {places} | {situations}"


def main():
    words = [it for it in sys.argv[1:] if it.startswith("--")]
    for name in [it for it in sys.argv[1:] if not it.startswith("--")]:
        print(f"{name}:", flush=True)
        for bug in range(SIDES[name][1] + 1):
            print(row(name, bug, words), flush=True)


if __name__ == "__main__":
    main()
