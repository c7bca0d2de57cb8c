#!/usr/bin/env python3
"""proved.py [FOLDER]: writes what is proved of the packages, and by what: the toolchain, each crate with its number of functions and the
sum of its sources, and of FOLDER, which is packed, the sum of each file. It refuses where a verdict is missing, where sources
aren't those that were proved, or where what is packed isn't what was built of them."""
import pathlib
import subprocess
import sys

ROOT = pathlib.Path(__file__).resolve().parent.parent
sys.path.insert(0, str(ROOT / "tools"))
from verdicts import below, faults, noted, sum_of

# The crates of the command and of the library.
PROGRAMS = ("tltool", "hefrudyl")
HEAD = """\
Hefrudyl {version}, commit {commit}

Proved by {kit}, logic {logic}: each function of these crates meets its contract, is safe and ends.
docs/TRUST.md says what has to be believed, docs/PROOFS.md what the contracts say. From these crates
come the command tltool, and the library but for its memory, which is C over malloc. Not proved are
the headers, C++, SystemVerilog and Python, the compiler and the C library.

The sum beside a crate is the SHA-256 of its sources, which tools/verdicts.py computes.

"""
KEPT = """\
Of a crate that is kept the toolchain said that an earlier run on the same machine had proved the same
files over the same libraries; it doesn't say the number of its functions again.

"""
FILES = """
The files, each with its SHA-256: grep -E '^[0-9a-f]{64}  ' PROVED | sha256sum -c

"""


def list_files(folder):
    print(FILES, end="")
    for file in sorted(it for it in folder.rglob("*") if it.is_file() and not it.is_symlink() and it != folder / "PROVED"):
        print(f"{sum_of(file)}  {file.relative_to(folder)}")


def main():
    wanted = set().union(*map(below, PROGRAMS))
    notes = noted()
    wrong = list(faults(notes, wanted))
    if wrong:
        sys.exit("packaging/proved.py: what is here can't be packed as proved:\n" + "\n".join(wrong))
    said = lambda *words: subprocess.run(words, cwd=ROOT, capture_output=True, text=True, check=True).stdout.strip()
    version, commit = said("packaging/version"), said("git", "describe", "--always", "--dirty", "--abbrev=40", "--exclude=*")
    first = notes["tltool"]
    print(HEAD.format(version=version, commit=commit, kit=first["kit"], logic=first["logic"]), end="")
    kept = [crate for crate in wanted if notes[crate]["functions"] is None]
    print(KEPT if kept else "", end="")
    print(f"{'crate':15} {'functions':>9}  sources")
    for crate in sorted(wanted):
        print(f"{crate:15} {notes[crate]['functions'] or 'kept':>9}  {notes[crate]['sources']}")
    known = sum(notes[crate]["functions"] or 0 for crate in wanted)
    print(f"{len(wanted)} crates  {known} functions" + (f", and those of {len(kept)} kept crates" if kept else ""))
    for folder in map(pathlib.Path, sys.argv[1:]):
        list_files(folder)


main()
