#!/usr/bin/env python3
"""verdicts.py COMMAND..: runs a command, as `rt ci`, passes on what it writes, and notes in packaging/out/verdicts.json each crate
that it proved from nothing: by which toolchain, how many functions, of which sources, and what was built of them. A crate whose
sources changed meanwhile isn't noted, nor one of which an earlier check's work was taken; a file that wasn't built anew keeps its
note, where the sources are those of before. The exit status is the command's."""
import hashlib
import json
import pathlib
import re
import subprocess
import sys

ROOT = pathlib.Path(__file__).resolve().parent.parent
NOTES = ROOT / "packaging/out/verdicts.json"
# What is built of a crate, and packed.
BUILT = {"tltool": ("crates/tltool/out/tltool.o", "crates/tltool/out/tltool"), "hefrudyl": ("crates/hefrudyl/out/libhefrudyl.a",)}


def sum_of(file):
    return hashlib.sha256(file.read_bytes()).hexdigest()


def crates():
    """Each crate of crates.txt, with its line there and the libraries that it stands on."""
    lines = (ROOT / "crates.txt").read_text().splitlines()
    named = (re.fullmatch(r"(\w+)[^:]*:(.*)", line) for line in lines if line and not line.startswith("#"))
    return {found[1]: (found[0], found[2].split()) for found in named}


def below(crate):
    """A crate of the repository and those that it stands on."""
    known, left = set(), [crate]
    while left:
        name = left.pop()
        if name in crates() and name not in known:
            known.add(name)
            left += crates()[name][1]
    return known


def sources(crate):
    """The SHA-256 of a crate's sources: of a line for each file, its sum and its name, and the crate's line of crates.txt."""
    folder = ROOT / "crates" / crate
    files = sorted(it for part in ("src", "specs", "proofs") for it in (folder / part).rglob("*") if it.suffix in (".rt", ".antt"))
    lines = [f"{sum_of(it)}  {it.relative_to(folder)}" for it in files if it.is_file()]
    return hashlib.sha256("\n".join([*lines, crates()[crate][0], ""]).encode()).hexdigest()


def noted():
    """What earlier runs noted of each crate."""
    return json.loads(NOTES.read_text()) if NOTES.exists() else {}


def faults(notes, wanted):
    """Why what is here isn't what was proved, of these crates."""
    for crate in sorted(wanted):
        if crate not in notes:
            yield f"{crate}: no verdict is noted: run `make proved`"
        elif notes[crate]["sources"] != sources(crate):
            yield f"{crate}: its sources aren't those that were proved: run `make proved`"
        else:
            for file in BUILT.get(crate, ()):
                if not (ROOT / file).exists():
                    yield f"{file}: isn't there: run `make proved`"
                elif notes[crate].get("built", {}).get(file) != sum_of(ROOT / file):
                    yield f"{file}: isn't what was built of the proved sources: run `make proved`"
    for word in ("kit", "logic"):
        if len({notes[crate][word] for crate in wanted if crate in notes}) > 1:
            yield f"not all crates were proved by the same {word}"


def verdicts(lines):
    """Each crate that lines of `rt` say is proved from nothing, with its number of functions and the sum of its logic. Of a crate that
    is kept, since `rt ci` proved the same files in an earlier run on this machine, it says neither."""
    crate = None
    for line in lines:
        kept = re.match(r"rt: (\w+) is kept: an earlier run on this machine proved the same files", line)
        if kept:
            yield kept[1], None, None
        named = re.match(r"(?:fn|struct|enum|trait|impl) (\w+)::", line)
        if named or line.startswith("== "):
            crate = named[1] if named else line.split()[-1]
        found = re.match(r"logic=proved functions=(\d+).* sum=(\w+)", line)
        if found and crate and " tests=" not in line and " incremental=trusted" not in line:
            yield crate, int(found[1]), found[2]


def run(command):
    """Runs it, and returns its lines and its exit status."""
    lines = []
    child = subprocess.Popen(command, stdout=subprocess.PIPE, stderr=subprocess.STDOUT, errors="replace", text=True)
    for line in child.stdout:
        print(line, end="", flush=True)
        lines.append(line)
    return lines, child.wait()


def stamp_of(file):
    return (ROOT / file).stat().st_mtime_ns if (ROOT / file).exists() else 0


def note(notes, lines, before, stamps):
    """Notes the crates that lines of `rt` say are proved, with what was built of them meanwhile."""
    kit, _, kits_logic = subprocess.run(["rt", "version"], capture_output=True, text=True, check=True).stdout.split()[:3]
    for crate, functions, logic in verdicts(lines):
        if crate in before and sources(crate) == before[crate]:
            same = notes.get(crate) if notes.get(crate, {}).get("sources") == before[crate] else {}
            anew = {file: sum_of(ROOT / file) for file in BUILT.get(crate, ()) if stamp_of(file) > stamps[file]}
            notes[crate] = {"kit": kit, "logic": logic or kits_logic, "functions": functions or same.get("functions"),
                            "sources": before[crate], "built": {**same.get("built", {}), **anew}}


def main():
    before = {crate: sources(crate) for crate in crates()}
    stamps = {file: stamp_of(file) for files in BUILT.values() for file in files}
    lines, status = run(sys.argv[1:])
    notes = noted()
    note(notes, lines, before, stamps)
    NOTES.parent.mkdir(parents=True, exist_ok=True)
    NOTES.write_text(json.dumps(notes, indent=1, sort_keys=True) + "\n")
    return status


if __name__ == "__main__":
    sys.exit(main())
