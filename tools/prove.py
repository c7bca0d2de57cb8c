#!/usr/bin/env python3
"""prove.py CRATE..: proves programs and static libraries of the repository and what they stand on, several crates at once, and
builds them. Where it is noted that what stands in crates/CRATE/out was built of the sources as they are, there is nothing to do.

A library is taken as it stands in crates/CRATE/out/rlib where an earlier run of this script, or `rt ci` in this checkout, proved it
of the sources as they are, and all that it stands on too. Each other crate is checked from nothing by `rattle build`, as `rt ci`
does it: with the same flags, over libraries that hold statements alone, and the last line of the check may have no word that
`rt ci` refuses in this repository. The first crate that isn't proved ends the run. RT_JOBS=N has it use N processors."""
import contextlib
import fcntl
import hashlib
import os
import pathlib
import re
import shutil
import signal
import subprocess
import sys
import tempfile

import lanes
from verdicts import BUILT, ROOT, below, crates, faults, noted, sources

CORES = int(os.environ.get("RT_JOBS") or 0) or len(os.sched_getaffinity(0))
# What checks may take of the free memory.
SPARED = 0.85
# The processor seconds and the gigabytes of each crate's check, and the most jobs that make it faster where these are fewer than
# lanes.MOST_JOBS. A crate that isn't listed counts by its lines.
COSTS = pathlib.Path(__file__).with_name("costs.txt")
SECONDS_OF_A_LINE = 0.2
BYTES = 3_000_000_000
# The last line of a check from nothing, with the words that it may have. Others say that the verdict covers less, as `hides`, or
# rests on more, as `incremental`, or that the program takes handles, as `main`.
VERDICT = re.compile(
    r"^logic=proved functions=\d+( (axioms|target|cpu)=\S+)* sum=\w+ native=nat,char,string"
    r" logic-built=trusted libraries-built=trusted statements=trusted$",
    re.M,
)
EMPTY = re.compile(r"^(warning: no call of `(?![^`]*::fn::)|note: the search for empty contracts did not end)", re.M)


def said(*words):
    return subprocess.run(words, capture_output=True, text=True, check=True).stdout.strip()


def out(crate):
    return ROOT / "crates" / crate / "out"


def mark_of(crate):
    """The file beside a proved library that says of what it was proved: its stamp, and the last line of its check. Whatever builds
    the library in another way removes the folder first."""
    return out(crate) / "rlib/proved"


def left_by_ci(crate, notes, sums):
    """Whether the library that `rt ci` proved of these sources is in the crate's folder. One that `rt check` made has a stamp."""
    made = out(crate) / "rlib"
    others = (made / "stamp").exists() or mark_of(crate).exists()
    return crate in notes and notes[crate]["sources"] == sums[crate] and (made / f"{crate}.rlib/format").exists() and not others


def words(crate, kit, jobs):
    """What `rattle` is told in a crate's folder to check and build it."""
    known = crates()
    rlibs = {name: f"../{name}/out/rlib" if name in known else kit / "rlibs" for name in ("std", *known[crate][1])}
    named = [word for name, folder in rlibs.items() for word in ("--extern", f"{name}={folder}/{name}.rlib")]
    folders = [kit / "rlibs", *(f"../{name}/out/rlib" for name in sorted(below(crate) - {crate}))]
    named += [word for folder in folders for word in ("-L", f"dependency={folder}")]
    logic = ["--antt-project", kit / "rattle/logic/antt-project.json", "--logic-built", kit / "logic_built"]
    how = ["--crate-name", crate, *named, *logic, "--links", f"{crate}=", "--empty-contracts", "--jobs", str(jobs)]
    if crate not in BUILT:
        return ["build", "src/lib.rt", *how, "--statements", "-o", f"out/rlib/{crate}.rlib"]
    made = ROOT / BUILT[crate][0]
    kind = ["src/lib.rt", "--crate-type", "staticlib"] if made.suffix == ".a" else ["src/main.rt"]
    return ["build", *kind, *how, "--toolchain", kit / "toolchain", "--backend", "llvm", "-o", made]


def link(made, kit):
    """Links a program's object file, and returns the status."""
    how = ["--target", "x86_64-unknown-linux-gnu", "--toolchain", kit / "toolchain", "-o", made.with_suffix("")]
    return subprocess.run([kit / "bin/rattle-link", *how, made, kit / "c/libos_c.a", kit / "c/liblibc_c.a"]).returncode


def tasks(todo):
    """The checks of crates, with what each is likely to take."""
    lines = (line.split() for line in COSTS.read_text().splitlines() if line and not line.startswith("#"))
    known = {
        crate: (float(seconds), int(float(gigabytes) * 1e9), *map(int, most)) for crate, seconds, gigabytes, *most in lines
    }
    for crate in sorted(todo):
        count = sum(it.read_bytes().count(b"\n") for it in (ROOT / "crates" / crate / "src").rglob("*.rt"))
        yield lanes.Task(crate, frozenset(todo & below(crate) - {crate}), *known.get(crate, (SECONDS_OF_A_LINE * count, BYTES)))


def memory():
    """The bytes of memory that checks may take."""
    found = re.search(r"^MemAvailable:\s+(\d+)", pathlib.Path("/proc/meminfo").read_text(), re.M)
    return SPARED * 1024 * int(found[1]) if found else 0


class Proofs:
    """Checks of crates, whose output lies in a folder until they have ended."""

    def __init__(self, wanted, room):
        self.kit, self.version = pathlib.Path(said("rt", "doc")).parent, said("rt", "version").split()[0]
        self.room = room
        self.sums = {crate: sources(crate) for crate in wanted}
        self.below = {crate: below(crate) for crate in wanted}

    def stamp(self, crate):
        """The toolchain, and a sum of the sources of a crate and of all that it stands on."""
        whole = "".join(f"{it} {self.sums[it]}\n" for it in sorted(self.below[crate]))
        return f"{self.version} {hashlib.sha256(whole.encode()).hexdigest()}"

    def standing(self):
        """The libraries that stand here as proved, each with the last line of its check where this script proved it."""
        notes, found = noted(), {}
        for crate in sorted(self.sums.keys() - BUILT.keys(), key=lambda it: len(self.below[it])):
            stamp, _, verdict = mark_of(crate).read_text().partition("\n") if mark_of(crate).exists() else ("", "", "")
            is_marked = stamp == self.stamp(crate)
            if self.below[crate] - {crate} <= found.keys() and (is_marked or left_by_ci(crate, notes, self.sums)):
                found[crate] = verdict
        return found

    def start(self, task, jobs):
        """Begins a check, without what an earlier one left of the library."""
        crate = task.name
        if crate not in BUILT:
            shutil.rmtree(out(crate) / "rlib", ignore_errors=True)
        (out(crate) / ("" if crate in BUILT else "rlib")).mkdir(parents=True, exist_ok=True)
        command = [self.kit / "bin/rattle", *words(crate, self.kit, jobs)]
        with (self.room / crate).open("wb") as log:
            how = {"stdin": subprocess.DEVNULL, "stdout": log, "stderr": subprocess.STDOUT, "start_new_session": True}
            return subprocess.Popen(command, cwd=ROOT / "crates" / crate, **how)

    def fault(self, crate, status, wrote):
        """Why a check that ended proves nothing, or None."""
        if status:
            return "its check was killed, most likely for memory" if status < 0 else "its check says why"
        if not VERDICT.search(wrote):
            return "the last line has a word that a verdict may not have"
        if EMPTY.search(wrote):
            return "no call can meet a contract, or the search for such contracts did not end"
        return None if sources(crate) == self.sums[crate] else "its sources were changed while they were checked"

    def end(self, it):
        """Passes on what a check wrote, and says what it took. Marks a library as proved, links a program. Returns what is wrong, or
        None."""
        crate, wrote = it.task.name, (self.room / it.task.name).read_text(errors="replace")
        why = self.fault(crate, it.status, wrote)
        # so that nobody takes the line for a verdict
        print(f"== {crate}\n{re.sub('^logic=proved', 'refused: logic=proved', wrote, flags=re.M) if why else wrote}", end="")
        took = f"{it.seconds:.0f} s of processor time, {it.wall_seconds:.0f} s of wall time, {it.bytes / 1e9:.1f} GB"
        print(f"prove.py: {crate} took {took}, with --jobs {it.jobs}", flush=True)
        if not why and crate not in BUILT:
            mark_of(crate).write_text(f"{self.stamp(crate)}\n{VERDICT.search(wrote)[0]}\n")
        elif not why and BUILT[crate][0].endswith(".o") and link(ROOT / BUILT[crate][0], self.kit):
            return "its object file can't be linked"
        return why


def prove(names, room):
    """Proves and builds these crates. Returns the exit status."""
    proofs = Proofs(set().union(*map(below, names)), room)
    kept = proofs.standing()
    for crate, verdict in kept.items():
        print(f"== {crate}\n{verdict}prove.py: {crate} is kept: the same files were proved before", flush=True)
    todo = proofs.sums.keys() - kept.keys()
    with contextlib.closing(lanes.run(list(tasks(todo)), proofs.start, CORES, memory())) as ended:
        for it in ended:
            if why := proofs.end(it):
                print(f"prove.py: {it.task.name} NOT PROVED: {why}", flush=True)
                return 1
    return 0


def hold(names):
    """Waits until no rt works in the folders of these crates, and keeps others out, as rt does, until what it returns is closed."""
    held = contextlib.ExitStack()
    for crate in sorted(names):
        number = os.open(ROOT / "crates" / crate, os.O_RDONLY)
        held.callback(os.close, number)
        try:
            fcntl.flock(number, fcntl.LOCK_EX | fcntl.LOCK_NB)
        except BlockingIOError:
            print(f"prove.py: waiting for another run in crates/{crate}", flush=True)
            fcntl.flock(number, fcntl.LOCK_EX)
    return held


def main():
    # so that checks end with this, as they do at an exception
    for number in (signal.SIGINT, signal.SIGTERM, signal.SIGHUP):
        signal.signal(number, lambda number, _: sys.exit(128 + number))
    notes = noted()
    left = [crate for crate in sys.argv[1:] if list(faults(notes, below(crate)))]
    if not left:
        print(f"{' '.join(sys.argv[1:])}: proved and built of these sources before")
        return 0
    with hold(set().union(*map(below, left))), tempfile.TemporaryDirectory(prefix="prove-") as folder:
        return prove(left, pathlib.Path(folder))


if __name__ == "__main__":
    sys.exit(main())
