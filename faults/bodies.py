#!/usr/bin/env python3
"""bodies.py [CRATE..]: tries the wrong bodies of faults/bodies, those of all crates where none is named. The prover must refuse each.

The gate tries the wrong bodies of crates/*/must-fail alone, since each costs half a minute, and the first of a crate a whole proof.
This runs `rt must-fail` on a copy of the crates, which first proves each named one and all below it. Its exit status is that of
`rt`."""
import pathlib
import shutil
import subprocess
import sys
import tempfile

ROOT = pathlib.Path(__file__).resolve().parent.parent
BODIES = ROOT / "faults/bodies"


def copy(names, room):
    """Copies the crates to a repository apart, with the wrong bodies of the named ones."""
    for crate in (ROOT / "crates").iterdir():
        shutil.copytree(crate, room / "crates" / crate.name, ignore=shutil.ignore_patterns("out", "must-fail"))
    for name in names:
        shutil.copytree(BODIES / name, room / "crates" / name / "must-fail")
    for file in ("crates.txt", "HANDLES"):
        shutil.copy(ROOT / file, room)
    # so that no repository above is taken for this one's
    (room / ".git").mkdir()


def main():
    known = sorted(it.name for it in BODIES.iterdir())
    names = sys.argv[1:] or known
    if not set(names) <= set(known):
        sys.exit(f"bodies.py takes names of crates: {' '.join(known)}")
    with tempfile.TemporaryDirectory(prefix="bodies-") as folder:
        room = pathlib.Path(folder)
        copy(names, room)
        return subprocess.run(["rt", "must-fail", *names], cwd=room).returncode


if __name__ == "__main__":
    sys.exit(main())
