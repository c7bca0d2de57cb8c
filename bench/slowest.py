#!/usr/bin/env python3
"""slowest.py [N]: the N files (20 where it isn't said) of definitions, lemmas and functions that took longest to prove, of the
crates that `rt check --jobs 1` has proved here from nothing: the times between one file that the checker keeps and the next.
After a check with more jobs, as `make` runs it, a time is one in which no other job finished a file either."""
import pathlib
import sys


def waits(folder):
    """Seconds that each kept file came behind the one before, with its name."""
    kept = sorted((it.stat().st_mtime, it.name) for it in folder.glob("*.oantt"))
    for (before, _), (after, name) in zip(kept, kept[1:]):
        yield after - before, name.removeprefix("Rattle-").removesuffix(".oantt")


def main():
    number = int(sys.argv[1]) if len(sys.argv) > 1 else 20
    found = [it for folder in pathlib.Path("crates").glob("*/out/incremental/antt*") for it in waits(folder)]
    if not found:
        sys.exit("slowest.py: no crate is proved here")
    for seconds, name in sorted(found, reverse=True)[:number]:
        print(f"{seconds:6.1f} s  {name}")


main()
