#!/usr/bin/env python3
"""edits.py CRATE..: for each crate, proved before, the wall time of `rt check` after an edit of the body of one function that
leaves statements as they are: a needless `let` in the first function with a contract of its longest file. Checks the crate
once before, so that all below it is as it stands, and puts the file back."""
import pathlib
import re
import subprocess
import sys
import time

ROOT = pathlib.Path(__file__).resolve().parent.parent
BODY = re.compile(r"^\{\n", re.M)


def longest(crate):
    """The longest of a crate's files that has a function with a contract, or None, as in a crate of laws."""
    files = [it for it in (ROOT / "crates" / crate / "src").rglob("*.rt") if BODY.search(it.read_text())]
    return max(files, key=lambda it: len(it.read_text()), default=None)


def checked(crate):
    """The seconds of a check, and its last line."""
    began = time.time()
    ran = subprocess.run(["rt", "check"], cwd=ROOT / "crates" / crate, capture_output=True, text=True)
    verdict = [line for line in ran.stdout.splitlines() if line.startswith("logic=")]
    return time.time() - began, verdict[-1].split(" sum=")[0] if verdict else "not proved"


def main():
    for crate in sys.argv[1:]:
        file = longest(crate)
        if not file:
            print(f"{crate:14} has no function with a contract")
            continue
        text = file.read_text()
        checked(crate)
        try:
            file.write_text(BODY.sub("{\n    let _ = 0u8;\n", text, count=1))
            seconds, verdict = checked(crate)
        finally:
            file.write_text(text)
        print(f"{crate:14} {seconds:6.0f} s  {verdict}  ({file.name})", flush=True)


main()
