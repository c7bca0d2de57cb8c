#!/usr/bin/env python3
"""uses.py TOOL DATA: tries wrong uses of TOOL in a copy of the folder DATA, each by its exit status and what it writes.

A row is a line of the shell, its status, and what is written to standard output and standard error, whole or, where it ends
in '..', its beginning. What is wanted is from docs/FORMATS.md, its table of slips, and the table of statuses in docs/COMMANDS.md; what
stands behind `error:` is clap's. The rows are in faults/rows, by subject. Ends with 'uses: N passed, M failed'."""
import os
import pathlib
import shutil
import subprocess
import sys
import tempfile

from rows import all_rows


def fits(wanted, written):
    return written.startswith(wanted[:-2]) if wanted.endswith("..") else written == wanted


def main():
    tool, data = (pathlib.Path(it).resolve() for it in sys.argv[1:3])
    rows, failed = all_rows(data), 0
    with tempfile.TemporaryDirectory() as room:
        place = shutil.copytree(data, pathlib.Path(room) / "data")
        environment = {**os.environ, "PATH": f"{tool.parent}:{os.environ['PATH']}"}
        for command, status, out, err in rows:
            ran = subprocess.run(["bash", "-c", command], cwd=place, env=environment, capture_output=True, timeout=60)
            written = [it.decode(errors="replace") for it in (ran.stdout, ran.stderr)]
            if (ran.returncode, fits(out, written[0]), fits(err, written[1])) != (status, True, True):
                failed += 1
                print(f"{command}: status {ran.returncode}, {written}; wanted {status}, {[out, err]}")
    print(f"uses: {len(rows) - failed} passed, {failed} failed")
    return 1 if failed else 0


if __name__ == "__main__":
    sys.exit(main())
