#!/usr/bin/env python3
"""drops.py [N]: the N functions (20 where it isn't said) into which the toolchain has written most drops, of the crates whose
libraries stand here: the drops, the parts of the function's code as the prover reads it, and its name. A drop takes the prover some
0.3 seconds of processor time. A value that is dropped by one call, `drop(value)`, counts once, however many parts it has."""
import json
import pathlib
import re
import sys

DROP = re.compile(r'"Call": \[\{"Fn": \["[^"]*::drop"')


def parts(code):
    """The number of parts of a function's code."""
    found = 0
    todo = [code]
    while todo:
        it = todo.pop()
        if isinstance(it, dict):
            found += len(it)
            todo += it.values()
        elif isinstance(it, list):
            todo += it
    return found


def main():
    number = int(sys.argv[1]) if len(sys.argv) > 1 else 20
    found = []
    for library in pathlib.Path("crates").glob("*/out/rlib/*.rlib"):
        for name, function in json.loads((library / "toolchain/mir.json").read_text()):
            if name.startswith(f"{library.stem}::"):
                found.append((len(DROP.findall(json.dumps(function["body"]))), parts(function["body"]), name))
    if not found:
        sys.exit("drops.py: no library stands here")
    for drops, size, name in sorted(found, reverse=True)[:number]:
        print(f"{drops:4} {size:5}  {name}")


main()
