#!/usr/bin/env python3
"""commit_counts.py TOOL [OTHER]: the instructions that TOOL takes for a store, a load and what is like them in a trace of beats and
commits, as a table of Markdown, and beside them those of OTHER. The last row is what a commit is measured by: a Get and its answer in
the same form of trace. It counts as counts.py does."""
import pathlib
import sys
import tempfile

from counts import Z, a_line

HELD = 1024  # blocks that the first link holds and may write
HEAD = "tltrace 4 8 none C+ UL"


def held():
    for i in range(HELD):
        yield f"00 A 7 1 6 {i % 256:02x} {64 * i:08x} ff - 0"
        yield f"00 D 4 0 6 {i % 256:02x} {i % 256:02x} 0 - 0"
        yield f"00 E {i % 256:02x}"


def store(i, word):
    yield f"00 S 3 {word:08x} {i:016x}"


def store_of_a_byte(i, word):
    yield f"00 S 0 {word + i % 8:08x} {i % 256:02x}"


def load(i, word):
    yield f"00 L 3 {word:08x} {Z}"


def load_of_a_byte(i, word):
    yield f"00 L 0 {word + i % 8:08x} 5a"


def store_and_load(i, word):
    yield f"00 S 3 {word:08x} {i:016x}"
    yield f"00 L 3 {word:08x} {i:016x}"


def load_that_began(i, word):
    yield f"00 I 3 {word:08x}"
    yield f"00 L 3 {word:08x} {Z}"


def get(i, word):
    """Of the second link, and its answer: nobody holds these blocks."""
    yield f"01 A 4 0 3 {i % 256:02x} {64 * HELD + word:08x} ff - 0"
    yield f"01 D 1 0 3 {i % 256:02x} 00 0 {Z} 0"


# Each with the number of its lines.
MEASURED = {
    "a store of 8 bytes": (store, 1), "a store of a byte": (store_of_a_byte, 1), "a load of 8 bytes": (load, 1),
    "a load of a byte": (load_of_a_byte, 1), "a store of 8 bytes, and a load of them": (store_and_load, 2),
    "a load of 8 bytes, and the line of its beginning": (load_that_began, 2), "a Get of 8 bytes, and its answer": (get, 2),
}


def trace_of(form):
    """A header, and the lines of a trace in which so many of a form are in words of as many blocks as are held, by turns."""
    def lines(count):
        yield from held()
        for i in range(count):
            yield from form(i, 64 * (i * 7919 % HELD) + 8 * (i // HELD % 8))
    return HEAD, lines


def main():
    tools = sys.argv[1:]
    if not 1 <= len(tools) <= 2:
        sys.exit("usage: commit_counts.py TOOL [OTHER]")
    print("| In a trace with stores and loads | `monitor` | `coherent` |\n|---|---|---|")
    with tempfile.TemporaryDirectory() as folder:
        for name, (form, lines) in MEASURED.items():
            cells = []
            for words in (["monitor"], ["coherent"]):
                seen = [lines * a_line(tool, words, pathlib.Path(folder), trace_of(form)) for tool in tools]
                cells.append(", ".join(f"{count:,.0f}" for count in seen))
            print(f"| {name} | " + " | ".join(cells) + " |", flush=True)


if __name__ == "__main__":
    main()
