#!/usr/bin/env python3
"""counts.py TOOL [OTHER]: the instructions a line that TOOL takes on four traces, as a table of Markdown, and beside them those
of OTHER. The last column has the same beats as wide lines. `valgrind --tool=callgrind` counts; what a command takes once is left
out, since a number is the difference of two lengths, over the lines between them."""
import pathlib
import re
import subprocess
import sys
import tempfile

Z = "0123456789abcdef"
SHORT, LONG = 30_000, 90_000


def gets(count):
    """One link at UL: Gets of 8 bytes and their answers in turn."""
    for i in range(count // 2):
        yield f"00 A 4 0 3 {i % 256:02x} {8 * i:08x} ff - 0"
        yield f"00 D 1 0 3 {i % 256:02x} 00 0 {Z} 0"


def transfers(count):
    """Sixteen links at C: each block in turn acquired whole, granted, acknowledged and probed."""
    for i in range(count // 12):
        link, source, block = i % 16, i % 256, 64 * (i * 7919 % 1048576)
        yield f"{link:02x} A 6 1 6 {source:02x} {block:08x} ff - 0"
        yield from [f"{link:02x} D 5 0 6 {source:02x} {source:02x} 0 {Z} 0"] * 8
        yield f"{link:02x} E {source:02x}"
        yield f"{link:02x} B 6 2 6 00 {block:08x} ff - 0"
        yield f"{link:02x} C 4 1 6 00 {block:08x} - 0"


def holds(count):
    """One link at C: a block more held after each three lines."""
    for i in range(count // 3):
        source, block = i % 256, 64 * (i * 7919 % 67108859)
        yield f"00 A 7 1 6 {source:02x} {block:08x} ff - 0"
        yield f"00 D 4 0 6 {source:02x} {source:02x} 0 - 0"
        yield f"00 E {source:02x}"


def puts(count):
    """One link at UH: Puts of 64 bytes and their answers."""
    for i in range(count // 9):
        yield from [f"00 A 0 0 6 {i % 256:02x} {64 * (i % 67108864):08x} ff {Z} 0"] * 8
        yield f"00 D 0 0 6 {i % 256:02x} 00 0 - 0"


def widened(line):
    """The line of a beat of 8 bytes as that of a wide beat: longer sources, sinks and addresses."""
    fields = line.split(" ")
    if fields[1] == "E":
        return " ".join(fields[:2] + ["00" + fields[2]])
    longer = "00000000" if fields[1] in "ABC" else "00"
    return " ".join(fields[:5] + ["00" + fields[5], longer + fields[6]] + fields[7:])


def widened_trace(trace):
    """The header and the lines of a trace of 8 bytes a beat in wide form."""
    head, lines = trace
    return head.replace("tltrace 1", "tltrace 5 8 none"), lambda count: map(widened, lines(count))


TRACES = {
    "one link at UL, Gets and their answers": ("tltrace 1 UL", gets),
    "sixteen links at C, transfers of many blocks": ("tltrace 1" + 16 * " C", transfers),
    "one link at C that comes to hold many blocks": ("tltrace 1 C", holds),
    "bursts of 64 bytes": ("tltrace 1 UH", puts),
}
COMMANDS = {"decode": ["decode"], "monitor": ["monitor"], "monitor --allow all": ["monitor", "--allow", "standard,uncorrupt"],
            "coherent": ["coherent"], "explain": ["explain"], "cover": ["cover"]}


def instructions(words):
    """How many instructions a command takes."""
    ran = subprocess.run(["valgrind", "--tool=callgrind", "--callgrind-out-file=/dev/null", *words], capture_output=True, text=True)
    return int(re.search(r"Collected : (\d+)", ran.stderr)[1])


def a_line(tool, words, room, trace):
    """The instructions for each line, of those between the two lengths."""
    head, lines = trace
    counts = []
    for length in (SHORT, LONG):
        file = room / str(length)
        whole = ([] if words == ["decode"] else [head]) + list(lines(length))
        file.write_text("\n".join(whole) + "\n")
        counts.append((instructions([tool, *words, file]), len(whole)))
    (less, shorter), (more, longer) = counts
    return (more - less) / (longer - shorter)


def main():
    tools = sys.argv[1:]
    if not 1 <= len(tools) <= 2:
        sys.exit("usage: counts.py TOOL [OTHER]")
    columns = [(f"`{command}`", words, lambda trace: trace) for command, words in COMMANDS.items()]
    columns.append(("`monitor`, wide lines", ["monitor"], widened_trace))
    print("| Trace |" + "".join(f" {title} |" for title, _, _ in columns))
    print("|---|" + len(columns) * "---|")
    with tempfile.TemporaryDirectory() as folder:
        for name, trace in TRACES.items():
            cells = []
            for _, words, form in columns:
                seen = [a_line(tool, words, pathlib.Path(folder), form(trace)) for tool in tools]
                cells.append(", ".join(f"{count:,.0f}" for count in seen))
            print(f"| {name} | " + " | ".join(cells) + " |", flush=True)


if __name__ == "__main__":
    main()
