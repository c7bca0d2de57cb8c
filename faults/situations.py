#!/usr/bin/env python3
"""situations.py TOOL DATA: of each trace in the folder situations/ of DATA, whose name is a situation's, its last message begins
in that situation, and no message before it does: so TOOL's `cover` has to say, of the trace and of the trace without its last
line. There is a trace for each situation that it tells. The counts of each trace and of all together, and the text of their tables,
have to be those of bench/counting, which reads the lines. With a load of a core before each beat the counts are the same, and the
lines are those of the beats. Ends with 'situations: N passed, M failed'."""
import json
import pathlib
import subprocess
import sys

sys.path.insert(0, str(pathlib.Path(__file__).resolve().parent.parent / "bench"))
from counting.comparison import Comparison  # noqa: E402


def told(tool, trace):
    """What `cover --json` says of a trace."""
    return json.loads(subprocess.run([tool, "cover", "--json"], input=trace, capture_output=True, text=True, check=True).stdout)


def covered(tool, trace):
    """What `cover` says of a trace: the verdict, and how often and where first each situation came."""
    said = told(tool, trace)
    return said["verdict"], {row["name"]: (row["count"], row["line"]) for row in said["situations"]}


def is_right(tool, name, lines):
    """Whether the last line of a trace brings the situation, and no line before it does."""
    verdict, rows = covered(tool, "".join(lines))
    before, rows_before = covered(tool, "".join(lines[:-1]))
    return (
        verdict == f"clean {len(lines) - 1}"
        and before == f"clean {len(lines) - 2}"
        and rows.get(name) == (1, len(lines))
        and rows_before.get(name) == (0, None)
    )


def with_loads(lines):
    """The trace with a load before each beat, and a mark at its first level C; None if it has no such level."""
    _, version, *words = lines[0].split()
    liberties, levels = ("none", words) if version == "1" else (words[1], words[2:])
    if "C" not in levels:
        return None
    levels[levels.index("C")] = "C+"
    beats = [f"00 L 0 00000000 00\n{line}" for line in lines[1:]]
    return "".join([f"tltrace 4 8 {liberties} {' '.join(levels)}\n", *beats])


def passes_over(tool, lines):
    """Whether `cover` says the same of a trace with loads but for the number of lines: line N has become line 2N - 1."""
    loaded = with_loads(lines)
    if loaded is None:
        return True
    plain, said = told(tool, "".join(lines)), told(tool, loaded)
    for row in plain["situations"]:
        row["line"] = row["line"] and 2 * row["line"] - 1
    return said == {**plain, "verdict": f"clean {2 * (len(lines) - 1)}"}


def differing(tool, traces):
    """How many of its counts and tables `cover` has otherwise than bench/counting."""
    comparison = Comparison(tool)
    for name, lines in traces.items():
        comparison.add(name, "".join(lines))
    comparison.all_together()
    return comparison.differ


def main():
    tool, folder = pathlib.Path(sys.argv[1]).resolve(), pathlib.Path(sys.argv[2], "situations")
    traces = {path.stem: path.read_text().splitlines(keepends=True) for path in sorted(folder.glob("*.trace"))}
    names = covered(tool, next(iter(traces.values()))[0])[1].keys()
    wrong = [name for name, lines in traces.items() if not is_right(tool, name, lines)]
    wrong += [f"{name} has no trace" for name in names - traces.keys()]
    wrong += [f"{name} with loads" for name, lines in traces.items() if not passes_over(tool, lines)]
    for name in wrong:
        print(name)
    failed = len(wrong) + differing(tool, traces)
    print(f"situations: {2 * len(traces.keys() | names) - len(wrong)} passed, {failed} failed")
    sys.exit(bool(failed))


if __name__ == "__main__":
    main()
