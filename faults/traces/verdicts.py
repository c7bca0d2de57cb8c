"""The verdicts on a wide trace, and its situations, by those of the narrow trace that it becomes."""
import json

from traces.command import of
from traces.narrow import narrow


def wanted(tool, words, trace):
    """The status and the verdict on a wide trace, by that on the narrow one."""
    becomes = narrow(trace)
    status, verdict = of(tool, *words, text=becomes.text())
    if verdict.startswith("line "):
        _, line, rule = verdict.split()
        return status, f"line {becomes.owner(int(line))} {rule}\n"
    if becomes.beyond:
        return 1, f"line {becomes.beyond} F9\n"
    return status, f"{verdict.split()[0]} {len(trace.beats)}\n"


def wanted_all(tool, words, trace, most):
    """The lines at fault, at most so many, each with its rule, and the beats that are taken: each line is judged as if those found
    before weren't there."""
    left, found = list(enumerate(trace.beats, 2)), []
    while len(found) < most:
        _, verdict = wanted(tool, words, trace.of([beat for _, beat in left]))
        if not verdict.startswith("line "):
            return found, [beat for _, beat in left]
        _, line, rule = verdict.split()
        found.append((left[int(line) - 2][0], rule))
        del left[int(line) - 2]
    return found, [beat for number, beat in left if number < found[-1][0]]


def counted(tool, text, line_of=lambda line: line):
    """What `cover --json` says of a trace, with the lines that `line_of` gives in the place of its own."""
    told = json.loads(of(tool, "cover", "--json", text=text)[1])
    return {**told, "situations": [{**row, "line": row["line"] and line_of(row["line"])} for row in told["situations"]]}


def miscounted(tool, trace):
    """Whether `cover` of a wide trace counts other situations than those of the narrow one, or has other lines of them."""
    becomes = narrow(trace)
    verdict = wanted(tool, ["monitor"], trace)[1].strip()
    ought = {**counted(tool, becomes.text(), becomes.owner), "verdict": verdict}
    return counted(tool, trace.text()) != ought
