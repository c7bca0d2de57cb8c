"""What `--all` and the reports must say of a trace."""
import collections
import hashlib
import json
import pathlib
import tempfile

from traces.beats import COMMITS, KINDS, OPCODES
from traces.command import of

LETTERS = "ABCDE" + COMMITS
# The verdicts without a fault.
CLEAN = {"monitor": "clean", "coherent": "coherent"}


def message(beat):
    """The link, the letter's place in the order of reports, the opcode, and the message of a beat or the kind of a commit."""
    letter, opcode, name = beat.channel, 0, "GrantAck"
    if letter in COMMITS:
        name = KINDS[COMMITS.index(letter)]
    elif letter != "E":
        opcode = int(beat.opcode, 16)
        name = OPCODES[letter][opcode]
    return int(beat.link, 16), LETTERS.index(letter), opcode, name


def report_of(command, text, found, taken):
    """The report that the command has to write, but for its tool and its sentences, if these lines are at fault and these beats are
    taken."""
    counts = collections.Counter(map(message, taken))
    return {
        "beats": len(taken),
        "command": command,
        "counts": [{"beats": counts[it], "channel": LETTERS[it[1]], "link": it[0], "message": it[3]} for it in sorted(counts)],
        "faults": [{"line": number, "rule": rule} for number, rule in found],
        "input": {"bytes": len(text), "header": text.splitlines()[0], "sha256": hashlib.sha256(text.encode()).hexdigest()},
        "verdict": "broken" if found else CLEAN[command],
    }


def misreported(tool, words, text, found, taken):
    """What is wrong with the text of `--all` and with the reports, if these lines are at fault and these beats are taken."""
    with tempfile.TemporaryDirectory() as room:
        file, junit = f"{room}/report.json", f"{room}/report.xml"
        says = of(tool, *words, "--report", file, "--junit", junit, text=text)
        told, suite = json.loads(pathlib.Path(file).read_text()), pathlib.Path(junit).read_text()
    lines = [f"line {number} {rule}" for number, rule in found]
    ought = (1, "\n".join([*lines, f"faults {len(found)}\n"])) if found else (0, f"{CLEAN[words[0]]} {len(taken)}\n")
    if says != ought or of(tool, *words, text=text) != ought:
        yield f"{' '.join(words)} says {says}, and ought to say {ought}"
    del told["tool"]
    for it in told["faults"]:
        del it["sentence"]
    wanted_report = report_of(words[0], text, found, taken)
    if told != wanted_report:
        yield f"{' '.join(words)} reports {told}, and ought to report {wanted_report}"
    cases = max(1, len(found))
    if f'tests="{cases}" failures="{len(found)}"' not in suite or f'name="beats" value="{len(taken)}"' not in suite:
        yield f"{' '.join(words)} has other cases of JUnit than {cases}"
