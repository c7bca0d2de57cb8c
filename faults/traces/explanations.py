"""The explanation of a wide trace, by that of the narrow trace that it becomes."""
import re

from traces.beats import in_words
from traces.command import of_file
from traces.narrow import MOST, WideNames, narrow


def cited(line):
    """A wide line in words, as it is cited: without its data if it has more than 56 bytes."""
    told = in_words(line)
    return told if len(line) < 56 else told[:told.index(" data=")] + " data=.."


def in_wide_words(told, becomes, names, width):
    """A line of an explanation of a narrow trace, with the lines and the names of the wide one."""

    def wide_beats(count):
        return str(-(-int(count) // max(1, width // MOST)))

    for pattern, other in (
        (r"(?<=line )\d+", lambda it: str(becomes.owner(int(it)))),
        (r"(?<=block )[0-9a-f]{8}", names.block),
        (r"(?<=byte )[0-9a-f]{8}(?= is| of the copy)", names.address),
        (r"(?<=source is )..(?=,)", names.source),
        (r"(?<=sink is )..(?=,)", names.sink),
        (r"(?<=source )[0-9a-f]{2}(?=[ :])", names.source),
        (r"(?<=source=)[0-9a-f]{2}$", names.source),
        (r"(?<=sink )[0-9a-f]{2}(?= of)", names.sink),
        (r"(?<=legal: )00$", lambda it: "0000"),
        (r"(?<=address is ).{8}(?=,)", names.address),
        (r"\d+(?= of \d+ beats| of which)", wide_beats),
        (r"(?<= of )\d+(?= beats)|(?<=has )\d+(?= beats)", wide_beats),
    ):
        told = re.sub(pattern, lambda found: other(found[0]), told)
    return told


def wanted_reasons(tool, commands, trace):
    """The status and the text of the explanation of a wide trace, by that of the narrow one; None if a beat names too much."""
    becomes, wide = narrow(trace), trace.lines()
    status, text = of_file(tool, *commands, text=becomes.text())
    verdict, *told = text.splitlines()
    if verdict.startswith("line "):
        at_fault = becomes.owner(int(verdict.split()[1]))
        names = WideNames(trace.beats[:at_fault - 1], trace.width, trace.beats[at_fault - 2].link)
        ought = [in_wide_words(verdict, becomes, names, trace.width)]
    elif becomes.beyond:
        return None
    else:
        at_fault, names, ought = None, None, [f"{verdict.split()[0]} {len(trace.beats)}"]
    for line in told:
        number = re.match(r"  (\d+): ", line)
        if number:
            owner = becomes.owner(int(number[1]))
            shown = in_words if at_fault and len(ought) == 2 else cited
            ought.append(f"  {owner}: {shown(wide[owner - 2])}")
        elif trace.width <= MOST or not line.startswith("  mask is "):
            ought.append(in_wide_words(line, becomes, names, trace.width) if at_fault and len(ought) > 1 else line)
    return status, "\n".join(ought) + "\n"


def misexplained(tool, trace, forms, compared=lambda told: told):
    """What is wrong with the explanations of a wide trace, by these forms of `explain`. `compared` gives what is compared of one."""
    for commands in forms:
        ought = wanted_reasons(tool, commands, trace)
        says = of_file(tool, *commands, text=trace.text())
        if ought and compared(says) != compared(ought):
            yield f"{' '.join(commands)} says {says}, and ought to say {ought}"
