"""Charts as they are read, and the chart of a wide trace by that of the narrow trace that it becomes."""
import re

from traces.command import of
from traces.narrow import MOST, WideNames, narrow
from traces.verdicts import wanted


def told_of(chart):
    """The rows of a chart with the numbers of their lines, and what else its readers are told that don't see it. A row has to be told
    as it is drawn."""
    told = re.search(r"<desc id='text'>(.*)</desc>", chart, re.DOTALL)[1].splitlines()
    rows = [re.fullmatch(r"Line (\d+): (.*)\.", it) for it in told]
    drawn = re.findall(r"<text class='n' x='60' y='\d+'>(\d+)</text><text x='70' y='\d+'>(.*)</text>", chart)
    shown = [(int(it[1]), it[2]) for it in rows if it]
    assert sorted(shown) == sorted((int(line), words) for line, words in drawn), "a row is told otherwise than it is drawn"
    return shown, [it for it, row in zip(told, rows) if not row]


def long_block(number):
    """A block in three, seven or fifteen digits."""
    return f"{number:03x}" if number < 16**3 else f"{number:07x}" if number < 16**7 else f"{number:015x}"


def in_wide_names(told, names, width):
    """The words of a row of a narrow chart with the names of the wide trace; how many beats the wide beats of the message are."""
    parts = max(1, width // MOST)
    told = re.sub(r"(?<=block )\w+", lambda it: long_block(names.blocks[int(it[0], 16)]), told)
    told = re.sub(r"(?<= at )\w+", lambda it: names.address(it[0]), told)
    told = re.sub(r"(?<=source )\w+", lambda it: names.source(it[0]), told)
    told = re.sub(r"(?<=sink )\w+", lambda it: names.sink(it[0]), told)
    return re.sub(r" (\d+) beats", lambda it: "" if int(it[1]) <= parts else f" {int(it[1]) // parts} beats", told)


def picture(chart):
    """The picture itself, but for the words."""
    return re.sub(r"(?<='>)[^<>]*(?=</text>)|<desc.*?</desc>", "", chart, flags=re.DOTALL)


def mischarted(tool, trace):
    """What is wrong with the chart of a wide trace: it must be that of the narrow one, with the lines and the names of the wide one,
    and the verdict of `monitor`."""
    becomes = narrow(trace)
    names = {link: WideNames(trace.beats, trace.width, link) for link in {it.link for it in trace.beats}}
    exit_status, verdict = wanted(tool, ["monitor"], trace)
    status, chart = of(tool, "chart", text=trace.text())
    _, twin = of(tool, "chart", text=becomes.text())
    (rows, others), (narrow_rows, narrow_others) = told_of(chart), told_of(twin)
    ought = [(becomes.owner(line), in_wide_names(told, names[told[:2]], trace.width)) for line, told in narrow_rows]
    if (status, rows) != (exit_status, ought):
        yield f"chart draws {rows}, and ought to draw {ought}"
    if others[-1] != f"The monitor says: {verdict.strip()}" or others[:-1] != narrow_others[:-1]:
        yield f"chart tells {others}, and ought to tell {narrow_others}"
    if trace.width <= MOST and not becomes.beyond and picture(chart) != picture(twin):
        yield "chart draws another picture than that of the narrow trace"
