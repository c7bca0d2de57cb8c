"""The counts of traces by `cover`, compared with those by reading the lines."""
import collections
import json
import pathlib
import subprocess
import tempfile

from counting.beats import beats_of, header_of
from counting.begun import situations
from counting.links import Link
from counting.tables import bins, can_come, tables_text


def said(tool, *words, text=None):
    """What a command writes."""
    return subprocess.run([tool, *words], input=text, capture_output=True, text=True, check=True).stdout


def covered(trace):
    """How often each situation came in a trace without a fault, and in which line first; and the tables of the links: how often
    each bin came on each link."""
    beats, width = beats_of(trace)
    links = collections.defaultdict(Link)
    found, tables = {}, collections.Counter()
    for number, beat in beats:
        link = links[beat.link]
        if link.begins(beat):
            others = [other for name, other in links.items() if name != beat.link]
            for name in situations(beat, link, others, width):
                count, first = found.get(name, (0, number))
                found[name] = (count + 1, first)
            tables.update((beat.link, name) for name in bins(beat, link, number))
            if beat.probe:
                link.asked[beat.block] = (beat.param, number)
        link.take(beat)
    return found, tables


class Comparison:
    """The counts of traces by `cover` and by reading the lines."""

    def __init__(self, tool):
        self.tool = tool
        self.traces = self.differ = 0
        self.sums, self.first = collections.Counter(), {}
        self.bins, self.can, self.links = collections.Counter(), set(), 0
        self.folder = tempfile.TemporaryDirectory()
        self.files = []

    def told(self, *words, text=None):
        told = json.loads(said(self.tool, "cover", "--json", *words, text=text))
        return told["situations"], {row["name"]: row["counts"] for row in told["bins"]}

    def compare(self, what, told, here):
        for name in {**told, **here}:
            if told.get(name) != here.get(name, (0, None)):
                self.differ += 1
                print(f"{what}: {name}: told {told.get(name)}, counted {here.get(name)}")

    def compare_bins(self, what, told, here, can):
        """The tables: `can` says of a link and a bin whether the link can have it."""
        links = range(max([link for link, _ in here] + [len(counts) - 1 for counts in told.values()], default=-1) + 1)
        for name in {*told, *(name for _, name in here)}:
            counted = [here[link, name] or (0 if can(link, name) else None) for link in links]
            if told.get(name, [None] * len(links)) != counted:
                self.differ += 1
                print(f"{what}: {name}: told {told.get(name)}, counted {counted}")

    def compare_text(self, what, links, tables, can, *words, text=None):
        """The text of the tables, behind that of the situations."""
        names = {name for _, name in can} | {name for _, name in tables}
        counted = lambda link: {
            name: tables[link, name] for name in names if (link, name) in can or (link, name) in tables
        }
        told = said(self.tool, "cover", "--tables", *words, text=text)
        if told != said(self.tool, "cover", *words, text=text) + tables_text(links, counted):
            self.differ += 1
            print(f"{what}: the text of its tables differs")

    def add(self, what, trace):
        here, tables = covered(trace)
        situations, told = self.told(text=trace)
        self.compare(what, {row["name"]: (row["count"], row["line"]) for row in situations}, here)
        levels, liberties, width = header_of(trace)
        can = {(link, name) for link, level in enumerate(levels) for name in told if can_come(name, level, width, liberties)}
        self.compare_bins(what, told, tables, lambda *cell: cell in can)
        self.compare_text(what, len(levels), tables, can, text=trace)
        self.links = max(self.links, len(levels))
        self.bins.update(tables)
        self.can |= can
        for name, (count, line) in here.items():
            self.sums[name] += count
            self.first.setdefault(name, (self.traces, line))
        self.files.append(pathlib.Path(self.folder.name, f"{self.traces}.trace"))
        self.files[-1].write_text(trace)
        self.traces += 1

    def all_together(self):
        """The same of all traces in one call; gives the names of all situations."""
        rows, bins = self.told(*map(str, self.files))
        self.compare_bins("all", bins, self.bins, lambda *cell: cell in self.can)
        self.compare_text("all", self.links, self.bins, self.can, *map(str, self.files))
        here = {name: (self.sums[name], *place) for name, place in self.first.items()}
        told = {row["name"]: (row["count"], row["trace"], row["line"]) for row in rows}
        self.compare("all", told, {name: here.get(name, (0, None, None)) for name in told} | here)
        return list(told)
