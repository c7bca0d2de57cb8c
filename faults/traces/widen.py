"""Traces that are written wide: beats joined to those of a wider bus, and named by wide addresses and ids."""
import dataclasses

from traces.beats import BLOCK, COMMITS
from traces.narrow import lanes_of

# The lines of a Get and its answer, by the number of its source.
GET, ANSWER = "00 A 4 0 4 {:04x} 0000000180000000 ffff - 0", "00 D 1 0 4 {:04x} 0000 0 " + 32 * "0" + " 0"


@dataclasses.dataclass(frozen=True)
class WideTrace:
    """A trace of beats of `width` bytes, with the words of its header."""

    liberties: str
    levels: str
    beats: list
    width: int

    def of(self, beats):
        """The same header with other beats."""
        return dataclasses.replace(self, beats=beats)

    def lines(self):
        """The lines of the beats."""
        return [it.line(self.width, 4, 16) for it in self.beats]

    def text(self):
        return "\n".join([f"tltrace 5 {self.width} {self.liberties} {self.levels}", *self.lines()]) + "\n"


def joined(beats, narrow, width):
    """Beats of `narrow` bytes as a bus of `width` bytes has them: those of one message side by side in one, at the last."""
    if width == narrow:
        return beats
    wide, halves, asked = [], {}, {}
    for beat in beats:
        key = (beat.link, beat.channel)
        if beat.channel in COMMITS:
            wide.append(beat)
            continue
        if beat.channel == "A":
            asked[beat.link, beat.source] = beat.address
        place = asked.get((beat.link, beat.source), 0) if beat.channel == "D" else beat.address
        begun = halves.pop(key, None)
        if begun is None:
            lane = place % width if 2**beat.size < width else 0
            begun = (beat.copy(mask=0, data=None if beat.data is None else width * [0]), lane // narrow * narrow)
        grown, lane = begun
        if beat.data is not None:
            grown.data[lane:lane + narrow] = beat.data
            grown.mask |= beat.mask << lane
            if beat.corrupt == "1":
                grown.corrupt = "1"
            last = width if 2**beat.size >= width else place % width // narrow * narrow + max(2**beat.size, narrow)
            if lane + narrow < last:
                halves[key] = (grown, lane + narrow)
                continue
        elif beat.channel in "AB":
            grown.mask = sum(1 << it for it in lanes_of(width, beat.size, beat.address))
        wide.append(grown)
    return wide


def renamed(beats, rng):
    """The same with blocks and ids of other names, one to one; 0 stays the name of the first id."""
    blocks, ids = {}, {}

    def other(names, name, bits):
        if name not in names:
            new = rng.randrange(1, 2**bits)
            while new in names.values():
                new = rng.randrange(1, 2**bits)
            names[name] = new
        return names[name]

    for beat in beats:
        address = BLOCK * other(blocks, beat.address // BLOCK, 58) + beat.address % BLOCK
        source = beat.source and other(ids.setdefault(beat.link, {}), beat.source, 16)
        sink = beat.sink and other(ids.setdefault("sinks", {}), beat.sink, 16)
        yield beat.copy(address=address if beat.channel in "ABC" + COMMITS else 0, source=source, sink=sink)


def widened(beats, narrow, width, rng):
    """Beats of `narrow` bytes joined to those of `width` bytes, with other names."""
    return list(renamed(joined(beats, narrow, width), rng))
