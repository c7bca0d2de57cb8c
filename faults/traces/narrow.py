"""What a wide trace means: the narrow trace that it becomes."""
import dataclasses

from traces.beats import BLOCK, COMMITS, PUT_FULL, PUT_PARTIAL

# The bytes of a beat of a narrow trace, unless those of a wide beat are fewer.
MOST = 16


def lanes_of(width, size, address):
    """The lanes of a bus of this width that carry a byte of a message."""
    if 2**size >= width:
        return range(width)
    return [it for it in range(width) if address % width <= it < address % width + 2**size]


def parts_of(beat, width, address):
    """The beats of 16 bytes, or of `width` if that is less, that a wide beat becomes. A response has the address of its request."""
    if beat.channel in COMMITS:
        return [beat]
    part = min(width, MOST)
    reached = sorted({lane // part for lane in lanes_of(width, beat.size, address)})
    masked = beat.channel in "AB"
    stray = masked and any(beat.mask >> lane & 1 and lane // part not in reached for lane in range(64))
    masks = [0 if stray else beat.mask >> part * it & 2**part - 1 for it in reached]
    opcode = PUT_FULL if stray and beat.channel == "A" and beat.opcode == PUT_PARTIAL else beat.opcode
    if not beat.carries():
        common = 0 if stray else 2**part - 1
        for mask in masks:
            common &= mask
        return [beat.copy(mask=common if masked else 0)]
    return [
        beat.copy(opcode=opcode, mask=mask if masked else 0, data=beat.data[part * it:part * it + part])
        for it, mask in zip(reached, masks)
    ]


class Names:
    """Numbers by first appearance."""

    def __init__(self, first, limit):
        self.numbers, self.limit = {it: place for place, it in enumerate(first)}, limit

    def number(self, name):
        return self.numbers.setdefault(name, len(self.numbers))

    def is_full(self):
        return len(self.numbers) > self.limit


def all_parts(beats, width):
    """The parts of each wide beat with their names numbered; None for the first beyond a limit, with which they end."""
    blocks, sinks, sources, asked = Names([], 2**26), Names([0], 256), {}, {}
    for beat in beats:
        mine, key = sources.setdefault(beat.link, Names([0], 256)), (beat.link, beat.source)
        address = beat.address
        if beat.channel == "A":
            asked[key] = beat.address
        if beat.channel == "D":
            address = asked.get(key, 0)
        named = beat.copy()
        if beat.channel in "ABC" + COMMITS:
            named.address = BLOCK * blocks.number(beat.address // BLOCK) + beat.address % BLOCK
        if beat.channel in "ABCD":
            named.source = mine.number(beat.source)
        if beat.channel in "DE":
            named.sink = sinks.number(beat.sink)
        if blocks.is_full() or sinks.is_full() or mine.is_full():
            yield None
            return
        yield parts_of(named, width, address)


@dataclasses.dataclass(frozen=True)
class Narrow:
    """The lines of the trace that a wide trace becomes, the line of the wide beat of each of its beats, and the line of the first
    wide beat beyond a limit, if there is one."""

    lines: list
    owners: list
    beyond: int

    def text(self):
        return "\n".join(self.lines) + "\n"

    def owner(self, line):
        """The line of the wide trace, by that of the narrow one."""
        return self.owners[line - 2]


def narrow(trace):
    """What a wide trace becomes."""
    width = min(trace.width, MOST)
    lines, owners = [f"tltrace 4 {width} {trace.liberties} {trace.levels}"], []
    for number, parts in enumerate(all_parts(trace.beats, trace.width), 2):
        if parts is None:
            return Narrow(lines, owners, number)
        owners += len(parts) * [number]
        lines += [it.line(width, 2, 8) for it in parts]
    return Narrow(lines, owners, None)


class WideNames:
    """The names that wide beats have for blocks, sinks, and the sources of a link, by their numbers in the narrow trace."""

    def __init__(self, beats, width, link):
        self.blocks, self.sources, self.sinks = {}, {0: 0}, {0: 0}
        for beat, parts in zip(beats, all_parts(beats, width)):
            if beat.channel in "ABC" + COMMITS:
                self.blocks[parts[0].address // BLOCK] = beat.address // BLOCK
            if beat.channel in "ABCD" and beat.link == link:
                self.sources[parts[0].source] = beat.source
            if beat.channel in "DE":
                self.sinks[parts[0].sink] = beat.sink

    def address(self, narrow):
        """The digits of an address, by those of the narrow trace."""
        number = int(narrow, 16)
        return f"{self.blocks[number // BLOCK] * BLOCK + number % BLOCK:016x}"

    def block(self, narrow):
        """The digits of a block's address."""
        return f"{self.blocks[int(narrow, 16) // BLOCK] * BLOCK:016x}"

    def source(self, narrow):
        return f"{self.sources[int(narrow, 16)]:04x}"

    def sink(self, narrow):
        return f"{self.sinks[int(narrow, 16)]:04x}"
