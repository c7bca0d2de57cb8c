"""The lines of `tltool explain --coherent` about the bytes of a response, a load, a report or a lost store (M2, M3, M6, M7), by the
model of commits_model.py: what a byte is, all that it may be, and the line that set each value last."""
import commits_model
from commits_model import number
from trial.messages import Beat, could_be

MOST = 8


class Values:
    """The possible values of the bytes of a block, as (value, moment), and the line at which each came last."""
    def __init__(self, now):
        self.now, self.lines = now, [{} for _ in now]

    def take(self, now, line):
        for lines, before, after in zip(self.lines, self.now, now):
            lines.update({value: line for value, moment in after if value is not None and (value, moment) not in before})
        self.now = now

    def text(self, place, values):
        """These values of a byte, in their order."""
        lines = self.lines[place]
        told = [f"{value:02x}" + (f", set in line {lines[value]}" if value in lines else "") for value in sorted(values)]
        return ", and may be " + ", or ".join(told) if told else ", and no value of it was seen"


class Bytes:
    """A block in the copy of a link, and in memory."""
    def __init__(self, lines, link, address):
        self.trace, self.link = commits_model.Trace(lines, False), link
        self.width, self.block = self.trace.width, self.trace.lanes[0].blocks.of(address)
        self.first, self.loads = address // 64 * 64, {}
        self.copy, self.memory = Values(self.copy_now()), Values(self.memory_now())

    def at(self, place):
        return self.trace.lanes[place % self.width].judge, place // self.width

    def copy_now(self):
        def byte(judge, i):
            brought = judge.brought(self.link, self.block, i)
            return [(brought[0], 0)] if brought else list(judge.may[self.block][i])
        return [byte(*self.at(place)) for place in range(64)]

    def memory_now(self):
        return [list(judge.memory[self.block][i]) for judge, i in map(self.at, range(64))]

    def readable(self, piece):
        size, address = piece
        return [judge.readable(self.link, self.block, i) for judge, i in map(self.at, range(address % 64, address % 64 + size))]

    def take(self, line, n):
        fields = line.split()
        self.trace.event(line)
        if fields[1] in "LI" and number(fields[0]) == self.link and number(fields[3]) // 64 * 64 == self.first:
            self.loads.pop((2 ** number(fields[2]), number(fields[3])), None)
            if fields[1] == "I":
                self.loads[2 ** number(fields[2]), number(fields[3])] = []
        for piece, moments in self.loads.items():
            moments.append(self.readable(piece))
        self.copy.take(self.copy_now(), n)
        self.memory.take(self.memory_now(), n)

    # ---- the event at fault

    def loaded(self, fields):
        piece = 2 ** number(fields[2]), number(fields[3])
        moments = [*self.loads.get(piece, []), self.readable(piece)]
        for k in range(piece[0]):
            judge, _ = self.at((piece[1] + k) % 64)
            values = [value for value in range(256) if any(judge.allows(moment[k], value) for moment in moments)]
            yield piece[1] + k, number(fields[4]) >> 8 * k & 0xFF, values

    def given(self, fields, came):
        for k in range(self.width):
            place = came * self.width + k
            now = [known for known, _ in self.copy.now[place]]
            values = [value for value in range(256) if any(could_be(value, known) for known in now)]
            yield self.first + place, number(fields[7]) >> 8 * k & 0xFF, values

    def brought(self, fields):
        """The bytes of a beat of a response, each with what its message may bring in the lane."""
        for at, lane in enumerate(self.trace.lanes):
            message = lane.bursts.get((self.link, "D")) or lane.message(self.link, "D", fields)
            beat = Beat(message, lane.value(message, "D", fields))
            lane.judge.breach(beat)
            grants = message.opcode == "GrantData"
            if grants or lane.is_asked(message):
                i = beat.index if grants else message.request.at + beat.index
                may = message.grant_may[i] if grants else getattr(message, "may_bring", {}).get(i, ())
                values = [value for value in range(256) if any(could_be(value, known) for known in may)]
                yield self.first + i * self.width + at, number(fields[8]) >> 8 * at & 0xFF, values

    def strays(self, bytes_of):
        return [
            f"  byte {address:08x} is {value:02x}{self.copy.text(address % 64, values)}"
            for address, value, values in bytes_of if value not in values
        ]

    def lost(self):
        for place in range(64):
            judge, i = self.at(place)
            copy, memory = ({known for known, _ in it.now[place]} for it in (self.copy, self.memory))
            if judge.stored[self.block][i] and None not in copy | memory and not copy & memory:
                yield (f"  byte {self.first + place:08x} of the copy was stored{self.copy.text(place, copy)}"
                       f"; that of memory wasn't{self.memory.text(place, memory)}")


def address_of(lines):
    """An address of the block that the last of these lines is about."""
    fields = lines[-1].split()
    if fields[1] == "D":
        fields = next(it for it in map(str.split, reversed(lines[1:])) if it[:2] == [fields[0], "A"] and it[5] == fields[5])
    return number(fields[3] if fields[1] in "SLI" else fields[6])


def bytes_told(lines):
    """The lines about the bytes of the last of these lines, which breaks M2, M3, M6 or M7. The header is the first."""
    fields = lines[-1].split()
    kept = Bytes(lines, number(fields[0]), address_of(lines))
    came = 0
    for n, line in enumerate(lines[1:-1], 2):
        kept.take(line, n)
        earlier = line.split()
        if earlier[:2] == [fields[0], "C"]:
            beats = max(1, 2 ** number(earlier[4]) // kept.width) if earlier[7] != "-" else 1
            came = (came + 1) % beats
    if fields[1] == "L":
        told = kept.strays(kept.loaded(fields))
    elif fields[1] == "D":
        told = kept.strays(kept.brought(fields))
    elif fields[1] == "C" and fields[7] != "-":
        told = kept.strays(kept.given(fields, came))
    else:
        told = list(kept.lost())
    return told[:MOST] + ([f"  and {len(told) - MOST} more"] if len(told) > MOST else [])
