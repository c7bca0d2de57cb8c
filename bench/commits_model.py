#!/usr/bin/env python3
"""commits_model.py [--alone] [--times FILE] TRACE..: judges recorded traces with commits by the model of commits_trial.py (M1 to M7,
no rules of one link), apart from the command and its definitions. It writes `coherent N`, or `line N RULE` for the first event at
fault. The model's beats have one byte, so a trace has a judge for each lane of a beat. `--alone` leaves the commits out. `--times` is
the recorder's file of times: the cycle of the line is written behind the rule. Corrupt and denied beats, atomics and Intents are
beyond the model."""
import argparse
import sys

from trial.commit_judge import CommitJudge
from trial.messages import BRANCH, NONE, TRUNK, Beat, Message

CAPS = {0: TRUNK, 1: BRANCH, 2: NONE}
LEFT = {0: BRANCH, 1: NONE, 2: NONE, 3: TRUNK, 4: BRANCH, 5: NONE}
REQUESTS = {0: "Put", 1: "Put", 4: "Get", 6: "Acquire", 7: "Acquire"}
REPORTS = {4: "ProbeAck", 5: "ProbeAck", 6: "Release", 7: "Release"}
RESPONSES = {0: "AccessAck", 1: "AccessAckData", 4: "Grant", 5: "GrantData", 6: "ReleaseAck"}


class Beyond(Exception):
    """A line that the model doesn't know, or that answers nothing."""


class Any:
    """A byte that nobody asked for: it is as good as each other."""
    def __eq__(self, other):
        return True

    __hash__ = None


def number(text):
    return int(text, 16)


class Header:
    def __init__(self, line):
        words = line.split()
        if words[:1] != ["tltrace"] or words[1] not in "1234":
            raise Beyond("the header")
        self.width = 8 if words[1] == "1" else int(words[2])
        self.zero = words[4:5] == ["zero"]
        self.levels = words[{"1": 2, "2": 3}.get(words[1], 4) + self.zero:]


class Blocks:
    """Blocks by the order in which they appear."""
    def __init__(self, lines):
        self.known = {}
        for line in lines:
            fields = line.split()
            if fields[1] in "ABC":
                self.of(number(fields[6]))
            elif fields[1] in "SLI":
                self.of(number(fields[3]))

    def of(self, address):
        return self.known.setdefault(address // 64, len(self.known))


class Lane:
    """The trace as the judge of one lane of all beats has it."""
    def __init__(self, lane, header, blocks, alone):
        self.lane, self.width, self.blocks = lane, header.width, blocks
        complete = [it == "C+" for it in header.levels]
        self.judge = CommitJudge(len(header.levels), len(blocks.known), set(), 64 // header.width, complete, header.zero, alone)
        self.bursts, self.requests, self.releases, self.grants = {}, {}, {}, {}

    # ---- beats

    def beat(self, fields):
        """The rule that a beat's line breaks."""
        link, channel = number(fields[0]), fields[1]
        message = self.bursts.pop((link, channel), None) or self.message(link, channel, fields)
        beat = Beat(message, self.value(message, channel, fields))
        broken = self.judge.breach(beat)
        if broken is None:
            self.judge.take(beat)
            message.sent += 1
            if message.sent < message.beats:
                self.bursts[link, channel] = message
        return broken

    def message(self, link, channel, fields):
        if fields[-1] != "0" and channel != "E" or channel == "D" and fields[7] != "0":
            raise Beyond("a corrupt or denied beat")
        return getattr(self, "on_" + channel)(link, fields)

    def data(self, fields, at):
        """As many places as the message has beats, if it has data."""
        return [0] * max(1, 2 ** number(fields[4]) // self.width) if fields[at] != "-" else None

    def on_A(self, link, fields):
        opcode, source, address = REQUESTS.get(number(fields[2])), number(fields[5]), number(fields[6])
        if opcode is None:
            raise Beyond("an atomic or an Intent")
        message = Message("A", link, opcode, self.blocks.of(address), source=source, data=self.data(fields, 8), answered=False)
        if opcode == "Acquire":
            message.was, message.unread = BRANCH if fields[3] == "2" else NONE, fields[2] == "7"
        else:
            message.address, message.bytes = address, 2 ** number(fields[4])
            message.at, message.size = address % 64 // self.width, max(1, message.bytes // self.width)
        self.requests[link, source] = message
        return message

    def on_B(self, link, fields):
        return Message("B", link, "Probe", self.blocks.of(number(fields[6])), param=CAPS[number(fields[3])], perm_only=fields[2] == "7")

    def on_C(self, link, fields):
        opcode, source = REPORTS.get(number(fields[2])), number(fields[5])
        if opcode is None:
            raise Beyond("an answer to an access on B")
        block = self.blocks.of(number(fields[6]))
        message = Message("C", link, opcode, block, source=source, param=LEFT[number(fields[3])], data=self.data(fields, 7))
        if opcode == "Release":
            self.releases[link, source] = message
        return message

    def on_D(self, link, fields):
        opcode, source = RESPONSES.get(number(fields[2])), number(fields[5])
        asked = (self.releases if opcode == "ReleaseAck" else self.requests).get((link, source))
        if opcode is None or asked is None:
            raise Beyond("an answer to nothing that the model has")
        message = Message("D", link, opcode, asked.block, source=source, data=self.data(fields, 8))
        if opcode == "ReleaseAck":
            message.release = asked
        elif opcode.startswith("Grant"):
            message.param, message.unread = CAPS[number(fields[3])], asked.unread
            self.grants[number(fields[6])] = message
        else:
            message.request = asked
        return message

    def on_E(self, link, fields):
        grant = self.grants.get(number(fields[2]))
        if grant is None:
            raise Beyond("a GrantAck of no Grant")
        return Message("E", link, "GrantAck", grant.block, grant=grant)

    def value(self, message, channel, fields):
        """The byte that the beat has in this lane; None: a Put doesn't write it."""
        if channel == "E" or not message.data:
            return None
        digits = fields[7] if channel == "C" else fields[8]
        if channel == "A" and not number(fields[7]) >> self.lane & 1:
            return None
        if message.opcode == "AccessAckData" and not self.is_asked(message):
            return Any()
        return number(digits) >> 8 * self.lane & 0xFF

    def is_asked(self, message):
        place = (message.request.at + message.sent) * self.width + self.lane
        return message.request.address % 64 <= place < message.request.address % 64 + message.request.bytes

    # ---- commits

    def commit(self, fields, address, value):
        """The rule that one byte of a commit breaks."""
        link, block, i = number(fields[0]), self.blocks.of(address), address % 64 // self.width
        if fields[1] == "I":
            return self.judge.load_begins(link, block, i)
        return (self.judge.store if fields[1] == "S" else self.judge.load)(link, block, i, value)


class Trace:
    def __init__(self, lines, alone):
        self.alone = alone
        header = Header(lines[0])
        blocks = Blocks(lines[1:])
        self.width = header.width
        self.lanes = [Lane(lane, header, blocks, alone) for lane in range(header.width)]

    def commit(self, fields):
        size, address, value = 2 ** number(fields[2]), number(fields[3]), number(fields[4]) if fields[1] != "I" else 0
        rules = [self.lanes[(address + k) % self.width].commit(fields, address + k, value >> 8 * k & 0xFF) for k in range(size)]
        return min(filter(None, rules), default=None)

    def event(self, line):
        """The first rule that a line breaks."""
        fields = line.split()
        if fields[1] in "SLI":
            return None if self.alone else self.commit(fields)
        return min(filter(None, [lane.beat(fields) for lane in self.lanes]), default=None)


def judged(lines, alone=False):
    """The number of the first line at fault, and its rule, or None. The header is line 1."""
    trace = Trace(lines, alone)
    for place, line in enumerate(lines[1:], 2):
        try:
            broken = trace.event(line)
        except Beyond as why:
            return place, f"beyond the model: {why}"
        if broken:
            return place, broken
    return None


def main():
    p = argparse.ArgumentParser(description=__doc__.splitlines()[0])
    p.add_argument("--alone", action="store_true")
    p.add_argument("--times")
    p.add_argument("trace", nargs="+")
    a = p.parse_args()
    fault = None
    for name in a.trace:
        with open(name) as file:
            lines = file.read().splitlines()
        fault = judged(lines, a.alone)
        text = f"line {fault[0]} {fault[1]}" if fault else f"coherent {len(lines) - 1}"
        if fault and a.times:
            with open(a.times) as file:
                text += f" in cycle {int(file.read().splitlines()[fault[0] - 2]) // 10}"
        print(text if len(a.trace) == 1 else f"{name}: {text}")
    sys.exit(1 if fault else 0)


if __name__ == "__main__":
    main()
