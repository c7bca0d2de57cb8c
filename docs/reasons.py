#!/usr/bin/env python3
"""reasons.py [TOOL FILE..]: that the lines which `tltool explain` cites are those that docs/PROTOCOL.md's tables ask for.

Works on whole lists of messages, apart from the product: what is pending, held and requested is looked up anew for each
verdict. Without arguments it reads what crates/tl_examples/stdout has of the traces in its data/, otherwise what TOOL writes
of each FILE. Prints what differs and 'reasons: N passed, M failed'; the exit status is 1 where one failed."""
import pathlib
import re
import subprocess
import sys

EXAMPLES = pathlib.Path(__file__).resolve().parent.parent / "crates/tl_examples"
FIELDS = {
    "A": "opcode param size source address mask data corrupt",
    "B": "opcode param size source address mask data corrupt",
    "C": "opcode param size source address data corrupt",
    "D": "opcode param size source sink denied data corrupt",
    "E": "sink",
}
GRANTS, PROBE_ACKS, RELEASES, ACQUIRES = (4, 5), (4, 5), (6, 7), (6, 7)
NONE, BRANCH, TRUNK = "None", "Branch", "Trunk"
# What a report or a Release leaves, by its param, and what a Grant leaves, by its cap.
REPORTED = {0: BRANCH, 1: NONE, 2: NONE, 3: TRUNK, 4: BRANCH, 5: NONE}
CAPPED = {0: TRUNK, 1: BRANCH, 2: NONE}
# The answers of each request.
ANSWERS = {0: (0,), 1: (0,), 2: (1,), 3: (1,), 4: (1,), 5: (2,), 6: (4, 5), 7: (4,)}


class Message:
    def __init__(self, channel, beat, line, width):
        self.channel, self.first, self.last, self.came = channel, line, None, 0
        for name in ("opcode", "param", "size", "source", "address", "sink"):
            setattr(self, name, int(beat[name], 16) if name in beat else None)
        self.block = None if self.address is None else self.address // 64
        self.beats = max(1, 2**self.size // width) if beat.get("data", "-") != "-" else 1

    def take(self, line):
        self.came += 1
        if self.came == self.beats:
            self.last = line

    def on(self, channel, *opcodes):
        return self.channel == channel and (not opcodes or self.opcode in opcodes)


def read(lines):
    """The width of a trace's beats, and its beats: line, link, channel and fields."""
    words = lines[0].split()
    width = 8 if words[1] == "1" else int(words[2])
    beats = []
    for number, text in enumerate(lines[1:], 2):
        link, channel, *rest = text.split()
        beats.append((number, link, channel, dict(zip(FIELDS[channel].split(), rest))))
    return width, beats


def messages(width, beats, link, before):
    """The messages of a link whose first beats stand before a line."""
    found, unfinished = [], {}
    for line, on, channel, beat in beats:
        if on == link and line < before:
            if channel not in unfinished:
                unfinished[channel] = Message(channel, beat, line, width)
                found.append(unfinished[channel])
            unfinished[channel].take(line)
            if unfinished[channel].last:
                del unfinished[channel]
    return found


class At:
    """A line by itself."""

    def __init__(self, line):
        self.first = line


class Past:
    """What the messages of a link say."""

    def __init__(self, found):
        self.all = found

    def asked(self, it):
        """The request or Release that a message on D answers: the last with its source before it."""
        of = [m for m in self.all if m.source == it.source and m.first < it.first
              and (m.on("C", *RELEASES) if it.opcode == 6 else m.on("A"))]
        return of[-1] if of else None

    def block(self, it):
        return it.block if it.channel != "D" else getattr(self.asked(it), "block", None)

    def grants_of(self, block):
        return [m for m in self.all if m.on("D", *GRANTS) and self.block(m) == block]

    def turn(self, opens, closes):
        """The last opening of a key, and the closing behind it, if there is one."""
        openings = [m for m in self.all if opens(m)]
        if not openings:
            return None, None
        closings = [m for m in self.all if m.last and closes(m) and m.last > openings[-1].first]
        return openings[-1], closings[-1] if closings else None

    def request(self, source):
        return self.turn(lambda m: m.on("A") and m.source == source, lambda m: m.on("D", 0, 1, 2, 4, 5) and m.source == source)

    def release_with(self, source):
        return self.turn(lambda m: m.on("C", *RELEASES) and m.source == source, lambda m: m.on("D", 6) and m.source == source)

    def acquire(self, block):
        return self.turn(lambda m: m.on("A", *ACQUIRES) and m.block == block, lambda m: m.on("D", *GRANTS) and self.block(m) == block)

    def release(self, block):
        return self.turn(lambda m: m.on("C", *RELEASES) and m.block == block, lambda m: m.on("D", 6) and self.block(m) == block)

    def sink(self, sink):
        return self.turn(lambda m: m.on("D", *GRANTS) and m.sink == sink, lambda m: m.on("E") and m.sink == sink)

    def grant_ack(self, block):
        grants = self.grants_of(block)
        return self.turn(lambda m: m in grants, lambda m: m.on("E") and m.sink == grants[-1].sink)

    def probe(self, block):
        return self.turn(lambda m: m.on("B", *ACQUIRES) and m.block == block, lambda m: m.on("C", *PROBE_ACKS) and m.block == block)

    def held(self, block):
        """What is held of a block, and the message that left it so."""
        left = [m for m in self.all if m.last and self.block(m) == block and (m.on("D", *GRANTS) or m.on("C"))]
        if not left:
            return NONE, None
        last = max(left, key=lambda m: m.last)
        return (CAPPED if last.channel == "D" else REPORTED)[last.param], last


def pending(*turns):
    """The first of the keys that is pending: its opening."""
    return next(([opening] for opening, closing in turns if opening and not closing), [])


def missing(opening, closing):
    """What is told of a key that isn't pending, or whose message isn't complete."""
    return [it for it in (opening, closing and At(closing.last)) if it]


def since(held):
    """Held is what a complete message left, so since its last beat."""
    return [At(held[1].last)] if held[1] else []


def evidence(rule, it, past):
    """The messages that a verdict rests on."""
    block = past.block(it)
    if rule == "H1":
        return pending(past.request(it.source) if it.channel == "A" else past.release_with(it.source))
    if rule == "H2":
        opening, closing = past.release_with(it.source) if it.opcode == 6 else past.request(it.source)
        return missing(opening, closing)
    if rule == "H3":
        return [past.asked(it)]
    if rule == "H4":
        return pending(past.acquire(block), past.release(block))
    if rule == "H5":
        return since(past.held(block))
    if rule == "H6":
        request, held = past.asked(it), past.held(block)
        wanted = 1 if request.param == 0 else 0
        if it.param != wanted:
            return [request]
        if it.opcode == 4 and request.opcode == 6 and held[0] != BRANCH:
            return [request, *since(held)]
        return [request, *pending(past.probe(block))]
    if rule == "H7":
        return pending(past.sink(it.sink))
    if rule == "H8":
        return missing(*past.sink(it.sink))
    if rule == "H9":
        return pending(past.probe(block), past.grant_ack(block))
    if rule == "H10":
        return missing(*past.probe(block))
    if rule == "H11":
        return pending(past.release(block)) + since(past.held(block))
    if rule == "H12":
        return pending(past.probe(block)) + since(past.held(block))
    return pending(past.acquire(block), past.release(block)) or since(past.held(block))


def at_fault(width, beats, line, rule):
    """The lines that an explanation of a beat at fault cites behind the beat itself."""
    number, link, channel, beat = next(it for it in beats if it[0] == line)
    past = Past(messages(width, beats, link, line))
    if rule[0] == "L":
        return []
    if rule == "S1":
        return [m.first for m in past.all if m.channel == channel and not m.last]
    return [m.first for m in evidence(rule, Message(channel, beat, line, width), past)]


def turns_of(m, past):
    """The keys that a message opens, each with its last opening and closing."""
    if m.on("A"):
        return [past.request(m.source)]
    if m.on("B"):
        return [past.probe(m.block)]
    if m.on("C", *RELEASES):
        return [past.release_with(m.source)]
    return [past.sink(m.sink)] if m.on("D", *GRANTS) else []


def at_the_end(width, beats):
    """The lines that an explanation of a clean trace cites: what is pending or unfinished, the oldest first."""
    left = set()
    for link in {it[1] for it in beats}:
        past = Past(messages(width, beats, link, len(beats) + 2))
        left |= {m.first for m in past.all
                 if not m.last or any(opening is m and not closing for opening, closing in turns_of(m, past))}
    return sorted(left)[:20]


def check(name, lines, told):
    """Whether an explanation cites the lines that it should."""
    verdict = told[0].split()
    width, beats = read(lines)
    cited = [int(number) for number in re.findall(r"^  (\d+): ", "\n".join(told), re.M)]
    if verdict[0] == "clean":
        wanted = at_the_end(width, beats)
    else:
        wanted = [int(verdict[1]), *at_fault(width, beats, int(verdict[1]), verdict[2])]
    if sorted(set(cited)) == sorted(set(wanted)):
        return True
    print(f"{name}: {told[0]}: cites lines {cited}, and should cite {wanted}")
    return False


def of_the_examples():
    """The explanations that crates/tl_examples writes, with their traces."""
    text = (EXAMPLES / "stdout").read_text()
    for name, told in re.findall(r"^(\S+\.trace): (.*\n(?:  .*\n)+)", text, re.M):
        lines = (EXAMPLES / "data" / name).read_text(errors="replace").splitlines()
        if not re.match(r"line \d+ F", told):
            yield name, lines, told.splitlines()


def of_the_tool(tool, files):
    for file in files:
        ran = subprocess.run([tool, "explain", file], capture_output=True, text=True)
        yield file, pathlib.Path(file).read_text().splitlines(), ran.stdout.splitlines()


def main():
    found = of_the_tool(sys.argv[1], sys.argv[2:]) if sys.argv[2:] else of_the_examples()
    results = [check(*it) for it in found]
    print(f"reasons: {sum(results)} passed, {len(results) - sum(results)} failed")
    return 0 if all(results) and results else 1


sys.exit(main())
