#!/usr/bin/env python3
"""managers.py TLTOOL [--traces N] [--events N]: random traces of managers that aren't this project's, judged by `TLTOOL
coherent`. A right manager, and memories that serve each beat of a Get by itself, or of a Put too, must be coherent. Each of
thirteen wrong ones must break a rule in some trace; how many of its traces do is printed, by rule.

Three caches and a device contend for two blocks at 16 bytes a beat. The manager serves one request of a block at a time."""

import argparse
import collections
import pathlib
import random
import subprocess
import sys

sys.path.insert(0, str(pathlib.Path(__file__).resolve().parent.parent / "bench"))
from trial.messages import BRANCH, NONE, TRUNK  # noqa: E402
from trial.traces import CAPS, GROWS, REPORTS  # noqa: E402

WIDTH, BLOCK, BLOCKS, CACHES = 16, 64, 2, 3
DEVICE = f"{CACHES:02x}"

BUGS = {
    "grants Trunk beside a holder": "no_probes",
    "grants after the first of two answers": "one_answer",
    "probes to Branch where a writer asks": "too_weak",
    "drops the data of a ProbeAckData": "drops_probed",
    "drops the data of a ReleaseData": "drops_released",
    "answers a Get before its Probe is answered": "hasty_get",
    "performs a Put without a Probe": "unprobed_put",
    "probes to Trunk for a Get, and answers from old memory": "stale_get",
    "writes a Put one byte off": "shifted_put",
    "writes a Put again after a later one": "late_put",
    "grants the beats of a block in the wrong order": "turned_grant",
    "writes the data of a Probe to the other block": "other_block",
}


class Cache:
    """What a cache holds of a block, and what it has begun."""

    def __init__(self):
        self.held, self.bytes, self.dirty = NONE, None, False
        self.acquires, self.releases = None, False


class World:
    """Clients, a manager with at most one bug, and the beats that they exchange, in the order in which they are taken."""

    def __init__(self, seed, bug):
        self.rng, self.bug = random.Random(seed), bug
        self.memory = [bytearray(BLOCK) for _ in range(BLOCKS)]
        self.caches = [[Cache() for _ in range(BLOCKS)] for _ in range(CACHES)]
        self.serves = [None] * BLOCKS    # the steps of the request that each block's manager serves
        self.asks = None                 # the device's request
        self.written, self.late = {}, []  # what Puts wrote last at each place, and what is to be written again
        self.lines = [f"tltrace 2 {WIDTH}" + " C" * CACHES + " UL"]

    def beat(self, *fields):
        self.lines.append(" ".join(fields))

    def data(self, channel, words, behind, data):
        for at in range(0, len(data), WIDTH):
            self.beat(*words, *behind, f"{int.from_bytes(data[at:at + WIDTH], 'little'):032x}", "0")

    # ---- clients

    def acquire(self, link, block):
        cache = self.caches[link][block]
        if cache.acquires or cache.releases or cache.held == TRUNK or self.serves[block]:
            return
        wants = self.rng.choice([BRANCH, TRUNK]) if cache.held == NONE else TRUNK
        cache.acquires = wants
        self.beat(f"{link:02x}", "A", "6", str(GROWS[cache.held, wants]), "6", f"{block:02x}", f"{BLOCK * block:08x}", "ffff", "-", "0")
        self.serves[block] = self.grant(link, block, wants)

    def store(self, link, block):
        cache = self.caches[link][block]
        if cache.held == TRUNK and not cache.releases:
            cache.bytes[self.rng.randrange(BLOCK)] = self.rng.randrange(1, 256)
            cache.dirty = True

    def report(self, link, block, opcodes, left, source):
        """A report that leaves so much, with data where something was stored."""
        cache = self.caches[link][block]
        words = [f"{link:02x}", "C", opcodes[cache.dirty], str(REPORTS[cache.held, left]), "6", source, f"{BLOCK * block:08x}"]
        carried = bytes(cache.bytes) if cache.dirty else None
        if cache.dirty:
            self.data("C", words, [], carried)
        else:
            self.beat(*words, "-", "0")
        cache.held, cache.dirty = left, False
        if left == NONE:
            cache.bytes = None
        return carried

    def release(self, link, block):
        cache = self.caches[link][block]
        if cache.held == NONE or cache.acquires or self.serves[block]:
            return
        left = self.rng.choice([NONE, BRANCH]) if cache.held == TRUNK else NONE
        carried = self.report(link, block, ("6", "7"), left, f"{block:02x}")
        if carried and self.bug != "drops_released":
            self.memory[block][:] = carried
        self.beat(f"{link:02x}", "D", "6", "0", "6", f"{block:02x}", "00", "0", "-", "0")

    def device(self):
        block, at = self.rng.randrange(BLOCKS), self.rng.randrange(0, BLOCK, 8)
        if self.asks or self.serves[block]:
            return
        address = f"{BLOCK * block + at:08x}"
        mask = 0xff << at % WIDTH
        self.asks = True
        if self.rng.random() < 0.5:
            self.beat(DEVICE, "A", "4", "0", "3", "00", address, f"{mask:04x}", "-", "0")
            self.serves[block] = self.get(block, at)
        else:
            written = bytes(self.rng.randrange(1, 256) for _ in range(8))
            lanes = bytearray(WIDTH)
            lanes[at % WIDTH:at % WIDTH + 8] = written
            self.beat(DEVICE, "A", "0", "0", "3", "00", address, f"{mask:04x}", f"{int.from_bytes(lanes, 'little'):032x}", "0")
            self.serves[block] = self.put(block, at, written)

    # ---- the manager: each request is served by a generator, which goes on with each event

    def probe(self, link, block, left):
        """Probes a cache, and lets it answer some time later."""
        self.beat(f"{link:02x}", "B", "6", str(CAPS[left]), "6", "00", f"{BLOCK * block:08x}", "ffff", "-", "0")
        while self.rng.random() < 0.6:
            yield True
        cache = self.caches[link][block]
        carried = self.report(link, block, ("4", "5"), min(cache.held, left), "00")
        if carried and self.bug != "drops_probed":
            self.memory[1 - block if self.bug == "other_block" else block][:] = carried

    def clear(self, block, own, left):
        """Probes those who hold more of the block than may be left."""
        holders = [link for link in range(CACHES) if link != own and self.caches[link][block].held > left]
        if self.bug == "too_weak":
            left = max(left, BRANCH)
        for link in holders[:1] if self.bug == "one_answer" else holders:
            yield from self.probe(link, block, left)

    def grant(self, link, block, wants):
        if self.bug != "no_probes":
            yield from self.clear(block, link, NONE if wants == TRUNK else BRANCH)
        cache = self.caches[link][block]
        found = bytes(self.memory[block])
        if self.bug == "turned_grant":
            found = found[WIDTH:] + found[:WIDTH]
        words = [f"{link:02x}", "D", "5", str(CAPS[wants]), "6", f"{block:02x}", f"{block:02x}", "0"]
        self.data("D", words, [], found)
        cache.held, cache.bytes, cache.dirty, cache.acquires = wants, bytearray(found), False, None
        while self.rng.random() < 0.5:
            yield True
        self.beat(f"{link:02x}", "E", f"{block:02x}")
        yield True

    def get(self, block, at):
        before = bytes(self.memory[block])
        owner = next((link for link in range(CACHES) if self.caches[link][block].held == TRUNK), None)
        if owner is not None and self.bug == "hasty_get":
            self.answer_get(before, at)
            yield from self.probe(owner, block, BRANCH)
            return
        if owner is not None:
            yield from self.probe(owner, block, TRUNK if self.rng.random() < 0.5 or self.bug == "stale_get" else BRANCH)
        while self.rng.random() < 0.4:
            yield True
        self.answer_get(before if self.bug == "stale_get" else self.memory[block], at)
        yield True

    def answer_get(self, memory, at):
        first = at - at % WIDTH
        self.beat(DEVICE, "D", "1", "0", "3", "00", "00", "0", f"{int.from_bytes(memory[first:first + WIDTH], 'little'):032x}", "0")
        self.asks = None

    def put(self, block, at, written):
        if self.bug != "unprobed_put":
            yield from self.clear(block, None, NONE)
        while self.rng.random() < 0.4:
            yield True
        start = (at + 1) % (BLOCK - 8) if self.bug == "shifted_put" else at
        self.memory[block][start:start + 8] = written
        self.beat(DEVICE, "D", "0", "0", "3", "00", "00", "0", "-", "0")
        self.asks = None
        if self.bug == "late_put" and (block, at) in self.written:
            self.late.append((block, at, self.written[block, at]))
        self.written[block, at] = written
        yield True

    # ---- a trace

    def step(self):
        if self.late and self.rng.random() < 0.1:
            block, at, written = self.late.pop()
            self.memory[block][at:at + 8] = written
        choice, block, link = self.rng.random(), self.rng.randrange(BLOCKS), self.rng.randrange(CACHES)
        if choice < 0.5 and self.serves[block]:
            if next(self.serves[block], None) is None:
                self.serves[block] = None
        elif choice < 0.65:
            self.acquire(link, block)
        elif choice < 0.8:
            self.store(link, block)
        elif choice < 0.87:
            self.release(link, block)
        else:
            self.device()


def managed(seed, bug, events):
    """A trace of a manager with this bug, or none."""
    world = World(seed, bug)
    for _ in range(events):
        world.step()
    return "\n".join(world.lines) + "\n"


class Request:
    """What a memory without caches has to serve: a Get, or a Put with its bytes, and how far each has come."""

    def __init__(self, size, at, written):
        self.size, self.at, self.written = size, at, written
        self.come = self.done = 0  # bytes of a Put that were brought, and that were written; of a Get that were answered


class Plain:
    """A memory without caches, on three links at 8 bytes a beat. Each beat of a Get brings what memory has then. A Put is performed
    at once, or, `by_beats`, each beat by itself some time after it came. With the bug a Put is answered before its last beat is
    written."""

    BEAT = 8

    def __init__(self, seed, by_beats, bug=False):
        self.rng, self.by_beats, self.bug = random.Random(seed), by_beats, bug
        self.memory, self.late = bytearray(2 * BLOCK), []
        self.open = [None] * 3
        self.lines = ["tltrace 1 UH UH UH"]

    def ask(self, link):
        size = self.rng.choice([3, 4, 5, 6])
        at = self.rng.randrange(0, len(self.memory), 1 << size)
        if self.rng.random() < 0.5:
            self.lines.append(f"{link:02x} A 4 0 {size} 00 {at:08x} ff - 0")
            self.open[link] = Request(size, at, None)
            return
        self.open[link] = Request(size, at, bytes(self.rng.randrange(256) for _ in range(1 << size)))
        self.bring(link)
        while not self.by_beats and self.open[link].come < 1 << size:
            self.bring(link)

    def bring(self, link):
        """The next beat of a Put."""
        it = self.open[link]
        bytes_of_beat = it.written[it.come:it.come + self.BEAT]
        self.lines.append(f"{link:02x} A 0 0 {it.size} 00 {it.at:08x} ff {int.from_bytes(bytes_of_beat, 'little'):016x} 0")
        it.come += self.BEAT

    def write(self, it):
        """Writes the next beat of a Put that has come."""
        at = it.at + it.done
        self.memory[at:at + self.BEAT] = it.written[it.done:it.done + self.BEAT]
        it.done += self.BEAT

    def put(self, link, it):
        if it.come < len(it.written) and (it.done == it.come or self.rng.random() < 0.5):
            self.bring(link)
            return
        left = len(it.written) - it.done
        if self.by_beats and left > (self.BEAT if self.bug else 0):
            self.write(it)
            return
        if self.bug:
            self.late.append(it)
        while not self.bug and it.done < len(it.written):
            self.write(it)
        self.lines.append(f"{link:02x} D 0 0 {it.size} 00 00 0 - 0")
        self.open[link] = None

    def get(self, link, it):
        at = it.at + it.done
        found = int.from_bytes(self.memory[at:at + self.BEAT], "little")
        self.lines.append(f"{link:02x} D 1 0 {it.size} 00 00 0 {found:016x} 0")
        it.done += self.BEAT
        if it.done >= 1 << it.size:
            self.open[link] = None

    def step(self):
        if self.late and self.rng.random() < 0.2:
            self.write(self.late.pop())
        link = self.rng.randrange(3)
        it = self.open[link]
        if it is None:
            self.ask(link)
        elif it.written is None:
            self.get(link, it)
        else:
            self.put(link, it)


def served(seed, events, by_beats, bug=False):
    """A trace of such a memory."""
    memory = Plain(seed, by_beats, bug)
    for _ in range(events):
        memory.step()
    return "\n".join(memory.lines) + "\n"


def judged(tool, traces):
    """The verdicts on these traces, by their rules."""
    rules = collections.Counter()
    for trace in traces:
        said = subprocess.run([tool, "coherent"], input=trace, stdout=subprocess.PIPE, text=True).stdout.split()
        rules[said[2] if said[0] == "line" else said[0]] += 1
    return ", ".join(f"{rule} {count}" for rule, count in sorted(rules.items()))


def main():
    words = argparse.ArgumentParser(description=__doc__.split(":")[0])
    words.add_argument("tool")
    words.add_argument("--traces", type=int, default=40)
    words.add_argument("--events", type=int, default=800)
    asked = words.parse_args()
    coherent, passed, failed = f"coherent {asked.traces}", 0, 0
    right = {"right": lambda seed: managed(seed, None, asked.events),
             "a memory that serves Gets beat by beat": lambda seed: served(seed, asked.events, False),
             "a memory that serves Gets and Puts beat by beat": lambda seed: served(seed, asked.events, True)}
    wrong = {name: lambda seed, bug=bug: managed(seed, bug, asked.events) for name, bug in BUGS.items()}
    wrong["answers a Put before its last beat is written"] = lambda seed: served(seed, asked.events, True, True)
    for name, trace in [*right.items(), *wrong.items()]:
        said = judged(asked.tool, map(trace, range(asked.traces)))
        print(f"{name}: {said}", flush=True)
        if (said == coherent) == (name in right):
            passed += 1
        else:
            failed += 1
    print(f"managers: {passed} passed, {failed} failed")
    sys.exit(1 if failed else 0)


if __name__ == "__main__":
    main()
