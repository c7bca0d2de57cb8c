"""What a link has carried so far."""
import collections

from counting.beats import GIVEN, LEFT

# The requests whose sources are counted while they are pending, by their opcodes.
REQUESTS = {"acquire": (6, 7), "get": (4,), "put": (0, 1), "atomic": (2, 3)}


class Link:
    """What a link has carried."""

    def __init__(self):
        self.left = {}  # of the burst that is unfinished on a channel, how many beats are missing
        self.under_way = {}  # the newest beat of that burst
        self.held = collections.defaultdict(lambda: "N")
        self.requests, self.releases = {}, {}  # the last by source
        self.asked = {}  # param and line of the last Probe of a block
        self.acquiring, self.releasing, self.probed = set(), set(), set()
        self.granted = {}  # the sink that a block waits for
        self.sinks = set()
        self.sources = {kind: set() for kind in [*REQUESTS, "release"]}  # those of what is pending, by kind
        self.newest = None

    def begins(self, beat):
        return not self.left.get(beat.channel)

    def take(self, beat):
        first = self.begins(beat)
        self.left[beat.channel] = (beat.beats if first else self.left[beat.channel]) - 1
        last = not self.left[beat.channel]
        self.under_way[beat.channel] = None if last else beat
        if first:
            self.open(beat)
        if last:
            self.close(beat)
        self.newest = beat

    def open(self, beat):
        if beat.channel == "A":
            self.requests[beat.source] = beat
            for kind, opcodes in REQUESTS.items():
                (self.sources[kind].add if beat.opcode in opcodes else self.sources[kind].discard)(beat.source)
        if beat.acquire:
            self.acquiring.add(beat.block)
            if beat.param < 2:
                self.held[beat.block] = "N"
        if beat.probe:
            self.probed.add(beat.block)
        if beat.release:
            self.releases[beat.source] = beat.block
            self.sources["release"].add(beat.source)
            self.releasing.add(beat.block)
        if beat.grant:
            self.granted[self.requests[beat.source].block] = beat.sink
            self.sinks.add(beat.sink)

    def close(self, beat):
        if beat.probe_ack or beat.release:
            self.held[beat.block] = LEFT[beat.param]
        if beat.probe_ack:
            self.probed.discard(beat.block)
        if beat.grant:
            block = self.requests[beat.source].block
            if not beat.denied:
                self.held[block] = GIVEN[beat.param]
            self.acquiring.discard(block)
        if beat.release_ack:
            self.releasing.discard(self.releases[beat.source])
            self.sources["release"].discard(beat.source)
        elif beat.channel == "D":
            for kind in REQUESTS:
                self.sources[kind].discard(beat.source)
        if beat.channel == "E":
            self.sinks.discard(beat.sink)
            self.granted = {block: sink for block, sink in self.granted.items() if sink != beat.sink}
