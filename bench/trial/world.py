"""A world of clients and a manager, whose beats are judged as they are taken."""
import random

from trial.clients import CACHES, DEVICES, Clients, Line
from trial.judge import Judge
from trial.manager import Manager
from trial.messages import NONE, Beat, Thunk


class World(Clients, Manager):
    """Three caches, two devices, and a manager with at most one bug. Blocks have so many beats."""

    def __init__(self, seed, bug, left_out, beats):
        self.rng, self.bug, self.beats = random.Random(seed), bug, beats
        self.links, self.blocks = CACHES + DEVICES, 1
        self.judge = Judge(self.links, self.blocks, left_out, beats)
        self.early = self.rng.choice([0.2, 0.6, 0.95])
        self.lazy = self.rng.random() < 0.3
        self.speed = [[self.rng.choice([0.2, 1, 1, 5]) for _ in range(5)] for _ in range(self.links)]
        self.queues = {(link, channel): [] for link in range(self.links) for channel in "ABCDE"}
        self.memory = self.filled(7)
        self.directory = [[NONE] * CACHES for _ in range(self.blocks)]
        self.service, self.waiting = [None] * self.blocks, [[] for _ in range(self.blocks)]
        self.probing = [set() for _ in range(self.blocks)]
        self.cache = [[Line() for _ in range(self.blocks)] for _ in range(CACHES)]
        self.next_value, self.sinks, self.log = 10, 0, []
        self.busy = [None] * self.links

    def filled(self, value):
        """Memory all of whose bytes have this value."""
        return [[Thunk(value=value) for _ in range(self.beats)] for _ in range(self.blocks)]

    def value(self):
        self.next_value = self.next_value % 255 + 1
        return self.next_value

    def send(self, message):
        self.queues[message.link, message.channel].append(message)

    def chance(self, part):
        return self.rng.random() < part

    def step(self):
        """Does something, and gives the rule that the next beat breaks."""
        if self.chance(0.25):
            self.act()
        for block in range(self.blocks):
            self.go_on(block)
            for link in range(CACHES):
                line = self.cache[link][block]
                if line.probe is not None and not line.releasing and self.chance(0.3):
                    self.answer_probe(link, block, line)
        ready = list(self.ready())
        if not ready:
            return None
        message = self.rng.choices([message for message, _ in ready], [speed for _, speed in ready])[0]
        return self.take(message)

    def go_on(self, block):
        """Goes on serving a request of a block, or begins with one that waits."""
        if self.service[block] is None and self.waiting[block] and self.chance(0.5):
            self.service[block] = self.serve(self.waiting[block].pop(self.rng.randrange(len(self.waiting[block]))))
        if self.service[block] and self.chance(0.5):
            try:
                next(self.service[block])
            except StopIteration:
                self.service[block] = None

    def ready(self):
        """The messages whose next beat can be taken, with the speeds of their channels."""
        for (link, channel), queue in self.queues.items():
            if queue:
                message = queue[0]
                thunk = message.data[message.sent] if message.data else None
                if message.ready(message) and (thunk is None or thunk.get() is not None):
                    yield message, self.speed[link]["ABCDE".index(channel)]

    def take(self, message):
        """Takes the next beat of a message, and gives the rule that it breaks."""
        thunk = message.data[message.sent] if message.data else None
        beat = Beat(message, thunk.get() if thunk else None)
        self.log.append(beat)
        broken = self.judge.breach(beat)
        if broken:
            return broken
        self.judge.take(beat)
        message.sent += 1
        if message.sent == message.beats:
            self.queues[message.link, message.channel].pop(0)
        message.after(beat)
        return None

    def run(self, steps):
        """The first rule that is broken, or `coherent`."""
        self.first_memory = [list(block) for block in self.memory]
        return next(filter(None, (self.step() for _ in range(steps))), "coherent")
