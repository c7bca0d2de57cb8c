"""The cores of the models' caches, which store and load."""
from trial.clients import CACHES
from trial.commit_judge import CommitJudge
from trial.messages import BRANCH, NONE, TRUNK, Thunk
from trial.world import World

BUGS = ["releases a dirty copy without data", "reports a dirty copy without data", "drops a dirty copy", "stale beat in a report",
    "swaps beats in a report", "reports another copy", "stores to the wrong lane", "loses a store", "upgrade isn't marked dirty",
    "stores under Branch", "stores while a report leaves", "loads from the wrong lane", "loads before its own store",
    "loads after it gave the copy up", "loads the wrong beat of a Grant", "memory wasn't zero"]


class Cores(World):
    """A world of right managers whose caches tell what their cores store and load, with at most one bug of theirs. The beats alone are
    judged if `alone` is said."""

    def __init__(self, seed, bug, left_out, beats, alone=False):
        super().__init__(seed, None, set(), beats)
        self.wrong = bug
        all_told = bug is not None or self.rng.random() < 0.5
        self.complete = [all_told or self.chance(0.5) for _ in range(self.links)]
        self.drops = self.chance(0.5)
        self.zero = seed % 2 == 1 or bug == "memory wasn't zero"
        if self.zero and bug != "memory wasn't zero":
            self.memory = self.filled(0)
        self.judge = CommitJudge(self.links, self.blocks, left_out, beats, self.complete, self.zero, alone)
        self.fault, self.commits, self.lines = None, 0, 0     # at fault is the last of so many events
        self.old = [[None] * self.blocks for _ in range(CACHES)]
        self.late = []                                        # loads under way: (link, block, i, value)
        self.serving = None                                   # the request that the manager goes on with

    def commit(self, call, *words):
        if self.fault:
            return
        self.commits += 1
        self.log.append((call.__name__,) + words)
        if not self.judge.alone:
            self.fault = call(*words)
            self.lines = len(self.log)

    def act(self):
        if self.chance(0.4):
            return self.other_act()
        link, block, i = self.rng.randrange(CACHES), self.rng.randrange(self.blocks), self.rng.randrange(self.beats)
        line = self.cache[link][block]
        if self.late and self.chance(0.5):
            return self.end_load()
        if self.chance(0.5):
            return self.core_load(link, block, i, line)
        if line.perm == TRUNK and line.is_still() or self.is_wrong_store(link, block, line):
            self.core_store(link, block, i, line)
        elif line.perm and line.is_still() and not line.dirty and not line.busy and self.drops and line.probe is None and self.chance(0.3):
            line.perm = NONE                                  # a clean copy is dropped without a word

    def other_act(self):
        before = [[(list(line.copy or []), line.dirty) for line in caches] for caches in self.cache]
        super().act()
        for caches, kept in zip(self.cache, before):
            for line, (copy, dirty) in zip(caches, kept):
                if line.copy and copy and any(now is not then for now, then in zip(line.copy, copy)):
                    line.copy, line.dirty = copy, dirty       # a store that no core tells

    def is_wrong_store(self, link, block, line):
        if self.wrong == "stores under Branch":
            return line.perm == BRANCH and not line.releasing and not line.coming and self.chance(0.2)
        if self.wrong == "stores while a report leaves":
            message = self.judge.open.get((link, "C"))
            return bool(message and message.data and message.block == block and message.sent)
        return False

    def core_store(self, link, block, i, line):
        value = self.value()
        place = (i + 1) % self.beats if self.wrong == "stores to the wrong lane" and self.chance(0.3) else i
        if not (self.wrong == "loses a store" and self.chance(0.3)):
            self.old[link][block] = list(line.copy)
            line.copy[place] = Thunk(value=value)
        line.dirty = line.dirty or not (self.wrong == "upgrade isn't marked dirty" and line.upgraded)
        if self.complete[link] or self.chance(0.5):
            self.commit(self.judge.store, link, block, i, value)

    def value_at(self, link, block, i, line):
        """What a core may read of a byte, right or wrong."""
        if line.perm and line.is_still() and line.copy:
            place = (i + 1) % self.beats if self.wrong == "loads from the wrong lane" and self.chance(0.3) else i
            old = self.old[link][block]
            if self.wrong == "loads before its own store" and old and self.chance(0.5):
                return old[place].get()
            return line.copy[place].get()
        given_up = line.copy and line.perm == NONE and not line.coming and not line.busy
        if self.wrong == "loads after it gave the copy up" and given_up and self.chance(0.3):
            return line.copy[i].get()
        message = self.judge.under_way(link, block)
        if message and i < message.sent:
            return message.values[(i + 1) % message.sent if self.wrong == "loads the wrong beat of a Grant" else i]
        return None

    def core_load(self, link, block, i, line):
        value = self.value_at(link, block, i, line)
        if any(tuple(place) == (link, block, i) for *place, _ in self.late):
            return
        if self.chance(0.3):
            self.commit(self.judge.load_begins, link, block, i)
            if self.chance(0.5):
                value = None                                  # it reads later
            self.late.append((link, block, i, value))
        elif value is not None:
            self.commit(self.judge.load, link, block, i, value)

    def end_load(self):
        at = self.rng.randrange(len(self.late))
        link, block, i, value = self.late[at]
        if value is None:
            value = self.value_at(link, block, i, self.cache[link][block])
        if value is not None:
            self.late.pop(at)
            self.commit(self.judge.load, link, block, i, value)

    # ---- what a wrong cache gives up

    def spoil(self, link, block, line):
        """A copy with a wrong beat, if the cache is one that gives such a copy up."""
        right = list(line.copy)
        old = self.old[link][block]
        if self.wrong == "stale beat in a report" and old and self.chance(0.5):
            i = self.rng.randrange(self.beats)
            line.copy[i] = old[i]
        if self.wrong == "swaps beats in a report" and self.chance(0.3):
            line.copy[0], line.copy[1] = line.copy[1], line.copy[0]
        if self.wrong == "reports another copy" and old and self.chance(0.5):
            line.copy = list(old)
        return right

    def without_data(self, gives_up, link, block, line):
        """Gives a copy up as a clean one, and without data."""
        line.dirty, chance = False, self.chance
        self.chance = lambda part: False
        gives_up(link, block, line)
        self.chance = chance

    def release(self, link, block, line):
        right = self.spoil(link, block, line) if line.copy else None
        if self.wrong == "releases a dirty copy without data" and self.chance(0.5):
            self.without_data(super().release, link, block, line)
        else:
            super().release(link, block, line)
        line.copy, line.upgraded = right, False

    def answer_probe(self, link, block, line):
        right = self.spoil(link, block, line) if line.copy else None
        if self.wrong == "reports a dirty copy without data" and self.chance(0.5) or line.perm_only:
            self.without_data(super().answer_probe, link, block, line)
        else:
            super().answer_probe(link, block, line)
        line.copy, line.upgraded = right, False

    def probed(self, beat):
        super().probed(beat)
        self.cache[beat.message.link][beat.message.block].perm_only = getattr(beat.message, "perm_only", False)

    def send(self, message):
        if message.channel == "B" and message.param == NONE and getattr(self.serving, "unread", False):
            message.perm_only = self.chance(0.7)
        super().send(message)

    def serve(self, message):
        steps = super().serve(message)
        while True:
            self.serving = message
            try:
                next(steps)
            except StopIteration:
                return
            finally:
                self.serving = None
            yield

    def request(self, message):
        if message.opcode == "Acquire" and message.was == NONE:
            self.directory[message.block][message.link] = NONE
        super().request(message)

    def granted(self, beat):
        grant, line = beat.message, self.cache[beat.message.link][beat.message.block]
        if beat.first:
            self.old[grant.link][grant.block] = None
            line.upgraded = grant.opcode == "Grant" and not grant.unread
        super().granted(beat)
        if grant.opcode == "Grant" and grant.unread and line.dirty:
            grant.stores = True

    def acknowledged(self, beat):
        super().acknowledged(beat)
        grant = beat.message.grant
        if getattr(grant, "stores", False) and self.complete[grant.link]:
            line = self.cache[grant.link][grant.block]
            for i in range(self.beats):                       # the block that an AcquirePerm writes whole
                self.commit(self.judge.store, grant.link, grant.block, i, line.copy[i].get())

    def step(self):
        if self.drops and self.wrong == "drops a dirty copy" and self.chance(0.05):
            line = self.cache[self.rng.randrange(CACHES)][self.rng.randrange(self.blocks)]
            if line.perm == TRUNK and line.is_still() and not line.busy and line.probe is None:
                line.perm, line.dirty = NONE, False
        return self.fault or super().step()
