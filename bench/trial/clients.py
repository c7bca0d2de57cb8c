"""The clients of the models: caches, and devices whose accesses may be answered early."""
from trial.messages import BRANCH, NONE, TRUNK, Message, Thunk

CACHES, DEVICES = 3, 2


class Line:
    """What a cache has of a block, and what it has begun."""

    def __init__(self):
        self.perm, self.copy, self.dirty, self.busy, self.probe = NONE, None, False, None, None
        self.releasing = self.coming = self.reporting = False
        self.upgraded = self.perm_only = False

    def is_still(self):
        """Whether no message about its copy is under way."""
        return not (self.releasing or self.reporting or self.coming)


class Clients:
    """What the clients of a world do."""

    def act(self):
        block = self.rng.randrange(self.blocks)
        if self.chance(0.6):
            self.cache_acts(self.rng.randrange(CACHES), block)
        else:
            self.ask(CACHES + self.rng.randrange(DEVICES), block)

    # ---- caches

    def cache_acts(self, link, block):
        line = self.cache[link][block]
        if line.perm == TRUNK and not line.releasing and self.chance(0.5):
            line.copy[self.rng.randrange(self.beats)] = Thunk(value=self.value())
            line.dirty = True
        elif line.reporting:
            return
        elif line.perm and not line.releasing and not line.busy and not line.coming and self.chance(0.4):
            self.release(link, block, line)
        elif not line.busy and not line.releasing and not line.coming and line.perm < TRUNK:
            self.acquire(link, block, line)

    def acquire(self, link, block, line):
        want = TRUNK if line.perm == BRANCH or self.chance(0.5) else BRANCH
        unread = want == TRUNK and line.perm == NONE and self.chance(0.2)
        line.busy = want
        self.send(Message("A", link, "Acquire", block, after=lambda beat: self.request(beat.message), want=want, unread=unread,
            was=line.perm, source=block))

    def release(self, link, block, line):
        left = self.rng.choice([NONE, BRANCH, TRUNK]) if line.perm == TRUNK else NONE
        data = None
        if line.perm == TRUNK and (line.dirty or self.chance(0.5)):
            data = list(line.copy)
        elif left == TRUNK:
            left = NONE
        was = line.perm
        line.perm, line.dirty, line.releasing = left, False, True
        message = Message("C", link, "Release", block, data=data, param=left, was=was, source=block, after=self.release_beat)
        message.promises = [Thunk() for _ in range(message.beats)]
        message.acked = message.performed = False
        self.send(message)

    def answer_probe(self, link, block, line):
        cap, line.probe = line.probe, None
        was, left, line.reporting = line.perm, min(line.perm, cap), True
        data = list(line.copy) if was == TRUNK and (line.dirty or self.chance(0.3)) else None
        line.perm = left
        if was == TRUNK:
            line.dirty = False
        self.send(Message("C", link, "ProbeAck", block, data=data, param=left, was=was, after=self.report_beat))

    def probed(self, beat):
        self.cache[beat.message.link][beat.message.block].probe = beat.message.param

    def granted(self, beat):
        """After a beat of a Grant: the GrantAck may come before its last beat."""
        grant = beat.message
        line = self.cache[grant.link][grant.block]
        if beat.first:
            self.begin_grant(grant, line)
        if grant.opcode == "GrantData":
            line.filling[beat.index].value = beat.value
        if beat.last:
            line.coming = False
        if not grant.acking and (beat.last or self.chance(self.early)):
            grant.acking = True
            self.send(Message("E", grant.link, "GrantAck", grant.block, sink=grant.sink, grant=grant, after=self.acknowledged))

    def begin_grant(self, grant, line):
        if grant.opcode == "GrantData":
            line.copy = [Thunk() for _ in range(self.beats)]
            line.filling = list(line.copy)
            line.coming, line.dirty = True, False
        elif grant.unread or line.copy is None:
            line.copy, line.dirty = [Thunk(value=self.value()) for _ in range(self.beats)], True
        grant.acking = False

    def acknowledged(self, beat):
        grant = beat.message.grant
        line = self.cache[grant.link][grant.block]
        line.perm, line.busy, grant.acked = grant.param, None, True

    # ---- devices

    def ask(self, link, block):
        if self.busy[link]:
            return
        size = self.rng.choice([1 << bits for bits in range(self.beats.bit_length())])
        opcode = self.rng.choice(["Put", "Put", "Get", "Atomic"])
        if opcode == "Atomic":
            size = min(size, 2)
        message = Message("A", link, opcode, block, size=size, at=self.rng.randrange(0, self.beats, size))
        if opcode != "Get":
            message.data = [self.operand(opcode) if opcode == "Atomic" or self.chance(0.8) else None for _ in range(size)]
            message.beats = size
            message.operands = [Thunk() for _ in range(size)]
        message.performed = message.answered = message.begun = message.hold = False
        message.plan = "late"
        if message.beats > 1 and self.chance(self.early):
            message.plan = self.rng.choice(["perform", "answer"] if opcode == "Put" else ["perform"])
            message.hold = True
        message.ready = lambda message: not (message.sent + 1 == message.beats and message.hold and not self.may_end(message))
        message.after = self.request_beat
        self.busy[link] = message
        self.send(message)

    def operand(self, opcode):
        return Thunk(value=self.value() if opcode == "Put" else self.rng.randrange(1, 256))

    def may_end(self, message):
        """Whether the last beat of a request may be sent, which waits until the answer has begun."""
        return message.begun and (message.performed or not (message.plan == "perform" or message.answered))

    def access_done(self, beat):
        request = beat.message.request
        request.begun = True
        if beat.last:
            request.answered = True
        if request.sent == request.beats and request.answered:
            self.busy[request.link] = None
