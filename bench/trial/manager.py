"""The manager of the models, right or wrong: it may answer a request before its last beat, and perform it early or late."""
from trial.clients import CACHES
from trial.messages import BRANCH, NONE, TRUNK, Message, Thunk

BUGS = ["no probes", "one probe", "drops probed", "drops released", "drops late release beats", "late release overwrites",
    "late put overwrites", "drops a put", "drops late put beats", "stale late beats", "stale get"]


class Manager:
    """What the manager of a world does. Each request is served by a generator, which goes on from step to step."""

    # ---- beats that arrive

    def release_beat(self, beat):
        message = beat.message
        message.promises[beat.index].value = beat.value
        if (message.data and beat.first or beat.last) and self.acks_now(beat) and not message.acked:
            message.acked = True
            self.send(Message("D", message.link, "ReleaseAck", message.block, source=message.block, release=message, after=self.released))
        if beat.last and not message.performed and self.chance(0.5):
            self.perform_release(message)
        if message.performed and self.bug == "late release overwrites" and message.data:
            self.memory[message.block][beat.index] = Thunk(value=beat.value)

    def acks_now(self, beat):
        """Whether a Release is answered with this beat."""
        return beat.first and (beat.last or self.chance(self.early)) or beat.last and not beat.message.acked

    def report_beat(self, beat):
        message = beat.message
        if not beat.last:
            return
        if message.data and self.bug != "drops probed":
            self.memory[message.block] = [Thunk(value=value) for value in message.values]
        self.directory[message.block][message.link] = message.param
        self.cache[message.link][message.block].reporting = False
        self.probing[message.block].discard(message.link)

    def perform_release(self, message):
        if message.performed:
            return
        message.performed = True
        if message.data and self.bug != "drops released":
            kept = message.sent if self.bug == "drops late release beats" else self.beats
            self.memory[message.block][:kept] = message.promises[:kept]
        self.directory[message.block][message.link] = message.param

    def released(self, beat):
        self.perform_release(beat.message.release)
        self.cache[beat.message.link][beat.message.block].releasing = False

    def request(self, message):
        self.waiting[message.block].append(message)

    def request_beat(self, beat):
        message = beat.message
        if message.opcode != "Get":
            message.operands[beat.index].value = 0 if beat.value is None else beat.value
            if message.performed and self.bug == "late put overwrites" and message.opcode == "Put" and beat.value is not None:
                self.memory[message.block][message.at + beat.index] = Thunk(value=beat.value)
        if beat.first and message.plan == "answer":
            self.respond(message)
        if beat.last if message.plan == "late" else beat.first:
            self.request(message)

    # ---- requests

    def probes(self):
        """Whether the manager probes all whom it ought to."""
        return self.bug not in ("no probes", "one probe")

    def clear(self, block, own, left):
        """Probes those who hold more of the block than may be left."""
        if self.bug == "no probes":
            return
        targets = [link for link in range(CACHES) if link != own and self.directory[block][link] > left]
        if self.bug == "one probe":
            targets = targets[:1]
        for link in targets:
            self.probe(link, block, left)
        while self.probing[block]:
            yield

    def probe(self, link, block, left):
        self.probing[block].add(link)
        self.send(Message("B", link, "Probe", block, param=left, after=self.probed))

    def serve(self, message):
        return {"Acquire": self.serve_acquire, "Get": self.serve_get}.get(message.opcode, self.serve_write)(message)

    def serve_acquire(self, message):
        block, left = message.block, NONE if message.want == TRUNK else BRANCH
        # a Release of the asking client is performed first
        yield from self.clear(block, message.link, left)
        while self.probes() and any(self.directory[block][link] > left for link in range(CACHES) if link != message.link):
            yield
        plain = message.unread or (self.directory[block][message.link] == BRANCH and self.chance(0.5))
        self.directory[block][message.link] = message.want
        self.sinks += 1
        grant = Message("D", message.link, "Grant" if plain else "GrantData", block, param=message.want, source=block,
            unread=message.unread, sink=self.sinks, after=self.granted)
        if not plain:
            grant.data, grant.beats = self.granted_data(block), self.beats
        grant.acked = False
        self.send(grant)
        while not grant.acked:
            yield

    def granted_data(self, block):
        if self.lazy:
            return [Thunk(get=lambda i=i: self.memory[block][i].get()) for i in range(self.beats)]
        data = list(self.memory[block])
        if self.bug == "stale late beats":
            data[2:] = self.first_memory[block][2:]
        return data

    def serve_get(self, message):
        block = message.block
        old = list(self.memory[block])
        if TRUNK in self.directory[block]:
            cap = self.rng.choice([NONE, BRANCH, TRUNK])
            if self.probes():
                self.probe(self.directory[block].index(TRUNK), block, cap)
                while self.probing[block]:
                    yield
        memory = old if self.bug == "stale get" else self.memory[block]
        message.performed, message.old = True, memory[message.at:message.at + message.size]
        self.respond(message)

    def serve_write(self, message):
        block = message.block
        yield from self.clear(block, None, NONE)
        while self.probes() and any(self.directory[block]):
            yield
        for _ in range(self.rng.randrange(6)):
            yield
        if self.probes() and any(self.directory[block]):
            raise Exception("held")
        while message.plan == "answer" and not message.begun:
            yield
        self.perform(message)
        if message.plan != "answer":
            self.respond(message)
        while message.plan == "perform" and not message.begun:
            yield

    def perform(self, message):
        memory = self.memory[message.block]
        message.performed = True
        message.old = memory[message.at:message.at + message.size]
        for i, (old, operand) in enumerate(zip(message.old, message.operands)):
            if message.opcode == "Atomic":
                memory[message.at + i] = exclusive_or(old, operand)
            elif not (self.bug == "drops a put" and self.chance(0.3) or self.bug == "drops late put beats" and operand.value is None):
                memory[message.at + i] = replaced(old, operand)

    def respond(self, message):
        answer = Message("D", message.link, "AccessAck" if message.opcode == "Put" else "AccessAckData", message.block,
            source=message.source, request=message, after=self.access_done)
        if message.opcode != "Put":
            answer.data, answer.beats = list(message.old), message.size
        answer.ready = lambda answer: not (
            answer.sent + 1 == answer.beats and message.sent == message.beats and message.hold and not message.performed)
        self.send(answer)


def exclusive_or(old, operand):
    """What an atomic leaves, as soon as both are known."""
    return Thunk(get=lambda: None if old.get() is None or operand.value is None else old.get() ^ operand.value)


def replaced(old, operand):
    """What a Put leaves, as soon as it is known: 0 doesn't write the byte."""
    return Thunk(get=lambda: None if operand.value is None else (operand.value or old.get()))
