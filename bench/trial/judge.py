"""The rules between links, M1 to M4, of clients and managers that may answer early."""
import collections

from trial.messages import BRANCH, NONE, TRUNK, could_be


class Access:
    """A pending access: when it was asked for, whether its answer came early, the bytes that a Put has brought, and the values that
    were found for each byte since."""

    def __init__(self, message, asked):
        self.message, self.asked, self.early, self.brought = message, asked, False, {}
        self.found = collections.defaultdict(set)

    def places(self):
        return range(self.message.at, self.message.at + self.message.size)

    def writes(self, i):
        if self.early or self.message.opcode == "Atomic":
            return i in self.places()
        return i in self.brought if self.message.opcode == "Put" else False

    def pending_value(self, i):
        return None if self.early or self.message.opcode == "Atomic" else self.brought[i]


class Judge:
    """The judge of all links. Blocks have so many beats. `left_out` names parts of the rules that are left out: held, released,
    late_release, late_grant, late_bytes, coming, access."""

    def __init__(self, links, blocks, left_out, beats):
        self.links, self.beats, self.out = links, beats, left_out
        self.held = [[NONE] * blocks for _ in range(links)]
        self.may = self.bytes_of(blocks, None)
        self.free = [[True] for _ in range(blocks)]          # by moment: free for writing
        self.told = [0] * blocks
        self.open = {}                                        # (link, channel): message that is unfinished
        self.pending, self.requests, self.answered = [], {}, {}
        self.moment, self.overtaken = 0, set()               # Grants whose block was reported since their GrantAck

    def bytes_of(self, blocks, value):
        """The possible values of each byte of each block, with their moments, if all have this one at first."""
        return [[[(value, 0)] for _ in range(self.beats)] for _ in range(blocks)]

    def is_free(self, block, need):
        return all(not (held[block] if need == TRUNK else held[block] == TRUNK) for held in self.held)

    def last_free(self, block):
        return next((i for i in range(self.moment, -1, -1) if self.free[block][i]), 0) if self.moment else 0

    def windows(self, block, asked):
        free = self.free[block]
        return sum(free[i] and (i == asked or not free[i - 1]) for i in range(asked, self.moment + 1))

    def began(self, block, asked):
        i = self.moment
        while i > asked and self.free[block][i - 1]:
            i -= 1
        return i

    # ---- the first rule that a beat breaks

    def breach(self, beat):
        message = beat.message
        if message.channel != "D":
            return None
        if beat.first and message.opcode in ("Grant", "GrantData") and self.conflicts(message):
            return "M1"
        if message.opcode == "GrantData":
            return self.grant_breach(beat)
        if message.opcode in ("AccessAck", "AccessAckData"):
            return self.access_breach(beat)
        return None

    def conflicts(self, grant):
        """Whether another link holds, or is being granted, what conflicts with a Grant."""
        for link in range(self.links):
            other = self.held[link][grant.block]
            coming = self.open.get((link, "D"))
            if coming and coming.opcode == "GrantData" and coming.block == grant.block and \
                    ("coming" in self.out or self.answered.get(coming) is None):
                other = max(other, coming.param)
            if link != grant.link and other and (grant.param == TRUNK or other == TRUNK):
                return True
        return False

    def may_grant(self, block, i):
        """The values that a Grant which begins now may bring for a byte."""
        pending = [
            access.pending_value(i) for access in self.pending
            if access.message.block == block and access.writes(i) and (access.early or self.windows(block, access.asked))
        ]
        return [known for known, _ in self.may[block][i]] + pending

    def grant_breach(self, beat):
        grant = beat.message
        if beat.first:
            grant.grant_may = [self.may_grant(grant.block, i) for i in range(self.beats)]
        if "late_bytes" not in self.out and grant in self.overtaken:
            return None
        return None if any(could_be(beat.value, known) for known in grant.grant_may[beat.index]) else "M2"

    def access_breach(self, beat):
        message = beat.message
        request = self.requests.get((message.link, message.source))
        access = next((it for it in self.pending if (it.message.link, it.message.source) == (message.link, message.source)), None)
        if beat.first and request.sent == request.beats and not (access and access.early) and not getattr(request, "window", False):
            return "M4"
        if message.opcode == "AccessAckData" and access and (not access.early or "access" in self.out):
            if beat.first or access.message.opcode == "Get":
                message.may_bring = {i: set(values) for i, values in access.found.items()}
            i = message.request.at + beat.index
            if not any(could_be(beat.value, known) for known in getattr(message, "may_bring", {}).get(i, ())):
                return "M3"
        return None

    # ---- the state after a beat

    def take(self, beat):
        message, now = beat.message, self.moment
        after, key = now + 1, (message.link, message.channel)
        if beat.first:
            message.values, self.open[key] = [], message
        message.values.append(beat.value)
        if message.channel == "A" and message.opcode in ("Put", "Get", "Atomic"):
            if beat.first:
                self.requests[message.link, message.source] = message
            self.asked(beat, after)
        if message.channel == "C" and beat.last:
            self.reported(message, now, after)
        if message.channel == "E":
            self.acknowledged(message, after)
        if message.channel == "D":
            self.response(beat, now, after)
        if beat.last:
            self.open[key] = None
        self.moment = after
        self.note_free(beat)

    def tell(self, block, values, moment):
        for i in range(self.beats):
            self.may[block][i] = [(values[i], moment)]

    def tell_all(self, block, values, now, after):
        """The bytes of a block, as a message has told them."""
        self.tell(block, values, now)
        self.told[block] = after

    def reported(self, message, now, after):
        """After the last beat of a report or a release."""
        if message.opcode.startswith("Release") and self.answered.get(message) is not None:
            if "late_release" in self.out:
                self.tell_all(message.block, message.values, now, after)
            return
        self.held[message.link][message.block] = message.param
        coming = self.open.get((message.link, "D"))
        if coming and coming in self.answered and coming.block == message.block:
            self.overtaken.add(coming)
        if message.data:
            self.tell_all(message.block, message.values, now, after)

    def acknowledged(self, message, after):
        """After a GrantAck, which may come before the last beat of its Grant."""
        grant = message.grant
        if grant.sent < grant.beats:
            if "held" not in self.out:
                self.held[message.link][message.block] = grant.param
            self.answered[grant] = after

    def note_free(self, beat):
        """Notes for each block whether it is free, and for each pending access what it may find there."""
        for block, free in enumerate(self.free):
            free.append(self.is_free(block, TRUNK))
        for access in self.pending:
            request, block = access.message, access.message.block
            reads = request.opcode == "Get"
            if self.is_free(block, BRANCH if reads else TRUNK) or reads and self.is_shown(beat, block):
                if request.sent == request.beats or request is beat.message and beat.last:
                    request.window = True
                self.find(access, block)

    def is_shown(self, beat, block):
        """Whether a beat ends a report that leaves Trunk of the block."""
        message = beat.message
        late = message.opcode.startswith("Release") and self.answered.get(message) is not None
        return message.channel == "C" and beat.last and not late and message.param == TRUNK and message.block == block

    def find(self, access, block):
        for i in access.places():
            access.found[i] |= {known for known, _ in self.may[block][i]}
            others = [it for it in self.pending if it is not access and it.message.block == block and it.writes(i)]
            access.found[i] |= {it.pending_value(i) for it in others}

    def asked(self, beat, after):
        message = beat.message
        access = self.access_of(message)
        if access and access.early:
            if beat.last and message.answered:
                self.pending.remove(access)
                self.answer(access, None)
            return
        if message.opcode == "Put" or beat.last:
            access = access or self.begin(message, after)
            if message.opcode == "Put" and beat.value is not None:
                access.brought[message.at + beat.index] = beat.value

    def access_of(self, request):
        return next((it for it in self.pending if it.message is request), None)

    def begin(self, request, after):
        self.pending.append(Access(request, after))
        return self.pending[-1]

    def answer(self, access, answer):
        """The bytes after the answer to an access."""
        block, now, at = access.message.block, self.moment, access.message.at
        for i in filter(access.writes, range(self.beats)):
            before = self.may[block][i]
            if access.early:
                self.may[block][i] = [(None, now)]
                continue
            value = access.brought[i] if access.message.opcode == "Put" else answer.values[i - at] ^ access.message.values[i - at]
            if self.free[block][now]:
                if self.windows(block, access.asked) == 1:
                    since = self.began(block, access.asked)
                    before = [it for it in before if it[1] >= since]
            elif self.last_free(block) < self.told[block]:
                continue
            self.may[block][i] = [(value, now)] + [it for it in before if it[0] != value]

    def response(self, beat, now, after):
        message = beat.message
        if message.opcode in ("Grant", "GrantData") and beat.last:
            self.granted(message, now, after)
        if message.opcode == "ReleaseAck":
            self.released(message, now, after)
        if message.opcode in ("AccessAck", "AccessAckData"):
            self.access_answered(beat, after)

    def granted(self, grant, now, after):
        """After the last beat of a Grant."""
        if self.answered.get(grant) is None or "held" in self.out:
            self.held[grant.link][grant.block] = grant.param
        if grant.opcode == "GrantData" and ("late_grant" in self.out or grant not in self.overtaken):
            self.tell_all(grant.block, grant.values, now, after)
        if grant.opcode == "Grant" and grant.unread:
            self.tell_all(grant.block, [None] * self.beats, now, after)

    def released(self, message, now, after):
        """After a ReleaseAck, which may come before the last beat of its Release."""
        release = message.release
        if release.sent == release.beats:
            return
        self.held[message.link][message.block] = release.param
        if release.data:
            self.answered[release] = now
            if "released" not in self.out:
                values = release.values + [None] * (self.beats - len(release.values))
                self.tell_all(message.block, values, now, after)

    def access_answered(self, beat, after):
        """After a beat of the answer to an access, which may begin before the last beat of its request."""
        message, request = beat.message, beat.message.request
        request.answered = beat.last
        access = self.access_of(request)
        if request.sent < request.beats:
            access = access or self.begin(request, after)
            access.early = "access" not in self.out
            if beat.last and not access.early:
                self.pending.remove(access)
        elif beat.last and access:
            self.pending.remove(access)
            self.answer(access, message)
