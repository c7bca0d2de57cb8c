"""The rules for stores and loads, M5 to M7, beside those between links."""
from trial.judge import Judge
from trial.messages import NONE, TRUNK, could_be

REPORTS = ("ProbeAck", "Release")


class CommitJudge(Judge):
    """The judge of all links, with stores and loads. `complete` says of each link whether all its stores are recorded, and `zero`
    whether memory was zero before the trace. Where it judges the beats `alone`, stores and loads make no difference. `left_out` may name
    these parts of the rules too: probe_perm, unrecorded, under_way, late_loads, sets_judged."""

    def __init__(self, links, blocks, left_out, beats, complete, zero, alone):
        super().__init__(links, blocks, left_out, beats)
        self.complete, self.alone = complete, alone
        first = 0 if zero else None
        self.may = self.bytes_of(blocks, first)
        self.stored = [[False] * beats for _ in range(blocks)]
        self.memory = self.bytes_of(blocks, first)            # what memory may have, if no copy is given back
        self.loads = {}                                       # (link, block, byte): what a load may bring since its I line
        self.perm_only = {}                                   # (link, block): the last Probe is a ProbePerm

    def under_way(self, link, block):
        message = self.open.get((link, "D"))
        return message if message and message.opcode == "GrantData" and message.block == block else None

    def brought(self, link, block, i):
        message = self.under_way(link, block)
        return [message.values[i]] if message and i < len(message.values) and "under_way" not in self.out else None

    def is_judged(self, link, block):
        return "unrecorded" in self.out or self.complete[link] or self.held[link][block] != TRUNK

    def readable(self, link, block, i):
        """What a load may bring now: None if it may not load, (False, ..) if the byte isn't judged."""
        brought = self.brought(link, block, i)
        if brought:
            return True, brought
        if self.held[link][block] == NONE:
            return None
        return self.is_judged(link, block), [known for known, _ in self.may[block][i]]

    def allows(self, readable, value):
        return readable and (not readable[0] or any(could_be(value, known) for known in readable[1]))

    def gives_back(self, link, block):
        message = self.open.get((link, "C"))
        return message and message.data and message.block == block and self.answered.get(message) is None

    def store(self, link, block, i, value):
        if self.held[link][block] != TRUNK or self.under_way(link, block) or self.gives_back(link, block):
            return "M5"
        self.stored[block][i] = True
        self.may[block][i] = [(value, self.moment)]
        self.note_loads()

    def load_begins(self, link, block, i):
        self.loads[link, block, i] = []
        self.note_loads()

    def load(self, link, block, i, value):
        readable, since = self.readable(link, block, i), self.loads.pop((link, block, i), None)
        moments = [readable] if since is None or "late_loads" in self.out else since + [readable]
        if not any(moments):
            return "M5"
        if not any(self.allows(moment, value) for moment in moments):
            return "M6"
        if (since is None and not self.brought(link, block, i) or "sets_judged" in self.out) and readable and readable[0]:
            self.may[block][i] = [(value, self.moment)]

    def note_loads(self):
        for (link, block, i), found in self.loads.items():
            found.append(self.readable(link, block, i))

    def breach(self, beat):
        return super().breach(beat) or (None if self.alone else self.report_breach(beat))

    def report_breach(self, beat):
        message = beat.message
        if message.channel == "A" and message.opcode == "Acquire" and message.was == NONE:
            return self.lost(message, NONE)
        if message.channel != "C" or message.opcode not in REPORTS or self.answered.get(message) is not None:
            return None
        if message.data:
            if (self.complete[message.link] or "unrecorded" in self.out) and beat.value is not None:
                told = self.brought(message.link, message.block, beat.index)
                may = told or [known for known, _ in self.may[message.block][beat.index]]
                if not any(could_be(beat.value, known) for known in may):
                    return "M7"
            return None
        if message.opcode == "ProbeAck" and self.perm_only.get((message.link, message.block)) and "probe_perm" not in self.out:
            return None
        return self.lost(message, message.param)

    def lost(self, message, left):
        if not self.complete[message.link] or self.held[message.link][message.block] != TRUNK or left == TRUNK:
            return None
        for i in range(self.beats):
            both = [(value, known) for value, _ in self.may[message.block][i] for known, _ in self.memory[message.block][i]]
            if self.stored[message.block][i] and not any(value is None or could_be(value, known) for value, known in both):
                return "M7"
        return None

    def tell(self, block, values, moment):
        super().tell(block, values, moment)
        self.stored[block] = [False] * self.beats
        if not self.unread:
            self.memory[block] = [list(values) for values in self.may[block]]

    def answer(self, access, answer):
        super().answer(access, answer)
        self.may, self.memory = self.memory, self.may
        super().answer(access, answer)
        self.may, self.memory = self.memory, self.may

    def take(self, beat):
        message = beat.message
        was = self.held[message.link][message.block] if message.channel == "C" and message.opcode == "ProbeAck" else None
        if message.channel == "A" and message.opcode == "Acquire" and message.was == NONE:
            self.held[message.link][message.block] = NONE
        if message.channel == "B":
            self.perm_only[message.link, message.block] = getattr(message, "perm_only", False)
        self.unread = message.opcode == "Grant"               # an AcquirePerm's Grant sets nothing in memory
        super().take(beat)
        if was == TRUNK and not message.data and message.param != TRUNK and self.perm_only.get((message.link, message.block)):
            self.drop_stores(message.block)
        self.note_loads()

    def drop_stores(self, block):
        """The stores that a ProbePerm has lost: the bytes are those of memory."""
        for i in range(self.beats):
            if self.stored[block][i] and "probe_perm" not in self.out:
                self.may[block][i], self.stored[block][i] = list(self.memory[block][i]), False
