"""A judge of one link under liberties, apart from everything else of this repository: it keeps all messages and looks
back over them. What `tltool monitor` says is compared with this.

A beat is a Beat; a link is a History with a level, a width and a set of liberties."""

from collections import defaultdict, namedtuple

LIBERTIES = ["ids", "sinks", "writer", "early", "drops", "reports", "denied", "uncorrupt"]
RULES = ["L1", "L2", "L3", "L4", "L5", "L6", "L7", "S1"] + [f"H{it}" for it in range(1, 14)]
# The order in which a beat is judged.
ORDER = ["L1", "L7", "L2", "L3", "L4", "L5", "L6", "S1"] + [f"H{it}" for it in range(1, 14)]

Beat = namedtuple("Beat", "channel opcode param size source sink address mask denied corrupt")
NONE, BRANCH, TRUNK = 0, 1, 2
NEVER = float("inf")

# Opcode: name, for each channel.
NAMES = {
    "A": ["PutFullData", "PutPartialData", "ArithmeticData", "LogicalData", "Get", "Intent", "AcquireBlock", "AcquirePerm"],
    "B": ["PutFullData", "PutPartialData", "ArithmeticData", "LogicalData", "Get", "Intent", "ProbeBlock", "ProbePerm"],
    "C": ["AccessAck", "AccessAckData", "HintAck", None, "ProbeAck", "ProbeAckData", "Release", "ReleaseData"],
    "D": ["AccessAck", "AccessAckData", "HintAck", None, "Grant", "GrantData", "ReleaseAck", None],
    "E": ["GrantAck"],
}
WITH_DATA = {"PutFullData", "PutPartialData", "ArithmeticData", "LogicalData", "AccessAckData", "ProbeAckData", "ReleaseData",
             "GrantData"}
OF_LEVEL = {
    "UL": {"A": {"Get", "PutFullData", "PutPartialData"}, "D": {"AccessAck", "AccessAckData"}},
    "UH": {"A": {"Get", "PutFullData", "PutPartialData", "ArithmeticData", "LogicalData", "Intent"},
           "D": {"AccessAck", "AccessAckData", "HintAck"}},
}
ANSWERS = {"Get": {"AccessAckData"}, "PutFullData": {"AccessAck"}, "PutPartialData": {"AccessAck"},
           "ArithmeticData": {"AccessAckData"}, "LogicalData": {"AccessAckData"}, "Intent": {"HintAck"},
           "AcquireBlock": {"Grant", "GrantData"}, "AcquirePerm": {"Grant"}}
# Report: what was held, what is left.
REPORTS = [(TRUNK, BRANCH), (TRUNK, NONE), (BRANCH, NONE), (TRUNK, TRUNK), (BRANCH, BRANCH), (NONE, NONE)]
NTON = 5
PARAMS = {"ArithmeticData": range(5), "LogicalData": range(4), "Intent": range(2), "AcquireBlock": range(3), "AcquirePerm": range(3),
          "ProbeBlock": range(3), "ProbePerm": range(3), "ProbeAck": range(6), "ProbeAckData": (0, 1, 3), "Release": range(3),
          "ReleaseData": (0, 1), "Grant": range(3), "GrantData": range(3)}
PARAMS_WITH_REPORTS = {"Release": range(6), "ReleaseData": (0, 1, 3)}


def name_of(beat):
    return NAMES[beat.channel][beat.opcode]


class Message:
    """A message: its first beat, and the places of its first and of its last beat in the trace."""

    def __init__(self, beat, place):
        self.beat, self.name, self.first, self.last = beat, name_of(beat), place, NEVER


class History:
    def __init__(self, level, width, liberties=()):
        self.level, self.width, self.free = level, width, frozenset(liberties)
        self.place = 0
        self.unfinished = {}                 # by channel: a message and the number of its beats so far
        self.kept = defaultdict(list)        # messages by what they name

    # ---- what a beat breaks

    def judge(self, beat):
        """The first rule that a beat breaks after this history, or None."""
        rule = self.legality(beat)
        if rule is None and beat.channel in self.unfinished:
            begun = self.unfinished[beat.channel][0].beat
            same = beat._replace(mask=0, corrupt=0) == begun._replace(mask=0, corrupt=0)
            return None if same else "S1"
        return rule or self.order(beat)

    def legality(self, beat):
        channel, name = beat.channel, name_of(beat)
        levels = OF_LEVEL.get(self.level, {}).get(channel, set() if self.level != "C" else None)
        if name is None or (levels is not None and name not in levels):
            return "L1"
        if channel == "E":
            return None
        if (channel == "B" and beat.opcode < 6) or (channel == "C" and beat.opcode < 3):
            return "L7"
        if self.wrong_param(beat, name):
            return "L2"
        if beat.size not in self.sizes(name):
            return "L3"
        if channel != "D" and beat.address % 2**beat.size:
            return "L4"
        if channel in "AB" and self.wrong_mask(beat, name):
            return "L5"
        return "L6" if self.wrong_error(beat, name) else None

    def wrong_param(self, beat, name):
        params = PARAMS.get(name, (0,))
        if "reports" in self.free:
            params = PARAMS_WITH_REPORTS.get(name, params)
        if beat.param not in params:
            return True
        if name.startswith("Probe") and beat.source and "ids" not in self.free:
            return True
        return beat.channel == "D" and not name.startswith("Grant") and beat.sink and "sinks" not in self.free

    def sizes(self, name):
        if name in ("ArithmeticData", "LogicalData"):
            return (2, 3)
        if name in ("PutFullData", "PutPartialData", "Get", "Intent", "AccessAck", "AccessAckData", "HintAck"):
            return range(self.width.bit_length() if self.level == "UL" else 7)
        return (6,)

    def wrong_mask(self, beat, name):
        size, at = min(2**beat.size, self.width), beat.address % self.width
        lanes = sum(1 << lane for lane in range(at, at + size))
        return beat.mask & ~lanes if name == "PutPartialData" else beat.mask != lanes

    def wrong_error(self, beat, name):
        if beat.corrupt and name not in WITH_DATA:
            return True
        if not beat.denied:
            return False
        if name in ("Grant", "GrantData"):
            return "denied" not in self.free or (name == "GrantData" and not beat.corrupt)
        if name == "AccessAckData":
            return not beat.corrupt and "uncorrupt" not in self.free
        return name not in ("AccessAck", "HintAck")

    # ---- what is pending, and what is held: the last message that opened it and the last that closed it

    def last(self, kind, key):
        found = self.kept[kind, key]
        return found[-1] if found else None

    def closed(self, message, kind, key):
        """The place at which a message of this kind, begun after the message, was complete."""
        return min((it.last for it in self.kept[kind, key] if it.first > message.first), default=NEVER)

    def pending(self, opening, closing, key):
        message = self.last(opening, key)
        return message if message and self.closed(message, closing, key) == NEVER else None

    def request(self, source):
        return self.pending("request", "answer", source)

    def release(self, source):
        return self.pending("release", "release ack", source)

    def acquire_of(self, block):
        message = self.last("acquire of", block)
        return message if message and self.request(message.beat.source) is message else None

    def release_of(self, block):
        message = self.last("release of", block)
        return message if message and self.release(message.beat.source) is message else None

    def grant_ack_of(self, block):
        grant = self.last("grant of", block)
        return grant and self.closed(grant, "grant ack", grant.beat.sink) == NEVER

    def probe_of(self, block):
        return self.pending("probe of", "probe ack of", block)

    def held(self, block):
        left = [(-1, NONE)]
        for it in self.kept["grant of", block]:
            if not it.beat.denied:
                left.append((min(it.last, self.closed(it, "grant ack", it.beat.sink)), (TRUNK, BRANCH, NONE)[it.beat.param]))
        for it in self.kept["release of", block]:
            left.append((min(it.last, self.closed(it, "release ack", it.beat.source)), REPORTS[it.beat.param][1]))
        left += [(it.last, REPORTS[it.beat.param][1]) for it in self.kept["probe ack of", block]]
        if "drops" in self.free:
            left += [(it.last, NONE) for it in self.kept["acquire of", block] if it.beat.param != 2]
        return max(it for it in left if it[0] != NEVER)[1]

    # ---- the order of messages

    def order(self, beat):
        name = name_of(beat)
        if beat.channel == "D":
            return self.order_on_d(beat, name)
        if beat.channel == "E":
            grant = self.pending("grant", "grant ack", beat.sink)
            return None if grant and self.is_said(grant) else "H8"
        block = beat.address // 64
        if beat.channel == "A":
            return self.order_on_a(beat, name, block)
        if beat.channel == "B":
            return "H9" if self.probe_of(block) or self.grant_ack_of(block) else None
        if name.startswith("Release"):
            return self.order_of_release(beat, block)
        return self.order_of_probe_ack(beat, name, block)

    def is_said(self, message):
        return message.last != NEVER or "early" in self.free

    def order_on_a(self, beat, name, block):
        if self.request(beat.source):
            return "H1"
        if not name.startswith("Acquire"):
            return None
        if self.acquire_of(block) or self.release_of(block):
            return "H4"
        held = self.held(block)
        if beat.param == 2:
            return "H5" if held == TRUNK else None
        return "H5" if held != NONE and "drops" not in self.free else None

    def order_of_release(self, beat, block):
        if self.release(beat.source):
            return "H1"
        if self.acquire_of(block) or self.release_of(block):
            return "H13"
        unsaid = "drops" in self.free and beat.param == NTON
        return None if unsaid or REPORTS[beat.param][0] == self.held(block) else "H13"

    def order_of_probe_ack(self, beat, name, block):
        probe = self.probe_of(block)
        if not probe or (name == "ProbeAckData" and probe.name == "ProbePerm"):
            return "H10"
        if "ids" in self.free and probe.beat.source != beat.source:
            return "H10"
        if self.release_of(block):
            return "H11"
        held, most = self.held(block), (TRUNK, BRANCH, NONE)[probe.beat.param]
        wanted = REPORTS.index((held, min(held, most)))
        return None if beat.param == wanted or ("drops" in self.free and beat.param == NTON) else "H12"

    def order_on_d(self, beat, name):
        request = self.release(beat.source) if name == "ReleaseAck" else self.request(beat.source)
        if not request or not self.is_said(request):
            return "H2"
        if name != "ReleaseAck" and name not in ANSWERS[request.name]:
            return "H2"
        if beat.size != request.beat.size:
            return "H3"
        if not name.startswith("Grant"):
            return None
        block = request.beat.address // 64
        if self.probe_of(block) or (not beat.denied and self.wrong_grant(beat, name, request, block)):
            return "H6"
        return "H7" if self.pending("grant", "grant ack", beat.sink) else None

    def wrong_grant(self, beat, name, request, block):
        wanted = 1 if request.beat.param == 0 else 0
        writer = "writer" in self.free and request.name == "AcquireBlock" and beat.param == 0
        if beat.param != wanted and not writer:
            return True
        return name == "Grant" and request.name == "AcquireBlock" and self.held(block) != BRANCH

    # ---- a beat that breaks none is taken

    def take(self, beat):
        place, channel = self.place, beat.channel
        self.place += 1
        message, count = self.unfinished.pop(channel, (None, 0))
        if message is None:
            message = Message(beat, place)
            self.keep(message)
        beats = 2**message.beat.size // self.width if message.name in WITH_DATA else 1
        if count + 1 < beats:
            self.unfinished[channel] = message, count + 1
        else:
            message.last = place

    def keep(self, message):
        beat, name = message.beat, message.name
        block = beat.address // 64
        kinds = []
        if beat.channel == "A":
            kinds = [("request", beat.source)] + [("acquire of", block)] * name.startswith("Acquire")
        elif name.startswith("Release") and name != "ReleaseAck":
            kinds = [("release", beat.source), ("release of", block)]
        elif name == "ReleaseAck":
            kinds = [("release ack", beat.source)]
        elif name.startswith("Grant") and beat.channel == "D":
            block = self.request(beat.source).beat.address // 64
            kinds = [("answer", beat.source), ("grant", beat.sink), ("grant of", block)]
        elif beat.channel == "D":
            kinds = [("answer", beat.source)]
        elif beat.channel == "E":
            kinds = [("grant ack", beat.sink)]
        elif beat.channel == "B":
            kinds = [("probe of", block)]
        else:
            kinds = [("probe ack of", block)]
        for kind in kinds:
            self.kept[kind].append(message)
