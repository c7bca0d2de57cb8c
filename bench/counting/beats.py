"""The lines of a trace, and the names of their opcodes and params."""

GROWS, CAPS = ["NtoB", "NtoT", "BtoT"], ["toT", "toB", "toN"]
REPORTS = ["TtoB", "TtoN", "BtoN", "TtoT", "BtoB", "NtoN"]
ARITHMETIC, LOGICAL = ["MIN", "MAX", "MINU", "MAXU", "ADD"], ["XOR", "OR", "AND", "SWAP"]
# What a link holds after a report, a prune or a cap, by its number.
LEFT, GIVEN = ["B", "N", "N", "T", "B", "N"], ["T", "B", "N"]
# Opcodes by channel, and their params by opcode.
OPCODES = {
    "A": ["PutFullData", "PutPartialData", "ArithmeticData", "LogicalData", "Get", "Intent", "AcquireBlock", "AcquirePerm"],
    "B": [None, None, None, None, None, None, "ProbeBlock", "ProbePerm"],
    "C": [None, None, None, None, "ProbeAck", "ProbeAckData", "Release", "ReleaseData"],
    "D": ["AccessAck", "AccessAckData", "HintAck", None, "Grant", "GrantData", "ReleaseAck"],
}
PARAMS = {
    "ArithmeticData": ARITHMETIC,
    "LogicalData": LOGICAL,
    "Intent": ["PrefetchRead", "PrefetchWrite"],
    **dict.fromkeys(["AcquireBlock", "AcquirePerm"], GROWS),
    **dict.fromkeys(["ProbeBlock", "ProbePerm", "Grant", "GrantData"], CAPS),
    **dict.fromkeys(["ProbeAck", "ProbeAckData", "Release", "ReleaseData"], REPORTS),
}


class Beat:
    """A line of a trace. Fields that a channel has none of are None."""

    def __init__(self, line, width):
        fields = line.split(" ")
        self.link, self.channel = int(fields[0], 16), fields[1]
        self.opcode = self.param = self.size = self.source = self.block = self.mask = self.sink = None
        self.denied = self.corrupt = False
        if self.channel == "E":
            self.sink = int(fields[2], 16)
        else:
            self.opcode, self.param, self.size = (int(it, 16) for it in fields[2:5])
            self.source = int(fields[5], 16)
            self.name = OPCODES[self.channel][self.opcode]
            self.corrupt = fields[-1] == "1"
            if self.channel == "D":
                self.sink, self.denied = int(fields[6], 16), fields[7] == "1"
            else:
                self.address = int(fields[6], 16)
                self.block = self.address // 64
        if self.channel in "AB":
            self.mask = int(fields[7], 16)
        data = {"A": 8, "B": 8, "C": 7, "D": 8}.get(self.channel)
        carries = data is not None and fields[data] != "-"
        self.beats = max(1, 2**self.size // width) if carries else 1

    def __getattr__(self, name):
        kinds = {
            "acquire": ("A", (6, 7)),
            "access": ("A", range(6)),
            "probe": ("B", (6, 7)),
            "probe_ack": ("C", (4, 5)),
            "release": ("C", (6, 7)),
            "grant": ("D", (4, 5)),
            "release_ack": ("D", (6,)),
        }
        channel, opcodes = kinds[name]
        return self.channel == channel and self.opcode in opcodes


def header_of(trace):
    """The levels that a header names, the words of its liberties, and the bytes of a beat."""
    words = trace.splitlines()[0].split()
    width = int(words[2]) if words[1] != "1" else 8
    rest = words[2:] if words[1] == "1" else words[3:]
    levels = [word for word in rest if word in ("UL", "UH", "C")]
    return levels, set(rest[0].split(",")) if words[1] == "4" else set(), width


def beats_of(trace):
    """The beats of a trace without a fault, each with its line, and the bytes of a beat."""
    _, *lines = trace.splitlines()
    width = header_of(trace)[2]
    return [(number, Beat(line, width)) for number, line in enumerate(lines, 2)], width
