"""Beats of traces, narrow and wide, and the names of their opcodes and params."""
import dataclasses

BLOCK = 64
# The letters of stores and loads, and their kinds in reports.
COMMITS, KINDS = "SLI", ["Store", "Load", "LoadBegin"]
# The opcodes that carry data, by channel.
DATA = {"A": "0123", "B": "0123", "C": "157", "D": "15", "E": ""}
PUT_FULL, PUT_PARTIAL = "0", "1"
# The names of opcodes, by channel, and of params, by opcode.
PUTS = ["PutFullData", "PutPartialData", "ArithmeticData", "LogicalData", "Get", "Intent"]
OPCODES = {
    "A": [*PUTS, "AcquireBlock", "AcquirePerm"], "B": [*PUTS, "ProbeBlock", "ProbePerm"],
    "C": ["AccessAck", "AccessAckData", "HintAck", None, "ProbeAck", "ProbeAckData", "Release", "ReleaseData"],
    "D": ["AccessAck", "AccessAckData", "HintAck", None, "Grant", "GrantData", "ReleaseAck"],
}
GROW, CAP, PRUNE = ["NtoB", "NtoT", "BtoT"], ["toT", "toB", "toN"], ["TtoB", "TtoN", "BtoN"]
PARAMS = {
    "ArithmeticData": ["MIN", "MAX", "MINU", "MAXU", "ADD"], "LogicalData": ["XOR", "OR", "AND", "SWAP"],
    "Intent": ["PrefetchRead", "PrefetchWrite"], "AcquireBlock": GROW, "AcquirePerm": GROW, "ProbeBlock": CAP, "ProbePerm": CAP,
    "Grant": CAP, "GrantData": CAP, "Release": PRUNE, "ReleaseData": PRUNE,
    **{it: [*PRUNE, "TtoT", "BtoB", "NtoN"] for it in ("ProbeAck", "ProbeAckData")},
}


@dataclasses.dataclass
class Beat:
    """The fields of a beat as numbers; those that its channel hasn't are 0 or empty."""

    link: str
    channel: str
    opcode: str = ""
    param: str = ""
    size: int = 0
    source: int = 0
    address: int = 0
    mask: int = 0
    sink: int = 0
    denied: str = ""
    data: list = None
    corrupt: str = ""

    def copy(self, **changed):
        return dataclasses.replace(self, **changed)

    def carries(self):
        return self.opcode != "" and self.opcode in DATA[self.channel]

    def line(self, width, ids, address):
        """Its line, with so many digits of ids and of the address."""
        if self.channel == "E":
            return f"{self.link} E {self.sink:0{ids}x}"
        data = "-" if self.data is None else "".join(f"{it:02x}" for it in reversed(self.data))
        head = f"{self.link} {self.channel} {self.opcode} {self.param} {self.size:x} {self.source:0{ids}x}"
        if self.channel == "D":
            return f"{head} {self.sink:0{ids}x} {self.denied} {data} {self.corrupt}"
        mask = "" if self.channel == "C" else f" {self.mask:0{width // 4}x}"
        return f"{head} {self.address:0{address}x}{mask} {data} {self.corrupt}"


def commit_words(link, letter, size, address, *value):
    """A store or a load in words."""
    count = 2**int(size, 16)
    action = {"S": "stores", "L": "loads", "I": "begins to load"}[letter]
    return ": ".join([f"link {link} {action} {count} byte{'s' * (count > 1)} at {address}", *value])


def in_words(line):
    """A line of a wide beat, or of a store or a load, in words."""
    link, channel, *fields = line.split()
    if channel in COMMITS:
        return commit_words(link, channel, *fields)
    if channel == "E":
        return f"{link} E GrantAck sink={fields[0]}"
    opcode, param, *others = fields
    name = OPCODES[channel][int(opcode, 16)]
    names = dict(enumerate(PARAMS.get(name, [])))
    labels = {"A": ["address", "mask"], "B": ["address", "mask"], "C": ["address"], "D": ["sink", "denied"]}[channel]
    labelled = zip(["size", "source", *labels, "data", "corrupt"], others, strict=True)
    return " ".join([link, channel, name, names.get(int(param, 16), param), *(f"{label}={it}" for label, it in labelled)])


def beat_of(line):
    """The beat of a line."""
    fields = line.split()
    link, channel = fields[:2]
    if channel == "E":
        return Beat(link, channel, sink=int(fields[2], 16))
    opcode, param = fields[2:4]
    size, source = (int(it, 16) for it in fields[4:6])
    data = None if fields[-2] == "-" else [int(fields[-2][i:i + 2], 16) for i in range(len(fields[-2]) - 2, -1, -2)]
    beat = Beat(link, channel, opcode, param, size, source, data=data, corrupt=fields[-1])
    if channel == "D":
        return beat.copy(sink=int(fields[6], 16), denied=fields[7])
    return beat.copy(address=int(fields[6], 16), mask=0 if channel == "C" else int(fields[7], 16))
