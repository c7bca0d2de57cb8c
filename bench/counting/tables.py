"""The tables of a link: the bins that its messages fall in, which of them it can have, and their text."""
from counting.beats import CAPS, GIVEN, GROWS, OPCODES, PARAMS, REPORTS
from counting.links import REQUESTS

PLAIN = ["PutFullData", "PutPartialData", "Get", "AccessAck", "AccessAckData"]
WAITS = ["0", "1", "2-3", "4-7", "8-15", "16-31", "32-63", "64-127"]
# How many are pending, with the one that begins.
DEPTHS = ["1", "2", "3-4", "5-8", "9-16"]


def kind_of(beat):
    """Channel, opcode, param and bytes of a message."""
    if beat.channel == "E":
        return "E-GrantAck"
    params = PARAMS.get(beat.name)
    return "-".join([beat.channel, beat.name, *([params[beat.param]] if params else []), str(2**beat.size)])


def pending(beat, link):
    """The kind of a message of which several can be pending, and how many are before it."""
    if beat.channel == "A":
        return next(((kind, len(link.sources[kind])) for kind, opcodes in REQUESTS.items() if beat.opcode in opcodes), None)
    found = {"probe": len(link.probed), "release": len(link.sources["release"]), "grant": len(link.sinks)}
    return next(((kind, before) for kind, before in found.items() if getattr(beat, kind)), None)


def bins(beat, link, number):
    """The bins of the table of its link in which a message begins with a beat, in this line."""
    yield kind_of(beat)
    if beat.grant:
        change = f"{link.held[link.requests[beat.source].block]}to{GIVEN[beat.param]}"
        yield from [f"grant-{change}"][: change in GROWS]
    if beat.probe_ack:
        param, line = link.asked[beat.block]
        yield f"report-{REPORTS[beat.param]}-{CAPS[param]}"
        between = number - line - 1
        yield f"waited-{WAITS[between.bit_length()] if between < 128 else '128-up'}"
    if beat.access:
        yield f"access-{2**beat.size}-at-{min(64, beat.address & -beat.address or 64)}"
    if found := pending(beat, link):
        kind, before = found
        yield f"pending-{kind}-{DEPTHS[before.bit_length()] if before < 16 else '17-up'}"


def can_come(name, level, width, liberties):
    """Whether a link of this level, of beats of so many bytes, with these liberties, can have a bin."""
    word, *rest = name.split("-")
    if word == "access":
        return level != "UL" or int(rest[0]) <= width
    if word == "pending":
        return rest[0] in ("get", "put") or level == "C" or rest[0] == "atomic" and level == "UH"
    if word not in list("ABCDE"):
        return level == "C"
    opcode, param, size = rest[0], rest[1:-1], rest[-1]
    if opcode.startswith("Release") and word == "C" and param[0] not in ["TtoB", "TtoN", "BtoN"]:
        return level == "C" and bool(liberties & {"reports", "standard"})
    if opcode.startswith("Grant") and param == ["toN"]:
        return level == "C" and bool(liberties & {"denied", "standard"})
    if opcode in PLAIN:
        return level != "UL" or int(size) <= width
    if opcode in ["ArithmeticData", "LogicalData", "Intent", "HintAck"]:
        return level != "UL"
    return level == "C"


def layout():
    """The tables of a link: title, heads of the columns, and the rows, each with its head and the names of the bins in its cells."""
    sizes, held = [str(2**n) for n in range(7)], "NBT"
    heads = [
        "-".join(filter(None, [channel, opcode, param]))
        for channel in "ABCD"
        for opcode in filter(None, OPCODES[channel])
        for param in PARAMS.get(opcode, [None])
    ]
    rows = [(head, [[f"{head}-{size}"] for size in sizes]) for head in heads]
    yield "messages", sizes, [*rows, ("E-GrantAck", [[]] * 6 + [["E-GrantAck"]])]
    grants = [(f"grant-{cap}", [[f"grant-{it}{cap}"] for it in held]) for cap in CAPS]
    reports = [(f"report-{cap}", [[f"report-{it}to{left}-{cap}" for left in held] for it in held]) for cap in CAPS]
    opcodes = ["Release", "ReleaseData"]
    releases = [(f"release-{cap}", [[f"C-{opcode}-{it}{cap}-64" for opcode in opcodes] for it in held]) for cap in CAPS]
    yield "permissions", ["None", "Branch", "Trunk"], [*grants, *reports, *releases]
    waits = [*WAITS, "128-up"]
    yield "waits", waits, [("waited", [[f"waited-{it}"] for it in waits])]
    yield "alignments", sizes, [(f"access-{size}-at", [[f"access-{size}-at-{it}"] for it in sizes]) for size in sizes]
    depths, kinds = [*DEPTHS, "17-up"], [*REQUESTS, "release", "probe", "grant"]
    yield "pending", depths, [(f"pending-{kind}", [[f"pending-{kind}-{it}"] for it in depths]) for kind in kinds]


def tables_text(links, counted):
    """The text of the tables of so many links. `counted` gives the counts of a link by the names of bins; what a link can't have
    is in none."""
    counts = [counted(link) for link in range(links)]
    width = 2 + max([6, *(len(str(count)) for here in counts for count in here.values())])
    text = ""
    for link, here in enumerate(counts):
        for title, columns, rows in layout():
            lines = []
            for head, cells in rows:
                sums = [[here[name] for name in names if name in here] for names in cells]
                if any(sums):
                    said = [str(sum(it)) if it else "-" for it in sums]
                    lines.append(head.ljust(24) + "".join(it.rjust(width) for it in said))
            if lines:
                front = f"{title} on link {link}".ljust(24) + "".join(it.rjust(width) for it in columns)
                text += "\n".join(["", front, *lines, ""])
    return text
