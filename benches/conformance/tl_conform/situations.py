"""The situations that the messages of a run have been in, counted by `tltool cover`, and those that its bench can't bring."""

import collections
import json

from .explained import tltool
from .map_file import Unusable

ATOMICS = {"ArithmeticData", "LogicalData"}
PUTS = {"PutFullData", "PutPartialData"}
# The accesses of a situation, by the first word of its name.
ACCESSES = {"get": {"Get"}, "put": PUTS, "atomic": ATOMICS, "mask": {"PutPartialData"}, "arithmetic": {"ArithmeticData"},
            "logical": {"LogicalData"}}
# What a situation between links needs: so many links that acquire blocks, and one of these accesses from another one.
OF_SEVERAL = {
    "contention": (2, set()), "three-contend": (3, set()), "report-beside-grant": (2, set()), "read-of-owned": (1, {"Get"}), "write-to-owned": (1, PUTS),
    "atomic-on-owned": (1, ATOMICS), "write-to-shared": (2, PUTS),
}
# The liberty without which no beat brings a situation.
LIBERTY_OF = {
    "probe-with-source": "ids", "sink-without-grant": "sinks", "grant-of-more": "writer", "copy-dropped": "drops",
    "release-TtoT": "reports", "release-BtoB": "reports", "release-NtoN": "reports", "grant-denied": "denied",
    "denied-uncorrupt": "uncorrupt", "early-response": "early", "early-grant-ack": "early",
}
# Of these, what a client's end brings, and the liberties that the proved manager uses.
OF_CLIENTS = {"copy-dropped", "release-TtoT", "release-BtoB", "release-NtoN", "early-grant-ack"}
OF_PROVED_MANAGER = {"writer", "ids"}
APART = "a proved client sends accesses only to blocks that it never acquires"
OF_PROVED_CLIENTS = {
    "probe-beside-release": "a proved client takes no Probe of a block while its Release is pending",
    "release-beside-probe": "a proved client releases no block before its answer to a Probe of it is sent",
    "access-beside-transfer": APART, "access-of-held-block": APART,
}


class Table:
    """The situations by name, in the order of `tltool`, with a sentence each."""

    def __init__(self, tool, map):
        status, said = tltool(tool, "cover", "--json", input="tltrace 1 C\n")
        if status != 0:
            raise Unusable(f"{tool} has no command cover: it is older than these benches")
        self.sentences = {row["name"]: row["text"] for row in json.loads(said)["situations"]}
        map.check_never(list(self.sentences))
        self.never = {}
        for name in self.sentences:
            reason = why_never(name, map) or ("the map says never" if name in map.never else "")
            if reason:
                self.never[name] = reason

    @property
    def possible(self):
        return [name for name in self.sentences if name not in self.never]


def why_never(name, map):
    """Why no traffic of a bench brings a situation; nothing if it can come."""
    word, _, detail = name.partition("-")
    if name not in OF_SEVERAL and word in ACCESSES:
        bytes = int(detail) if detail.isdigit() else 4 if ACCESSES[word] & ATOMICS else 1
        return why_no_access(ACCESSES[word], bytes, map)
    if name == "response-at-once":
        return ""
    if name in ("sink-without-grant", "denied-uncorrupt", "early-response"):
        return why_no_liberty(name, map)
    if map.caches == 0:
        return "no link acquires blocks"
    return why_not_beside(name, map) if name in OF_SEVERAL else why_not_of_a_link(name, map)


def why_no_access(accesses, bytes, map):
    """The same of accesses of so many bytes."""
    if not accesses & set(map.requests):
        return no_link_sends(accesses)
    return "" if bytes <= map.most_bytes else f"accesses have up to {map.most_bytes} bytes"


def no_link_sends(accesses):
    return f"no link sends a {' or a '.join(sorted(accesses))}"


def why_not_of_a_link(name, map):
    """The same of a situation of one link that acquires blocks."""
    if name in LIBERTY_OF:
        return why_no_liberty(name, map)
    if not map.is_cache and name in OF_PROVED_CLIENTS:
        return OF_PROVED_CLIENTS[name]
    if map.side == "client" and name in ("probe-toT", "report-TtoT"):
        return "the proved manager sends no Probe toT"
    least = {"two-grants": 2, "four-grants": 4}.get(name, 1)
    return f"no link has {least} sources" if not map.is_cache and map.sources_of_client < least else ""


def why_no_liberty(name, map):
    """The same of a situation that only a liberty allows."""
    liberty = LIBERTY_OF[name]
    if liberty not in map.liberties:
        return f"the links don't have the liberty {liberty}"
    if name in OF_CLIENTS:
        return "" if map.is_cache else f"a proved client doesn't use the liberty {liberty}"
    if map.side == "client" and (liberty not in OF_PROVED_MANAGER or liberty == "ids" and map.probe_source == 0):
        return f"the proved manager doesn't use the liberty {liberty}"
    return ""


def why_not_beside(name, map):
    """The same of a situation between links."""
    caches, accesses = OF_SEVERAL[name]
    if map.caches < caches:
        return f"fewer than {caches} links acquire blocks"
    if accesses and not accesses & set(map.requests):
        return no_link_sends(accesses)
    if accesses and len(map.links) <= caches:
        return f"there are no more than {caches} links"
    return "" if name != "write-to-shared" or shares_a_block(map) else "no two links acquire a block to which another sends a Put"


def shares_a_block(map):
    """Whether two links acquire a block of those to which accesses go: proved clients of odd and of even numbers never do
    (tl_random_client.sv)."""
    proved = [link for link, level in enumerate(map.links) if level == "C" and not (map.is_cache and link == 0)]
    return map.is_cache or any((later - link) % 2 == 0 for link in proved for later in proved if link < later)


def count(tool, trace):
    """How often each situation came in a trace, and each bin on each link, up to the first line at fault; nothing where there is no
    trace."""
    if not trace.exists():
        return {}, {}
    _, said = tltool(tool, "cover", "--json", str(trace))
    try:
        told = json.loads(said)
    except ValueError:
        return {}, {}
    return {row["name"]: row["count"] for row in told["situations"] if row["count"]}, {row["name"]: row["counts"] for row in told["bins"]}


def both(one, other):
    """The sum of two counts of a bin, None where the link can't have it."""
    return other if one is None else one if other is None else one + other


class Covered:
    """The counts of seeds, added."""

    def __init__(self, table):
        self.table = table
        self.messages, self.seeds = collections.Counter(), collections.defaultdict(set)
        self.bins = {}  # by name the counts on each link

    def add(self, seed):
        self.messages.update(seed.situations)
        for name in seed.situations:
            self.seeds[name].add(seed.number)
        for name, counts in seed.bins.items():
            self.bins[name] = [both(*pair) for pair in zip(self.bins[name], counts)] if self.bins.get(name) else counts

    @property
    def seen(self):
        return [name for name in self.table.sentences if self.messages[name]]

    @property
    def holes(self):
        """What can come and didn't."""
        return [name for name in self.table.possible if not self.messages[name]]

    @property
    def never(self):
        """What can't come and didn't, with the reasons."""
        return {name: reason for name, reason in self.table.never.items() if not self.messages[name]}

    @property
    def bin_summary(self):
        possible = [count for counts in self.bins.values() for count in counts if count is not None]
        return f"{sum(count > 0 for count in possible)} of {len(possible)} bins of the links seen"

    @property
    def summary(self):
        return f"{len(self.seen)} of {len(self.seen) + len(self.holes)} situations seen"
