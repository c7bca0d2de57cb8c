"""The map file: how a design's ports are called, what it takes, and what it may do."""

import re
import tomllib
from pathlib import Path

from .fields import FIELDS, LEVELS, LIBERTIES, OF_LEVEL, REQUESTS, every_field, sent_by_client

# The entries of a map with their defaults; those without one come from elsewhere.
ENTRIES = {
    "files": [], "top": "", "include": [], "clock": "clk", "reset": "rst_n", "reset_high": False, "width": 8, "level": "C", "links": [],
    "port_of": [], "first_sources": [], "source_bits": 2, "sources": 0, "base": 0, "blocks": 16, "ports": "{channel}_{field}", "liberties": [], "takes": [], "largest": 6,
    "others": ["C", "UH"], "probe_source": 0, "registers": [], "largest_of_registers": 2, "timeout": 2000, "never": [],
    "parameters": {}, "inputs": {}, "fields": {}, "processor": {},
}
PROCESSOR = {
    "valid": None, "ready": None, "kind": None, "load": 0, "store": 1, "evict": None, "demote": None, "address": None, "data": None,
    "done": None, "result": None, "bytes": 8,
}
RANGE = re.compile(r"(0x[0-9a-fA-F]+|\d+)-(0x[0-9a-fA-F]+|\d+)$")


class Unusable(Exception):
    """What a map, a design or a command lacks, in words for the user."""


class Map:
    def __init__(self, file, side):
        self.file, self.side = file, side
        try:
            self.text = Path(file).read_text()
            self.table = tomllib.loads(self.text)
        except (OSError, UnicodeDecodeError) as error:
            raise Unusable(f"{file}: {getattr(error, 'strerror', None) or error}") from error
        except tomllib.TOMLDecodeError as error:
            raise Unusable(f"{file}: {error}") from error
        self.check_names("", self.table, ENTRIES)
        self.check_names("processor", self.table.get("processor", {}), PROCESSOR)
        self.check_names("fields", self.table.get("fields", {}), {f"{channel}_{field}": 0 for channel, field in every_field()})
        for name, default in ENTRIES.items():
            setattr(self, name, self.of_kind("", name, default))
        self.check_values()

    # ---- where a fault is

    def line_of(self, section, name):
        """The number of the line of an entry, or of its section, or 1."""
        current, found = "", 1
        for number, line in enumerate(self.text.splitlines(), 1):
            header = re.match(r"\s*\[+\s*([^\]]+?)\s*\]", line)
            current = header[1] if header else current
            if current == section and header:
                found = number
            if current == section and re.match(rf"\s*[\"']?{re.escape(name)}[\"']?\s*=", line):
                return number
        return found

    def at(self, section, name):
        """Where an entry stands, with the text of its line."""
        number = self.line_of(section, name)
        lines = self.text.splitlines() or [""]
        return f"{self.file}, line {number}: {lines[number - 1].strip()}"

    def refuse(self, section, name, text):
        raise Unusable(f"{self.at(section, name)}\n  {text}")

    # ---- what it says

    def check_names(self, section, table, known):
        if not isinstance(table, dict):
            raise Unusable(f"{self.at('', section)}\n  [{section}] is a table")
        for name in table:
            if name not in known:
                self.refuse(section, name, f"there is no such entry; there are {', '.join(known)}")

    def of_kind(self, section, name, default):
        value = self.table.get(name, default)
        if name == "ports" and isinstance(value, dict):
            self.want(set(value) == {"takes", "sends"}, name, "ports is a pattern, or one of what the design takes and one of what it sends:"
                      ' ports = { takes = "tl_i.{channel}_{field}", sends = "tl_o.{channel}_{field}" }')
        elif type(value) is not type(default):
            kinds = {int: "a number", str: "a text", bool: "true or false", list: "a list", dict: "a table"}
            self.refuse(section, name, f"{name} is {kinds[type(default)]}")
        return value

    def want(self, holds, name, text):
        if not holds:
            self.refuse("", name, text)

    def check_values(self):
        self.want(self.width in (4, 8, 16), "width", "width is the bytes of a beat: 4, 8 or 16")
        self.want(self.level in LEVELS, "level", "level is UL, UH or C")
        self.want(8 <= self.blocks <= 1024 and self.blocks % 8 == 0, "blocks", "blocks is a multiple of 8, at most 1024")
        self.want(0 <= self.base <= 2**32 - 64 * self.blocks and self.base % 64 == 0, "base",
                  "base is a multiple of 64, with room for the blocks in 32 bits")
        self.want(1 <= self.source_bits <= 8, "source_bits", "source_bits is 1 to 8")
        self.want(0 <= self.sources <= min(8, 2**self.source_bits), "sources",
                  f"sources is at most {min(8, 2**self.source_bits)}, of source_bits {self.source_bits}")
        self.want(0 <= self.largest <= 6, "largest", "largest is 0 to 6: accesses of up to 2 to this many bytes")
        self.want(0 <= self.largest_of_registers <= 3, "largest_of_registers", "largest_of_registers is 0 to 3")
        self.want(self.timeout >= 100, "timeout", "timeout is 100 cycles or more")
        self.want(set(self.liberties) <= set(LIBERTIES), "liberties", f"liberties are of {', '.join(LIBERTIES)}")
        self.want("denied" not in self.liberties, "liberties", "the proved client takes no denied Grants")
        self.want(0 <= self.probe_source < 2**self.source_bits, "probe_source", "probe_source has source_bits")
        self.want(set(self.takes) <= set(REQUESTS), "takes", f"takes are of {', '.join(REQUESTS)}")
        self.links = self.levels_of("links" if self.side != "client" else "others")
        self.read_ports()
        self.ranges = self.ranges_of(self.registers)
        self.read_processor()

    def levels_of(self, name):
        """The levels of the links. Those with caches own words, and stand first in a client's bench."""
        found = self.table.get(name, ENTRIES[name])
        if self.side == "client":
            found = [self.level, *found]
        found = found or [self.level]
        self.want(isinstance(found, list) and set(found) <= set(LEVELS) and 1 <= len(found) <= 8, name,
                  f"{name} is a list of levels (UL, UH, C), at most eight")
        self.want(self.side != "device" or "C" not in found, name, "a device has links of level UL or UH")
        return found

    def read_ports(self):
        """Which port of a manager each client is behind, and with which sources there."""
        count, sources = len(self.links), 1 << self.source_bits
        self.want(self.side != "client" or not (self.port_of or self.first_sources), "port_of", "ports are shared on the manager's side")
        self.port_of = self.port_of or list(range(count))
        self.first_sources = self.first_sources or [0] * count
        self.want(len(self.port_of) == count and self.port_of[0] == 0
                  and all(after - before in (0, 1) for before, after in zip(self.port_of, self.port_of[1:])), "port_of",
                  f"port_of has the port of each of {count} links, from 0 on and in order, as [0, 0, 1]")
        self.want(len(self.first_sources) == count and all(0 <= it <= 256 - sources for it in self.first_sources), "first_sources",
                  f"first_sources has the first of {sources} sources of each of {count} links")
        ranges = sorted(zip(self.port_of, self.first_sources))
        self.want(all(a[0] != b[0] or a[1] + sources <= b[1] for a, b in zip(ranges, ranges[1:])), "first_sources",
                  f"clients of one port have {sources} sources each, of which no two are the same")

    @property
    def ports_of_design(self):
        """How many ports with links the design has."""
        return 1 if self.side == "client" else self.port_of[-1] + 1

    def has_caches(self, port):
        """Whether a client of the port is of level C."""
        return "C" in ([self.level] if self.side == "client" else [level for level, at in zip(self.links, self.port_of) if at == port])

    def ranges_of(self, texts):
        """Ranges of addresses, as 0x100-0x11f."""
        found = []
        for text in texts:
            match = RANGE.match(str(text))
            first, last = (int(it, 0) for it in match.groups()) if match else (1, 0)
            self.want(match and self.base <= first <= last < self.base + 64 * self.blocks, "registers",
                      f"{text} isn't a range of the map, as 0x{self.base:x}-0x{self.base + 63:x}")
            found.append((first, last))
        self.want(len(found) <= 16, "registers", "there are at most 16 ranges of registers")
        return found

    def read_processor(self):
        given = self.table.get("processor", {})
        if self.side != "client":
            self.want(not given, "processor", f"a {self.side} has no processor")
            return
        self.processor = {**PROCESSOR, **given}
        for name in ("valid", "ready", "kind", "address", "data", "done", "result"):
            if self.processor[name] is None:
                raise Unusable(f"{self.at('processor', name)}\n  [processor] names no {name}: docs/CONFORMANCE.md says what a"
                               " processor's port is")
        if self.processor["bytes"] not in (4, 8):
            self.refuse("processor", "bytes", "a Load or a Store has 4 or 8 bytes")

    def check_never(self, names):
        """The situations that a design never brings are of those that there are."""
        for name in self.never:
            self.want(name in names, "never", f"{name} is no situation; there are {', '.join(names)}")

    @property
    def is_cache(self):
        """Whether a client of level C is under test."""
        return self.side == "client" and self.level == "C"

    @property
    def caches(self):
        """How many links acquire blocks."""
        return self.links.count("C") if {"AcquireBlock", "AcquirePerm"} & set(self.requests) else 0

    @property
    def most_bytes(self):
        """The bytes of the largest access: a link of level UL has none of several beats."""
        return min(1 << self.largest, self.width if set(self.links) == {"UL"} else 64)

    @property
    def sources_of_client(self):
        """The sources of each proved client."""
        return self.sources or min(8, 1 << self.source_bits)

    @property
    def requests(self):
        """What the clients send of channel A."""
        known = set().union(*(OF_LEVEL[level] for level in self.links))
        return [it for it in REQUESTS if it in known and (not self.takes or it in self.takes)]

    @property
    def liberty_set(self):
        return sum(1 << LIBERTIES.index(it) for it in self.liberties)

    def bits_of(self, channel, field):
        """The bits of a field where the design is joined: at a manager's port sources have eight."""
        sizes = {"source_bits": self.source_bits if self.side == "client" else 8, "width": self.width, "data_bits": 8 * self.width}
        bits = FIELDS[channel][field]
        return sizes.get(bits, bits)

    def design_sends(self, channel, field):
        return sent_by_client(channel, field) == (self.side == "client")

    def pattern(self, channel, field):
        """What the map says of a field: its own entry, or the pattern; with the section and the name of that entry."""
        own = f"{channel}_{field}"
        if own in self.fields:
            return self.fields[own], "fields", own
        if isinstance(self.ports, dict):
            return self.ports["sends" if self.design_sends(channel, field) else "takes"], "", "ports"
        return self.ports, "", "ports"

    def name_of(self, channel, field, link):
        """How the map calls a field of a link: a port, a number or "none"; and which entry says so."""
        name, section, entry = self.pattern(channel, field)
        bits = "" if field in ("valid", "ready") else "bits_"
        if isinstance(name, str):
            try:
                name = name.format(channel=channel, field=field, bits=bits, link=link)
            except (KeyError, IndexError, ValueError):
                self.refuse(section, entry, "a pattern has {channel}, {field}, {bits} and {link}, and no other braces")
        return name, section, entry
