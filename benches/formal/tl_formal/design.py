"""A design under test: its map file, and its ports as Yosys reads them."""

import re
import subprocess
import tomllib
from pathlib import Path

# The fields of a link by channel: name and whether the client sends it. A width is a number or a name of the map.
FIELDS = {
    "a": [("valid", 1), ("ready", 1), ("opcode", 3), ("param", 3), ("size", 4), ("source", "source_bits"),
          ("address", "address_bits"), ("mask", "width"), ("corrupt", 1)],
    "b": [("valid", 1), ("ready", 1), ("opcode", 3), ("param", 3), ("size", 4), ("source", "source_bits"),
          ("address", "address_bits"), ("mask", "width"), ("corrupt", 1)],
    "c": [("valid", 1), ("ready", 1), ("opcode", 3), ("param", 3), ("size", 4), ("source", "source_bits"),
          ("address", "address_bits"), ("corrupt", 1)],
    "d": [("valid", 1), ("ready", 1), ("opcode", 3), ("param", 2), ("size", 4), ("source", "source_bits"),
          ("sink", "sink_bits"), ("denied", 1), ("corrupt", 1)],
    "e": [("valid", 1), ("ready", 1), ("sink", "sink_bits")],
}
DATA = "abcd"  # the channels that carry data
LEVELS = ["UL", "UH", "C"]
LIBERTIES = ["ids", "sinks", "writer", "early", "drops", "reports", "denied", "uncorrupt"]
# What the client sends of each channel; the manager sends the rest.
BY_CLIENT = {"a": True, "b": False, "c": True, "d": False, "e": True}
# What stands for a field that a design doesn't send.
CONSTANTS = {"a_corrupt": 0, "b_opcode": 6, "b_size": 6, "b_source": 0, "b_mask": "all", "b_corrupt": 0, "c_size": 6, "c_corrupt": 0,
             "d_denied": 0, "d_corrupt": 0}


class Unreadable(Exception):
    """What the map or the design lacks, in words for the user."""


class Design:
    def __init__(self, map_file, changes, folder):
        path = Path(map_file)
        try:
            table = tomllib.loads(path.read_text())
        except (OSError, tomllib.TOMLDecodeError) as error:
            raise Unreadable(f"{map_file}: {error}") from error
        known = {"top", "files", "side", "clock", "reset", "reset_high", "width", "level", "links", "liberties", "source_bits", "sink_bits",
                 "address_bits", "steady", "ports", "parameters", "fixed", "fields", "addresses", "include", "only", "own"}
        if set(table) - known:
            raise Unreadable(f"{map_file}: no such entry: {', '.join(sorted(set(table) - known))}")
        take = lambda name, default: table.get(name, default)
        self.files = [(path.parent / it).resolve() for it in take("files", [])]
        self.include = [(path.parent / it).resolve() for it in take("include", [])]
        self.top = self.needed(table, "top", map_file)
        self.side = self.needed(table, "side", map_file)
        if self.side not in ("client", "manager"):
            raise Unreadable(f"{map_file}: side is \"client\" or \"manager\"")
        self.clock, self.reset, self.reset_high = take("clock", "clk"), take("reset", "rst_n"), take("reset_high", False)
        self.sizes = {it: take(it, default) for it, default in
                      (("width", 8), ("source_bits", 8), ("sink_bits", 8), ("address_bits", 32))}
        self.level, self.links, self.steady = LEVELS.index(take("level", "C")), take("links", 1), take("steady", False)
        self.liberties = sum(1 << LIBERTIES.index(it) for it in take("liberties", []))
        self.pattern = take("ports", "{channel}_{field}")
        self.parameters, self.fixed = {**take("parameters", {})}, {**take("fixed", {})}
        self.own = take("own", False)
        self.fields, self.addresses, self.only = take("fields", {}), take("addresses", {}), take("only", [])
        for name, value in changes.items():
            (self.fixed if name in self.fixed else self.parameters)[name] = value
            if name in ("W", "width"):
                self.sizes["width"] = value
        missing = [str(it) for it in self.files if not it.exists()]
        if missing:
            raise Unreadable(f"{map_file}: no file {', '.join(missing)}")
        self.sources = readable(self.files, folder)
        self.inputs, self.outputs = self.ports(folder)

    @staticmethod
    def needed(table, name, map_file):
        if name not in table:
            raise Unreadable(f"{map_file}: {name} is missing")
        return table[name]

    def width_of(self, width):
        return self.sizes[width] if isinstance(width, str) else width

    def read_script(self):
        """The command of Yosys that reads the design."""
        include = " ".join(f"-I{it}" for it in self.include)
        return f"read_verilog -sv -formal -DFORMAL {include} {' '.join(map(str, self.sources))}"

    @property
    def chparam(self):
        return " ".join(f"-chparam {name} {value}" for name, value in self.parameters.items())

    def ports(self, folder):
        """The ports of the module under test with their bits, read by Yosys."""
        yosys(f"{self.read_script()}; hierarchy -top {self.top} {self.chparam}; tee -q -o {folder}/ports.txt portlist")
        listed = (folder / "ports.txt").read_text()
        found = {"input": {}, "output": {}}
        for way, high, low, name in re.findall(r"^(input|output) \[(\d+):(\d+)\] (\w+)", listed, re.M):
            found[way][name] = int(high) - int(low) + 1
        return found["input"], found["output"]

    def named(self, channel, field):
        """How the map calls a field of a link."""
        bits = "" if field in ("valid", "ready") else "bits_"
        return self.fields.get(f"{channel}_{field}", self.pattern.format(channel=channel, field=field, bits=bits))

    def data_port(self, channel):
        """The design's port of the data of a channel, or None."""
        port = self.named(channel, "data")
        if port not in self.inputs and port not in self.outputs:
            return None
        bits = self.inputs.get(port) or self.outputs[port]
        if bits != 8 * self.sizes["width"] * self.links:
            raise Unreadable(f"{port} has {bits} bits, where the map says {self.links} links of {self.sizes['width']} bytes a beat")
        return port

    def port(self, channel, field):
        """The design's port of a field of a link, or the constant that stands for it, or None where it is free: the other
        side sends it, and the design doesn't look at it."""
        name = f"{channel}_{field}"
        port = self.named(channel, field)
        if isinstance(port, int) or port in self.inputs or port in self.outputs:
            return port
        if name in self.fields:
            raise Unreadable(f"{self.top} has no port {port}, which the map names for {name}")
        if self.level < 2 and channel in "bce":
            return 0
        if (BY_CLIENT[channel] == (self.side == "client")) == (field == "ready"):
            return None
        if name not in CONSTANTS:
            raise Unreadable(f"{self.top} has no port {port}: the map's [fields] says what stands for {name}, a port or a number")
        value = CONSTANTS[name]
        return (1 << self.sizes["width"]) - 1 if value == "all" else value


def yosys(script):
    """What Yosys writes; where it can't read the design, its own message."""
    done = subprocess.run(["yosys", "-q", "-p", script], stdout=subprocess.PIPE, stderr=subprocess.STDOUT, text=True)
    if done.returncode:
        message = next((line for line in done.stdout.splitlines() if "ERROR" in line), done.stdout[-500:])
        raise Unreadable(message)
    return done.stdout


def readable(files, folder):
    """The files as Yosys 0.23 reads them: a package's text in the place of its `import`, and flat ports of links."""
    texts = {path: path.read_text() for path in files}
    packages = {name: body for text in texts.values() for name, body in re.findall(r"^package (\w+);(.*?)^endpackage", text, re.S | re.M)}
    written = []
    for path, text in texts.items():
        if re.match(r"(?:\s|//[^\n]*)*package \w+;", text):
            continue
        copy = folder / path.name
        copy.write_text(flat(re.sub(r"import (\w+)::\*;", lambda it: packages.get(it[1], it[0]), text)))
        written.append(copy)
    return written


def flat(text):
    """Ports `[N-1:0][M:0] name` and wires `[M:0] name [N]` as vectors: Yosys 0.23 reads one dimension."""
    bits = {}

    def port(it):
        way, count, high, names = it.groups()
        size = f"({high}+1)"
        bits.update({name: size for name in re.findall(r"\w+", names)})
        return f"{way} logic [{count}*{size}-1:0] {names}"

    def wire(it):
        high, name, count = it.groups()
        bits[name] = f"({high}+1)" if high else "1"
        return f"wire [{count}*{bits[name]}-1:0] {name};"

    text = re.sub(r"(input|output) logic \[(\w+)-1:0\]\[([^\]]+):0\] (\w+(?:, \w+)*)", port, text)
    text = re.sub(r"wire (?:\[([^\]]+):0\] )?(\w+) \[(\w+)\];", wire, text)
    for name, size in bits.items():
        if size != "1":
            text = re.sub(rf"\b{name}\[(\w+)\]\[(\w+)\s*\+:\s*(\w+)\]", rf"{name}[(\1)*{size}+\2 +: \3]", text)
            text = re.sub(rf"\b{name}\[(\w+)\](?!\[)", rf"{name}[(\1)*{size} +: {size}]", text)
    return text
