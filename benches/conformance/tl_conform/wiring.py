"""Which bits of which port of the design each field of each link is."""

import difflib

from .fields import OF_CACHES, every_field
from .map_file import Unusable
from .ports import Type


class Bits:
    """Some bits of a port of the design."""

    def __init__(self, port, low, bits):
        self.port, self.low, self.bits = port, low, bits

    def __str__(self):
        return f"dut_{self.port.name}[{self.low} +: {self.bits}]"


class Wiring:
    """A design's ports against its map."""

    def __init__(self, map, top, ports):
        self.map, self.top, self.ports = map, top, ports
        self.used, self.lacking = set(), []
        self.links = map.ports_of_design
        self.fields = {}  # of (link, channel, field): bits, a number, or None
        for link in range(self.links):
            for channel, field in every_field():
                if not self.is_absent(link, channel):
                    self.fields[link, channel, field] = self.find(link, channel, field)
        self.processor = {} if map.side != "client" else self.of_processor()
        self.control = {name: self.one_bit(name) for name in ("clock", "reset")}
        self.rest()
        if self.lacking:
            raise Unusable("\n".join(self.lacking) + self.listed())

    def listed(self):
        """The design's ports, for one who has to look one up."""
        return f"\n{self.top} has these ports:\n" + "\n".join(f"  {port}" for port in self.ports.values())

    def lack(self, section, entry, text):
        """Something that the map has to say, told once for all links."""
        told = f"{self.map.at(section, entry)}\n  {text}"
        if told not in self.lacking:
            self.lacking.append(told)

    # ---- fields of links

    def is_absent(self, link, channel):
        """A link without caches has no B, C and E, unless the ports of all links are one."""
        if channel not in OF_CACHES or self.map.has_caches(link):
            return False
        name, _, _ = self.map.name_of(channel, "valid", link)
        return not (isinstance(name, str) and name in self.ports)

    def find(self, link, channel, field):
        name, section, entry = self.map.name_of(channel, field, link)
        sends = self.map.design_sends(channel, field)
        own = f"{channel}_{field}"
        if name == "none" and not sends:
            return None
        if isinstance(name, int) and not isinstance(name, bool):
            return name if sends else None
        if name == "all" and sends:
            return (1 << self.map.bits_of(channel, field)) - 1
        if not isinstance(name, str) or name in ("none", "all"):
            self.lack(section, entry, f"{own} is a port, or a number where the design doesn't send it, or \"none\" where it doesn't take it")
            return None
        return self.bits(name, section, entry, (channel, field), link)

    def bits(self, name, section, entry, of, link):
        """The bits of a port, or of a member of its struct, that are a field of a link."""
        own, sends = "_".join(of), self.map.design_sends(*of)
        port, *members = name.split(".")
        found = self.ports.get(port)
        if found is None:
            self.lack(*self.place(section, entry), self.no_port(port, of, entry))
            return None
        if found.is_input == sends:
            way = "an input" if found.is_input else "an output"
            self.lack(section, entry, f"{port} is {way}, but a {self.map.side} {'sends' if sends else 'takes'} {own}")
            return None
        if found.type is None:
            self.lack(section, entry, f"{port} is no vector: a module around {self.top} has to make it one")
            return None
        self.used.add(port)
        low, type = 0, found.type
        if self.links > 1 and "{link}" not in self.map.pattern(*of)[0]:
            if type.bits % self.links:
                self.lack(section, entry, f"{port} has {type.bits} bits, which isn't a multiple of {self.links} links")
                return None
            each = type.bits // self.links
            low, type = link * each, type.element if type.element and type.element.bits == each else Type(each)
        return self.member(found, low, type, members, (section, entry))

    def member(self, port, low, type, members, entry):
        """The bits of a member of a struct, or of one within it."""
        for member in members:
            if member not in type.members:
                self.lack(*entry, f"{port.name} has no member {member}" + (f"; it has {', '.join(type.members)}" if type.members else ""))
                return None
            at, type = type.members[member]
            low += at
        return Bits(port, low, type.bits)

    def place(self, section, entry):
        """Where a field that is left out belongs: a map need not say the pattern."""
        return (section, entry) if entry != "ports" or "ports" in self.map.table else ("fields", "")

    def no_port(self, port, of, entry):
        own, sends = "_".join(of), self.map.design_sends(*of)
        near = difflib.get_close_matches(port, self.ports, 1)
        told = f"{self.top} has no port {port}" + (f" (it has {near[0]})" if near else "")
        if entry != "ports":
            return told
        hint = f"{own} = 0, or what else the design sends all the time" if sends else f'{own} = "none"'
        return f"{told}, which {own} is by the pattern {self.map.pattern(*of)[0]}. [fields] may name another port, or say {hint}"

    # ---- what is no field

    def of_processor(self):
        wired = {}
        ways = {"valid": False, "ready": True, "kind": False, "address": False, "data": False, "done": True, "result": True}
        for name, sends in ways.items():
            port = str(self.map.processor[name])
            found = self.ports.get(port)
            if found is None or found.type is None or found.is_input == sends:
                self.lack("processor", name, f"{self.top} has no {'output' if sends else 'input'} {port}")
                continue
            self.used.add(port)
            wired[name] = Bits(found, 0, found.bits)
        return wired

    def one_bit(self, name):
        port = getattr(self.map, name)
        found = self.ports.get(port)
        if found is None or not found.is_input or found.bits != 1:
            self.lack("", name, f"{self.top} has no input {port} of one bit")
        self.used.add(port)
        return port

    def rest(self):
        """Every other input has a value."""
        for name in self.map.inputs:
            if name not in self.ports or not self.ports[name].is_input:
                self.lack("inputs", name, f"{self.top} has no input {name}")
            self.used.add(name)
        left = [port.name for port in self.ports.values() if port.is_input and port.name not in self.used]
        if left:
            self.lack("inputs", left[0], f"nothing drives {', '.join(left)}: [inputs] gives a value, or [fields] says which field it is")

