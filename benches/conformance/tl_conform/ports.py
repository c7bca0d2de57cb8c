"""The ports of a design, as Verilator reads them."""

import re
import subprocess
import xml.etree.ElementTree as ElementTree

from .map_file import Unusable


class Type:
    """A packed type: its bits, of an array the element, of a struct the members with their lowest bits."""

    def __init__(self, bits, element=None, members=None):
        self.bits, self.element, self.members = bits, element, members or {}


class Port:
    def __init__(self, name, is_input, type):
        self.name, self.is_input, self.type = name, is_input, type

    @property
    def bits(self):
        return self.type.bits if self.type else 0

    def __str__(self):
        return f"{'input' if self.is_input else 'output'} {self.name} ({self.bits} bit{'s' if self.bits != 1 else ''})"


class Types:
    def __init__(self, table):
        self.nodes = {node.get("id"): node for node in table}

    def read(self, number):
        """The type of this number, or None where it isn't packed."""
        node = self.nodes.get(number)
        if node is None:
            return None
        if node.tag in ("refdtype", "enumdtype", "memberdtype"):
            return self.read(node.get("sub_dtype_id"))
        if node.tag == "packarraydtype":
            high, low = (int(re.sub(r".*'s?h", "", it.get("name")), 16) for it in node.iter("const"))
            element = self.read(node.get("sub_dtype_id"))
            return element and Type((abs(high - low) + 1) * element.bits, element=element)
        if node.tag == "structdtype":
            return self.struct(node)
        if node.tag == "basicdtype":
            return Type(abs(int(node.get("left", 0)) - int(node.get("right", 0))) + 1)
        return None

    def struct(self, node):
        members, low = {}, 0
        for member in reversed(list(node)):
            type = self.read(member.get("sub_dtype_id"))
            if type is None:
                return None
            members[member.get("name")] = (low, type)
            low += type.bits
        return Type(low, members=members)


def simulators_message(text):
    """What a simulator says of a design that it can't read, without the advice behind it."""
    lines = [line for line in text.splitlines() if line.strip() and "See the manual" not in line and "... For error" not in line]
    return "\n".join(f"  {line}" for line in lines[:40])


def ports_of(design, folder):
    """The ports of the top by name. What Verilator says of a design that it can't read goes to the user."""
    listed = folder / "design.xml"
    done = subprocess.run(["verilator", "--xml-only", "--xml-output", str(listed), "-Wno-fatal", "-Wno-lint", "-Wno-style", *design.words()],
                          stdout=subprocess.PIPE, stderr=subprocess.STDOUT, text=True)
    if done.returncode:
        raise Unusable(f"{design.top} can't be built. Verilator says:\n{simulators_message(done.stdout)}")
    root = ElementTree.parse(listed).getroot()
    types = Types(root.find(".//typetable"))
    top = next(it for it in root.iter("module") if it.get("topModule") == "1")
    if top.get("origName", top.get("name")) != design.top:
        raise Unusable(f"there is no module {design.top} in the files")
    return {it.get("name"): Port(it.get("name"), it.get("dir") == "input", types.read(it.get("dtype_id")))
            for it in top.findall("var") if it.get("dir") in ("input", "output")}
