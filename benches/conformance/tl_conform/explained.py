"""A fault explained from its trace, by tltool."""

import re
import subprocess

LINES_SHOWN = 300  # of the trace before the fault, in the chart
RULES_OF_MEMORY = ("M1", "M2", "M3", "M4")


def tltool(tool, *words, input=None):
    done = subprocess.run([tool, *words], stdout=subprocess.PIPE, stderr=subprocess.PIPE, text=True, errors="replace", input=input)
    return done.returncode, done.stdout


def memory_only(lines, ranges):
    """The lines of a trace without the accesses that touch registers, and their answers."""
    left, of_register = [], set()
    for line in lines:
        fields = line.split()
        if fields[1] == "A":
            size, source, address = (int(it, 16) for it in fields[4:7])
            touches = any(address <= last and address + 2**size > first for first, last in ranges)
            (of_register.add if touches else of_register.discard)((fields[0], source))
        elif fields[1] == "D":
            touches = (fields[0], int(fields[5], 16)) in of_register
        if not touches:
            left.append(line)
    return left


class Explained:
    """The explanation of a fault and the chart of its block; each is empty where there is none."""

    def __init__(self, tool, seed, ranges):
        self.text, self.chart, self.line = "", "", 0
        if not seed.trace.exists():
            return
        self.trace = seed.trace
        lines = seed.trace.read_text(errors="replace").splitlines()
        if ranges and seed.fault in RULES_OF_MEMORY:
            self.trace = seed.trace.with_suffix(".memory.trace")
            lines = [*lines[:1], *memory_only(lines[1:], ranges)]
            self.trace.write_text("".join(f"{it}\n" for it in lines))
        self.explain(tool, not ranges or seed.fault in RULES_OF_MEMORY, lines)
        self.draw(tool, seed, lines)

    def explain(self, tool, together, lines):
        status, said = tltool(tool, "explain", *(["--coherent"] if together else []), str(self.trace))
        self.line = len(lines)
        verdict = re.match(r"line (\d+) ", said)
        if status == 1 and verdict:
            self.line, self.text = int(verdict[1]), said.strip()
            return
        last = "".join(f"{it}\n" for it in lines[-12:] if not it.startswith("tltrace"))
        _, said = tltool(tool, "decode", "--width", width_of(lines), input=last)
        self.text = f"The trace by itself is at fault nowhere. Its last beats:\n{said.strip()}"

    def draw(self, tool, seed, lines):
        """The chart of the block that the fault speaks of, up to its line."""
        place = re.search(r"(?:address=|a Load of |operation at |byte |block )([0-9a-f]{8})", f"{seed.text}\n{self.text}")
        if not place or len(lines) < 2:
            return
        block = int(place[1], 16) // 64
        first = max(2, self.line - LINES_SHOWN)
        _, said = tltool(tool, "chart", "--block", f"{block:07x}", "--lines", f"{first}-{max(first, self.line)}", str(self.trace))
        self.chart = said if said.startswith("<svg") else ""


def width_of(lines):
    """The bytes of a beat, by the header of a trace: the first form names none."""
    words = lines[0].split() if lines else []
    return words[2] if words[:1] == ["tltrace"] and words[1] != "1" else "8"
