"""The opcodes and params of header and package are the product's."""

import functools
import subprocess

from harness import TLTOOL, test, want, enumerators, icarus, run, verilator


def decoded(channel, opcode, param):
    """The names of an opcode and a param, as `tltool decode` has them."""
    for lanes in ("-", "0" * 16):
        line = {
            "A": f"00 A {opcode} {param} 0 00 00000000 01 {lanes} 0\n",
            "B": f"00 B {opcode} {param} 0 00 00000000 01 {lanes} 0\n",
            "C": f"00 C {opcode} {param} 0 00 00000000 {lanes} 0\n",
            "D": f"00 D {opcode} {param} 0 00 00 0 {lanes} 0\n",
        }[channel]
        done = subprocess.run([TLTOOL, "decode"], input=line, stdout=subprocess.PIPE, text=True)
        words = done.stdout.split()
        if len(words) > 3:
            return words[2], words[3]
    return None, None


def opcode_names(file, prefix):
    found = enumerators(file, rf"\b{prefix}([ABCD])_([A-Za-z]+) = (\d)")
    want(len(found) == 29, f"{file} names {len(found)} opcodes, wanted 29")
    for channel, name, code in found:
        told = decoded(channel, code, 0)[0]
        want(told == name, f"{file}: channel {channel}, opcode {code} is {told}, not {name}")


@test
def the_packages_opcodes_are_the_products():
    opcode_names("sv/tl_pkg.sv", "")


@test
def the_headers_opcodes_are_the_products():
    opcode_names("include/hefrudyl.h", "TL_")


@test
def the_packages_params_are_the_products():
    places = {"Grow": ("A", 6), "Cap": ("D", 5), "Report": ("C", 4), "Arithmetic": ("A", 2), "Logical": ("A", 3),
              "Intent": ("A", 5)}
    found = enumerators("sv/tl_pkg.sv", r"\b(Grow|Cap|Report|Arithmetic|Logical|Intent)_([A-Za-z]+) = (\d)")
    want(len(found) == 23, f"{len(found)} params, wanted 23")
    for kind, name, code in found:
        channel, opcode = places[kind]
        told = decoded(channel, opcode, code)[1]
        want(told == name, f"{kind} {code} is {told}, not {name}")


def line_of(width, channel, opcode, param, has_data):
    """The line of the beat of tests/test_names.sv."""
    mask = "8421"[-width // 4 :]
    data = "0123456789abcdeffedcba9876543210"[-2 * width :] if has_data else "-"
    return {
        "A": f"00 A {opcode} {param} 3 5a 89abcde0 {mask} {data} 1", "B": f"00 B {opcode} {param} 3 5a 89abcde0 {mask} {data} 1",
        "C": f"00 C {opcode} {param} 3 5a 89abcde0 {data} 1", "D": f"00 D {opcode} {param} 3 5a c3 1 {data} 1", "E": "00 E c3",
    }[channel]


@test
def beats_are_told_in_the_words_of_decode():
    top = "test_names"
    sources = ["sv/tl_pkg.sv", f"tests/{top}.sv"]
    for command in ([verilator(top, top, sources)], ["vvp", "-n", icarus(top + ".vvp", top, sources)]):
        told = [line.split(" ", 4) for line in run(command).splitlines() if line[:1].isdigit()]
        for width in (4, 8, 16):
            # without opcodes that aren't in use, which are told as numbers, and params that channel D has no bits for
            beats = [(channel, opcode, param, text) for w, channel, opcode, param, text in told
                     if int(w) == width and not text.split()[1].isdigit() and (channel != "D" or int(param) < 4)]
            want(len(beats) == (8 + 8 + 7) * 8 + 6 * 4 + 64, f"{len(beats)} beats")
            lines = [line_of(width, channel, opcode, param, "data=-" not in text) for channel, opcode, param, text in beats]
            done = subprocess.run([TLTOOL, "decode", "--width", str(width)], input="\n".join(lines) + "\n", stdout=subprocess.PIPE, text=True)
            want(done.stdout.splitlines() == [f"00 {text}" for _, _, _, text in beats], f"width {width}: {done.stdout[-300:]}")
        # a wide beat has more digits
        digits = (("source=5a", "source=005a"), ("sink=c3", "sink=00c3"), ("address=", "address=00000000"), ("mask=", "mask=0000"), ("data=0", "data=" + 33 * "0"))
        wanted = [functools.reduce(lambda text, it: text.replace(*it), digits, text) for width, *_, text in told if width == "16"]
        want([text for width, *_, text in told if width == "32"] == wanted, "wide beats")
