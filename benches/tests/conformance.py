"""tl-conform: what it says of maps and designs that it can't use, and what it finds in the example's manager, caches, device and
memory, with their bugs."""

import collections
import html
import json
import os
import re
import subprocess
import sys
import xml.etree.ElementTree as ElementTree
from pathlib import Path

from harness import HERE, OUT, TLTOOL, path, run, runtime, shares, test, want
from shown import save, walk_page
from simulations import BUGS, HOME_BUGS, LIBERAL_BUGS

FOLDER = os.path.join(HERE, "conformance")
sys.path.insert(0, FOLDER)
from tl_conform.design import Design
from tl_conform.map_file import Map

COMMAND = os.path.join(FOLDER, "tl-conform")


def place(out):
    """The folder of a design, whose simulation several tests run, one test after the other."""
    return os.path.join(OUT, "built", out)


def beside():
    """What the command's make finds beside its words: what Verilator links with each simulation is compiled already, and the rest
    is one file. The page's commands build without this."""
    return {**os.environ, "MAKEFLAGS": "VM_PARALLEL_BUILDS=0 VM_GLOBAL_FAST= USER_LDLIBS=" + "\\ ".join(runtime("--trace"))}


def conform(side, map_file, *words, status, out=None):
    """What the command writes of a map beside it, or of one with a path."""
    done = subprocess.run([COMMAND, f"--{side}", "--map", os.path.join(FOLDER, map_file), "--tool", TLTOOL,
                           "--out", place(out) if out else path("conform"), *words],
                          stdout=subprocess.PIPE, stderr=subprocess.STDOUT, text=True, timeout=1200, cwd=path("."), env=beside())
    want(done.returncode == status, f"{side} {map_file} {words}: status {done.returncode}, wanted {status}\n{done.stdout[-3000:]}")
    return done.stdout


def changed(name, *changes):
    """A copy of a map in the folder of what is built, with some texts in the place of others."""
    with open(os.path.join(FOLDER, name)) as file:
        text = file.read().replace('"../', f'"{HERE}/')
    for old, new in changes:
        want(old in text, f"{name} hasn't {old}")
        text = text.replace(old, new, 1)
    return written(f"changed_{name}", text)


def written(name, text):
    with open(path(name), "w") as file:
        file.write(text)
    return path(name)


def found(told):
    """Each fault that the command names, with the number of its seeds."""
    return {name: int(count) for name, count in re.findall(r"^([\w ]+): (\d+) of \d+ seeds, first in seed", told, re.M)}


# What a wrong map is told: what is changed in it, and what stands in the message.
WRONG_MAPS = [
    ('a_corrupt = "none"\n', "", ["[fields]", "no port a_corrupt", 'a_corrupt = "none"', "input a_valid (3 bits)", "output d_sink (24 bits)"]),
    ("b_size = 6", 'b_size = "b_siz"', ['line 23: b_size = "b_siz"', "no port b_siz (it has d_size)", "output b_param (9 bits)"]),
    ("b_size = 6", 'b_size = "a_size"', ["line 23", "a_size is an input, but a manager sends b_size"]),
    ("b_size = 6", "b_sise = 6", ["line 23: b_sise = 6", "no such entry"]),
    ("width = 8", "width = 7", ["line 5: width = 7", "4, 8 or 16"]),
    ("width = 8", "width = ", ["line 5"]),
    ("width = 8", 'width = "8"', ["line 5", "width is a number"]),
    ("bug = 0", "", ["nothing drives bug", "[inputs] gives a value"]),
    ("bug = 0", "bog = 0", ["line 19: bog = 0", "no input bog"]),
    ('links = ["C", "C", "UL"]', 'links = ["C", "D"]', ["line 4", "UL, UH, C"]),
    ('links = ["C", "C", "UL"]', 'links = ["C", "C"]\nport_of = [1, 0]', ["line 5", "port_of has the port of each of 2 links"]),
    ('links = ["C", "C", "UL"]', 'links = ["C", "C"]\nport_of = [0, 0]\nfirst_sources = [0, 3]', ["line 6", "no two are the same"]),
    ('links = ["C", "C", "UL"]', 'links = ["C", "C", "C", "C", "UL"]', ["a_valid has 3 bits", "5 links"]),
    ('"Get"', '"Grab"', ["line 7", "takes are of PutFullData"]),
    ('width = 8', 'clock = "clock"\nwidth = 8', ['line 5: clock = "clock"', "no input clock"]),
    ("never = [", 'never = ["five-grants", ', ["line 10", "five-grants is no situation; there are probe-beside-release, "]),
    ('width = 8', 'ports = "{chanel}_{field}"\nwidth = 8', ["line 5", "a pattern has {channel}, {field}, {bits} and {link}"]),
]


@test
def a_wrong_map_is_told_with_its_line_and_the_ports():
    for old, new, wanted in WRONG_MAPS:
        told = conform("manager", changed("tl_home.toml", (old, new)), status=2)
        for text in wanted:
            want(text in told, f"{old} -> {new}: {text} isn't in\n{told}")
        want("Traceback" not in told, told)


@test
def a_design_or_a_command_that_cannot_be_used_has_status_2():
    broken = written("broken.sv", "module broken(input logic clk);\n  assign x = ;\nendmodule\n")
    told = conform("manager", "tl_home.toml", "--manager", broken, "--top", "broken", status=2)
    want("broken.sv:2:" in told and "syntax error" in told, told)
    want("no file nowhere.sv" in conform("manager", "tl_home.toml", "--manager", "nowhere.sv", status=2), "files")
    want("nowhere.toml" in conform("manager", "nowhere.toml", status=2), "the map")
    want("isn't there" in conform("manager", "tl_home.toml", "--tool", "nowhere", status=2), "the tool")
    want("the map's [inputs] are bug" in conform("manager", "tl_home.toml", "--set", "bog=1", status=2), "--set")
    want("need DPI" in conform("manager", "tl_home.toml", "--simulator", "icarus", status=2), "--simulator")
    want("names no valid" in conform("client", "tl_home.toml", status=2), "the processor")
    want("--waves is of a single seed" in conform("manager", "tl_home.toml", "--waves", "w.vcd", status=2), "--waves")
    conform("manager", "tl_home.toml", "--out", "/proc/none", status=3)


# A module around the example's memory with structs, as OpenTitan has them.
STRUCTS = """package structs;
  typedef struct packed {
    logic a_valid; logic [2:0] a_opcode, a_param, a_size, a_source; logic [31:0] a_address; logic [7:0] a_mask; logic [63:0] a_data;
    logic d_ready;
  } taken_t;
  typedef struct packed {
    logic d_valid; logic [2:0] d_opcode; logic [1:0] d_param; logic [2:0] d_size, d_source; logic d_sink; logic [63:0] d_data;
    struct packed {logic denied;} error; logic a_ready;
  } sent_t;
endpackage
module around_structs import structs::*; (input logic clk, input logic rst, input taken_t tl_i, output sent_t tl_o);
  wire [3:0] d_size;
  tl_ram #(.W(8), .SOURCE_BITS(3)) ram (
      .clk, .rst_n(!rst), .bug(0), .a_valid(tl_i.a_valid), .a_ready(tl_o.a_ready), .a_opcode(tl_i.a_opcode), .a_param(tl_i.a_param),
      .a_size({1'b0, tl_i.a_size}), .a_source(tl_i.a_source), .a_address(tl_i.a_address), .a_mask(tl_i.a_mask), .a_data(tl_i.a_data),
      .d_valid(tl_o.d_valid), .d_ready(tl_i.d_ready), .d_opcode(tl_o.d_opcode), .d_size, .d_source(tl_o.d_source), .d_data(tl_o.d_data));
  assign tl_o.d_size = d_size[2:0];
  assign {tl_o.d_param, tl_o.d_sink, tl_o.error.denied} = 0;
endmodule
"""
STRUCTS_MAP = """top = "around_structs"
files = ["HERE/sv/tl_pkg.sv", "HERE/example/tl_ram.sv", "structs.sv"]
links = ["UH"]
source_bits = 3
reset = "rst"
reset_high = true
registers = ["0x200-0x20f"]
ports = { takes = "tl_i.{channel}_{field}", sends = "tl_o.{channel}_{field}" }

[fields]
a_corrupt = "none"
d_denied = "tl_o.error.denied"
d_corrupt = "tl_o.error.denied"
"""
CHISEL_MAP = """top = "test_shared_manager"
files = ["HERE/sv/tl_pkg.sv", "HERE/example/tl_crossbar.sv", "HERE/example/tl_home.sv", "HERE/tests/test_shared_manager.sv"]
links = ["C", "C", "UL"]
port_of = [0, 0, 1]
first_sources = [0, 4, 0]
takes = ["AcquireBlock", "Get", "PutFullData", "PutPartialData"]
largest = 3
clock = "clock"
reset = "reset"
reset_high = true
ports = "auto_in_{link}_{channel}_{bits}{field}"

[fields]
a_corrupt = "none"
b_data = 0
b_corrupt = 0
c_corrupt = "none"
d_denied = 0
d_corrupt = 0
"""


@test
def a_manager_with_chisels_names_and_a_shared_port_is_clean():
    told = conform("manager", written("chisel.toml", CHISEL_MAP.replace("HERE", HERE)), "--seeds", "4", "--cycles", "5000", out="chisel", status=0)
    want(re.search(r"^clean: 4 seeds, [1-9]\d+ beats$", told, re.M), told)


@test
def ports_that_are_structs_are_found():
    written("structs.sv", STRUCTS)
    folder = Path(path("conform_ports"))
    folder.mkdir(exist_ok=True)
    Design(Map(written("structs.toml", STRUCTS_MAP.replace("HERE", HERE)), "device"), [], "", folder)
    bench = (folder / "tl_conform_bench.sv").read_text()
    for line in ("assign port_d_denied[0] = 1'(dut_tl_o[1 +: 1]);", "assign port_a_ready[0] = 1'(dut_tl_o[0 +: 1]);",
                 "assign dut_tl_i[117 +: 1] = 1'(port_a_valid[0]);"):
        want(line in bench, f"{line} isn't in\n{bench}")


# Each bug of example/tl_ram.sv, and what finds it.
RAM_BUGS = {1: "M3", 2: "H2", 3: "M3", 4: "H3", 5: "M3", 6: "H2", 7: "no answer", 8: "M3", 9: "M3"}


def right_and_wrong(side, map_file, bugs, seeds="6", cycles="10000"):
    """A design is clean, and each of its bugs is found by its rule."""
    out = map_file.partition(".")[0]
    told = conform(side, map_file, "--seeds", seeds, "--cycles", cycles, out=out, status=0)
    want(re.search(rf"^clean: {seeds} seeds, [1-9]\d+ beats$", told, re.M), told)
    for bug, fault in bugs.items():
        told = conform(side, map_file, "--seeds", seeds, "--cycles", cycles, "--set", f"bug={bug}", out=out, status=1)
        want(fault in found(told), f"{map_file}, bug {bug}: {fault} isn't in\n{told}")


def situations(out):
    """How often each situation came, by a report as JUnit has it; and what it says of them all."""
    suite = ElementTree.parse(f"{place(out)}/junit.xml").getroot()
    found = {it.get("name"): it.get("value") for it in suite.findall("properties/property")}
    return {name.removeprefix("situation "): int(value) for name, value in found.items() if name != "situations"}, found["situations"]


@test
@shares("tl_cache")
def situations_are_counted_over_the_seeds_and_holes_are_listed():
    told = conform("client", "tl_cache.toml", "--seeds", "2", "--cycles", "2000", "--keep", out="tl_cache", status=0)
    counts, summary = situations("tl_cache")
    sums, bins = collections.Counter(), collections.Counter()
    for seed in (1, 2):
        here = json.loads(run([TLTOOL, "cover", "--json", f"{place('tl_cache')}/seed-{seed}.trace"]))
        sums.update({row["name"]: row["count"] for row in here["situations"]})
        bins.update({row["name"]: row["counts"][0] or 0 for row in here["bins"]})
    want(counts == dict(sums) and len(counts) == 79, f"{counts} aren't {sums}")
    holes = [name for name, count in counts.items() if not count and name not in NEVER_OF_CACHE]
    want(summary == f"{63 - len(holes)} of 63 situations seen", summary)
    want(f"{summary}; not seen: {', '.join(holes)}\n" in told if holes else f"{summary}\n" in told, told)
    with open(f"{place('tl_cache')}/report.html") as file:
        page = file.read()
    for name in [*holes, *NEVER_OF_CACHE]:
        want(f'<td class="name">{name}</td>' in page, f"{name} isn't in the report")
    want("the proved manager sends no Probe toT" in page, "why report-TtoT can't come")
    cell = re.search(r'<td class="name">A-AcquireBlock-NtoB-64</td><td class="number">([\d,]+)</td>', page)
    want(cell and int(cell[1].replace(",", "")) == bins["A-AcquireBlock-NtoB-64"], f"{cell}, and cover says {bins['A-AcquireBlock-NtoB-64']}")


# What traffic of the cache's bench can't bring.
NEVER_OF_CACHE = ["probe-toT", "report-TtoT", "access-beside-transfer", "access-of-held-block", "three-contend"]
# What only a liberty allows, and the cache's links have none.
NEVER_OF_CACHE += ["release-TtoT", "release-BtoB", "release-NtoN", "early-response", "early-grant-ack", "probe-with-source",
                   "sink-without-grant", "grant-of-more", "copy-dropped", "grant-denied", "denied-uncorrupt"]


@test
@shares("tl_cache")
def a_run_ends_when_all_situations_have_come():
    told = conform("client", "tl_cache.toml", "--seeds", "40", "--jobs", "2", "--until-covered", out="tl_cache", status=0)
    want(int(re.search(r"^clean: (\d+) seeds", told, re.M)[1]) < 40 and "\n63 of 63 situations seen\n" in told, told)


@test
@shares("tl_ram")
def a_situation_that_the_map_says_never_comes_is_told_where_it_comes():
    of_map = changed("tl_ram.toml", ("blocks = 16", 'blocks = 16\nnever = ["mask-full"]'))
    told = conform("device", of_map, "--seeds", "2", "--cycles", "2000", out="tl_ram", status=0)
    want(re.search(r"^mask-full came \d+ times; the map says never$", told, re.M), told)


@test
def the_manager_is_clean_and_its_bugs_are_found():
    right_and_wrong("manager", "tl_home.toml", HOME_BUGS)


@test
@shares("tl_cache")
def the_cache_is_clean_and_its_bugs_are_found():
    # the second loses a Store, and the ninth needs a manager that takes requests at any time: the delays do
    right_and_wrong("client", "tl_cache.toml", {bug: rule or {2: "Load", 9: "H5"}[bug] for bug, (rule, _) in BUGS.items()})


@test
def the_cache_that_takes_liberties_is_clean_and_its_bugs_are_found():
    # no rule shows the first and the seventh: a Load does
    right_and_wrong("client", "tl_liberal_cache.toml", {bug: rule or "Load" for bug, (rule, _) in LIBERAL_BUGS.items()}, cycles="20000")


@test
@shares("tl_ram")
def the_memory_is_clean_and_its_bugs_are_found():
    right_and_wrong("device", "tl_ram.toml", RAM_BUGS)


@test
@shares("tl_cache")
def a_report_explains_a_fault_and_has_the_command_that_shows_it_again():
    told = conform("client", "tl_cache.toml", "--seeds", "4", "--cycles", "10000", "--set", "bug=1", out="tl_cache", status=1)
    cycle = re.search(r"^H11: \d+ of 4 seeds, first in seed (\d+) in cycle (\d+): ", told, re.M)
    with open(f"{place('tl_cache')}/report.html") as file:
        page = file.read()
    for text in ("4 of 4 seeds at fault", "A Release of the block is pending", "data:image/svg+xml;base64,", f"cycle {cycle[2]}"):
        want(text.lower() in page.lower(), f"{text} isn't in the report:\n{page[:3000]}")
    suite = ElementTree.parse(f"{place('tl_cache')}/junit.xml").getroot()
    want(suite.get("tests") == "4" and suite.get("failures") == "4" and len(suite.findall("testcase/failure")) == 4, "junit.xml")
    again = re.search(r"^  (.*--waves seed-\d+\.vcd)$", told, re.M)[1]
    want(again in html.unescape(page), "the command isn't in the report")
    done = subprocess.run(again, shell=True, stdout=subprocess.PIPE, stderr=subprocess.STDOUT, text=True, cwd=path("."))
    want(done.returncode == 1 and f"first in seed {cycle[1]} in cycle {cycle[2]}: " in done.stdout, done.stdout)
    want(os.path.getsize(path(f"seed-{cycle[1]}.vcd")) > 10000, "the waves")


@test
def the_first_design_of_the_page_is_at_fault_and_then_mended():
    walk_page("CONFORMANCE.md", save("CONFORMANCE.md", "conform_page"))
