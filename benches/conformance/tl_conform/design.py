"""A design under test with its map, and the simulation that is built of it."""

import hashlib
import os
import shutil
import subprocess
from pathlib import Path

from .bench import bench, literal
from .map_file import Unusable
from .ports import ports_of, simulators_message
from .wiring import Wiring

HERE = Path(__file__).resolve().parent.parent
SV = HERE.parent / "sv"
# What every bench has beside the design, and the C++ of each.
AGENTS = ["tl_unknown", "tl_pending", "tl_port_watch", "tl_manager_recorder", "tl_manager_checker", "tl_proved_manager"]
OWN = ["tl_delay", "tl_never_taken", "tl_memory_only", "tl_probe_source", "tl_take_turns", "tl_shared_port", "tl_random_client",
       "tl_random_processor"]
CPP = [SV / "tl_checker_dpi.cpp", SV / "tl_agents_dpi.cpp", HERE / "sv/tl_words_dpi.cpp"]

# With the waves in it each time: a seed is the same with them and without. What has no value at first gets one by the seed.
HOW = ["--binary", "--timing", "--trace", "-O3", "--x-assign", "unique", "--x-initial", "unique", "--output-split", "15000", "-Wno-fatal",
       "-Wno-lint", "-Wno-style", "-MAKEFLAGS", "OPT_FAST=-O1 OPT_SLOW=-O0 OPT_GLOBAL=-O1"]


class Design:
    def __init__(self, map, files, top, folder):
        self.map, self.folder = map, folder
        self.top = top or map.top
        beside = Path(map.file).parent
        self.files = [Path(it) for it in files] or [beside / it for it in map.files]
        self.include = [beside / it for it in map.include]
        if not self.top:
            raise Unusable("no top: --top NAME or top = \"NAME\" in the map says which module is under test")
        if not self.files:
            raise Unusable("no files: they stand behind the side, as in --manager a.sv b.sv, or under files in the map")
        missing = [str(it) for it in self.files if not it.is_file()]
        if missing:
            raise Unusable(f"no file {', '.join(missing)}")
        self.wiring = Wiring(map, self.top, ports_of(self, folder))
        (folder / "tl_conform_bench.sv").write_text(bench(map, self.wiring, self.top))

    def words(self):
        """The design in the words of Verilator."""
        return [*self.sources(), *(f"-I{it}" for it in self.include),
                *(f"-G{name}={literal(value)}" for name, value in self.map.parameters.items()), "--top-module", self.top]

    def sources(self):
        """The design's files, with tl_pkg before them unless they have it."""
        own = [str(it.resolve()) for it in self.files]
        return own if any(Path(it).name == "tl_pkg.sv" for it in own) else [str(SV / "tl_pkg.sv"), *own]


def library():
    """The library and the folder of its headers: of a checkout, or of an installation."""
    prefix = HERE.parent.parent.parent
    places = [(HERE.parent / "out/libhefrudyl.a", HERE.parent / "include"), (prefix / "lib/libhefrudyl.a", prefix / "include")]
    places += [(it, prefix / "include") for it in sorted(prefix.glob("lib/*/libhefrudyl.a"))]
    chosen = os.environ.get("HEFRUDYL_STATIC_LIBRARY")
    if chosen:
        places = [(Path(chosen), include) for _, include in places if (include / "hefrudyl.hpp").exists()]
    for built, include in places:
        if built.exists() and (include / "hefrudyl.hpp").exists():
            return built, include
    raise Unusable("libhefrudyl.a isn't there: `make library` builds it, and HEFRUDYL_STATIC_LIBRARY may name it")


def simulation(design, jobs):
    """Builds the simulation where what it is made of has changed, and gives its path."""
    built, include = library()
    own = [SV / f"{it}.sv" for it in AGENTS] + [HERE / f"sv/{it}.sv" for it in OWN]
    program = design.folder / "simulation/Vtl_conform_bench"
    folders = [SV, HERE / "sv", *design.include]
    words = ["verilator", *HOW, "-CFLAGS", f"-I{include}", "-Mdir", str(program.parent), *(f"-I{it}" for it in folders),
             "--top-module", "tl_conform_bench", *design.sources(), *map(str, own), str(design.folder / "tl_conform_bench.sv"),
             *map(str, CPP), str(built)]
    mark = design.folder / "simulation.mark"
    now = digest(words, [it for it in words if os.path.isfile(it)] + sorted(map(str, [*SV.glob("*.*"), *(HERE / "sv").glob("*.svh")])))
    if program.exists() and mark.exists() and mark.read_text() == now:
        return program
    shutil.rmtree(program.parent, ignore_errors=True)
    done = subprocess.run([*words, "-j", str(jobs)], stdout=subprocess.PIPE, stderr=subprocess.STDOUT, text=True)
    if done.returncode:
        raise Unusable(f"the bench of {design.top} can't be built. Verilator says:\n{simulators_message(done.stdout)}")
    mark.write_text(now)
    return program


def digest(words, files):
    """What a simulation is made of: the words of its command, and the bytes of the files."""
    sum = hashlib.sha256("\0".join(words).encode())
    for name in files:
        sum.update(Path(name).read_bytes())
    return sum.hexdigest()
