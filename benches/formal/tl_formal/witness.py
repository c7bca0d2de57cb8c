"""A counterexample run again on the design's own source in Icarus, recorded, and judged."""

import collections
import subprocess

from .design import Unreadable


def frames_of(folder, cex):
    """The values of the top's inputs in a counterexample, edge by edge, by name."""
    inputs = int((folder / "model.aig").open("rb").readline().split()[2])
    rows = [row[:inputs] for row in (folder / cex).read_text().split("\n")[1:] if len(row) >= inputs]
    places = collections.defaultdict(dict)
    for line in (folder / "model.aim").read_text().splitlines():
        kind, index, bit, name = line.split()
        if kind == "input" and name != "clk":
            places[name][int(bit)] = int(index)
    return [{name: sum((row[at] == "1") << bit for bit, at in bits.items()) for name, bits in places.items()} for row in rows]


def bench(top, frames):
    """A module that drives the top through the frames."""
    known = top.inputs
    lines = ["module tl_formal_witness;", "  logic clk = 0;"]
    lines += [f"  logic [{bits - 1}:0] {name} = 0;" for name, bits in known.items()]
    lines += ["  tl_formal_top top (.clk" + "".join(f", .{name}" for name in known) + ");", "  string waves;", "  initial begin",
              '    if ($value$plusargs("waves=%s", waves)) begin', "      $dumpfile(waves);", "      $dumpvars(0, top);", "    end"]
    for frame in frames:
        values = " ".join(f"{name} = {bits}'h{frame.get(name, 0):x};" for name, bits in known.items())
        lines.append(f"    {values} #5 clk = 1; #5 clk = 0;")
    return "\n".join([*lines, "    $finish(0);", "  end", "endmodule", ""])


def written(top, folder, cex, name, recorder, modules, tool):
    """Writes trace, waves, explanation and chart of a counterexample, and gives what the monitor says of the trace."""
    (folder / "witness.sv").write_text(bench(top, frames_of(folder, cex)))
    program, trace, waves = folder / "witness.vvp", folder / f"{name}.trace", folder / f"{name}.vcd"
    sources = [folder / "witness.sv", folder / "tl_formal_top.sv", *top.design.files, *recorder, *sorted(modules.glob("tl_*.sv"))]
    built = subprocess.run(["iverilog", "-g2012", "-DREPLAY", f"-I{modules}", f"-I{recorder[0].parent}", "-s", "tl_formal_witness", "-o", program,
                            *dict.fromkeys(map(str, sources))], stdout=subprocess.PIPE, stderr=subprocess.STDOUT, text=True)
    if built.returncode:
        raise Unreadable(f"Icarus can't build the counterexample's simulation: {built.stdout[-600:]}")
    subprocess.run(["vvp", "-n", program, f"+trace={trace}", f"+waves={waves}"], stdout=subprocess.DEVNULL, check=True)
    together = top.design.links > 1 or top.memory
    command = "coherent" if together else "monitor"
    said = lambda *words: subprocess.run([tool, *words], stdout=subprocess.PIPE, text=True).stdout
    (folder / f"{name}.txt").write_text(said("explain", *(["--coherent"] if together else []), str(trace)))
    (folder / f"{name}.svg").write_text(said("chart", str(trace)))
    return said(command, str(trace)).strip()
