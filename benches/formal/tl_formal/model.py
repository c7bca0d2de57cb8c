"""The top around a design under test, and its model: an AIGER circuit by Yosys."""

import re

from .design import DATA, FIELDS, Unreadable, yosys

PROPERTIES = ["tl_bursts", "tl_legality", "tl_source_rules", "tl_sink_rules", "tl_block_rules", "tl_link_covers", "tl_link_properties",
              "tl_manager_properties", "tl_memory_steps", "tl_memory_properties"]
MOST_SOURCES = 3  # bits: so many are all tracked, of sinks too


def constant(bits, name):
    """Any value that doesn't change. Tools that don't know Yosys's attribute get an assumption."""
    yield f"  (* anyconst *) logic [{bits - 1}:0] {name};"
    yield "`ifndef YOSYS"
    yield "`ifdef FORMAL"
    yield f"  steady_{name}: assume property (@(posedge clk) $stable({name}));"
    yield "`endif"
    yield "`endif"


class Top:
    """A module around the design: its environment is inputs of the module, its link goes to tl_link_properties."""

    def __init__(self, design, blocks, block_bits, closed, memory=False, byte=None):
        self.design, self.blocks, self.block_bits, self.closed = design, min(blocks, 1 << block_bits), block_bits, closed
        self.memory, self.byte = memory, byte
        if memory and design.sizes["source_bits"] > MOST_SOURCES:
            raise Unreadable(f"M2 and M3 need all sources: source_bits is {design.sizes['source_bits']}, and {MOST_SOURCES} at most for --memory")
        self.inputs, self.lines = {}, []

    def text(self):
        """The module as SystemVerilog."""
        design, sizes = self.design, self.design.sizes
        self.wires()
        self.data()
        body = [*self.lines, *self.keys(), self.instance(), *self.assumptions(), *self.properties(), *self.recorder()]
        ports = ",\n".join(f"  input logic [{bits - 1}:0] {name}" for name, bits in self.inputs.items())
        return "\n".join([f"// Made by tl-formal: {design.top} with its environment free.", "module tl_formal_top (",
                          "  input logic clk" + (",\n" + ports if ports else ""), ");",
                          "  logic rst_n = 0;", "  always @(posedge clk) rst_n <= 1;", *body, "endmodule", ""])

    def wires(self):
        """A wire for each field of each link: the design's output, an input of this module, or a constant."""
        design = self.design
        for channel, fields in FIELDS.items():
            for field, width in fields:
                bits, port = design.width_of(width) * design.links, design.port(channel, field)
                name = f"{channel}_{field}"
                if isinstance(port, int):
                    one = f"{design.width_of(width)}'d{port}"
                    self.lines.append(f"  wire [{bits - 1}:0] {name} = {{{design.links}{{{one}}}}};")
                    continue
                if port is None:
                    self.inputs[f"{name}_in"] = bits
                    self.lines.append(f"  wire [{bits - 1}:0] {name} = {name}_in;")
                    continue
                real = design.inputs.get(port) or design.outputs[port]
                if real % design.links:
                    raise Unreadable(f"{port} has {real} bits, which isn't a multiple of {design.links} links")
                self.lines.append(f"  wire [{real - 1}:0] {name}_port;")
                self.lines.append(f"  wire [{bits - 1}:0] {name};")
                for link in range(design.links):
                    mine, its = bits // design.links, real // design.links
                    self.lines.append(f"  assign {name}[{link * mine} +: {mine}] = {name}_port[{link * its} +: {its}];")
                if port in design.inputs:
                    self.driven(name, bits // design.links, real // design.links)

    def data(self):
        """A wire for the data of each channel: of the design, of its environment, or zeros."""
        design = self.design
        bits = 8 * design.sizes["width"] * design.links
        for channel in DATA:
            port = design.data_port(channel)
            if port in design.inputs:
                self.inputs[f"{channel}_data_in"] = bits
            value = f" = {channel}_data_in" if port in design.inputs else "" if port else f" = {bits}'d0"
            self.lines.append(f"  wire [{bits - 1}:0] {channel}_data{value};")

    def driven(self, name, mine, its):
        """An input of the design, from an input of this module; bits that the map doesn't count are 0."""
        links = self.design.links
        self.inputs[f"{name}_in"] = min(mine, its) * links
        for link in range(links):
            value = f"{name}_in[{link * min(mine, its)} +: {min(mine, its)}]"
            if name.endswith("_address"):
                value = f"({value} & {mine}'h{(1 << min(mine, self.block_bits + 6)) - 1:x})"
            self.lines.append(f"  assign {name}_port[{link * its} +: {its}] = {value};")

    def keys(self):
        """All sources and sinks where they are few, else any one that doesn't change; and all blocks where that many are
        tracked, else so many that don't change."""
        sizes, bits = self.design.sizes, self.design.sizes["address_bits"] - 6
        self.counts = {}
        for kind in ("source", "sink"):
            width = sizes[f"{kind}_bits"]
            self.counts[kind] = 1 << width if width <= MOST_SOURCES else 1
            if width <= MOST_SOURCES:
                keys = ", ".join(f"{width}'d{it}" for it in reversed(range(1 << width)))
                yield f"  wire [{(1 << width) * width - 1}:0] {kind}_keys = {{{keys}}};"
            else:
                yield from constant(width, f"{kind}_keys")
        yield f"  wire [{self.blocks * bits - 1}:0] block_keys;"
        for block in range(self.blocks):
            if self.blocks >= 1 << self.block_bits:
                yield f"  assign block_keys[{block * bits} +: {bits}] = {bits}'d{block};"
                continue
            yield from constant(self.block_bits, f"block_{block}")
            yield f"  assign block_keys[{block * bits} +: {bits}] = {bits}'(block_{block});"

    def instance(self):
        """The design: what is no field of a link and not fixed by the map is free."""
        design = self.design
        joined = [f".{design.clock}(clk)", f".{design.reset}({'!rst_n' if design.reset_high else 'rst_n'})"]
        for name, bits in design.inputs.items():
            if name in (design.clock, design.reset):
                continue
            field, data = self.field_of(name), self.data_of(name)
            if field or data:
                joined.append(f".{name}({f'{field}_port' if field else data})")
            elif name in design.fixed:
                joined.append(f".{name}({bits}'d{design.fixed[name]})")
            else:
                self.inputs[f"{name}_in"] = bits
                value = f"{name}_in & {bits}'h{(1 << min(bits, self.block_bits + 6)) - 1:x}" if name in design.addresses else f"{name}_in"
                joined.append(f".{name}({value})")
        for name in design.outputs:
            field, data = self.field_of(name), self.data_of(name)
            joined.append(f".{name}({f'{field}_port' if field else data or ''})")
        parameters = ", ".join(f".{name}({value})" for name, value in design.parameters.items())
        return f"  {design.top} #({parameters}) dut ({', '.join(joined)});"

    def field_of(self, name):
        """The field of a link that a port of the design is."""
        return next((f"{c}_{f}" for c, fields in FIELDS.items() for f, _ in fields if self.design.port(c, f) == name), None)

    def data_of(self, name):
        return next((f"{channel}_data" for channel in DATA if self.design.data_port(channel) == name), None)

    def is_tracked(self, address, high):
        bits = self.design.sizes["address_bits"] - 6
        return " || ".join(f"{address}[{high}:6] == block_keys[{it * bits} +: {bits}]" for it in range(self.blocks))

    def assumptions(self):
        """With `closed` nobody speaks of other blocks than those that are tracked; what the map has under `only` holds."""
        design, bits = self.design, self.design.sizes["address_bits"]
        yield "`ifdef FORMAL"
        for condition in design.only:
            yield f"  always @* assume ({condition});"
        if self.closed:
            for name, valid in design.addresses.items():
                where = f"({name}_in & {design.inputs[name]}'h{(1 << min(design.inputs[name], self.block_bits + 6)) - 1:x})"
                yield f"  wire [{design.inputs[name] - 1}:0] {name}_at = {where};"
                yield f"  always @* assume (!{valid}_in || {self.is_tracked(name + '_at', bits - 1)});"
            for link in range(design.links):
                for channel in "b" if design.side == "client" else "ac":
                    if f"{channel}_address_in" in self.inputs:
                        yield f"  wire [{bits - 1}:0] {channel}_at_{link} = {channel}_address[{link * bits} +: {bits}];"
                        yield (f"  always @* assume (!{channel}_valid[{link}] || {self.is_tracked(f'{channel}_at_{link}', bits - 1)});")
        yield "`endif"

    def properties(self):
        design, sizes = self.design, self.design.sizes
        sides = {"client": 1, "manager": 2}
        for link in range(design.links):
            joined = []
            for channel, fields in FIELDS.items():
                for field, width in fields:
                    bits = design.width_of(width)
                    joined.append(f".{channel}_{field}({channel}_{field}[{link * bits} +: {bits}])")
            outs = ", ".join(f".{it}_broken()" for it in "abcde")
            beats = ", ".join(f".on_{it}(on_{it}[{link * 79} +: 79])" for it in "abcde")
            if link == 0:
                for channel in "abcde":
                    yield f"  wire [{design.links * 79 - 1}:0] on_{channel};"
            yield (f"  tl_link_properties #(.DUT({sides[design.side]}), .LEVEL({design.level}), .LIBERTIES({design.liberties}), "
                   f".W({sizes['width']}), .SOURCE_BITS({sizes['source_bits']}), .SINK_BITS({sizes['sink_bits']}), "
                   f".ADDRESS_BITS({sizes['address_bits']}), .SOURCES({self.counts['source']}), .SINKS({self.counts['sink']}), .BLOCKS({self.blocks}), "
                   f".STEADY({int(design.steady)})) link_{link} (.clk, .rst_n, .source_keys, .sink_keys, .block_keys, "
                   f"{outs}, {beats}, {', '.join(joined)});")
        if design.side == "manager" and (design.links > 1 or self.memory):
            yield from self.between_links()

    def between_links(self):
        """M1 and M4, and M2 and M3 with `memory`, of one block, one access, one byte and one value."""
        design, sizes = self.design, self.design.sizes
        yield from constant(8, "access_source")
        yield from constant(self.block_bits, "memory_block")
        yield from constant(max(1, (design.links - 1).bit_length()), "access_link")
        if self.closed:
            yield f"  wire [{sizes['address_bits'] - 1}:0] memory_block_at = {{memory_block, 6'd0}};"
            yield "`ifdef FORMAL"
            yield f"  always @* assume ({self.is_tracked('memory_block_at', sizes['address_bits'] - 1)});"
            yield "`endif"
        common = f".N({design.links}), .LIBERTIES({design.liberties}), .ASSERTED(1), .OWN({int(design.own)})"
        beats = ".access_source, .access_link(4'(access_link)), .on_a, .on_b, .on_c, .on_d, .on_e"
        if design.links > 1:
            yield f"  tl_manager_properties #({common}) between (.clk, .rst_n, .block(26'(memory_block)), {beats}, .m1_broken(), .m4_broken());"
        if self.memory:
            yield from constant(8, "memory_value")
            yield from constant(6, "memory_byte") if self.byte is None else [f"  wire [5:0] memory_byte = 6'd{self.byte};"]
            yield (f"  tl_memory_properties #({common}, .W({sizes['width']}), .SOURCES({self.counts['source']})) of_memory (.clk, .rst_n, "
                   f".at({{26'(memory_block), memory_byte}}), .value(memory_value), {beats}, .a_data, .c_data, .d_data, .m2_broken(), .m3_broken());")

    def recorder(self):
        """In a simulator the recorder writes the trace of a counterexample."""
        design, sizes = self.design, self.design.sizes
        joined = [f".{channel}_{field}({channel}_{field})" for channel, fields in FIELDS.items() for field, _ in fields]
        joined += [f".{channel}_data({channel}_data)" for channel in DATA]
        levels = sum(design.level << (2 * link) for link in range(design.links))
        yield "`ifdef REPLAY"
        yield "  string file;"
        yield "  int fd = 0;"
        yield '  initial if ($value$plusargs("trace=%s", file)) fd = $fopen(file, "w");'
        yield (f"  tl_manager_recorder #(.N({design.links}), .LEVELS({levels}), .LIBERTIES({design.liberties}), "
               f".W({sizes['width']}), .SOURCE_BITS({sizes['source_bits']}), "
               f".SINK_BITS({sizes['sink_bits']}), .ADDRESS_BITS({sizes['address_bits']}), .UNKNOWN(0)) recorder (.clk, .rst_n, .fd, {', '.join(joined)});")
        yield "`endif"


def circuit(top, folder, modules, reached):
    """Writes the model into the folder, and gives the names of its assertions in the order of its outputs."""
    design = top.design
    (folder / "tl_formal_top.sv").write_text(top.text())
    properties = " ".join(str(modules / f"{it}.sv") for it in PROPERTIES)
    yosys(f"""{design.read_script()}
        read_verilog -sv -formal -DFORMAL {'-DTL_REACHED' if reached else ''} -I{modules} {properties} {folder}/tl_formal_top.sv
        hierarchy -check -top tl_formal_top
        proc; flatten; delete t:$cover; opt_clean -purge; opt -full; memory -nomap; memory_map; opt -full; wreduce; opt -full; opt_clean -purge
        setundef -undriven -anyseq
        opt -full; check -assert; dffunmap
        setattr -unset keep; delete -output; opt -full
        techmap; opt -fast; dffunmap; simplemap; dffunmap; abc -g AND -fast; opt_clean; aigmap; opt_clean
        tee -q -o {folder}/model.asserts select -list t:$assert
        write_rtlil {folder}/model.il; design -reset; read_rtlil {folder}/model.il
        write_aiger -I -B -zinit -map {folder}/model.aim {folder}/model.aig""")
    names = (folder / "model.asserts").read_text().split()
    # Yosys goes through the cells that it has read from the last to the first.
    return [label(name) for name in reversed(names)]


def label(name):
    """The label of an assertion; file and line of one that has none."""
    place = re.search(r"\$assert\$(?:.*/)?([^/]+:\d+)\$", name)
    return place[1] if place else re.sub(r".*[./\\]", "", name)
