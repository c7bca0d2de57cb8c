"""The bench around a design, as SystemVerilog: its parameters, the design, and how it is joined to the links."""

from .fields import LEVELS, OF_CACHES, REQUESTS, every_field, sent_by_client

# What the proved manager takes of a cache under test; the others are what a link may do without it.
OF_MANAGER = ["ids", "drops", "reports", "writer"]
KINDS = ["load", "store", "evict", "demote"]


def bench(map, wiring, top):
    """The text of the bench."""
    lines = [f"// Made by tl-conform: {top} with proved agents at the other ends of its links.", "module tl_conform_bench;",
             *parameters(map), '`include "tl_conform_body.svh"', "", "  // ---- the design", "", *ports(wiring), *inputs(wiring),
             *fields(wiring), *absent(wiring), *surplus(wiring)]
    if map.side == "client":
        lines += [*processor(map, wiring), *manager(map)]
    return "\n".join([*lines, *instance(map, wiring, top), "endmodule", ""])


def parameters(map):
    """What the links are."""
    first = 1 if map.side == "client" else 0
    writers = [link for link, level in enumerate(map.links) if level == "C" or (map.side == "client" and link == 0)]
    ranks = {link: rank for rank, link in enumerate(writers)}
    ranges = "".join(f"{last:08x}{at:08x}" for at, last in reversed(map.ranges))
    of_ports = [[link for link, port in enumerate(map.port_of) if port == it] for it in range(map.port_of[-1] + 1)]
    values = {
        "int N": len(map.links), "int LEVELS": sum(LEVELS.index(level) << 2 * link for link, level in enumerate(map.links)),
        "int FIRST_CLIENT": first, "int W": map.width, "int SOURCE_BITS": map.source_bits,
        "int SOURCES": map.sources_of_client, "int LIBERTIES": map.liberty_set, "int BLOCKS": map.blocks,
        "bit [31:0] BASE": f"32'h{map.base:08x}", "bit [7:0] TAKES": f"8'd{sum(1 << REQUESTS.index(it) for it in map.requests)}",
        "int LARGEST": map.largest, "bit OWNED": int(map.side != "device"), "int WRITERS": max(1, len(writers)),
        "int SMALL": 0 if map.side == "client" and map.processor["bytes"] == 4 else -1, "int REGISTERS": len(map.ranges),
        "int REGISTER_LARGEST": map.largest_of_registers, "bit [16*64-1:0] RANGES": f"1024'h{ranges or '0'}", "int TIMEOUT": map.timeout,
        "int PORTS": len(of_ports),
    }
    bytes = {
        "WRITER_OF": [ranks.get(link, 0) for link in range(len(map.links))], "FIRST_SOURCES": map.first_sources,
        "CLIENTS_OF": [len(links) for links in of_ports], "FIRST_OF": [links[0] for links in of_ports],
    }
    return [*(f"  localparam {name} = {value};" for name, value in values.items()),
            *(f"  localparam bit [{8 * len(of)}-1:0] {name} = {{{', '.join(f'8{chr(39)}d{it}' for it in reversed(of))}}};" for name, of in bytes.items())]


def ports(wiring):
    return [f"  logic [{port.bits - 1}:0] dut_{port.name};" for port in wiring.ports.values() if port.type]


def inputs(wiring):
    """Clock, reset, and the inputs that the map or +set_NAME gives."""
    map = wiring.map
    yield f"  assign dut_{map.clock} = clk;"
    yield f"  assign dut_{map.reset} = {'!' if map.reset_high else ''}rst_n;"
    for name, value in map.inputs.items():
        yield f'  initial if (!$value$plusargs("set_{name}=%d", dut_{name})) dut_{name} = {int(value)};'


def side(wiring):
    """How the design's side of the links is called."""
    return "" if wiring.map.side == "client" else "port_"


def fields(wiring):
    for (link, channel, field), bits in wiring.fields.items():
        name = f"{side(wiring)}{channel}_{field}[{link}]"
        if not wiring.map.design_sends(channel, field):
            if bits is not None:
                yield f"  assign {bits} = {bits.bits}'({name});"
        else:
            width = wiring.map.bits_of(channel, field)
            yield f"  assign {name} = {width}'({f'{width}' + chr(39) + f'd{bits}' if isinstance(bits, int) else bits});"


def absent(wiring):
    """What a link sends on channels that it lacks: nothing."""
    for link in range(wiring.links):
        for channel in OF_CACHES:
            if (link, channel, "valid") in wiring.fields:
                continue
            for name, field in every_field():
                if name == channel and wiring.map.design_sends(channel, field):
                    yield f"  assign {side(wiring)}{channel}_{field}[{link}] = 0;"


def surplus(wiring):
    """Bits that a design sends beyond those of a field have to be 0: nobody sees them."""
    for (link, channel, field), bits in wiring.fields.items():
        width = wiring.map.bits_of(channel, field)
        if not wiring.map.design_sends(channel, field) or isinstance(bits, int) or bits.bits <= width or field in ("valid", "ready"):
            continue
        beyond = f"dut_{bits.port.name}[{bits.low + width} +: {bits.bits - width}]"
        yield (f"  always @(posedge clk) if (rst_n && {side(wiring)}{channel}_valid[{link}] && {beyond} != 0) $fatal(1, "
               f"\"tl-conform: link {link}: {channel}_{field} has more than {width} bits\");")


def processor(map, wiring):
    """The processor of a cache under test."""
    it, given = wiring.processor, map.processor
    kinds = " : ".join(f"cpu_kind == {code} ? {it['kind'].bits}'d{int(given[name])}" for code, name in enumerate(KINDS) if given[name] is not None)
    yield "  logic cpu_valid, cpu_ready, cpu_done;"
    yield "  logic [1:0] cpu_kind;"
    yield "  logic [31:0] cpu_address;"
    yield "  logic [63:0] cpu_data, cpu_result;"
    yield f"  assign {it['valid']} = cpu_valid;"
    yield f"  assign {it['kind']} = {kinds} : 0;"
    yield f"  assign {it['address']} = {it['address'].bits}'(cpu_address);"
    yield f"  assign {it['data']} = {it['data'].bits}'(cpu_data);"
    yield f"  assign cpu_ready = {it['ready']};"
    yield f"  assign cpu_done = {it['done']};"
    yield f"  assign cpu_result = 64'({it['result']});"
    yield (f"  tl_random_processor #(.BLOCKS(BLOCKS), .BASE(BASE), .BYTES({given['bytes']}), .EVICTS({int(given['evict'] is not None)}), "
           f".DEMOTES({int(given['demote'] is not None)}), .WRITERS(WRITERS), .TIMEOUT(8 * TIMEOUT)) processor (")
    yield "      .clk, .rst_n, .traffic, .idle(idle[0]), .request_valid(cpu_valid), .request_ready(cpu_ready), .request_kind(cpu_kind),"
    yield "      .request_address(cpu_address), .request_data(cpu_data), .done(cpu_done), .done_data(cpu_result));"


def manager(map):
    """The proved manager at the other end of all links."""
    liberties = " | ".join(f"LIBERTY_{it.upper()}" for it in map.liberties if it in OF_MANAGER) or "0"
    yield "  int refused;"
    yield (f"  tl_proved_manager #(.N(N), .LEVELS(LEVELS), .BLOCKS(BLOCKS), .BASE(BASE), .LIBERTIES({liberties}), "
           f".PROBE_SOURCES({8 * len(map.links)}'d{map.probe_source if 'ids' in map.liberties else 0}), .W(W), .SOURCE_BITS(SOURCE_BITS)) manager (")
    joined = [f".{channel}_{field}(far_{channel}_{field})" for channel, field in every_field()
              if not (channel == "b" and field in ("source", "data", "corrupt"))]
    yield "      .clk, .rst_n, .faults(refused), " + ", ".join(joined) + ");"
    yield "  assign far_b_source = manager.b_source;"
    yield "  assign far_b_data = 0;"
    yield "  assign far_b_corrupt = 0;"


def instance(map, wiring, top):
    parameters = ", ".join(f".{name}({literal(value)})" for name, value in map.parameters.items())
    joined = ", ".join(f".{port.name}({f'dut_{port.name}' if port.type else ''})" for port in wiring.ports.values())
    return [f"  {top} {f'#({parameters}) ' if parameters else ''}dut ({joined});"]


def literal(value):
    if isinstance(value, str):
        return f'"{value}"'
    return int(value) if isinstance(value, bool) else value
