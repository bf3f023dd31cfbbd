#!/usr/bin/env python3
"""Writes the scripts of a source and a sink, and what stands between them by hand: streams.py SOURCE SINK BITS PACE DEPTH KIND FOLDER.

SOURCE and SINK are the symbols of their beats, BITS those of a symbol. The source has the ready latency, as 1, or with its ready allowance, as
1+3, and the sink 0, and before the sink stands a queue of so many beats. The KIND is plain or packets. Written are stream.tcl, source.tcl, sink.tcl, and, where by_hand/streams.v has
it, stream.v, which rests on that.
"""
import sys
from pathlib import Path


def ports_of(symbols, bits, packets):
    """The ports of an end: (role, bits). The first one is the sink's."""
    ports = [("ready", 1), ("valid", 1), ("data", symbols * bits)]
    if packets:
        ports += [("startofpacket", 1), ("endofpacket", 1)]
        ports += [("empty", (symbols - 1).bit_length())] if symbols > 1 else []
    return ports


def pace_of(word):
    """The ready latency and the ready allowance."""
    latency, _, allowance = word.partition("+")
    return int(latency), int(allowance or latency)


def component(name, interface, direction, pace, bits, ports):
    latency, allowance = pace
    lines = [f"set_module_property NAME {name}", f"add_interface {interface} avalon_streaming {direction}"]
    lines += [f"set_interface_property {interface} dataBitsPerSymbol {bits}", f"set_interface_property {interface} readyLatency {latency}"]
    if allowance > latency:
        lines.append(f"set_interface_property {interface} readyAllowance {allowance}")
    for role, width in ports:
        way = "Output" if (role == "ready") == (direction == "end") else "Input"
        lines.append(f"add_interface_port {interface} {role} {role} {way} {width}")
    return "\n".join(lines) + "\n"


def instance(name, sizes, ins, outs):
    """A module whose ports are named by `in_` and `out_` and a role; these are what stands at its source and at its sink."""
    joins = [".clk(clk)", ".reset(reset)"] + [f".in_{role}({net})" for role, net in ins] + [f".out_{role}({net})" for role, net in outs]
    given = ", ".join(f".{size}({value})" for size, value in sizes.items())
    return f"  {name} #({given}) {name}_ (\n    " + ",\n    ".join(joins) + "\n  );"


def by_hand(ways, source_ports, sink_ports):
    """The module whose body is made of instances."""
    header = ["input clk", "input reset"]
    header += [f"{'output' if role == 'ready' else 'input'} [{width - 1}:0] a$out${role}" for role, width in source_ports]
    header += [f"{'input' if role == 'ready' else 'output'} [{width - 1}:0] b$into${role}" for role, width in sink_ports]
    header += ["output [0:0] b$into$dropped"]
    lines = ["module stream_interconnect (", "  " + ",\n  ".join(header), ");", "  assign b$into$dropped = 0;"] + ways + ["endmodule"]
    return "\n".join(lines) + "\n"


def between(source, sink, bits, pace, depth, packets, ins, outs):
    """What stands between them in the same cycles as ours, or nothing."""
    latency, allowance = pace
    if source == sink and allowance > latency and depth == 0:
        return [instance("allowance_buffer", {"BITS": source * bits, "ALLOWANCE": allowance}, ins, outs)]
    if source == sink and latency > 0 and depth == 0:
        return [instance("ready_buffer", {"BITS": source * bits, "LATENCY": latency}, ins, outs)]
    if source == sink and latency == 0 and depth > 0:
        return [instance("queue", {"BITS": source * bits, "PLACES": depth}, ins, outs)]
    if latency > 0 or depth > 0:
        return []
    if sink == 1 and packets:
        return [instance("narrow", {"SYMBOLS": source, "BITS": bits}, ins, outs)]
    if source == 1:
        return [instance("widen" if packets else "widen_plain", {"SYMBOLS": sink, "BITS": bits}, ins, outs)]
    if sink == source + 1 and packets:
        return [instance("one_more", {"SYMBOLS": source, "BITS": bits}, ins, outs)]
    return []


def main():
    source, sink, bits = (int(word) for word in sys.argv[1:4])
    pace, depth = pace_of(sys.argv[4]), int(sys.argv[5])
    packets, folder = sys.argv[6] == "packets", Path(sys.argv[7])
    source_ports, sink_ports = ports_of(source, bits, packets), ports_of(sink, bits, packets)
    ins = [(role, f"a$out${role}") for role, _ in source_ports]
    outs = [(role, f"b$into${role}") for role, _ in sink_ports]
    system = ["create_system stream", "add_instance a source", "add_instance b sink", "add_connection a.out b.into"]
    system.append(f"set_connection_parameter_value a.out/b.into fifoDepth {depth}")
    (folder / "stream.tcl").write_text("\n".join(system) + "\n")
    (folder / "source.tcl").write_text(component("source", "out", "start", pace, bits, source_ports))
    (folder / "sink.tcl").write_text(component("sink", "into", "end", (0, 0), bits, sink_ports))
    found = between(source, sink, bits, pace, depth, packets, ins, outs)
    if found:
        (folder / "stream.v").write_text(by_hand(found, source_ports, sink_ports))


if __name__ == "__main__":
    main()
