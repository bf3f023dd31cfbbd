#!/usr/bin/env python3
"""Writes a multiplexer or a demultiplexer by hand, with the header of ours, upon by_hand/routed.v: routed.py KIND ENDS SYMBOLS BITS.

KIND is mux or demux, ENDS are the inputs or outputs, SYMBOLS those of a beat, and BITS those of a symbol.
"""
import sys

def roles(symbols, bits):
    """Roles and widths at an end, without `channel`."""
    found = [("ready", 1), ("valid", 1), ("data", symbols * bits), ("startofpacket", 1), ("endofpacket", 1)]
    return found + ([("empty", (symbols - 1).bit_length())] if symbols > 1 else [])


def channel_bits(ends):
    return max(1, (ends - 1).bit_length())


def ports(end, comes, widths):
    return [f"{'output' if (role == 'ready') == comes else 'input'} [{width - 1}:0] {end}$st${role}" for role, width in widths]


def at_all(ends, role):
    """The same role at all ends, the last one in the high-order bits."""
    return "{" + ", ".join(f"{end}$st${role}" for end in reversed(ends)) + "}"


def beat(end, parts):
    return "{" + ", ".join(f"{end}$st${role}" for role in parts) + "}"


def beats(ends, parts):
    return "{" + ", ".join(beat(end, parts) for end in reversed(ends)) + "}"


def with_channel(widths, ends):
    """The channel stands behind `data`."""
    return widths[:3] + [("channel", channel_bits(ends))] + widths[3:]


def module(name, header, made, sizes, joins):
    """A module that is one instance of what is `made`."""
    header = ["input clk", "input reset"] + header
    given = ", ".join(f".{size}({value})" for size, value in sizes.items())
    joined = ", ".join(f".{port}({net})" for port, net in joins)
    return f"module {name}_interconnect (\n  " + ",\n  ".join(header) + f"\n);\n  {made} #({given}) {made}_ ({joined});\nendmodule\n"


def mux(ends, symbols, bits):
    widths = roles(symbols, bits)
    parts = [role for role, _ in widths if role not in ("ready", "valid", "endofpacket")]
    size = sum(width for role, width in widths if role in parts)
    inputs = [f"in{number}" for number in range(ends)]
    header = [port for end in inputs for port in ports(end, True, widths)] + ports("out", False, with_channel(widths, ends))
    joins = [("in_ready", at_all(inputs, "ready")), ("in_valid", at_all(inputs, "valid")), ("in_last", at_all(inputs, "endofpacket"))]
    joins += [("in_beat", beats(inputs, parts)), ("out_ready", "out$st$ready"), ("out_valid", "out$st$valid")]
    joins += [("out_last", "out$st$endofpacket"), ("out_beat", beat("out", parts)), ("out_channel", "out$st$channel")]
    sizes = {"INPUTS": ends, "CHANNEL": channel_bits(ends), "BITS": size}
    return module("mux", header, "multiplexer", sizes, [("clk", "clk"), ("reset", "reset")] + joins)


def demux(ends, symbols, bits):
    widths = roles(symbols, bits)
    parts = [role for role, _ in widths if role not in ("ready", "valid")]
    size = sum(width for role, width in widths if role in parts)
    outputs = [f"out{number}" for number in range(ends)]
    header = ports("in", True, with_channel(widths, ends)) + [port for end in outputs for port in ports(end, False, widths)]
    joins = [("in_ready", "in$st$ready"), ("in_valid", "in$st$valid"), ("in_beat", beat("in", parts)), ("in_channel", "in$st$channel")]
    joins += [("out_ready", at_all(outputs, "ready")), ("out_valid", at_all(outputs, "valid")), ("out_beat", beats(outputs, parts))]
    return module("demux", header, "demultiplexer", {"OUTPUTS": ends, "CHANNEL": channel_bits(ends), "BITS": size}, joins)


def main():
    kind, (ends, symbols, bits) = sys.argv[1], (int(word) for word in sys.argv[2:5])
    print({"mux": mux, "demux": demux}[kind](ends, symbols, bits), end="")


if __name__ == "__main__":
    main()
