#!/usr/bin/env python3
"""Writes the scripts of a host with bursts and an agent, and their interconnect by hand: bursts.py BITS FOLDER.

The host has a burstcount of 5 bits, so bursts of up to 16 words of 32 bits, and 10 address bits, which count bytes. The agent takes the whole
range; its burstcount has so many BITS, 0 where it has none, and it bears 4 unanswered reads. Written are bursts.tcl, host.tcl, agent.tcl, and
bursts.v, which rests on by_hand/bursts.v.
"""
import sys
from pathlib import Path

HOST_BITS, ADDRESS, BYTES, PENDING = 5, 10, 4, 4


def ports_of(bits):
    """(role, bits at the host, bits at the agent, of the command)."""
    word = 8 * BYTES
    ports = [("address", ADDRESS, ADDRESS - 2, True), ("read", 1, 1, True), ("write", 1, 1, True), ("writedata", word, word, True)]
    ports += [("byteenable", BYTES, BYTES, True), ("burstcount", HOST_BITS, bits, True)]
    return ports + [("waitrequest", 1, 1, False), ("readdata", word, word, False), ("readdatavalid", 1, 1, False)]


def component(name, direction, ports, settings):
    host = direction == "start"
    lines = [f"set_module_property NAME {name}", f"add_interface m avalon {direction}"] + settings
    for role, host_bits, agent_bits, command in ports:
        width = host_bits if host else agent_bits
        if width:
            lines.append(f"add_interface_port m {role} {role} {'Output' if command == host else 'Input'} {width}")
    return "\n".join(lines) + "\n"


def by_hand(bits, ports):
    header = ["input clk", "input reset"]
    header += [f"{'input' if command else 'output'} [{width - 1}:0] h$m${role}" for role, width, _, command in ports]
    header += [f"{'output' if command else 'input'} [{width - 1}:0] a$m${role}" for role, _, width, command in ports if width]
    joins = [".clk(clk)", ".reset(reset)"] + [f".h_{role}(h$m${role})" for role, _, _, _ in ports]
    joins += [f".a_{role}({f'a$m${role}' if width else ''})" for role, _, width, _ in ports]
    if bits >= HOST_BITS:
        name, sizes = "bursts_passed", ""
    else:
        name, sizes = "bursts_cut", f".LONGEST({1 << max(bits, 1) - 1}), "
    sizes += f".COUNT({HOST_BITS}), .ADDRESS({ADDRESS}), .BYTES({BYTES}), .PENDING({PENDING})"
    lines = ["module bursts_interconnect (", "  " + ",\n  ".join(header + ["output [3:0] a$m$grant"]), ");", "  assign a$m$grant = 0;"]
    return "\n".join(lines + [f"  {name} #({sizes}) join_ (", "    " + ",\n    ".join(joins), "  );", "endmodule"]) + "\n"


bits, folder = int(sys.argv[1]), Path(sys.argv[2])
ports = ports_of(bits)
(folder / "host.tcl").write_text(component("host", "start", ports, []))
(folder / "agent.tcl").write_text(component("agent", "end", ports, [f"set_interface_property m maximumPendingReadTransactions {PENDING}"]))
(folder / "bursts.tcl").write_text("create_system bursts\nadd_instance h host\nadd_instance a agent\nadd_connection h.m a.m\n")
(folder / "bursts.v").write_text(by_hand(bits, ports))
