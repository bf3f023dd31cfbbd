#!/usr/bin/env python3
"""Writes the scripts of a host and an agent of other words, and their interconnect by hand: widths.py HOST AGENT KIND LATENCY FOLDER.

HOST and AGENT are bits. The KIND is plain, where the host has no byte enables; lanes, where both have them; or dropped, where the host alone
has. The host has 10 address bits, which count bytes, and the agent takes the whole range. With a LATENCY of 1 the agent never waits, and its
words come in the next cycle; with 0, from wider words to narrower ones, it has waitrequest and readdatavalid and bears 4 unanswered reads.
Written are width.tcl, host.tcl, agent.tcl, and width.v, which rests on by_hand/widths.v.
"""
import sys
from pathlib import Path

ADDRESS = 10


def lane_bits(bits):
    return (bits // 8).bit_length() - 1


def ports_of(host, agent, kind, latency):
    """Those of the host and those of the agent: (role, bits, of the command)."""
    lanes = [("byteenable", host // 8, True)]
    above = [("address", ADDRESS, True), ("read", 1, True), ("write", 1, True), ("writedata", host, True)] + (lanes if kind != "plain" else [])
    above += [("waitrequest", 1, False), ("readdata", host, False), ("readdatavalid", 1, False)]
    lanes = [("byteenable", agent // 8, True)]
    below = [("address", ADDRESS - lane_bits(agent), True), ("read", 1, True), ("write", 1, True), ("writedata", agent, True)]
    below += lanes if kind == "lanes" or agent > host else []
    said = [("waitrequest", 1, False)] if latency == 0 else []
    below += said + [("readdata", agent, False)] + [("readdatavalid", 1, False) for _ in said]
    return above, below


def component(name, direction, ports, settings):
    lines = [f"set_module_property NAME {name}", f"add_interface m avalon {direction}"]
    lines += [f"set_interface_property m {setting}" for setting in settings]
    for role, bits, command in ports:
        lines.append(f"add_interface_port m {role} {role} {'Output' if command == (direction == 'start') else 'Input'} {bits}")
    return "\n".join(lines) + "\n"


def by_hand(host, agent, kind, latency, above, below):
    if host < agent:
        name = "narrow_to_wide"
    elif host == agent:
        name = "lanes_dropped"
    else:
        name = ("wide_to_narrow" if kind == "plain" else "lanes_to_narrow") + ("_said" if latency == 0 else "")
    header = ["input clk", "input reset"]
    header += [f"{'input' if command else 'output'} [{bits - 1}:0] h$m${role}" for role, bits, command in above]
    header += [f"{'output' if command else 'input'} [{bits - 1}:0] a$m${role}" for role, bits, command in below] + ["output [3:0] a$m$grant"]
    joins = [".clk(clk)", ".reset(reset)"] + [f".h_{role}(h$m${role})" for role, _, _ in above] + [f".a_{role}(a$m${role})" for role, _, _ in below]
    if host < agent and kind == "plain":
        joins.append(f".h_byteenable({host // 8}'d{(1 << host // 8) - 1})")
    sizes = f".BYTES({host // 8})" if host == agent else f".HOST({host // 8}), .AGENT({agent // 8})"
    lines = ["module width_interconnect (", "  " + ",\n  ".join(header), ");", "  assign a$m$grant = 0;"]
    lines += [f"  {name} #({sizes}, .ADDRESS({ADDRESS})) join_ (", "    " + ",\n    ".join(joins), "  );", "endmodule"]
    return "\n".join(lines) + "\n"


host, agent, kind, latency, folder = int(sys.argv[1]), int(sys.argv[2]), sys.argv[3], int(sys.argv[4]), Path(sys.argv[5])
above, below = ports_of(host, agent, kind, latency)
settings = ["readWaitTime 0", "readLatency 1"] if latency == 1 else ["maximumPendingReadTransactions 4"]
(folder / "host.tcl").write_text(component("host", "start", above, []))
(folder / "agent.tcl").write_text(component("agent", "end", below, settings))
(folder / "width.tcl").write_text("create_system width\nadd_instance h host\nadd_instance a agent\nadd_connection h.m a.m\n")
(folder / "width.v").write_text(by_hand(host, agent, kind, latency, above, below))
