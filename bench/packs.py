#!/usr/bin/env python3
"""Writes the scripts of a host with bursts and an agent of wider words, and their interconnect by hand: packs.py HOST AGENT FOLDER.

HOST and AGENT are bits. The host has byte enables, a burstcount of 5 bits, so bursts of up to 16 words, and 10 address bits, which count bytes.
The agent takes the whole range; it has no burstcount, and bears 4 unanswered reads. Written are packs.tcl, host.tcl, agent.tcl, and packs.v, which
rests on by_hand/packs.v and by_hand/bursts.v.
"""
import sys
from pathlib import Path

COUNT, ADDRESS, PENDING = 5, 10, 4


def ports_of(host, agent, count=COUNT):
    """(role, bits at the host, bits at the agent, of the command)."""
    ports = [("address", ADDRESS, ADDRESS - (agent // 8).bit_length() + 1, True), ("read", 1, 1, True), ("write", 1, 1, True)]
    ports += [("writedata", host, agent, True), ("byteenable", host // 8, agent // 8, True), ("burstcount", count, 0, True)]
    return ports + [("waitrequest", 1, 1, False), ("readdata", host, agent, False), ("readdatavalid", 1, 1, False)]


def component(name, direction, ports, settings):
    host = direction == "start"
    lines = [f"set_module_property NAME {name}", f"add_interface m avalon {direction}"] + settings
    for role, host_bits, agent_bits, command in ports:
        width = host_bits if host else agent_bits
        if width:
            lines.append(f"add_interface_port m {role} {role} {'Output' if command == host else 'Input'} {width}")
    return "\n".join(lines) + "\n"


def by_hand(host, agent, ports):
    header = ["input clk", "input reset"]
    header += [f"{'input' if command else 'output'} [{width - 1}:0] h$m${role}" for role, width, _, command in ports]
    header += [f"{'output' if command else 'input'} [{width - 1}:0] a$m${role}" for role, _, width, command in ports if width]
    joins = [".clk(clk)", ".reset(reset)"] + [f".h_{role}(h$m${role})" for role, _, _, _ in ports]
    joins += [f".a_{role}(a$m${role})" for role, _, width, _ in ports if width]
    sizes = f".HOST({host // 8}), .AGENT({agent // 8}), .COUNT({COUNT}), .ADDRESS({ADDRESS}), .PENDING({PENDING})"
    lines = ["module packs_interconnect (", "  " + ",\n  ".join(header + ["output [3:0] a$m$grant"]), ");", "  assign a$m$grant = 0;"]
    return "\n".join(lines + [f"  reads_packed #({sizes}) join_ (", "    " + ",\n    ".join(joins), "  );", "endmodule"]) + "\n"


def write_scripts(host, agent, folder, bound=PENDING, latency=0, longest=1 << COUNT - 1):
    """With a bound of 0 the agent has a fixed latency in place of readdatavalid."""
    ports = ports_of(host, agent, longest.bit_length())
    said = [f"set_interface_property m maximumPendingReadTransactions {bound}" if bound else f"set_interface_property m readLatency {latency}"]
    (folder / "host.tcl").write_text(component("host", "start", ports, []))
    (folder / "agent.tcl").write_text(component("agent", "end", ports if bound else ports[:-1], said))
    (folder / "packs.tcl").write_text("create_system packs\nadd_instance h host\nadd_instance a agent\nadd_connection h.m a.m\n")


def main(host, agent, folder):
    write_scripts(int(host), int(agent), Path(folder))
    (Path(folder) / "packs.v").write_text(by_hand(int(host), int(agent), ports_of(int(host), int(agent))))


if __name__ == "__main__":
    main(*sys.argv[1:])
