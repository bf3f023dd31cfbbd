#!/usr/bin/env python3
"""Writes the scripts of so many hosts that share one agent, and their interconnect by hand: share.py HOSTS LATENCY FOLDER.

With a latency of 0 the agent has waitrequest and readdatavalid and bears 4 unanswered reads; else it never waits, and its words come
in so many cycles. The shares are 1, 2, 3, 1 and so on. Written are share.tcl, host.tcl, agent.tcl, and share.v, which rests on
by_hand/arbiter.v.
"""
import sys
from pathlib import Path

PORTS = [
    ("address", 8, 6, True), ("read", 1, 1, True), ("write", 1, 1, True), ("writedata", 32, 32, True), ("byteenable", 4, 4, True),
    ("waitrequest", 1, 1, False), ("readdata", 32, 32, False), ("readdatavalid", 1, 1, False),
]


def agent_ports(latency):
    return [port for port in PORTS if latency == 0 or port[0] not in ("waitrequest", "readdatavalid")]


def component(name, direction, ports, settings):
    host = direction == "start"
    lines = [f"set_module_property NAME {name}", f"add_interface m avalon {direction}"] + settings
    for role, host_bits, agent_bits, command in ports:
        way = "Output" if command == host else "Input"
        lines.append(f"add_interface_port m {role} {role} {way} {host_bits if host else agent_bits}")
    return "\n".join(lines) + "\n"


def shares(host):
    return 1 + host % 3


def system(hosts):
    lines = ["create_system share"] + [f"add_instance h{host} host" for host in range(hosts)] + ["add_instance a agent"]
    for host in range(hosts):
        lines += [f"add_connection h{host}.m a.m", f"set_connection_parameter_value h{host}.m/a.m arbitrationPriority {shares(host)}"]
    return "\n".join(lines) + "\n"


def joined(hosts, role, part=""):
    return "{" + ", ".join(f"h{host}$m${role}{part}" for host in reversed(range(hosts))) + "}"


def by_hand(hosts, latency):
    header = ["input clk", "input reset"]
    for host in range(hosts):
        header += [f"{'input' if command else 'output'} [{bits - 1}:0] h{host}$m${role}" for role, bits, _, command in PORTS]
    header += [f"{'output' if command else 'input'} [{bits - 1}:0] a$m${role}" for role, _, bits, command in agent_ports(latency)]
    header.append("output [3:0] a$m$grant")
    each = ", ".join(f"6'd{shares(host)}" for host in reversed(range(hosts)))
    joins = ["clk(clk)", "reset(reset)", f"h_address({joined(hosts, 'address', '[7:2]')})"]
    joins += [f"h_{role}({joined(hosts, role)})" for role in ("read", "write", "writedata", "byteenable", "waitrequest", "readdatavalid")]
    joins += ["h_readdata(h0$m$readdata)"]
    joins += [f"a_{role}(a$m${role})" for role in ("address", "read", "write", "writedata", "byteenable", "readdata", "grant")]
    waits = [f"a$m${role}" if latency == 0 else "1'd0" for role in ("waitrequest", "readdatavalid")]
    joins += [f"a_waitrequest({waits[0]})", f"a_readdatavalid({waits[1]})"]
    lines = ["module share_interconnect (", "  " + ",\n  ".join(header), ");"]
    lines += [f"  arbiter #(.HOSTS({hosts}), .ADDRESS(6), .SHARES({{{each}}}), .LATENCY({latency}), .PENDING(4)) arbiter ("]
    lines += ["    " + ",\n    ".join(f".{join}" for join in joins), "  );"]
    lines += [f"  assign h{host}$m$readdata = h0$m$readdata;" for host in range(1, hosts)] + ["endmodule"]
    return "\n".join(lines) + "\n"


def main():
    hosts, latency, folder = int(sys.argv[1]), int(sys.argv[2]), Path(sys.argv[3])
    settings = ["set_interface_property m maximumPendingReadTransactions 4", "set_interface_property m readWaitTime 0",
                f"set_interface_property m readLatency {latency}"]
    (folder / "share.tcl").write_text(system(hosts))
    (folder / "host.tcl").write_text(component("host", "start", PORTS, []))
    (folder / "agent.tcl").write_text(component("agent", "end", agent_ports(latency), settings))
    (folder / "share.v").write_text(by_hand(hosts, latency))


main()
