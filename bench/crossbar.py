#!/usr/bin/env python3
"""Writes the scripts of so many hosts, each joined to each of so many agents, and their interconnect by hand: crossbar.py HOSTS AGENTS FOLDER.

Words have 32 bits and byte enables. Agent k has 256 words from k * 1024 on, waitrequest and readdatavalid, and bears 4 unanswered reads; all
shares are 1. Written are crossbar.tcl, host.tcl, agent.tcl, and crossbar.v, which rests on by_hand/crossbar.v and by_hand/arbiter.v.
"""
import sys
from pathlib import Path

WORDS, SPAN, PENDING = 8, 10, 4
COMMAND = [("address", 0), ("read", 1), ("write", 1), ("writedata", 32), ("byteenable", 4)]
ANSWER = [("waitrequest", 1), ("readdata", 32), ("readdatavalid", 1)]


def ports_of(address):
    """(role, bits, of the command)."""
    return [(role, bits or address, True) for role, bits in COMMAND] + [(role, bits, False) for role, bits in ANSWER]


def component(name, direction, address, settings):
    lines = [f"set_module_property NAME {name}", f"add_interface m avalon {direction}"]
    lines += [f"set_interface_property m {setting}" for setting in settings]
    for role, bits, command in ports_of(address):
        lines.append(f"add_interface_port m {role} {role} {'Output' if command == (direction == 'start') else 'Input'} {bits}")
    return "\n".join(lines) + "\n"


def system(hosts, agents):
    lines = ["create_system crossbar"] + [f"add_instance h{host} host" for host in range(hosts)]
    lines += [f"add_instance a{agent} agent" for agent in range(agents)]
    for host in range(hosts):
        for agent in range(agents):
            lines += [f"add_connection h{host}.m a{agent}.m"]
            lines += [f"set_connection_parameter_value h{host}.m/a{agent}.m baseAddress {agent << SPAN:#x}"]
    return "\n".join(lines) + "\n"


def joined(parts):
    return "{" + ", ".join(reversed(parts)) + "}"


def instance(module, name, sizes, joins):
    sizes = ", ".join(f".{size}({value})" for size, value in sizes)
    lines = [f".{port}({net})" for port, net in [("clk", "clk"), ("reset", "reset")] + joins]
    return [f"  {module} #({sizes}) {name} (", "    " + ",\n    ".join(lines), "  );"]


def by_hand(hosts, agents, address):
    header = ["input clk", "input reset"]
    header += [f"{'input' if command else 'output'} [{bits - 1}:0] h{host}$m${role}" for host in range(hosts) for role, bits, command in ports_of(address)]
    for agent in range(agents):
        header += [f"{'output' if command else 'input'} [{bits - 1}:0] a{agent}$m${role}" for role, bits, command in ports_of(WORDS)]
        header.append(f"output [3:0] a{agent}$m$grant")
    lines = ["module crossbar_interconnect (", "  " + ",\n  ".join(header), ");"]
    between = ["read", "write", "waitrequest", "readdatavalid"]
    for host in range(hosts):
        lines.append(f"  wire [{agents - 1}:0] " + ", ".join(f"h{host}_{role}" for role in between) + ";")
    for agent in range(agents):
        lines.append(f"  wire [{hosts - 1}:0] " + ", ".join(f"a{agent}_{role}" for role in between) + ";")
    for host in range(hosts):
        for role in between[2:]:
            lines.append(f"  assign h{host}_{role} = {joined([f'a{agent}_{role}[{host}]' for agent in range(agents)])};")
        joins = [(f"h_{role}", f"h{host}$m${role}") for role in ("address", "read", "write", "waitrequest", "readdata", "readdatavalid")]
        joins += [(f"a_{role}", f"h{host}_{role}") for role in between]
        joins.append(("a_readdata", joined([f"a{agent}$m$readdata" for agent in range(agents)])))
        lines += instance("host_route", f"route{host}", [("AGENTS", agents), ("ADDRESS", address), ("SPAN", SPAN)], joins)
    for agent in range(agents):
        joins = [("h_address", joined([f"h{host}$m$address[{SPAN - 1}:2]" for host in range(hosts)]))]
        joins += [(f"h_{role}", joined([f"h{host}_{role}[{agent}]" for host in range(hosts)])) for role in between[:2]]
        joins += [(f"h_{role}", joined([f"h{host}$m${role}" for host in range(hosts)])) for role in ("writedata", "byteenable")]
        joins += [(f"h_{role}", f"a{agent}_{role}") for role in between[2:]]
        joins += [(f"a_{role}", f"a{agent}$m${role}") for role, _ in COMMAND + ANSWER + [("grant", 4)]]
        lines += instance("arbiter", f"arbiter{agent}", [("HOSTS", hosts), ("ADDRESS", WORDS), ("PENDING", PENDING)], joins)
    return "\n".join(lines + ["endmodule"]) + "\n"


hosts, agents, folder = int(sys.argv[1]), int(sys.argv[2]), Path(sys.argv[3])
address = SPAN + agents.bit_length()
(folder / "crossbar.tcl").write_text(system(hosts, agents))
(folder / "host.tcl").write_text(component("host", "start", address, []))
(folder / "agent.tcl").write_text(component("agent", "end", WORDS, [f"maximumPendingReadTransactions {PENDING}"]))
(folder / "crossbar.v").write_text(by_hand(hosts, agents, address))
