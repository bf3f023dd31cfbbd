#!/usr/bin/env python3
"""Writes the scripts of a row of crates/bus_rows/stdin: row_scripts.py FOLDER, with the row on the standard input.

Written are row.tcl, and host0.tcl, agent0.tcl and so on for each end.
"""
import sys
from pathlib import Path

from bus_model import Row


def component(end, name, kind, ports, properties):
    """The script of an end. `ports` are roles with their bits; those of the answer have a minus."""
    lines = [f"set_module_property NAME {name}", f"add_interface m avalon {kind}"]
    lines += [f"set_interface_property m {setting} {value}" for setting, value in properties]
    shape = [("address", end.address), ("read", end.reads), ("write", end.writes), ("writedata", end.writes * end.bits),
             ("byteenable", end.enables * end.bytes), ("burstcount", end.burst), ("readdata", -end.reads * end.bits)]
    for role, bits in shape + ports:
        if bits:
            direction = "Output" if (bits > 0) == (kind == "start") else "Input"
            lines.append(f"add_interface_port m {role} {role} {direction} {abs(bits)}")
    return "\n".join(lines) + "\n"


def host_script(host, number):
    units = "WORDS" if host.counts_words else "SYMBOLS"
    ports = [("waitrequest", -1), ("readdatavalid", -host.valid), ("response", -2 * host.response)]
    return component(host, f"host{number}", "start", ports, [("addressUnits", units)])


def agent_script(agent, number):
    units = "SYMBOLS" if agent.counts_bytes else "WORDS"
    valid = agent.reads and not agent.fixed
    ports = [("waitrequest", -int(agent.wait is not None)), ("readdatavalid", -valid), ("response", -2 * (agent.codes is not None))]
    times = [("maximumPendingReadTransactions", agent.pending), ("readLatency", agent.latency), ("readWaitTime", agent.readwait),
             ("writeWaitTime", agent.writewait)]
    return component(agent, f"agent{number}", "end", ports, times + [("addressUnits", units)])


def system_script(row):
    lines = ["create_system row"] + [f"add_instance h{k} host{k}" for k in range(len(row.hosts))]
    lines += [f"add_instance a{k} agent{k}" for k in range(len(row.agents))]
    for number, agent in enumerate(row.agents):
        for host, shares in agent.seats:
            name = f"h{host}.m/a{number}.m"
            lines += [f"add_connection {name}", f"set_connection_parameter_value {name} baseAddress {agent.at:#x}",
                      f"set_connection_parameter_value {name} arbitrationPriority {shares}"]
    return "\n".join(lines + [f"set_interconnect_requirement {{$system}} qsys_mm.maxAdditionalLatency {row.stages}"]) + "\n"


def scripts_of(line):
    """The names and the scripts of a row, its system first."""
    row = Row(line)
    scripts = {"row.tcl": system_script(row)}
    scripts.update((f"host{k}.tcl", host_script(host, k)) for k, host in enumerate(row.hosts))
    scripts.update((f"agent{k}.tcl", agent_script(agent, k)) for k, agent in enumerate(row.agents))
    return scripts


if __name__ == "__main__":
    for name, script in scripts_of(sys.stdin.readline()).items():
        (Path(sys.argv[1]) / name).write_text(script)
