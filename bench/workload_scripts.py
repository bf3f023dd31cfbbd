#!/usr/bin/env python3
"""Writes the scripts of a workload system, and a scenario for it, from docs/FORMATS.md alone: workload_scripts.py NUMBER FOLDER [TIMES CYCLES].

Written are w.tcl and a file for each component, scenario.txt, which is drawn for the number and lane 0, for 2,000 cycles, and `files`, which
names the scripts in the order of a call. With TIMES and CYCLES the scenario is for so many cycles, and each host and each source does its
statements so many times over.
"""
import sys
from pathlib import Path

from draw_scenarios import System, drawn

SPAN_BITS, ADDRESS_BITS, CYCLES = 12, 20, 2000


def component(name, interface, kind, side, properties, ports):
    """A script. `ports` are roles with their bits; those with a minus come from the other side."""
    lines = [f"set_module_property NAME {name}", f"add_interface {interface} {kind} {side}"]
    lines += [f"set_interface_property {interface} {setting} {value}" for setting, value in properties]
    for role, bits in ports:
        direction = "Output" if (bits > 0) == (side in ("host", "source")) else "Input"
        lines.append(f"add_interface_port {interface} {role} {role} {direction} {abs(bits)}")
    return "\n".join(lines) + "\n"


def memory_ports(bytes_, address):
    enables = [("byteenable", bytes_)] if bytes_ > 1 else []
    return [("address", address), ("read", 1), ("write", 1), ("writedata", 8 * bytes_)] + enables + [
        ("waitrequest", -1), ("readdata", -8 * bytes_), ("readdatavalid", -1)]


def host(bytes_):
    return component(f"host{bytes_}", "m", "avalon", "host", [], memory_ports(bytes_, ADDRESS_BITS))


def agent(bytes_):
    properties = [("addressUnits", "SYMBOLS"), ("maximumPendingReadTransactions", 4)]
    return component(f"agent{bytes_}", "s", "avalon", "agent", properties, memory_ports(bytes_, SPAN_BITS))


def stream_ports(symbols):
    empty = (symbols - 1).bit_length()
    return [("ready", -1), ("valid", 1), ("data", 8 * symbols), ("startofpacket", 1), ("endofpacket", 1)] + ([("empty", empty)] if empty else [])


def source(symbols, latency):
    properties = [("dataBitsPerSymbol", 8), ("readyLatency", latency)]
    return component(f"source{symbols}_{latency}", "o", "avalon_streaming", "source", properties, stream_ports(symbols))


def sink(symbols):
    return component(f"sink{symbols}", "i", "avalon_streaming", "sink", [("dataBitsPerSymbol", 8)], stream_ports(symbols))


def connection(i, j):
    name = f"h{i}.m/a{j}.s"
    return [f"add_connection {name}", f"set_connection_parameter_value {name} baseAddress {0x1000 * j}",
            f"set_connection_parameter_value {name} arbitrationPriority {1 + i % 3}"]


def scripts_of(number):
    """The system's script, and one of each component that it has."""
    system, lines, components = System(number), ["create_system w"], {}

    def add(name, kind, script):
        components.setdefault(kind, script)
        lines.append(f"add_instance {name} {kind}")

    for i, bytes_ in enumerate(system.hosts):
        add(f"h{i}", f"host{bytes_}", host(bytes_))
    for j, bytes_ in enumerate(system.agents):
        add(f"a{j}", f"agent{bytes_}", agent(bytes_))
    for k, (symbols, others) in enumerate(system.streams):
        add(f"s{k}", f"source{symbols}_{k % 3}", source(symbols, k % 3))
        add(f"k{k}", f"sink{others}", sink(others))
    for i in range(len(system.hosts)):
        for j in range(len(system.agents)):
            lines += connection(i, j)
    lines += [f"add_connection s{k}.o/k{k}.i" for k in range(len(system.streams))]
    return ["\n".join(lines) + "\n", *components.values()]


def scenario_of(number, times, cycles):
    """What is drawn, with the statements of hosts and sources so many times over."""
    lines = drawn(number, 0, cycles)[1:]
    repeated = [line for line in lines if line.split()[0] in ("write", "read", "idle", "beat")]
    return "\n".join(lines + repeated * (times - 1)) + "\n"


def main(number, folder, times=1, cycles=CYCLES):
    system, *components = scripts_of(number)
    names = ["w.tcl"] + [f"{component.split()[2]}.tcl" for component in components]
    for name, script in zip(names, [system, *components]):
        (folder / name).write_text(script)
    (folder / "scenario.txt").write_text(scenario_of(number, times, cycles))
    (folder / "files").write_text("\n".join(names) + "\n")


if __name__ == "__main__":
    main(int(sys.argv[1]), Path(sys.argv[2]), *map(int, sys.argv[3:]))
