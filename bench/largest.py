#!/usr/bin/env python3
"""Writes the scripts of a large system with bursts: largest.py HOSTS AGENTS STREAMS STAGES FOLDER.

Each host is joined to each agent. Words have 8 to 128 bits, with byte enables where they have more than 8, and bursts 1 to 1,024 beats.
Written are large.tcl and a component for each end, and `files`, which names them in the order of a call.
"""
import sys
from pathlib import Path

HOST_BURSTS = [5, 0, 11, 2]
AGENT_BURSTS = [0, 5, 1, 11]
SPAN_BITS = 12
KINDS = 4  # of sources and of sinks; a call takes 64 files


def component(name, interface, kind, direction, settings, ports):
    lines = [f"set_module_property NAME {name}", f"add_interface {interface} {kind} {direction}"]
    lines += [f"set_interface_property {interface} {setting} {value}" for setting, value in settings]
    for role, bits, out in ports:
        lines.append(f"add_interface_port {interface} {role} {role} {'Output' if out else 'Input'} {bits}")
    return "\n".join(lines) + "\n"


def memory_ports(bits, address, burst, host):
    """Those of a host or of an agent: what a host gives an agent takes."""
    ports = [("address", address, host), ("read", 1, host), ("write", 1, host), ("writedata", bits, host)]
    ports += [("byteenable", bits // 8, host)] if bits > 8 else []
    ports += [("burstcount", burst, host)] if burst else []
    return ports + [("waitrequest", 1, not host), ("readdata", bits, not host), ("readdatavalid", 1, not host)]


def host(number):
    bits = 8 << number % 5
    return component(f"host{number}", "m", "avalon", "start", [], memory_ports(bits, 20, HOST_BURSTS[number % 4], True))


def agent(number):
    bits = 8 << number % 5
    address = SPAN_BITS - (bits // 8).bit_length() + 1
    settings = [("maximumPendingReadTransactions", 1 << number % 7)]
    return component(f"agent{number}", "s", "avalon", "end", settings, memory_ports(bits, address, AGENT_BURSTS[number % 4], False))


def end_of_stream(number, source):
    symbols = 1 + (number if source else 2 * number) % 4
    empty = (symbols - 1).bit_length()
    ports = [("valid", 1, source), ("ready", 1, not source), ("data", 8 * symbols, source)]
    ports += [("startofpacket", 1, source), ("endofpacket", 1, source)] + ([("empty", empty, source)] if empty else [])
    name, way = ("source", "start") if source else ("sink", "end")
    settings = [("dataBitsPerSymbol", 8), ("readyLatency", number % 3 if source else 0)]
    return component(f"{name}{number}", "d", "avalon_streaming", way, settings, ports)


def system(hosts, agents, streams, stages):
    lines = ["create_system large"]
    lines += [f"add_instance h{k} host{k}" for k in range(hosts)] + [f"add_instance a{k} agent{k}" for k in range(agents)]
    lines += [f"add_instance {end}{k} {kind}{k % KINDS}" for k in range(streams) for end, kind in (("s", "source"), ("k", "sink"))]
    for h in range(hosts):
        for a in range(agents):
            lines += [f"add_connection h{h}.m a{a}.s", f"set_connection_parameter_value h{h}.m/a{a}.s baseAddress {a << SPAN_BITS}"]
    for k in range(streams):
        lines += [f"add_connection s{k}.d k{k}.d", f"set_connection_parameter_value s{k}.d/k{k}.d fifoDepth 64"]
    lines.append(f"set_interconnect_requirement {{$system}} {{qsys_mm.maxAdditionalLatency}} {stages}")
    return "\n".join(lines) + "\n"


hosts, agents, streams, stages = (int(word) for word in sys.argv[1:5])
folder = Path(sys.argv[5])
files = {"large.tcl": system(hosts, agents, streams, stages)}
files |= {f"host{k}.tcl": host(k) for k in range(hosts)} | {f"agent{k}.tcl": agent(k) for k in range(agents)}
kinds = range(min(streams, KINDS))
files |= {f"source{k}.tcl": end_of_stream(k, True) for k in kinds} | {f"sink{k}.tcl": end_of_stream(k, False) for k in kinds}
for name, text in files.items():
    (folder / name).write_text(text)
(folder / "files").write_text("\n".join(files) + "\n")
