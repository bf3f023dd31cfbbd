#!/usr/bin/env python3
"""Writes the scripts of a small system: small.py FOLDER.

A cpu of 32 bits has five agents: u8 (8 bits, latency 1), t16 (16 bits, whose reads wait a cycle and are given within the cycle), r32 (latency 1),
p32 (waitrequest, readdatavalid, 4 unanswered reads) and m64 (64 bits, the same, bursts of up to 8). A dma of 64 bits with bursts of up to 8 shares
r32 and m64. All but u8 have byte enables. Written are small.tcl and a component for each; by_hand/small.v has the module by hand.
"""
import sys
from pathlib import Path

LATENCY_1 = ["readWaitTime 0", "readLatency 1"]
SAID = ["maximumPendingReadTransactions 4"]
# name: bits, address bits, lanes, bits of burstcount, whether it has waitrequest and readdatavalid, settings
HOSTS = {"cpu": (32, 16, 4, 0, True, []), "dma": (64, 16, 8, 4, True, [])}
AGENTS = {
    "u8": (8, 4, 0, 0, False, LATENCY_1), "t16": (16, 3, 2, 0, False, []), "r32": (32, 10, 4, 0, False, LATENCY_1),
    "p32": (32, 6, 4, 0, True, SAID), "m64": (64, 12, 8, 4, True, SAID),
}
CONNECTIONS = [
    ("cpu", "u8", 0), ("cpu", "t16", 0x1000), ("cpu", "r32", 0x2000), ("cpu", "p32", 0x3000), ("cpu", "m64", 0x8000),
    ("dma", "r32", 0x2000), ("dma", "m64", 0x8000),
]


def component(name, host, bits, address, lanes, burst, says, settings):
    ports = [("address", address, True), ("read", 1, True), ("write", 1, True), ("writedata", bits, True), ("byteenable", lanes, True)]
    ports += [("burstcount", burst, True), ("waitrequest", int(says), False), ("readdata", bits, False), ("readdatavalid", int(says), False)]
    lines = [f"set_module_property NAME {name}_type", f"add_interface m avalon {'start' if host else 'end'}"]
    lines += [f"set_interface_property m {setting}" for setting in settings]
    for role, width, command in ports:
        if width:
            lines.append(f"add_interface_port m {role} {role} {'Output' if command == host else 'Input'} {width}")
    return "\n".join(lines) + "\n"


def system():
    lines = ["create_system small"] + [f"add_instance {name} {name}_type" for name in [*HOSTS, *AGENTS]]
    for host, agent, base in CONNECTIONS:
        lines += [f"add_connection {host}.m {agent}.m", f"set_connection_parameter_value {host}.m/{agent}.m baseAddress {base:#x}"]
    return "\n".join(lines) + "\n"


folder = Path(sys.argv[1])
(folder / "small.tcl").write_text(system())
for name, parts in [*HOSTS.items(), *AGENTS.items()]:
    (folder / f"{name}.tcl").write_text(component(name, name in HOSTS, *parts))
