#!/usr/bin/env python3
"""Writes a row for each number of hosts at one agent, 1 to 16, and of agents below one host, 1 to 32: counted_rows.py bus|scripts.

`bus` writes them as crates/bus_rows/stdin has them, up to 23 agents, the most that its program takes. Each host writes a byte of its
own and reads it, all at once; the one host writes each agent and then reads each, in order. `scripts` writes them as
crates/script_rows/stdin has them, where the module that is simulated is compared with the one that is generated.
"""
import sys

HOSTS, AGENTS, FEW_AGENTS = range(1, 17), range(1, 33), range(1, 24)


def host_accesses(number):
    """What a host does: it writes a byte of its own, and reads it."""
    return f"w{number:x}={0x40 + 3 * number:x} r{number:x}"


def hosts_row(count):
    """So many hosts at one agent, all at once; each third of them has no `readdatavalid`."""
    kinds = ["8,rw,address=4" + (",valid" if k % 3 else "") for k in range(count)]
    agent = f"8,rw,address=4,wait=0,pending=4,latency=2,first=0,from={'+'.join(map(str, range(count)))}"
    shown = [f"{kind} {host_accesses(k)}" for k, kind in enumerate(kinds)]
    return f"{kinds[0]} {agent} {12 + 8 * count} {' '.join([host_accesses(0)] + shown[1:])}"


def agents_row(count):
    """So many agents of one byte below a host; each third of them answers late."""
    agents = [f"8,rw,at={k:x},wait=0,pending=2,latency={3 if k % 3 == 2 else 1},first=0" for k in range(count)]
    return f"8,rw,address=5,valid {' '.join(agents)} {12 + 6 * count} w0=80*{count} r0*{count}"


def bus_rows():
    yield "# each number of hosts at one agent"
    yield from map(hosts_row, HOSTS)
    yield "# each number of agents below one host"
    yield from map(agents_row, FEW_AGENTS)


SYSTEM = """:simulate
create_system s
:times {hosts} add_instance h# byte_host
:times {agents} add_instance r# byte_agent
{joined}
:file
+byte_host
:file
+byte_agent
:file
cycles 1"""


def counted(count, kind):
    return f"{count} {kind}{'s' if count > 1 else ''}"


def script_rows():
    for count in HOSTS:
        joined = f":times {count} add_connection h#.m r0.s"
        yield f":row same text {counted(count, 'host')} at one agent\n" + SYSTEM.format(hosts=count, agents=1, joined=joined)
    for count in AGENTS:
        joined = f":times {count} add_connection h0.m r#.s\n:times {count} set_connection_parameter_value h0.m/r#.s baseAddress #"
        yield f":row same text {counted(count, 'agent')} below one host\n" + SYSTEM.format(hosts=1, agents=count, joined=joined)


if __name__ == "__main__":
    print("\n".join({"bus": bus_rows, "scripts": script_rows}[sys.argv[1]]()))
