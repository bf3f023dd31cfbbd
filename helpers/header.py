#!/usr/bin/env python3
"""Writes a C header of the bases and spans of all agents, as each host sees them."""
import argparse
import re
import sys

from scripts import Fault, run

LONG = """\
avalon check SYSTEM COMPONENT.. | header.py NAME >NAME.h

For each host and each agent in its map, HOST_AGENT_BASE and HOST_AGENT_SPAN, in bytes, with the names of instance and interface in capitals; and
AGENT_BASE where all hosts see the agent at one base. What `avalon check` refuses is passed on to standard error, with status 1.
"""


def name_of(end):
    return re.sub(r"\W", "_", end).upper()


def maps_of(lines):
    """For each host its rows: the agent, the first address and the last."""
    maps, host = {}, None
    for line in lines:
        if found := re.match(r"host (\S+)$", line):
            host = maps.setdefault(found[1], [])
        elif found := re.match(r"  ([0-9a-f]{8})-([0-9a-f]{8}) (\S+) connection \d+ shares \d+$", line):
            host.append((found[3], int(found[1], 16), int(found[2], 16)))
        elif not re.match(r"stream \S+ to \S+ connection \d+$|accepted hosts \d+ ", line):
            raise Fault(line)
    return maps


def place_of(word, first, last):
    span = last - first + 1
    return [f"#define {word}_BASE 0x{first:08x}u", f"#define {word}_SPAN 0x{span:x}{'u' if span < 2**32 else 'ull'}"]


def header(name, maps):
    guard = re.sub(r"\W", "_", name).upper() + "_H"
    lines, bases = [f"#ifndef {guard}", f"#define {guard}", ""], {}
    for host, rows in maps.items():
        lines.append(f"/* as {host} sees it */")
        for agent, first, last in rows:
            lines += place_of(f"{name_of(host)}_{name_of(agent)}", first, last)
            bases.setdefault(agent, set()).add((first, last))
        lines.append("")
    lines.append("/* where all hosts see an agent at one base */")
    for agent, places in bases.items():
        if len(places) == 1:
            lines += place_of(name_of(agent), *places.pop())
    return "\n".join(lines + ["", "#endif", ""])


def main():
    words = argparse.ArgumentParser(description=LONG, formatter_class=argparse.RawDescriptionHelpFormatter)
    words.add_argument("name")
    it = words.parse_args()
    print(header(it.name, maps_of(sys.stdin.read().splitlines())), end="")


if __name__ == "__main__":
    run(main)
