#!/usr/bin/env python3
"""Draws a dump of so many ports and cycles: drawn_dump.py PORTS CYCLES [WIDTH]. Without WIDTH the widths go round 1, 2, 64, 65 and 128 where there
are few ports, and are 1 where there are many."""
import random
import sys

from judge_dumps import dump

WIDTHS = (1, 2, 64, 65, 128)


def main(count, cycles, width):
    draw = random.Random(count)
    ports = [(f"port${k}", width or (WIDTHS[k % 5] if count < 1000 else 1)) for k in range(count)]
    row = [draw.getrandbits(bits) for _, bits in ports]
    rows = [row]
    for _ in range(cycles - 1):
        # a port in two changes
        row = [draw.getrandbits(bits) if width or draw.random() < 0.5 else value for value, (_, bits) in zip(row, ports)]
        rows.append(row)
    sys.stdout.write(dump("drawn_interconnect", ports, rows))


if __name__ == "__main__":
    main(int(sys.argv[1]), int(sys.argv[2]), int(sys.argv[3]) if sys.argv[3:] else 0)
