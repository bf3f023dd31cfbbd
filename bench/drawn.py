#!/usr/bin/env python3
"""Prints rows of drawn systems of hosts and agents, as crates/bus_rows/stdin has them: drawn.py FIRST LAST.

System N has 1 + N mod 4 hosts of 8 to 64 bits, each joined to each of 1 to 6 agents of 8 to 64 bits. Each host does 16 things, drawn by a
generator whose state begins as 8 N: it reads or writes a word, or rests. Agents wait and answer as is drawn too. What crates/bus_rows
prints of them can be compared with what bench/bus_model.py says, and bench/judge_rows.py judges it by the laws alone.
"""
import sys

SPAN = 0x1000
CYCLES = 2000


class Draw:
    def __init__(self, number):
        self.state = 8 * number

    def __call__(self, count):
        self.state = (6364136223846793005 * self.state + 1442695040888963407) % (1 << 64)
        return (self.state >> 33) % count


def access(draw, bits, agents):
    kind = draw(4)
    if kind == 3:
        return f"+{1 + draw(8)}"
    lanes = bits // 8
    base = draw(agents) * SPAN
    address = base + draw(SPAN // lanes) * lanes
    if kind == 2:
        return f"r{address:x}"
    word = sum(draw(256) << 8 * lane for lane in range(lanes))
    return f"w{address:x}={word:x}"


def row(number):
    draw = Draw(number)
    hosts = [8 << (number + k) % 4 for k in range(1 + number % 4)]
    agents = [8 << (number + 2 * k) % 4 for k in range(1 + number // 4 % 6)]
    asked = [[access(draw, bits, len(agents)) for _ in range(16)] for bits in hosts]
    seats = "+".join(f"{k}*{1 + k % 3}" for k in range(len(hosts)))
    told = []
    for k, bits in enumerate(agents):
        wait = "".join("1" if draw(4) == 0 else "0" for _ in range(16))
        parts = [f"{bits},rw,address={12 - (bits // 8).bit_length() + 1}", f"at={k * SPAN:x}"] + (["enables"] if bits > 8 else [])
        told.append(",".join(parts + [f"wait={wait},pending=4,latency={1 + draw(8)},first=0,from={seats}"]))
    shown = [f"{bits},rw,address=20,valid" + (",enables" if bits > 8 else "") for bits in hosts]
    words = [shown[0]] + told + [str(CYCLES)] + asked[0]
    for k in range(1, len(hosts)):
        words += [shown[k]] + asked[k]
    return " ".join(words)


for number in range(int(sys.argv[1]), int(sys.argv[2]) + 1):
    print(row(number))
