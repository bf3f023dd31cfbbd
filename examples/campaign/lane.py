#!/usr/bin/env python3
"""Writes the scenario that a campaign draws for a lane of boot.tcl, from docs/FORMATS.md alone: lane.py NUMBER LANE."""
import sys

HOSTS = ["fetch_0.code", "fetch_1.code", "fetch_2.code"]
CYCLES, WORDS, BYTES = 256, 1024, 4


def generator(state):
    """draw(k), which gives the next number below k."""
    def draw(k):
        nonlocal state
        state = (6364136223846793005 * state + 1442695040888963407) % 2**64
        return (state >> 33) % k
    return draw


def statement(draw, host):
    if draw(4) == 3:
        return f"idle {host} {1 + draw(8)}"
    draw(1)  # which of its connections: it has one
    return f"read {host} {BYTES * draw(WORDS):x} f 1"


def scenario(number, lane):
    draw = generator(8 * number + lane)
    yield f"cycles {CYCLES}"
    for host in HOSTS:
        for _ in range(16):
            yield statement(draw, host)
    yield f"stall flash_0.s {''.join('1' if draw(4) == 0 else '0' for _ in range(16))}"
    yield f"latency flash_0.s {1 + draw(8)}"


if __name__ == "__main__":
    print("\n".join(scenario(int(sys.argv[1]), int(sys.argv[2]))))
