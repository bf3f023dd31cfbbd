#!/usr/bin/env python3
"""What crates/lane_rows must print of its rows: judge_lanes.py PROGRAM <ROWS.

PROGRAM is asked for the text of each workload system alone; what the scenario of each lane does on it is counted by judge_traces.

    python3 bench/judge_lanes.py ./avalon <crates/lane_rows/stdin | cmp - crates/lane_rows/stdout
"""
import sys

from judge_scenarios import judge
from judge_traces import Simulation, generated
from script_systems import System
from workload_scripts import scripts_of

LANES = 8


def scenario_of(lines, lane):
    """The lines for a lane: its pattern stands in place of `*`, and `:times COUNT TEXT` is so many lines."""
    pattern = "1" * (8 * lane) + "0" * (64 - 8 * lane)
    for line in lines:
        count, text = 1, line
        if line.startswith(":times "):
            _, count, text = line.split(" ", 2)
        yield from [text.replace("*", pattern)] * int(count)


def told(program, row):
    title, *lines = row.splitlines()
    number, cycles, _ = title.split(" ", 2)
    system, *components = scripts_of(int(number))
    text = generated(program, system.encode(), [component.encode() for component in components])
    yield title
    for lane in range(LANES):
        scenario = "".join(f"{line}\n" for line in [f"cycles {cycles}", *scenario_of(lines, lane)]).encode()
        said = System(system, components)
        answer = judge(said, scenario)
        assert not answer.startswith("line "), answer
        yield f"  lane {lane} {Simulation(text, said, scenario).counts()}"


def main(program):
    for row in sys.stdin.read().split(":row ")[1:]:
        print("\n".join(told(program, row)))


if __name__ == "__main__":
    main(*sys.argv[1:])
