#!/usr/bin/env python3
"""Judges simulations of drawn scenarios, apart from the program: judge_drawn_traces.py PROGRAM COUNT SEED <crates/scenario_rows/stdin.

For the systems of the rows it draws so many scenarios, has PROGRAM simulate each, and compares what it writes with what judge_traces tells of
the text that PROGRAM generates. The first scenario that is told otherwise is kept in a folder, which is named.
"""
import subprocess
import sys
import tempfile
from pathlib import Path
from random import Random

from judge_scenarios import Drawer, judge
from judge_traces import Simulation, generated
from script_systems import System

MOST_CYCLES, LONGEST_REST = 600, 12


class Faultless(Drawer):
    """Draws scenarios of many statements, with short rests. What breaks a rule is left out, but for a few."""

    def errs(self, share=0.02):
        return False

    def line(self):
        words = super().line().split(" ")
        if words[0] in ("idle", "gap"):
            words[2] = str(int(words[2]) % LONGEST_REST + 1)
        return " ".join(words)

    def scenario(self):
        lines = [self.line() for _ in range(self.random.randint(5, 120))]
        kept = [f"cycles {self.random.randint(1, MOST_CYCLES)}"] + [line for line in lines if not line.startswith("cycles")]
        while self.random.random() < 0.99 and (answer := judge(self.system, "\n".join(kept).encode())).startswith("line "):
            del kept[int(answer.split()[1]) - 1]
        return "\n".join(kept).encode()


def systems_of(heads):
    """The files of each system: its script, and those of its components."""
    parts, systems = {}, []
    for part in heads.split("\n:part ")[1:]:
        name, _, lines = part.partition("\n")
        parts[name] = lines + "\n"
    for line in heads.splitlines():
        if line.startswith(":system "):
            systems.append([parts[name] for name in line.split(" ")[2:]])
    return systems


def simulated(program, files, scenario, folder):
    names = [Path(folder) / name for name in ("system", "scenario", *(f"component{k}" for k in range(1, len(files))))]
    for name, file in zip(names, [files[0].encode(), scenario, *(file.encode() for file in files[1:])]):
        name.write_bytes(file)
    return subprocess.run([program, "simulate", *names], stdout=subprocess.PIPE, check=False).stdout.decode()


def wanted(text, system, scenario):
    answer = judge(system, scenario)
    if answer.startswith("line "):
        return f"scenario refused: file 2 {answer}\n"
    return "".join(line + "\n" for line in Simulation(text, system, scenario).trace())


def main(program, count, seed):
    random = Random(int(seed))
    files = systems_of(sys.stdin.read().split("\n:row ")[0])
    systems = [System(system, components) for system, *components in files]
    texts = [generated(program, system.encode(), [component.encode() for component in components]) for system, *components in files]
    lines = refused = 0
    for number in range(int(count)):
        which = random.randrange(len(files))
        scenario = Faultless(random, systems[which]).scenario()
        folder = tempfile.mkdtemp()
        told, due = simulated(program, files[which], scenario, folder), wanted(texts[which], systems[which], scenario)
        if told != due:
            Path(folder, "told").write_text(told)
            Path(folder, "wanted").write_text(due)
            sys.exit(f"scenario {number} is told otherwise: {folder}")
        subprocess.run(["rm", "-r", folder], check=True)
        lines, refused = lines + due.count("\n"), refused + due.startswith("scenario")
    print(f"{count} scenarios, {refused} of them refused, {lines} lines, as they must be")


if __name__ == "__main__":
    main(*sys.argv[1:])
