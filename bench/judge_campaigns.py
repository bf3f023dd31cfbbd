#!/usr/bin/env python3
"""Judges campaigns, apart from the program: judge_campaigns.py PROGRAM NUMBER SYSTEM..

For each workload system of these numbers it draws the eight scenarios of NUMBER from docs/FORMATS.md alone, counts what judge_traces tells of the
text that PROGRAM generates, and compares the nine lines with those of PROGRAM's `campaign`.
"""
import subprocess
import sys
import tempfile
from pathlib import Path

from draw_scenarios import drawn
from judge_traces import Simulation, generated
from script_systems import System
from workload_scripts import main as write_scripts

CYCLES = 256


def wanted(text, system, components, number, of):
    for lane in range(8):
        scenario = "\n".join(drawn(number, lane, CYCLES, of)[1:]) + "\n"
        yield f"lane {lane} {Simulation(text, System(system, components), scenario.encode()).counts()}"
    yield f"end campaign {number}"


def judge(program, number, of, folder):
    write_scripts(of, folder)
    files = (folder / "files").read_text().split()
    said = subprocess.run([program, "campaign", str(number), *files], stdout=subprocess.PIPE, cwd=folder, check=False).stdout.decode()
    system, *components = ((folder / file).read_text() for file in files)
    text = generated(program, system.encode(), [component.encode() for component in components])
    lines = list(wanted(text, system, components, number, of))
    same = said.splitlines() == lines
    print(f"system {of}: {'the same' if same else 'otherwise'}")
    if not same:
        print("\n".join(["wanted", *lines, "written", said]))
    return same


def main(program, number, *systems):
    answers = []
    for of in systems:
        with tempfile.TemporaryDirectory() as folder:
            answers.append(judge(str(Path(program).resolve()), int(number), int(of), Path(folder)))
    sys.exit(0 if all(answers) else 1)


if __name__ == "__main__":
    main(*sys.argv[1:])
