#!/usr/bin/env python3
"""What crates/script_rows must print of its rows that simulate or run a workload: judge_simulated_rows.py PROGRAM [TOLD] <ROWS.

The texts are those that PROGRAM generates; what they do is told by judge_traces. With TOLD, a file, each answer is looked for there, and the
first line that differs is told.

    python3 bench/judge_simulated_rows.py ./avalon crates/script_rows/stdout <crates/script_rows/stdin
"""
import re
import subprocess
import sys
from pathlib import Path

from judge_scenarios import judge
from judge_traces import Simulation, generated, workload
from script_systems import System

MOST_VALUES = 1 << 32


# ---- the files of rows

def bytes_of(line):
    return re.sub(rb"%(..)", lambda found: bytes([int(found[1], 16)]), line.encode())


def lines_of(parts, line):
    """What a line of a row stands for."""
    if line.startswith("+"):
        return b"".join(bytes_of(each) + b"\n" for each in parts[line[1:]].splitlines())
    if line.startswith(":last "):
        return bytes_of(line[6:])
    if line.startswith(":times "):
        _, count, *rest = line.split(" ", 2)
        pattern = rest[0] if rest else ""
        return "".join(pattern.replace("#", str(k)).replace("&", str(256 * k)) + "\n" for k in range(int(count))).encode()
    return bytes_of(line) + b"\n"


def files_of(parts, text):
    """The files, and the first mark: the file's number from 1, the line and the byte."""
    files, mark = [], None
    for number, part in enumerate(text.split(":file"), 1):
        file = b"".join(lines_of(parts, line) for line in part.removeprefix("\n").splitlines())
        if b"@" in file:
            at = file.index(b"@")
            mark = mark or (number, file[:at].count(b"\n") + 1, at)
        files.append(file.replace(b"@", b""))
    return files, mark


class Row:
    def __init__(self, parts, text):
        self.title, _, rest = text.partition("\n")
        command, _, rest = rest.partition("\n")
        self.command = command.removeprefix(":") if command in (":simulate", ":workload") else None
        if self.command:
            self.text = rest.strip()
            self.files, self.mark = files_of(parts, rest)


def rows_of(text):
    heads, *rows = text.split("\n:row ")
    parts = {}
    for part in heads.split(":part ")[1:]:
        name, _, lines = part.partition("\n")
        parts[name] = lines
    return [row for row in (Row(parts, row) for row in rows) if row.command]


# ---- what is answered

def simulated(program, files):
    """The trace, or what refuses the scenario or its length. The system is one."""
    system, scenario, *components = files
    told = System(system.decode(), [component.decode() for component in components])
    answer = judge(told, scenario)
    if answer.startswith("line "):
        return f"scenario refused: file 2 {answer}\n"
    simulation = Simulation(generated(program, system, components), told, scenario)
    product = simulation.cycles * told.weight()
    if product > MOST_VALUES:
        return f"limit: L6 count {product}\n"
    return "".join(line + "\n" for line in simulation.trace())


def answer_of(program, row):
    rule = row.title.split(" ")[0]
    if rule == "usage":
        return subprocess.run([program], stdout=subprocess.PIPE, check=False).stdout.decode()
    if row.mark:
        file, line, byte = row.mark
        return f"script refused: file {file} line {line} byte {byte} rule {rule}\n"
    if row.command == "workload":
        return workload(int(row.text), program) + "\n"
    if rule in ("text", "part", "ok", "scenario") or row.title.startswith("limit: L6 "):
        return simulated(program, row.files)
    return row.title + "\n"


def told(program, row):
    answer = answer_of(program, row)
    if row.title.startswith("part "):
        answer = answer.splitlines(True)[0]  # the second line can't be written
    return f"{row.title}: \n{answer}\n" if row.title.startswith(("text ", "part ")) else f"{row.title}: {answer.splitlines()[-1]}\n"


def first_difference(wanted, text):
    """Where what is told of the row in the text isn't what is wanted."""
    wanted, lines = wanted.splitlines(), text.splitlines()
    title = wanted[0].split(": ")[0]
    at = next((k for k, line in enumerate(lines) if line.startswith(title + ": ")), None)
    if at is None:
        return "the row is missing"
    for k, line in enumerate(wanted):
        other = lines[at + k] if at + k < len(lines) else "missing"
        if other != line:
            return f"line {k} is {other} and must be {line}"
    return "the lines aren't whole"


def main(program, *words):
    text = Path(words[0]).read_text() if words else None
    others = 0
    rows = rows_of(sys.stdin.read())
    for row in rows:
        wanted = told(program, row)
        if text is None:
            sys.stdout.write(wanted)
        elif "\n" + wanted not in "\n" + text:
            others += 1
            print(f"{row.title}: {first_difference(wanted, text)}")
    if text is not None:
        print(f"{len(rows)} rows, {others} told otherwise")
    sys.exit(others > 0)


if __name__ == "__main__":
    main(*sys.argv[1:])
