#!/usr/bin/env python3
"""Compares what two programs generate: same_texts.py OLD NEW.

The systems are those of examples/, of the workloads 0 to 99, and of the rows of crates/bus_rows/stdin. Each text that differs is told, and
whether an interface of its system has `response`. The status is 1 where the text of a system without it differs.
"""
import subprocess
import sys
from concurrent.futures import ThreadPoolExecutor
from pathlib import Path
from tempfile import TemporaryDirectory

from row_scripts import scripts_of as scripts_of_row
from workload_scripts import scripts_of as scripts_of_workload

TOP = Path(__file__).resolve().parent.parent


def name_of(script):
    """The component that a script describes, None where it is a system's."""
    for line in script.splitlines():
        if line.startswith("set_module_property NAME "):
            return line.split()[2]
    return None


def examples():
    """Each system of examples/, with the files of its components."""
    for path in sorted(TOP.glob("examples/*/*.tcl")):
        system = path.read_text()
        if "\ncreate_system" not in "\n" + system:
            continue
        kinds = {line.split()[2] for line in system.splitlines() if line.startswith("add_instance ")}
        others = [other.read_text() for folder in (path.parent, TOP / "helpers/stock") for other in sorted(folder.glob("*.tcl")) if other != path]
        # the first of each kind: behind a component may stand the script of which it was made
        chosen = {name_of(script): script for script in reversed(others) if name_of(script) in kinds}
        yield f"examples/{path.parent.name}/{path.name}", {path.name: system, **{f"{kind}.tcl": script for kind, script in chosen.items()}}


def workloads():
    for number in range(100):
        yield f"workload {number}", {f"{k}.tcl": script for k, script in enumerate(scripts_of_workload(number))}


def rows():
    for line in (TOP / "crates/bus_rows/stdin").read_text().splitlines():
        if not line.startswith("#"):
            yield line, scripts_of_row(line)


def generated(program, scripts):
    with TemporaryDirectory() as folder:
        for name, script in scripts.items():
            (Path(folder) / name).write_text(script)
        said = subprocess.run([program, "generate", *scripts], cwd=folder, stdout=subprocess.PIPE, check=False)
        return said.returncode, said.stdout


def compared(programs, system):
    name, scripts = system
    old, new = (generated(program, scripts) for program in programs)
    return name, old[0], old == new, any(" response " in script for script in scripts.values())


def main():
    programs = [str(Path(program).resolve()) for program in sys.argv[1:]]
    counts = {(same, responds): 0 for same in (True, False) for responds in (True, False)}
    refused = 0
    with ThreadPoolExecutor(4) as pool:
        for name, status, same, responds in pool.map(lambda system: compared(programs, system), [*examples(), *workloads(), *rows()]):
            counts[same, responds] += 1
            refused += status != 0
            if not same:
                print(f"differs, {'with' if responds else 'without'} response: {name}")
    print(f"without response: {counts[True, False]} the same, {counts[False, False]} others; "
          f"with it: {counts[True, True]} the same, {counts[False, True]} others; {refused} refused")
    sys.exit(counts[False, False] > 0)


if __name__ == "__main__":
    main()
