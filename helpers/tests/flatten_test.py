"""flatten.tcl over ten computing scripts: each comes to its literal twin. And what it must refuse."""
import re
import subprocess
import tempfile
from pathlib import Path

from parts import HELPERS, TOP, called, must

HERE = HELPERS / "tests" / "flatten"
FLATTEN = HELPERS / "flatten.tcl"

# a script, and a word of what is said of it on standard error
REFUSED = [
    ("set_module_property NAME a\nerror broken\n", "broken"),
    ("set_module_property NAME a\nwhile 1 {}\n", "time limit exceeded"),
    ("set_module_property NAME a\nadd_parameter W INTEGER 3\nset_module_property VALIDATION_CALLBACK v\n"
     "proc v {} { send_message error \"W is too small\" }\n", "W is too small"),
    ("set_module_property NAME a\nset_module_property COMPOSITION_CALLBACK c\n", "composed of others"),
    ("set_module_property NAME a\nadd_interface s avalon end\nadd_interface_port s a address Input WIDTH\n", "the width of a isn't known: WIDTH"),
    ("set_module_property NAME a\nset_interface_property s associatedClock clk\n", "there is no interface s"),
    ("add_interface s avalon end\n", "states no NAME"),
]


def main():
    scripts = sorted(HERE.glob("*_hw.tcl"))
    for script in scripts:
        name = script.name.removesuffix("_hw.tcl")
        words = re.search(r"^# flatten: (.*)$", script.read_text(), re.M)
        twin = next(it for it in (HELPERS / "stock" / f"{name}.tcl", HERE / f"{name}.tcl") if it.exists())
        got = called(["tclsh", FLATTEN, script, *(words[1].split() if words else [])])
        must(got == twin.read_text(), f"{script.name} doesn't come to {twin.name}:", got)
    got = called(["tclsh", FLATTEN, TOP / "examples/top/memory_hw.tcl", "ADDRESS_BITS=6"])
    must(got == (TOP / "examples/top/memory.tcl").read_text(), "memory_hw.tcl doesn't come to memory.tcl:", got)
    with tempfile.TemporaryDirectory() as folder:
        file = Path(folder) / "a.tcl"
        for text, word in REFUSED:
            file.write_text(text)
            run = subprocess.run(["tclsh", FLATTEN, file], capture_output=True, text=True, check=False)
            must(run.returncode == 1 and word in run.stderr, f"{text!r} isn't refused so: {run.returncode}", run.stderr)
        # no file is read or written by a script
        file.write_text("set_module_property NAME a\nopen /etc/passwd\nexec true\nset f [file exists /etc]\nsource /etc/passwd\n")
        run = subprocess.run(["tclsh", FLATTEN, file], capture_output=True, text=True, check=False)
        must(all(f"left out: {it}" in run.stderr for it in ("open", "exec", "source")), "a script reaches files", run.stderr, run.stdout)
    must(len(scripts) >= 10, "there are less than ten scripts")
    print(f"flatten.tcl: {len(scripts)} computing scripts come to their literal twins, {len(REFUSED)} are refused")


main()
