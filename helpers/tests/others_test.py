"""header.py, pybench.py, waves.py and quartus.py, each over an example; and what every helper says of a bad call."""
import re
import shutil
import subprocess
import sys
import tempfile
from pathlib import Path

from parts import ENVIRONMENT, HELPERS, PROGRAM, TOP, called, examples, helper, must, silent

from pybench import Module


def check_header(folder, example):
    """Each base and span of the header is that of the map, and a C compiler takes it."""
    told = called([PROGRAM, "check", example.script, *example.components], folder=example.folder)
    text = helper("header.py", "desk", given=told)
    values = {name: int(value.rstrip("ul"), 16) for name, value in re.findall(r"^#define (\w+) (0x\w+)$", text, re.M)}
    rows = re.findall(r"^  (\w{8})-(\w{8}) (\S+) ", told, re.M)
    for first, last, agent in rows:
        name = agent.upper().replace(".", "_")
        must(values[f"CPU_DATA_{name}_BASE"] == int(first, 16) and values[f"CPU_DATA_{name}_SPAN"] == int(last, 16) - int(first, 16) + 1,
             f"the header has another place of {agent}", text)
    must(values["TIMER_S1_BASE"] == 0x10000 and values["TIMER_S1_SPAN"] == 16 and "CPU_INSTRUCTION_TIMER_S1_BASE" not in values, text)
    if shutil.which("gcc"):
        (folder / "desk.h").write_text(text)
        (folder / "a.c").write_text('#include "desk.h"\nint a[UART_S1_BASE == 0x10020u && UART_S1_SPAN == 16u ? 1 : -1];\n')
        silent(["gcc", "-Wall", "-Wextra", "-pedantic", "-std=c99", "-c", "-o", "a.o", "a.c"], folder)
    refused = subprocess.run([sys.executable, HELPERS / "header.py", "desk"], input=b"link refused: connection 3 rule A1\n", capture_output=True,
                             env=ENVIRONMENT, check=False)
    must(refused.returncode == 1 and b"rule A1" in refused.stderr and not refused.stdout, "a refusal isn't passed on")


def check_pybench(folder, example):
    """A host writes a word and reads it back over an agent that the test plays."""
    (folder / "bus.v").write_text(example.generate())
    it, memory, owed, got = Module(folder / "bus.v"), {}, None, []
    host, agent = "m.h", "s.a"
    commands = [("write", 8, 0xcafe), ("write", 4, 0xbeef), ("read", 8, 0), ("read", 4, 0)]
    it[f"{host}.byteenable"] = 15
    for _ in range(40):
        kind, address, word = commands[0] if commands else (None, 0, 0)
        it[f"{host}.read"], it[f"{host}.write"], it[f"{host}.address"], it[f"{host}.writedata"] = kind == "read", kind == "write", address, word
        it[f"{agent}.readdatavalid"], it[f"{agent}.readdata"] = owed is not None, owed or 0
        owed = None
        if it[f"{agent}.write"]:
            memory[it[f"{agent}.address"]] = it[f"{agent}.writedata"]
        if it[f"{agent}.read"]:
            owed = memory[it[f"{agent}.address"]]
        if it[f"{host}.readdatavalid"]:
            got.append(it[f"{host}.readdata"])
        if commands and not it[f"{host}.waitrequest"]:
            del commands[0]
        it.edge()
    must(got == [0xcafe, 0xbeef] and memory == {2: 0xcafe, 1: 0xbeef}, f"pybench: {got} is read, and {memory} is kept")
    for name, value, fault in (("no.such.port", 1, KeyError), (f"{host}.read", 2, ValueError), (f"{host}.readdata", 1, KeyError)):
        try:
            it[name] = value
        except fault:
            continue
        must(False, f"pybench takes {value} for {name}")
    must(f"in    1 {host}.read\n" in helper("pybench.py", folder / "bus.v"), "pybench doesn't list the ports")


def check_waves():
    """The changes of each signal are those of the files."""
    there = TOP / "examples/replay"
    text = helper("waves.py", "camera.v", "camera.waves", "camera.outputs", folder=there)
    scopes, codes = [], {}
    for words in map(str.split, text.partition("$enddefinitions")[0].splitlines()):
        if words[0] == "$scope":
            scopes.append(words[2])
        elif words[0] == "$upscope":
            scopes.pop()
        elif words[0] == "$var":
            codes[words[3]] = "$".join([*scopes[1:], words[4]])
    must(not scopes and "camera$pixels$ready" in codes.values() and len(set(codes.values())) == len(codes), "scopes or names are wrong", text)
    values, cycles = {}, []
    for line in text.partition("$enddefinitions $end\n")[2].splitlines():
        if line.startswith("#") and int(line[1:]) % 10 == 5:
            cycles.append(dict(values))
        elif line.startswith("b"):
            value, code = line[1:].split()
            values[codes[code]] = int(value, 2)
    for cycle, line in enumerate((there / "camera.outputs").read_text().splitlines()[:-1]):
        for name, value in re.findall(r" (\S+)=(\w+)", line):
            must(cycles[cycle][name] == int(value, 16), f"waves.py: cycle {cycle} has another {name}")


DUMP = """$timescale 1 ns $end
$scope module inv_interconnect $end
$var wire 1 ! a$b$valid $end
$var wire 8 " a$b$data [7:0] $end
$var wire 1 # clk $end
$upscope $end
$enddefinitions $end
#0
0!
"""

SCOPED = """$timescale 1 ns $end
$scope module inv_interconnect $end
$var wire 1 # clk $end
$scope module a $end
$scope module b $end
$var wire 1 ! valid $end
$var wire 8 " data $end
$upscope $end
$upscope $end
$upscope $end
$enddefinitions $end
#0
0!
"""


def check_scopes(folder):
    """Signals of another file of waves get scopes by their names, and the changes stay."""
    (folder / "flat.vcd").write_text(DUMP)
    told = helper("waves.py", "flat.vcd", folder=folder)
    must(told == SCOPED, "waves.py gives other scopes", told)


def check_quartus(folder, example):
    (folder / "text.v").write_text(example.generate())
    words = [example.script, *example.components]
    (folder / "top.v").write_text(helper("top.py", folder / "text.v", *words, folder=example.folder))
    must(helper("quartus.py", "qip", "top.v", "text.v", folder=folder).count("set_global_assignment -name VERILOG_FILE") == 2, "quartus.py qip")
    (folder / "whole.tcl").write_text(helper("quartus.py", "hw", "top.v", "text.v", folder=folder))
    # the component that it states is one that `avalon` reads
    name = re.search(r"NAME (\w+)", (folder / "whole.tcl").read_text())[1]
    (folder / "s.tcl").write_text(f"create_system s\nadd_instance whole_0 {name}\nadd_instance clk_0 clock_source\n"
                                  "add_connection clk_0.clk whole_0.clk clock\nadd_connection clk_0.clk_reset whole_0.reset reset\n")
    must(called([PROGRAM, "check", "s.tcl", "whole.tcl"], folder=folder).startswith("accepted "), "quartus.py hw: the component isn't read")
    (folder / "wrapper.vhd").write_text(helper("quartus.py", "vhdl", "text.v", folder=folder))
    if shutil.which("ghdl"):
        silent(["ghdl", "-a", "wrapper.vhd"], folder)


def check_calls():
    for file in sorted(HELPERS.glob("*.py")):
        if file.name != "scripts.py":
            must(len(helper(file.name, "--help")) > 200, f"{file.name} --help says little")
    here, nowhere = HELPERS / "top.py", "/nowhere"
    for name, words in (("top.py", [nowhere, nowhere]), ("top.py", [here, here]), ("checks.py", [nowhere, nowhere]), ("waves.py", [nowhere] * 3),
                        ("waves.py", [here]), ("quartus.py", ["vhdl", nowhere])):
        run = subprocess.run([sys.executable, HELPERS / name, *words], capture_output=True, text=True, env=ENVIRONMENT, check=False)
        must(run.returncode == 1 and run.stderr.count("\n") == 1 and not run.stdout, f"{name}: a bad call isn't told in a line", run.stderr)


def main():
    found = {it.title(): it for it in examples()}
    with tempfile.TemporaryDirectory() as folder:
        check_header(Path(folder), found["desk/desk.tcl"])
        check_pybench(Path(folder), found["bus/bus.tcl"])
        check_waves()
        check_scopes(Path(folder))
        check_quartus(Path(folder), found["top/board.tcl"])
    check_calls()
    tools = [tool for tool in ("gcc", "ghdl") if shutil.which(tool)]
    print(f"header.py, pybench.py, waves.py, quartus.py: as they should be{f', with {chr(32).join(tools)}' if tools else ''}")


main()
