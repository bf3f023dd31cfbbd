"""top.py over the systems of all examples: Icarus and Verilator take each top level without a word, and the benches of the examples pass."""
import re
import shutil
import subprocess
import sys
import tempfile
from pathlib import Path

from parts import ENVIRONMENT, HELPERS, PROGRAM, TOP, called, examples, helper, must, silent

from scripts import Component

VERILATOR = shutil.which("verilator")


# lines of the top level of helpers/tests/odd: clocks, resets and interrupts as they are joined, parameters, names, conduits
ODD = ["    .clk(pll$outclk$clk),\n    .reset_n(~(pll$locked$reset | reset)),", "  assign pll$locked$reset = ~pll$locked$reset_n;",
       "  assign reg$irq$irq = {4'd0, ~ram_0$irq$irq, 1'd0, video$irq$irq, 1'd0};",
       '  cpu #(.NAME("boot \\"rom\\""), .BASE(32\'hf0000000), .FAST(1)) \\reg  (',
       "  video_core video (\n    .clk(clk_1_clk),\n    .reset(clk_1_reset),",
       "    .pulse(video$sync$pulse),\n    .level(video$sync$level),\n    .other(3'd0),", "  inout wire [15:0] pins_dq,", "    .a(memory_address),",
       "    .clk(pll$outclk$clk),\n    .reset(reset | pll$locked$reset),\n    .reg$m$address(reg$m$address),"]


def bits_of(it, name):
    """The bits of an input that a `#top` comment drives: those of a slice, or of the stand-in's port of that name."""
    if found := re.search(r"\[(\d+):0\]$", it.driven.get(name, "")):
        return f"[{found[1]}:0] "
    widths = [port.width for at in it.interfaces.values() for port in at.ports if port.name == name]
    return f"[{widths[0] - 1}:0] " if widths else ""


def stub(it):
    """A module with a component's ports and nothing in it."""
    ways = {"input": "input", "output": "output", "bidir": "inout"}
    ports = [f"  {ways[port.direction]} wire [{port.width - 1}:0] {port.name}" for at in it.interfaces.values() for port in at.ports
             if port.name not in it.absent | set(it.driven) | set(it.given)]
    ports += [f"  input wire {bits_of(it, name)}{name}" for name in list(it.driven) + [name for name, _ in it.begins] if "$" not in name]
    ports += [f"  output wire [{width - 1}:0] {name}" for name, width in it.given.items()] + [f"  output wire {name}" for name in it.open]
    parameters = ", ".join(f"parameter {name} = 0" for name, (_, is_hdl) in it.parameters.items() if is_hdl)
    return f"module {it.module}{f' #({parameters})' if parameters else ''} (\n" + ",\n".join(ports) + "\n);\nendmodule\n"


def take(example, folder):
    """Both tools take the top level, its bench and its checks without a word."""
    (folder / "text.v").write_text(example.generate())
    words = ["text.v", example.folder / example.script, *example.components]
    (folder / "checks.v").write_text(helper("checks.py", *words, folder=folder))
    top = helper("top.py", "--checks", *words, folder=folder)
    (folder / "top.v").write_text(top)
    if example.folder.name == "odd":
        must(all(line in top for line in ODD), "the top level of helpers/tests/odd lacks a line", top)
    (folder / "bench.v").write_text(helper("top.py", "--checks", "--bench", "20", *words, folder=folder))
    stubs = "".join(stub(Component(Path(file).read_text())) for file in example.components)
    (folder / "stubs.v").write_text(stubs)
    silent(["iverilog", "-g2005", "-Wall", "-o", "bench", "bench.v", "text.v", "checks.v", "stubs.v"], folder)
    if VERILATOR:
        (folder / "lint.vlt").write_text('`verilator_config\nlint_off -file "text.v"\nlint_off -file "stubs.v"\n')
        name = re.search(r"module (\w+)_top", (folder / "top.v").read_text())[1]
        silent(["verilator", "--lint-only", "-Wall", "-Wno-DECLFILENAME", "lint.vlt", "--top-module", f"{name}_top",
                "top.v", "text.v", "checks.v", "stubs.v"], folder)


def run_bench(systems, folder):
    """The bench of a folder passes, with the waves of its README, and no component breaks a rule."""
    there, files = systems[0].folder, []
    for number, example in enumerate(systems):
        files += [folder / f"{name}{number}.v" for name in ("text", "checks", "top")]
        words = [files[-3], example.folder / example.script, *example.components]
        files[-3].write_text(example.generate())
        files[-2].write_text(helper("checks.py", *words))
        files[-1].write_text(helper("top.py", "--checks", *words))
    silent(["iverilog", "-g2005", "-Wall", "-o", folder / "run", *sorted(there.glob("*.v")), *files])
    said = subprocess.run(["vvp", folder / "run"], capture_output=True, text=True, check=True).stdout
    must("passed" in said and "checks:" not in said, f"the bench of examples/{there.name} doesn't pass", said)
    must(said in shown_in(there), f"the bench of examples/{there.name} prints what its README doesn't show", said)


def shown_in(there):
    """The waves and results that a README shows."""
    return re.findall(r"^```\n((?:cycle |passed).*?)^```$", (there / "README.md").read_text(), re.S | re.M)


def run_script(example, folder):
    """The bench in Python of an example prints the waves of its README."""
    (folder / "text.v").write_text(example.generate())
    said = called([sys.executable, example.folder / "bench.py", folder / "text.v"])
    must(said in shown_in(example.folder), f"bench.py of {example.title()} prints what its README doesn't show", said)


def check_refusals(example, folder):
    """What top.py can't write is told in a line."""
    (folder / "text.v").write_text(example.generate())
    script = (example.folder / example.script).read_text()
    cases = [("add_interface a conduit end\nset_interface_property a EXPORT_OF pll.first\n"
              "add_interface a_b conduit end\nset_interface_property a_b EXPORT_OF pll.second\n", "two ports of the top level are named a_b_c"),
             ("add_instance pins_hs pll\n", "pins_hs"), ("set_connection_parameter_value reg.irq/ram_0.irq irqNumber {9}\n", "interrupt 9")]
    for text, word in cases:
        (folder / "odd.tcl").write_text(script + text)
        components = [folder / "pll.tcl" if Path(it).name == "pll.tcl" else it for it in example.components]
        pll = (example.folder / "pll.tcl").read_text()
        (folder / "pll.tcl").write_text(pll + "add_interface first conduit end\nadd_interface_port first f b_c Output 1\n"
                                        "add_interface second conduit end\nadd_interface_port second s c Output 1\n")
        words = [sys.executable, HELPERS / "top.py", folder / "text.v", folder / "odd.tcl", *components]
        run = subprocess.run(words, capture_output=True, text=True, env=ENVIRONMENT, check=False)
        must(run.returncode == 1 and word in run.stderr and not run.stdout, f"{text!r} isn't refused", run.stderr)


def run_commands():
    """The commands that the README shows, from scripts to waves, as they stand there."""
    block = next(it for it in re.findall(r"^```sh\n(.*?)^```$", (TOP / "README.md").read_text(), re.S | re.M) if "--bench" in it)
    with tempfile.TemporaryDirectory() as folder:
        there = Path(folder)
        shutil.copytree(TOP / "examples/top", there / "examples/top", ignore=shutil.ignore_patterns("out"))
        (there / "helpers").symlink_to(HELPERS)
        (there / "avalon").symlink_to(PROGRAM)
        run = subprocess.run(["bash", "-ec", block], cwd=there, capture_output=True, text=True, env=ENVIRONMENT, check=False)
        waves = there / "examples/top/board.vcd"
        must(run.returncode == 0 and waves.exists(), "the commands of the README don't come to waves", run.stdout, run.stderr)
        must("counter_0$out$valid" in waves.read_text(), "the waves of the README's commands lack a signal")


def main():
    ran = 0
    run_commands()
    found = examples()
    for example in found:
        with tempfile.TemporaryDirectory() as folder:
            take(example, Path(folder))
            if example.folder.name == "odd":
                check_refusals(example, Path(folder))
    for there in dict.fromkeys(example.folder for example in found):
        systems = [example for example in found if example.folder == there]
        with tempfile.TemporaryDirectory() as folder:
            if (there / "bench.v").exists():
                run_bench(systems, Path(folder))
                ran += 1
            if (there / "bench.py").exists():
                run_script(systems[0], Path(folder))
                ran += 1
    must(len(found) >= 15 and ran >= 6, f"only {len(found)} systems and {ran} benches were found")
    tools = "Icarus and Verilator" if VERILATOR else "Icarus"
    print(f"top.py: {tools} take the top levels of {len(found)} systems without a word, {ran} benches pass with the waves of their READMEs")


main()
