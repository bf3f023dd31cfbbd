"""The modules of examples/mux: Icarus takes them without a word, and the commands of its README print what stands behind them."""
import re
import shutil
import subprocess
import tempfile
from pathlib import Path

from parts import ENVIRONMENT, PROGRAM, TOP, must


def main():
    there = TOP / "examples/mux"
    commands, said = re.search(r"^```sh\n(.*?)^```\n\n```\n(.*?)^```$", (there / "README.md").read_text(), re.S | re.M).groups()
    with tempfile.TemporaryDirectory() as folder:
        shutil.copytree(there, Path(folder, "mux"), ignore=shutil.ignore_patterns("out"))
        block = commands.replace("../../avalon", f'"{PROGRAM}"').replace("iverilog -g2005", "iverilog -g2005 -Wall")
        run = subprocess.run(["sh", "-e", "-c", block], cwd=Path(folder, "mux"), env=ENVIRONMENT, capture_output=True, text=True, check=False)
        printed = "".join(line for line in run.stdout.splitlines(True) if not line.startswith("VCD info"))
        must(run.returncode == 0 and not run.stderr, "the commands of examples/mux don't run", run.stdout, run.stderr)
        must(printed == said, "the commands of examples/mux print what its README doesn't show", printed)
        must("out$st$channel" in Path(folder, "mux/out/mux.vcd").read_text(), "the waves lack a signal")
    print("modules: a multiplexer, a gatherer and a demultiplexer run as examples/mux shows")


main()
