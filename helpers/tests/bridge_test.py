"""bridge and packets.py: the commands of examples/bridge make the bytes that stand there, and print what its README shows."""
import re
import shutil
import subprocess
import tempfile
from pathlib import Path

from parts import ENVIRONMENT, HELPERS, PROGRAM, TOP, must


def main():
    there = TOP / "examples/bridge"
    commands, said = re.search(r"^```sh\n(.*?)^```\n.*?^```\n(.*?)^```$", (there / "README.md").read_text(), re.S | re.M).groups()
    with tempfile.TemporaryDirectory() as folder:
        here = Path(folder, "bridge")
        shutil.copytree(there, here, ignore=shutil.ignore_patterns("board.bytes", "board.replies"))
        block = commands.replace("../../avalon", f'"{PROGRAM}"').replace("../../helpers", str(HELPERS))
        run = subprocess.run(["sh", "-e", "-c", block], cwd=here, env=ENVIRONMENT, capture_output=True, text=True, check=False)
        must(run.returncode == 0 and not run.stderr, "the commands of examples/bridge don't run", run.stdout, run.stderr)
        must(run.stdout == said, "the commands of examples/bridge print what its README doesn't show", run.stdout)
        for name in ("board.bytes", "board.replies"):
            must((here / name).read_bytes() == (there / name).read_bytes(), f"{name} of examples/bridge isn't what its commands make")
    print("bridge: twenty transactions go to a system and back as examples/bridge shows")


main()
