"""What the tests of the helpers share: where things stand, the program's calls, and the rows of crates/script_rows."""
import os
import re
import subprocess
import sys
from pathlib import Path

HELPERS = Path(__file__).resolve().parent.parent
TOP = HELPERS.parent
sys.path[:0] = [str(HELPERS), str(TOP / "bench")]
sys.dont_write_bytecode = True
ENVIRONMENT = {**os.environ, "PYTHONDONTWRITEBYTECODE": "1"}
PROGRAM = os.environ.get("AVALON", str(TOP / "avalon"))


def called(words, given="", folder=None, status=0):
    """What a call writes on standard output; it must end with the status."""
    run = subprocess.run([str(word) for word in words], input=given.encode(), capture_output=True, cwd=folder, env=ENVIRONMENT, check=False)
    if run.returncode != status:
        tell(f"{' '.join(map(str, words))} ends with {run.returncode}", run.stdout.decode(), run.stderr.decode())
    return run.stdout.decode()


def silent(words, folder=None):
    """A call that must write nothing at all."""
    run = subprocess.run([str(word) for word in words], capture_output=True, cwd=folder, env=ENVIRONMENT, check=False)
    if run.returncode or run.stdout or run.stderr:
        tell(f"{' '.join(map(str, words))} isn't silent", run.stdout.decode(), run.stderr.decode())


def helper(name, *words, given="", folder=None, status=0):
    return called([sys.executable, HELPERS / name, *words], given, folder, status)


def tell(*lines):
    sys.exit("\n".join(lines))


def must(holds, *lines):
    if not holds:
        tell(*lines)


# ---- rows of scripts

COMMANDS = ["generate", "simulate", "replay", "dump", "undump", "workload", "mux", "demux", "gather"]


class Row:
    """A row: its title, its command, its files and the last line of its answer."""

    def __init__(self, parts, text, answers):
        from judge_simulated_rows import files_of
        self.title, _, rest = text.partition("\n")
        first, _, behind = rest.partition("\n")
        self.command = first[1:] if first[1:] in COMMANDS and first[:1] == ":" else "check"
        self.files, _ = files_of(parts, behind if self.command != "check" else rest)
        self.answer = answers.get(self.title)


def rows():
    told = (TOP / "crates/script_rows/stdout").read_text()
    heads, *texts = (TOP / "crates/script_rows/stdin").read_text().split("\n:row ")
    parts = {}
    for part in heads.removeprefix(":part ").split("\n:part "):
        name, _, lines = part.partition("\n")
        parts[name] = lines
    titles = [text.partition("\n")[0] for text in texts]
    answers = {}
    for title in titles:
        found = re.search(rf"^{re.escape(title)}: (.*)$", told, re.M)
        answers[title] = found[1] if found else None
    return [Row(parts, text, answers) for text in texts]


def written(row, folder):
    """The files of a row in a folder, by their names in the order of the call."""
    names = []
    for number, data in enumerate(row.files, 1):
        name = f"{number}.tcl"
        (Path(folder) / name).write_bytes(data)
        names.append(name)
    return names


# ---- the systems of the examples

class Example:
    """A system of examples/: its folder, its script, and the components that it names."""

    def __init__(self, script, types):
        from scripts import commands_of
        self.folder, self.script = script.parent, script.name
        named = [words[2] for words in commands_of(script.read_text()) if words[0] == "add_instance"]
        self.components = [types[name] for name in dict.fromkeys(named) if name != "clock_source"]

    def title(self):
        return f"{self.folder.name}/{self.script}"

    def generate(self):
        return called([PROGRAM, "generate", self.script, *self.components], folder=self.folder)


def examples():
    """The systems of the examples, and one of helpers/tests that has what none of them has."""
    from scripts import Component
    found = []
    for folder in [*sorted((TOP / "examples").iterdir()), HELPERS / "tests" / "odd"]:
        scripts = sorted(folder.glob("*.tcl"))
        systems = [it for it in scripts if re.search("^create_system", it.read_text(), re.M)]
        types = {}
        for file in [*(HELPERS / "stock").glob("*.tcl"), *(it for it in scripts if it not in systems and not it.name.endswith("_hw.tcl"))]:
            types[Component(file.read_text()).name] = file
        found += [Example(it, types) for it in systems]
    return found
