"""explain.py over the rows of crates/script_rows: each refusal is explained, and its mark stands below its byte."""
import io
import os
import re
import tempfile
from contextlib import redirect_stdout
from pathlib import Path

from parts import helper, must, rows, tell, written

import explain

# what a first try meets, and a word of what is said of it
CAUSES = [
    ("a component that wasn't named", "C5", ["create_system s\nadd_instance a @cpu\n"], "no component file that was named states the type cpu"),
    ("a system that is named last", "C13",
     ["@set_module_property NAME cpu\nadd_interface m avalon host\nadd_interface_port m a address Output 8\n", "create_system s\n"],
     "1.tcl is a component: the system is the first file"),
    ("a system among the components", "C1", ["create_system s\n", "@create_system s\n"], "2.tcl is a system: name it first"),
    ("a clock that is misspelt", "I14",
     ["create_system s\n", "set_module_property NAME c\nadd_interface clk clock end\nadd_interface @s avalon agent\n"
                            "set_interface_property s associatedClock clock\n"],
     "associatedClock is clock, and the component's clock interfaces are: clk"),
    ("a byte order mark", "C1", ["@\ufeffcreate_system s\n"], "byte order mark"),
    ("a .qsys file", "C1", ["@<?xml version=\"1.0\"?>\n<system name=\"s\">\n"], "this is XML"),
]


def refusal(rule, files):
    """The line that refuses the first `@`, and the files without it."""
    number = next(k for k, file in enumerate(files, 1) if "@" in file)
    before = files[number - 1].split("@")[0].encode()
    return f"script refused: file {number} line {before.count(10) + 1} byte {len(before)} rule {rule}", [file.replace("@", "") for file in files]


def explained(answer, files):
    told = io.StringIO()
    with redirect_stdout(told):
        explain.explain(answer, files)
    return told.getvalue()


def check_mark(title, answer, said, folder):
    """The mark stands below what is at the byte, as it is shown."""
    place = re.match(r"(script|verilog|dump|packet) refused: (?:file (\d+) line \d+ )?byte (\d+)", answer)
    if not place:
        return 0
    data = (Path(folder) / f"{place[2] or explain.FILES.get(place[1])}.tcl").read_bytes()
    lines = said.splitlines()
    at = next((k for k, line in enumerate(lines) if line.strip() == "^"), None)
    must(at is not None, f"{title}: no mark", said)
    byte = int(place[3])
    want = data[byte:byte + 4].decode("utf-8", "replace")[:1]
    column = lines[at].index("^")
    got = lines[at - 1][column:column + 1]
    if want in ("", "\n") or data[byte:byte + 2] == b"\r\n":
        must(got == "", f"{title}: the mark isn't behind the line", said)
    elif want.isprintable():
        must(got == want, f"{title}: the mark is below {got!r} and not {want!r}", said)
    else:
        must(got in (" ", "\ufffd"), f"{title}: the mark is below {got!r}", said)
    return 1


def main():
    refusals = marks = 0
    with tempfile.TemporaryDirectory() as folder:
        os.chdir(folder)
        for row in rows():
            answer = row.answer or ""
            names = written(row, folder)
            said = explained(answer + "\n", names)
            rule = re.match(r"(?:script|link|scenario|verilog|dump|packet) refused: .*rule ([A-Z]\d+)|limit: (L\d)", answer)
            if not rule:
                must(said == "", f"{row.title}: more is said than the answer", said)
                continue
            rule = rule[1] or rule[2]
            must(f"  {rule}: " in said and "\n  what to do: " in said, f"{row.title}: the rule isn't explained", said)
            link = re.match(r"link refused: connection (\d+)", answer)
            must(not link or f"  connection {link[1]} is " in said, f"{row.title}: the connection isn't named", said)
            if link and rule[0] == "A":
                must(re.search(r"takes 0x\w+ bytes from 0x\w+ on, of the 0x\w+ that", said), f"{row.title}: the place isn't told", said)
                must(rule != "A1" or "the next multiple is 0x" in said, f"{row.title}: no multiple is told", said)
            refusals, marks = refusals + 1, marks + check_mark(row.title, answer, said, folder)
        for title, rule, files, word in CAUSES:
            answer, files = refusal(rule, files)
            for number, file in enumerate(files, 1):
                (Path(folder) / f"{number}.tcl").write_text(file)
            said = helper("explain.py", *(f"{k}.tcl" for k in range(1, len(files) + 1)), given=answer + "\n", folder=folder)
            must(said.startswith(answer + "\n"), f"{title}: the answer isn't passed on")
            must(word in said, f"{title}: not told", said)
    if refusals < 250 or marks < 200:
        tell(f"only {refusals} refusals and {marks} marks were seen")
    print(f"explain.py: {refusals} refusals explained, {marks} marks at their bytes, {len(CAUSES)} causes told")


main()
