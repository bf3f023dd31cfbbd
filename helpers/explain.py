#!/usr/bin/env python3
"""Says what a refusal means: the line that is refused with a mark below the word, the ends of a connection, the rule and what to do."""
import argparse
import re
import sys
from pathlib import Path

from scripts import BLANKS, Component, Fault, System, commands_of, components_of, read_text, run

LONG = """\
avalon COMMAND FILE.. | explain.py FILE..

FILE.. are the words of the call behind the command: its files in their order, and a number where one stands before them, as in

    ./avalon check board.tcl cpu.tcl ram.tcl | helpers/explain.py board.tcl cpu.tcl ram.tcl
    ./avalon simulate board.tcl board.scenario cpu.tcl ram.tcl | helpers/explain.py board.tcl board.scenario cpu.tcl ram.tcl
    ./avalon bridge 400 board.tcl board.bytes cpu.tcl ram.tcl | helpers/explain.py 400 board.tcl board.bytes cpu.tcl ram.tcl

Printed is what `avalon` wrote, and below a refusal the line of the file that is meant, with a mark below the byte; for a connection both of its
ends; then the row of the rule in docs/RULES.md: what is wrong, and what to do. What is no refusal is passed on as it is.
"""
RULES = Path(__file__).resolve().parent.parent / "docs" / "RULES.md"
MOST = 100  # letters of a line that are shown
FILES = {"verilog": 1, "dump": 1, "packet": 3}  # which file an answer is about that names none


def rules():
    """The rows of docs/RULES.md: what is wrong, and what to do."""
    rows = re.findall(r"^\| \*\*([A-Z]\d+)\*\* \| (.*?) \| .*? \| (.*?) \|$", RULES.read_text(encoding="utf-8"), re.M)
    return {rule: (wrong.replace("\\|", "|"), todo.replace("\\|", "|")) for rule, wrong, todo in rows}


def read_bytes(file):
    try:
        return Path(file).read_bytes()
    except OSError as why:
        raise Fault(f"{file} can't be read: {why}") from why


def shown(data):
    """Bytes as they are shown, a letter for each letter, also for what is no text."""
    text = data.decode("utf-8", "replace")
    return "".join(" " if it in BLANKS else it if it.isprintable() else "\ufffd" for it in text)


def show(file, line, byte=None):
    """A line of a file, and a mark below the place of a byte of the file."""
    lines = read_bytes(file).split(b"\n")
    row = lines[line - 1].removesuffix(b"\r") if line <= len(lines) else b""
    at = 0 if byte is None else len(shown(row[:byte - sum(len(it) + 1 for it in lines[:line - 1])]))
    text, left = shown(row), max(0, at - MOST + 20)
    head = f"  {file}:{line}: "
    print(head + ("..." if left else "") + text[left:left + MOST] + ("..." if len(text) > left + MOST else ""))
    if byte is not None:
        print(" " * (len(head) + (3 if left else 0) + at - left) + "^")


# ---- what is behind a refusal

def first_commands(file):
    """The words of a script as far as they can be read."""
    try:
        return commands_of(read_bytes(file).decode("utf-8", "replace"))
    except Fault:
        return []


def word_at(file, byte):
    found = re.match(rb"[^\s;]*", read_bytes(file)[byte:])
    return found[0].decode("utf-8", "replace").strip('{}"')


def type_of(file):
    return next((it[2] for it in first_commands(file) if it[:2] == ["set_module_property", "NAME"] and len(it) > 2), None)


def cause_of_script(rule, files, number, byte):
    """What more can be said of a script's refusal, or None."""
    file = files[number - 1]
    data, heads = read_bytes(file), [it[0] for it in first_commands(file)[:40]]
    if data.startswith(b"\xef\xbb\xbf"):
        return "the file begins with a byte order mark: save it as UTF-8 without one"
    if data.startswith((b"\xff\xfe", b"\xfe\xff")):
        return "the file is in UTF-16: save it as UTF-8"
    if re.match(rb"\s*<\?xml", data):
        return "this is XML, as a .qsys file is: export the system as Tcl (File > Export System as Tcl)"
    if rule == "C1" and number > 1 and word_at(file, byte) == "create_system":
        return f"{file} is a system: name it first, as file 1"
    if rule in ("C1", "C13") and number == 1 and "add_interface_port" in heads and "create_system" not in heads:
        return f"{file} is a component: the system is the first file"
    if rule == "C14" and "create_system" in heads:
        return f"{file} is a system: name it first, as file 1"
    if rule == "C5" and number == 1:
        return cause_of_name(files, byte)
    if rule == "I14":
        return cause_of_setting(file, byte)
    return None


def cause_of_name(files, byte):
    """Whether a name that isn't there is a type, and which types there are."""
    word = word_at(files[0], byte)
    types = [it for it in map(type_of, files[1:]) if it]
    for words in first_commands(files[0]):
        if words[0] == "add_instance" and len(words) > 2 and words[2] == word and word not in types:
            return f"no component file that was named states the type {word}; they state: {', '.join(types) or 'none'}"
    return None


def cause_of_setting(file, byte):
    """Which setting of an interface isn't built."""
    component = Component(read_text(file))
    name = word_at(file, byte)
    it = component.interfaces.get(name)
    if it is None:
        return None
    clocks = [name for name, at in component.interfaces.items() if at.kind == "clock"]
    clock = it.word("associatedClock")
    defaults = {"bitspersymbol": ("8",), "burstcountunits": ("words", "0"), "timingunits": ("cycles", "0"), "addressalignment": ("dynamic", "0"),
                "isbigendian": ("false", "0"), "explicitaddressspan": ("0", "0x0"), "beatspercycle": ("1",), "emptywithinpacket": ("false", "0"),
                "enabled": ("true", "1")}
    if it.kind == "avalon" and it.is_start:
        defaults["readlatency"] = ("0",)
    odd = [f"{key} is {value}" for key, value in it.properties.items() if key in defaults and value.lower() not in defaults[key]]
    if clock and clock not in clocks:
        odd.append(f"associatedClock is {clock}, and the component's clock interfaces are: {', '.join(clocks) or 'none'}")
    return f"{name}: {'; '.join(odd)}" if odd else None


def explain_place(system, ends):
    """Where an agent stands in the map of a host."""
    host, agent = (system.interface(end) for end in ends)
    base, bytes_ = system.bases.get(ends, 0), max(agent.reached(), host.word_bytes())
    told = f"  {ends[1]} takes {bytes_:#x} bytes from {base:#x} on, of the {host.reached():#x} that {ends[0]} reaches"
    print(told if base % bytes_ == 0 else f"{told}; the next multiple is {-(-base // bytes_) * bytes_:#x}")


def explain_link(files, rule, numbers):
    """Both ends of each connection that is named, and the clocks where these differ."""
    # of a call of `simulate` the second file is a scenario, which states no type
    system = System(read_text(files[0]), components_of(file for file in files[1:] if type_of(file)))
    links = system.logic()
    for which in numbers:
        print(f"  connection {which} is {' to '.join(links[int(which)])}")
    if rule[0] == "A":
        for which in numbers:
            explain_place(system, links[int(which)])
    if rule in ("P8", "S8"):
        first = next(root for ends in links for end in ends if (root := system.root(end)))
        roots = ", ".join(f"that of {end} from {system.root(end) or 'nowhere'}" for end in links[int(numbers[0])])
        print(f"  the system's clock comes from {first}, {roots}")


def explain(answer, files):
    """What is said below an answer, if it is a refusal."""
    first = answer.split("\n", 1)[0]
    fault = re.match(r"read fault: file (\d+)$", first)
    if fault:
        print(f"  {files[int(fault[1]) - 1]} can't be read: is it there, is it a file, and may you read it?")
    found = re.match(r"\w+ refused: .*?rule ([A-Z]\d+)", first) or re.match(r"limit: (L\d)", first)
    if not found:
        return
    rule, cause = found[1], None
    place = re.match(r"\w+ refused: (?:file (\d+) )?(?:line (\d+) )?(?:byte (\d+) )?rule", first)
    link = re.match(r"link refused: connection (\d+) rule \w+(?: with (\d+))?", first)
    if link:
        explain_link(files, rule, [it for it in link.groups() if it])
    elif place and (place[2] or place[3]):
        number, byte = int(place[1] or FILES.get(first.split(" ")[0], 1)), int(place[3]) if place[3] else None
        line = int(place[2]) if place[2] else read_bytes(files[number - 1])[:byte].count(b"\n") + 1
        show(files[number - 1], line, byte)
        cause = cause_of_script(rule, files, number, byte) if first.startswith("script") else None
    wrong, todo = rules().get(rule, ("a rule that docs/RULES.md doesn't have", "see docs/FORMATS.md"))
    print(f"  {rule}: {wrong}")
    if cause:
        print(f"  here: {cause}")
    print(f"  what to do: {todo}")


def main():
    words = argparse.ArgumentParser(description=LONG, formatter_class=argparse.RawDescriptionHelpFormatter)
    words.add_argument("files", nargs="*", metavar="file")
    it = words.parse_args()
    answer = sys.stdin.buffer.read().decode("utf-8", "replace")
    sys.stdout.write(answer)
    explain(answer, it.files)


if __name__ == "__main__":
    run(main)
