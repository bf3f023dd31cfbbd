"""scripts.py over the rows of crates/script_rows that are accepted: it reads as many hosts, agents and streams as `check` tells of."""
import re
import tempfile
from pathlib import Path

from parts import must, rows, written

from scripts import Component, System, clock_source, read_text


def main():
    count = 0
    with tempfile.TemporaryDirectory() as folder:
        for row in rows():
            told = re.match(r"accepted hosts (\d+) agents (\d+) streams (\d+) ", row.answer or "")
            if not told or row.title.startswith("any byte"):
                continue
            system, *components = (Path(folder) / name for name in written(row, folder))
            types = {it.name: it for it in map(Component, map(read_text, components))} | {"clock_source": clock_source()}
            links = System(read_text(system), types)
            kinds = [(links.interface(ends[0]).kind, *ends) for ends in links.logic()]
            found = [len({start for kind, start, _ in kinds if kind == "avalon"}), len({end for kind, _, end in kinds if kind == "avalon"}),
                     sum(kind == "avalon_streaming" for kind, _, _ in kinds)]
            must(found == [int(it) for it in told.groups()], f"{row.title}: {found} are read, and {told[0]}")
            count += 1
    must(count > 100, f"only {count} rows were seen")
    print(f"scripts.py: {count} accepted systems, each with the hosts, agents and streams that `check` tells of")


main()
