#!/usr/bin/env python3
"""Writes what Quartus and Platform Designer take of a system's top level, and a VHDL wrapper of the generated module."""
import argparse
import re
from pathlib import Path

from scripts import Fault, Header, read_text, run

LONG = """\
quartus.py qip FILE.. >NAME.qip          names Verilog files for a Quartus project
quartus.py hw TOP FILE.. >NAME_hw.tcl    the top level that top.py wrote, as a component with a conduit for each exported signal's name
quartus.py vhdl TEXT >NAME.vhd           an entity of plain names, INSTANCE_INTERFACE_role, around the generated module

The names of files are kept as they are given, so call it in the folder where NAME.qip or NAME_hw.tcl will be.
"""


def qip(files):
    row = 'set_global_assignment -name VERILOG_FILE [file join $::quartus(qip_path) "{}"]'
    return "\n".join(map(row.format, files)) + "\n"


def hw(top, files):
    """A component script of a top level. Its ports are conduits: which of them belong together isn't told by their names."""
    text = read_text(top)
    found = re.search(r"^module (\w+)_top \(\n(.*?)\n\);", text, re.S | re.M)
    if not found:
        raise Fault(f"{top} isn't a top level that top.py writes")
    name = f"{found[1]}_top"
    lines = ["package require -exact qsys 16.0", f"set_module_property NAME {name}", "add_fileset synthesis QUARTUS_SYNTH {}",
             f"set_fileset_property synthesis TOP_LEVEL {name}"]
    lines += [f"add_fileset_file {Path(file).name} VERILOG PATH {{{file}}}" for file in [top, *files]]
    ports = re.findall(r"^  (input|output|inout) wire (?:\[(\d+):0\] )?(\w+),?$", found[2], re.M)
    clocks = [port for _, _, port in ports if port == "clk" or port.endswith("_clk")]
    for way, high, port in ports:
        direction, width = {"input": "Input", "output": "Output", "inout": "Bidir"}[way], int(high or 0) + 1
        if way == "input" and port in clocks:
            lines += [f"add_interface {port} clock end", f"add_interface_port {port} {port} clk Input 1"]
        elif way == "input" and (port == "reset" or port.removesuffix("_reset") + "_clk" in clocks):
            clock = port.removesuffix("reset") + "clk"
            lines += [f"add_interface {port} reset end", f"set_interface_property {port} associatedClock {clock}",
                      f"add_interface_port {port} {port} reset Input 1"]
        else:
            lines += [f"add_interface {port} conduit end", f"add_interface_port {port} {port} export {direction} {width}"]
    return "\n".join(lines) + "\n"


def kind_of(width, is_plain):
    """A port's type; the module's own ports are vectors of one bit at least."""
    return "std_logic" if width == 1 and is_plain else f"std_logic_vector({width - 1} downto 0)"


def vhdl(text):
    header = Header(read_text(text), text)
    name = header.name
    rows = [(port.replace("$", "_"), port, width, "out" if is_output else "in") for port, width, is_output in header.ports]
    if len({row[0] for row in rows}) < len(rows):
        raise Fault("two ports have one plain name")
    outer = ";\n".join(f"    {plain} : {way} {kind_of(width, True)}" for plain, _, width, way in rows)
    inner = ";\n".join(f"      \\{port}\\ : {way} {kind_of(width, False)}" for _, port, width, way in rows)
    joined = ",\n".join(f"    \\{port}\\{'(0)' if width == 1 else ''} => {plain}" for plain, port, width, _ in rows)
    return f"""-- An entity of plain names around {name}_interconnect.
library ieee;
use ieee.std_logic_1164.all;

entity {name}_wrapper is
  port (
    clk : in std_logic;
    reset : in std_logic;
{outer}
  );
end entity;

architecture wraps of {name}_wrapper is
  component {name}_interconnect is
    port (
      clk : in std_logic;
      reset : in std_logic;
{inner}
    );
  end component;
begin
  interconnect_0 : {name}_interconnect port map (
    clk => clk,
    reset => reset,
{joined}
  );
end architecture;
"""


def main():
    words = argparse.ArgumentParser(description=LONG, formatter_class=argparse.RawDescriptionHelpFormatter)
    words.add_argument("what", choices=["qip", "hw", "vhdl"])
    words.add_argument("files", nargs="+", metavar="file")
    it = words.parse_args()
    if it.what == "qip":
        print(qip(it.files), end="")
    elif it.what == "hw":
        print(hw(it.files[0], it.files[1:]), end="")
    elif len(it.files) > 1:
        raise Fault("one text has one wrapper")
    else:
        print(vhdl(it.files[0]), end="")


if __name__ == "__main__":
    run(main)
