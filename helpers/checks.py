#!/usr/bin/env python3
"""Writes a module that stands beside the generated one and tells where a component breaks the rules of its interfaces."""
import argparse

from scripts import Header, System, components_of, read_text, run

LONG = """\
checks.py TEXT SYSTEM COMPONENT.. >NAME_checks.v

TEXT is what `avalon generate` writes for SYSTEM and COMPONENT... The module NAME_checks has each port of the generated one as an input: put it
beside that module on the same wires, as `top.py --checks` does. In simulation it writes a line for each rule that a component breaks, the
first 100 of them, and counts them in `broken`:

    checks: cycle 7: host cpu_0.data: a command changes while waitrequest is high

Cycles count from 0, the first one behind `reset`. What is told is the component's fault: what the generated module promises holds only while no
component breaks its rules.
"""


class Checks:
    def __init__(self, header, system):
        self.header, self.system = header, system
        self.registers, self.body, self.resets = [], [], []

    def register(self, name, width, value="0"):
        self.registers.append(f"reg {'[' + str(width - 1) + ':0] ' if width > 1 else ''}{name};")
        self.resets.append(f"{name} <= {value};")
        return name

    def take(self, end):
        """The rules of one end, where it has ports."""
        interface = self.system.interface(end)
        if not any(port.startswith(f"{end.replace('.', '$')}$") for port in self.header.width):
            return
        kinds = {("avalon", True): ("host", self.host), ("avalon", False): ("agent", self.agent), ("avalon_streaming", True): ("source", self.source)}
        if (interface.kind, interface.is_start) in kinds:
            kind, rules = kinds[interface.kind, interface.is_start]
            self.body.append(f"    // {kind} {end}")
            rules(Signals(end, kind, interface, self))

    def text(self):
        for end in dict.fromkeys(end for ends in self.system.logic() for end in ends):
            self.take(end)
        name = self.header.name
        ports = ",\n".join(f"  input wire [{width - 1}:0] {port}" for port, width in self.header.width.items())
        registers = "\n".join(f"  {it}" for it in self.registers)
        resets = "\n".join(f"      {it}" for it in self.resets)
        body = "\n".join(self.body)
        return f"""// Beside {name}_interconnect: tells where a component breaks the rules of its interfaces.
/* verilator lint_off UNUSEDSIGNAL */
/* verilator lint_off BLKSEQ */
/* verilator lint_off WIDTH */
module {name}_checks (
  input wire clk,
  input wire reset,
{ports}
);
  integer cycle;
  integer broken;
{registers}

  initial broken = 0;

  always @(posedge clk)
    if (reset) begin
      cycle = 0;
{resets}
    end else begin
{body}
      cycle = cycle + 1;
    end
endmodule
"""

    # -- what each kind keeps to

    def host(self, it):
        read, write = it.bit("read"), it.bit("write")
        shows, waits = it.shows(), it.net("waitrequest")
        it.rule("read and write are high together", f"{read} && {write}")
        it.unknown("read", "write")
        shown = it.joined("read", "write", "address", "byteenable", "burstcount")
        it.rule("a command of unknown bits", f"({shows}) === 1'b1 && (^{shown}) === 1'bx")
        it.holds(shown, f"({shows}) && {waits}", "a command changes while waitrequest is high")
        if it.has("write"):
            it.holds(it.net("writedata"), f"{write} && {waits}", "writedata changes while waitrequest is high")
        if it.has("burstcount"):
            it.bursts(read, write, waits)

    def agent(self, it):
        it.unknown("waitrequest", "readdatavalid")
        if it.has("readdatavalid"):
            owed, valid = self.register(it.own("owed"), 32), it.net("readdatavalid")
            it.rule("readdatavalid is high, and no read of an earlier cycle is unanswered", f"{valid} && {owed} == 0")
            count = it.net("burstcount") if it.has("burstcount") else "1"
            it.then(f"{owed} <= {owed} + (({it.taken()}) ? {count} : 0) - (({valid} && {owed} != 0) ? 1 : 0);")

    def source(self, it):
        it.unknown("valid")
        latency, has_ready = it.interface.number("readyLatency", 0), it.has("ready")
        valid = it.net("valid")
        beat = it.joined("data", "channel", "error", "startofpacket", "endofpacket", "empty")
        moves = f"({valid} && {it.net('ready')})" if has_ready and latency == 0 else valid
        if has_ready and latency == 0:
            stands = f"{valid} && !{it.net('ready')}"
            it.holds(f"{{{valid}, {beat}}}", stands, "a beat changes, or goes, before it is accepted")
        elif has_ready:
            was, ready = self.register(it.own("was_ready"), latency), it.net("ready")
            due = was + (f"[{latency - 1}]" if latency > 1 else "")
            allowance = it.interface.number("readyAllowance", 0) or latency
            if allowance > latency:
                came, since = self.register(it.own("came"), 1), self.register(it.own("since_ready"), 8)
                late = f"ready wasn't high yet {latency} cycles before, or {allowance} beats came since it was"
                it.rule(f"valid is high, and {late}", f"{valid} && !(({came} || {due}) && ({ready} || {since} < {allowance}))")
                it.then(f"{came} <= {came} || {due};")
                it.then(f"{since} <= {ready} ? 0 : {since} + {valid};")
            else:
                it.rule(f"valid is high, and ready was low {latency} cycles before", f"{valid} && !{due}")
            rest = f"{{{was}[{latency - 2}:0], {ready}}}" if latency > 1 else ready
            it.then(f"{was} <= {rest};")
        if it.has("channel"):
            most = it.interface.number("maxChannel", 0)
            if most < 2**it.width("channel") - 1:
                it.rule("a channel above maxChannel", f"{valid} && {it.net('channel')} > {it.width('channel')}'d{most}")
        if it.has("startofpacket"):
            it.packets(moves)


class Signals:
    """The signals of one end, and the rules that are told of it."""

    def __init__(self, end, kind, interface, checks):
        self.end, self.kind, self.interface, self.checks = end, kind, interface, checks

    def net(self, role):
        return f"{self.end.replace('.', '$')}${role}"

    def own(self, name):
        """A register of this end; no port is named so, since none has two signs together."""
        return f"{self.end.replace('.', '$')}$${name}"

    def has(self, role):
        return self.net(role) in self.checks.header.width

    def width(self, role):
        return self.checks.header.width[self.net(role)]

    def bit(self, role):
        return self.net(role) if self.has(role) else "1'b0"

    def joined(self, *roles):
        return "{" + ", ".join(self.net(role) for role in roles if self.has(role)) + "}"

    def bits(self, text):
        return sum(self.checks.header.width[name] for name in text.strip("{}").replace("{", "").replace("}", "").split(", "))

    def shows(self):
        return " || ".join(self.net(role) for role in ("read", "write") if self.has(role))

    def then(self, line):
        self.checks.body.append(f"      {line}")

    def rule(self, what, test):
        self.then(f"if ({test}) begin")
        self.then("  broken = broken + 1;")
        self.then(f'  if (broken <= 100) $display("checks: cycle %0d: {self.kind} {self.end}: {what}", cycle);')
        self.then("end")

    def unknown(self, *roles):
        for role in roles:
            if self.has(role):
                self.rule(f"{role} is unknown", f"(^{self.net(role)}) === 1'bx")

    def holds(self, signals, waits, what):
        """These signals stand unchanged in the cycle behind one in which they wait."""
        name = "held_" + str(sum(it.split()[-1].startswith(self.own("held")) for it in self.checks.registers) // 2)
        was = self.checks.register(self.own(name), self.bits(signals))
        held = self.checks.register(self.own(name + "_waits"), 1)
        self.rule(what, f"{held} && {was} !== {signals}")
        self.then(f"{was} <= {signals};")
        self.then(f"{held} <= {waits};")

    def bursts(self, read, write, waits):
        """The first beat of a burst names its length, and no other command comes before its last beat."""
        count, longest = self.net("burstcount"), 1 << self.width("burstcount") - 1
        left = self.checks.register(self.own("left"), self.width("burstcount"))
        self.rule("a burst of no beat", f"({self.shows()}) && {left} == 0 && {count} == 0")
        self.rule(f"a burst of more than {longest} beats", f"({self.shows()}) && {left} == 0 && {count} > {longest}")
        if self.has("read") and self.has("write"):
            self.rule("a read before the last beat of a write burst", f"{read} && {left} != 0")
        if self.has("write"):
            self.then(f"if ({write} && !{waits}) {left} <= {left} == 0 ? {count} - 1 : {left} - 1;")

    def taken(self):
        """Whether an agent accepts a read in this cycle."""
        if self.has("waitrequest"):
            return f"{self.net('read')} && !{self.net('waitrequest')}"
        wait = self.interface.number("readWaitTime", self.interface.number("readWaitStates", 1))
        if wait == 0:
            return self.net("read")
        stood = self.checks.register(self.own("stood"), 8)
        ends = f"{stood} == {wait}"
        self.then(f"{stood} <= {self.net('read')} && !({ends}) ? {stood} + 8'd1 : 8'd0;")
        return f"{self.net('read')} && {ends}"

    def packets(self, moves):
        first, last = self.net("startofpacket"), self.net("endofpacket")
        opened = self.checks.register(self.own("opened"), 1)
        self.rule("a packet begins before the last one ends", f"{moves} && {first} && {opened}")
        self.rule("a beat outside of a packet", f"{moves} && !{first} && !{opened}")
        if self.has("channel"):
            channel = self.checks.register(self.own("channel"), self.width("channel"))
            self.rule("the channel changes inside a packet", f"{moves} && !{first} && {opened} && {self.net('channel')} != {channel}")
            self.then(f"if ({moves}) {channel} <= {self.net('channel')};")
        if self.has("empty"):
            symbols = self.interface.number("symbolsPerBeat", self.width("data") // self.interface.number("dataBitsPerSymbol", 8))
            if symbols < 2**self.width("empty"):
                self.rule(f"empty isn't below the {symbols} symbols of a beat", f"{moves} && {last} && {self.net('empty')} >= {symbols}")
        self.then(f"if ({moves}) {opened} <= !{last};")


def main():
    words = argparse.ArgumentParser(description=LONG, formatter_class=argparse.RawDescriptionHelpFormatter)
    words.add_argument("text")
    words.add_argument("system")
    words.add_argument("components", nargs="*", metavar="component")
    it = words.parse_args()
    header = Header(read_text(it.text), it.text)
    print(Checks(header, System(read_text(it.system), components_of(it.components))).text(), end="")


if __name__ == "__main__":
    run(main)
