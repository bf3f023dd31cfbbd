"""What the helpers here read: scripts of systems and components that `avalon check` accepts, and the header of a generated module."""
import re
import sys

BLANKS = " \t\v\f\r"
STARTS = {"start", "source", "master", "host"}
LOGIC = {"avalon", "avalon_streaming"}


class Fault(Exception):
    """What a helper can't do, in one line."""


def run(main):
    """Runs a helper's main: a fault is one line on standard error, and status 1."""
    try:
        main()
    except Fault as fault:
        sys.exit(f"{sys.argv[0].rsplit('/', 1)[-1]}: {fault}")
    except BrokenPipeError:
        sys.exit(1)


def read_text(file):
    try:
        with open(file, encoding="utf-8", newline="") as it:
            return it.read()
    except (OSError, UnicodeDecodeError) as why:
        raise Fault(f"{file} can't be read: {why}") from why


def number(word):
    return int(word, 16 if word.lower().startswith("0x") else 10)


# ---- words

def behind_brace(text, at):
    """The place behind the brace that closes the one here."""
    depth = 0
    while at < len(text):
        depth += {"{": 1, "}": -1}.get(text[at], 0)
        at += 2 if text[at] == "\\" else 1
        if depth == 0:
            return at
    raise Fault("a brace isn't closed")


def behind_comment(text, at):
    """The place of the line feed that ends the comment here."""
    for found in re.compile(r"(\\*)\r?\n").finditer(text, at):
        if len(found[1]) % 2 == 0:
            return found.end() - 1
    return len(text)


def commands_of(text):
    """The words of each command of a script."""
    text = text.replace("\r\n", "\n")
    commands, words, at = [], [], 0
    join = re.compile(r"\\\n[ \t]*")
    bare = re.compile(r"(?:(?!\\\n)[^ \t\v\f\r\n;])+")
    while at < len(text):
        if text[at] in "\n;":
            commands.append(words)
            words, at = [], at + 1
        elif text[at] in BLANKS:
            at += 1
        elif found := join.match(text, at):
            at = found.end()
        elif text[at] == "#" and not words:
            at = behind_comment(text, at)
        elif text[at] == "{":
            behind = behind_brace(text, at)
            words.append(join.sub(" ", text[at + 1:behind - 1]))
            at = behind
        elif text[at] == '"':
            behind = text.find('"', at + 1)
            if behind < 0:
                raise Fault("a quote isn't closed")
            words.append(join.sub(" ", text[at + 1:behind]))
            at = behind + 1
        else:
            found = bare.match(text, at)
            words.append(found[0])
            at = found.end()
    return [words for words in commands + [words] if words]


# ---- components

class Port:
    def __init__(self, name, role, direction, width):
        self.name, self.role, self.direction, self.width = name, role.lower(), direction.lower(), number(width)


class Interface:
    def __init__(self, kind, direction):
        self.kind, self.is_start, self.ports, self.properties = kind, direction in STARTS, [], {}

    def has(self, role):
        return any(port.role == role for port in self.ports)

    def word(self, name, default=""):
        return self.properties.get(name.lower(), default)

    def number(self, name, default):
        word = self.word(name)
        return number({"true": "1", "false": "0"}.get(word.lower(), word)) if word else default

    def width(self, role):
        return next((port.width for port in self.ports if port.role == role), 0)

    def word_bytes(self):
        """The bytes of a word of a host or an agent."""
        return max(self.width("readdata"), self.width("writedata")) // 8

    def reached(self):
        """How many bytes a host's addresses reach, or an agent takes."""
        counts_words = self.word("addressUnits", "symbols" if self.is_start else "words").lower() in ("words", "0")
        reached = (1 << self.width("address")) * (self.word_bytes() if counts_words else 1)
        return reached if self.is_start else max(reached, self.word_bytes())


class Component:
    """A component as its script states it, and what its `#top` comments say to the top level."""

    def __init__(self, text, file=""):
        self.file, self.name, self.module = file, None, None
        self.interfaces, self.parameters, self.defaults = {}, {}, {}
        for words in commands_of(text):
            self.take(words)
        self.module = self.module or self.name
        self.driven = dict(re.findall(r"^#top ([\w$]+) = (.+?)\r?$", text, re.M))
        self.given = {name: int(width) for name, width in re.findall(r"^#top output (\w+) (\d+)\r?$", text, re.M)}
        self.begins = re.findall(r"^#top begins (\w+) (\w+)\r?$", text, re.M)
        self.open = re.findall(r"^#top open (\w+)\r?$", text, re.M)
        self.absent = set(re.findall(r"^#top without (\w+)\r?$", text, re.M))

    def take(self, words):
        command, *rest = words
        if command == "set_module_property" and rest[0].upper() == "NAME":
            self.name = rest[1]
        elif command == "set_fileset_property" and len(rest) == 3 and rest[1].upper() == "TOP_LEVEL":
            self.module = rest[2]
        elif command == "add_interface":
            self.interfaces[rest[0]] = Interface(rest[1], rest[2])
        elif command == "add_interface_port":
            self.interfaces[rest[0]].ports.append(Port(*rest[1:]))
        elif command == "set_interface_property":
            self.interfaces[rest[0]].properties[rest[1].lower()] = rest[2]
        elif command == "add_parameter" and len(rest) >= 2:
            self.defaults[rest[0]] = rest[2] if len(rest) > 2 else None
            self.parameters.setdefault(rest[0], [rest[1].upper(), False])
        elif command == "set_parameter_property" and len(rest) == 3 and rest[0] in self.parameters:
            if rest[1].upper() == "HDL_PARAMETER":
                self.parameters[rest[0]][1] = rest[2].lower() in ("true", "1")
            elif rest[1].upper() == "DEFAULT_VALUE":
                self.defaults[rest[0]] = rest[2]


def clock_source():
    return Component("""set_module_property NAME clock_source
add_interface clk_in clock end
add_interface clk_in_reset reset end
add_interface clk clock start
add_interface clk_reset reset start""")


def components_of(files):
    """Components by their types."""
    types = {"clock_source": clock_source()}
    for file in files:
        it = Component(read_text(file), file)
        types[it.name] = it
    return types


# ---- systems

class System:
    """Instances by their names, connections in their order, and what is exported."""

    def __init__(self, text, types):
        self.name, self.types = "system", types
        self.instances, self.settings, self.exports, self.connections, self.interrupts = {}, {}, {}, [], {}
        self.bases = {}
        for words in commands_of(text):
            self.take(words)

    def take(self, words):
        command, *rest = words
        if command == "create_system" and rest:
            self.name = rest[0]
        elif command == "add_instance":
            if rest[1] not in self.types:
                raise Fault(f"no component file states the type {rest[1]} of {rest[0]}")
            self.instances[rest[0]] = self.types[rest[1]]
        elif command == "set_instance_parameter_value" and len(rest) == 3:
            self.settings.setdefault(rest[0], {})[rest[1]] = rest[2]
        elif command == "set_interface_property" and rest[1].upper() == "EXPORT_OF":
            self.exports[rest[2]] = rest[0]
        elif command == "add_connection":
            self.connections.append(tuple(rest[0].split("/") if "/" in rest[0] else rest[:2]))
        elif command == "set_connection_parameter_value" and rest[1] == "irqNumber":
            self.interrupts[tuple(rest[0].split("/"))] = number(rest[2])
        elif command == "set_connection_parameter_value" and rest[1] == "baseAddress":
            self.bases[tuple(rest[0].split("/"))] = number(rest[2])

    def interface(self, end):
        instance, name = end.split(".")
        return self.instances[instance].interfaces[name]

    def logic(self):
        """The connections that have numbers: of hosts to agents and of sources to sinks."""
        return [ends for ends in self.connections if self.interface(ends[0]).kind in LOGIC]

    def root(self, end):
        """The start of the clock of an end, or None."""
        clock = self.interface(end).word("associatedClock")
        sink = f"{end.split('.')[0]}.{clock}"
        return next((start for start, at in self.connections if at == sink), None) if clock else None


# ---- generated modules

class Header:
    """The name of a generated module, and its ports: (name, width, whether it is an output)."""

    def __init__(self, text, file="the text"):
        found = re.match(r"module (\w+)_interconnect \(\n(.*?)\n\);\n", text, re.S)
        if not found:
            raise Fault(f"{file} isn't a text that `generate` writes")
        self.name = found[1]
        ports = re.findall(r"^  (input|output) wire \[(\d+):0\] (\S+?),?$", found[2], re.M)
        self.ports = [(name, int(high) + 1, way == "output") for way, high, name in ports]
        self.width = {name: width for name, width, _ in self.ports}
