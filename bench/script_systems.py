"""Systems as their scripts state them, for the programs here that judge apart from the program: the ends of each kind, their ports and
properties, and the streams. Only scripts that no rule refuses are read."""
import re

SIDES = {"start": 0, "master": 0, "host": 0, "source": 0, "end": 1, "slave": 1, "agent": 1, "sink": 1}
KINDS = {"avalon": ("host", "agent"), "avalon_streaming": ("source", "sink")}
SYNONYMS = {"readwaitstates": "readwaittime", "writewaitstates": "writewaittime"}
BLANKS = " \t\v\f"


def braced(text, at):
    """The place behind the brace that closes the one here."""
    depth = 0
    while True:
        depth += {"{": 1, "}": -1}.get(text[at], 0)
        at += 2 if text[at] == "\\" else 1
        if depth == 0:
            return at


def commands_of(text):
    """The words of each command of a script."""
    text = re.sub(r"\\\n[ \t]*", " ", text.replace("\r\n", "\n"))
    commands, words, at = [], [], 0
    while at < len(text):
        if text[at] in "\n;":
            commands.append(words)
            words, at = [], at + 1
        elif text[at] in BLANKS:
            at += 1
        elif text[at] == "#" and not words:
            at = (text + "\n").index("\n", at)
        else:
            quoted = text[at] in '{"'
            behind = braced(text, at) if text[at] == "{" else text.index('"', at + 1) + 1 if quoted else re.compile(r"[^\s;]*").match(text, at).end()
            words.append(text[at + quoted:behind - quoted])
            at = behind
    return [words for words in commands + [words] if words]


class End:
    """An interface, with the widths of its ports by their roles, and its properties."""

    def __init__(self, kind):
        self.kind, self.ports, self.properties = kind, {}, {}

    def set(self, name, value):
        name = name.lower()
        self.properties[SYNONYMS.get(name, name)] = value

    def number(self, name, default):
        value = self.properties.get(name.lower())
        return default if value is None else int(value, 16 if value.lower().startswith("0x") else 10)

    def has(self, role):
        return role in self.ports

    def width(self, role):
        return self.ports.get(role, 0)

    def word(self):
        """The bits of a word of a host or an agent."""
        return max(self.width("readdata"), self.width("writedata"))

    def lanes(self):
        return (1 << self.word() // 8) - 1

    def unit(self):
        """The bytes that an address counts."""
        units = self.properties.get("addressunits", "symbols" if self.kind == "host" else "words")
        return self.word() // 8 if units.lower() in ("words", "0") else 1

    def reached(self):
        """How many bytes a host's addresses reach, or an agent has."""
        bytes_ = (1 << self.width("address")) * self.unit()
        return max(bytes_, self.word() // 8) if self.kind == "agent" else bytes_

    def longest(self):
        """The beats of its longest burst."""
        return 1 << self.width("burstcount") - 1 if self.has("burstcount") else 1

    def symbols(self):
        """The symbols of a beat."""
        return self.number("symbolsPerBeat", self.width("data") // self.number("dataBitsPerSymbol", 8))

    def latency(self):
        """The ready latency of an end of a stream."""
        return self.number("readyLatency", 0) if self.has("ready") else 0

    def most_late(self):
        """How many beats may come after `ready` fell: the ready allowance of an end of a stream."""
        return (self.number("readyAllowance", 0) or self.latency()) if self.has("ready") else 0


def component_of(text):
    """The type of a component, and its ends."""
    name, ends = None, {}
    for words in commands_of(text):
        if words[:2] == ["set_module_property", "NAME"]:
            name = words[2]
        elif words[0] == "add_interface" and words[2] in KINDS:
            ends[words[1]] = End(KINDS[words[2]][SIDES[words[3]]])
        elif words[0] == "add_interface_port" and words[1] in ends:
            ends[words[1]].ports[words[3].lower()] = int(words[5])
        elif words[0] == "set_interface_property" and words[1] in ends:
            ends[words[1]].set(words[2], words[3])
    return name, ends


class System:
    """The ends of each kind that are joined to others, by their names, in the order of the first connections, and the streams."""

    def __init__(self, script, components):
        components, instances = dict(map(component_of, components)), {}
        self.ends = {"host": {}, "agent": {}, "source": {}, "sink": {}}
        self.streams, self.connections = [], 0
        for words in commands_of(script):
            if words[0] == "add_instance":
                instances[words[1]] = components.get(words[2], {})
            elif words[0] == "add_connection":
                self.connect(instances, words[1].split("/") if len(words) == 2 else words[1:3])

    def connect(self, instances, names):
        ends = []
        for name in names:
            instance, interface = name.split(".")
            ends.append(instances[instance].get(interface))
        if None in ends:
            return
        for name, end in zip(names, ends):
            self.ends[end.kind].setdefault(name, end)
        if ends[0].kind == "source":
            self.streams.append(tuple(names))
        else:
            self.connections += 1

    def weight(self):
        return 64 + 2048 * len(self.ends["host"]) + 8192 * (len(self.ends["agent"]) + len(self.streams)) + 1024 * self.connections
