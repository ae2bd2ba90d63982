"""The vectors under examples/vectors: texts, and the tables of their runs.

Beside each NAME.ll stands NAME.values, a line for each run:

    ROOT(ARGUMENTS) [reads "BYTES"] = [writes "BYTES", ]returned[ VALUE]

Arguments are decimal numbers with commas between. In strings `\\XX` is a byte, as in the texts. A value is a
signed decimal, or `true` or `false` at one bit; a function without a result has none. What stands behind the
sign of equality may be missing in a line that `examples/vectors/make` is still to complete.
"""
import os
import re

from linker import HOME

VECTORS = os.path.join(HOME, "examples", "vectors")
TOPICS = ["integers", "programs"]
CALL = r'(?P<root>[\w.]+)\((?P<args>[-\d, ]*)\)(?: reads "(?P<read>[^"]*)")? ='
ANSWER = r'(?: writes "(?P<written>[^"]*)",)?(?P<returned> returned(?: (?P<value>-?\d+|true|false))?)'
LINE = re.compile(f"{CALL}(?:{ANSWER})?")
PARAMETER = r"\s*(i\d+)\b[^,)]*"
HEAD = r"^define (?:[a-z_]+ )*?(void|i\d+) @{}\(([^)]*)\)"


def bytes_of(string):
    return re.sub(rb"\\([0-9A-F]{2})", lambda m: bytes([int(m[1], 16)]), (string or "").encode("latin-1"))


def string_of(content):
    return "".join(chr(b) if 0x20 <= b <= 0x7E and chr(b) not in '"\\' else f"\\{b:02X}" for b in content)


class Run:
    """A run of a text: what is called and read, and what is written and returned. `answered` says whether the
    answer is there, and the value is None where nothing is returned."""

    def __init__(self, root, args, read=b""):
        self.root = root
        self.args = args
        self.read = read
        self.answered = False
        self.written = b""
        self.value = None

    def answer(self, written, value):
        self.answered = True
        self.written = written
        self.value = value

    def call(self):
        reads = f' reads "{string_of(self.read)}"' if self.read else ""
        return f"{self.root}({', '.join(self.args)}){reads}"

    def returned(self):
        return "returned" if self.value is None else f"returned {self.value}"

    def line(self):
        writes = f' writes "{string_of(self.written)}",' if self.written else ""
        return f"{self.call()} ={writes} {self.returned()}"


def run_of(line, where):
    found = LINE.fullmatch(line)
    if found is None:
        raise SystemExit(f"vectors: {where}: no run: {line}")
    made = Run(found["root"], [arg.strip() for arg in found["args"].split(",") if arg.strip()], bytes_of(found["read"]))
    if found["returned"]:
        made.answer(bytes_of(found["written"]), found["value"])
    return made


class Vector:
    """A text with its runs."""

    def __init__(self, topic, name):
        self.topic = topic
        self.name = f"{topic}/{name}"
        self.path = os.path.join(VECTORS, topic, name + ".ll")
        self.table = os.path.join(VECTORS, topic, name + ".values")
        with open(self.path) as file:
            self.text = file.read()
        with open(self.table) as file:
            lines = file.read().splitlines()
        self.runs = [run_of(line, f"{self.name}.values:{number}") for number, line in enumerate(lines, 1)]

    def roots(self):
        return sorted({made.root for made in self.runs})

    def type_of(self, root):
        """The types of a function's result and parameters."""
        found = re.search(HEAD.format(re.escape(root)), self.text, re.M)
        if found is None:
            raise SystemExit(f"vectors: {self.name} has no @{root} of integers")
        return found[1], re.findall(PARAMETER, found[2])

    def store(self):
        with open(self.table, "w") as file:
            file.write("".join(made.line() + "\n" for made in self.runs))


def vectors():
    return [
        Vector(topic, name[: -len(".ll")])
        for topic in TOPICS
        for name in sorted(os.listdir(os.path.join(VECTORS, topic)))
        if name.endswith(".ll")
    ]
