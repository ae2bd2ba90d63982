"""The linker, for the checks in this folder."""
import os
import subprocess
import sys

HOME = os.path.dirname(os.path.dirname(os.path.abspath(__file__)))
BUILT = os.path.join(HOME, "crates", "thinlto", "out", "thinlto")


def linker():
    """The program that is named on the command line, else the one of this repository, built if need be."""
    named = [word for word in sys.argv[1:] if not word.startswith("--")]
    if named:
        return os.path.abspath(named[0])
    # the launcher proves and builds where that is due; the checks then call the program itself, often
    done = subprocess.run([os.path.join(HOME, "thinlto"), "link", "-o", os.devnull, os.path.join(HOME, "examples", "sum.ll")])
    if done.returncode != 0:
        sys.exit(f"{os.path.basename(sys.argv[0])}: no linker")
    return BUILT


class Answer:
    """What a run of the linker ended with: status, notes, and what it printed."""

    def __init__(self, status, notes, printed):
        self.status = status
        self.notes = notes
        self.printed = printed

    def __str__(self):
        return f"status {self.status} {self.notes[:200]!r}"


def run(program, *words, read=b"", seconds=60):
    try:
        done = subprocess.run([program, *words], input=read, capture_output=True, timeout=seconds)
    except subprocess.TimeoutExpired:
        return Answer(None, f"no answer within {seconds} s".encode(), b"")
    return Answer(done.returncode, done.stderr, done.stdout)
