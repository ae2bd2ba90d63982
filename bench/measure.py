"""What benches of the program share: the program itself, drawn numbers, texts, and runs with their time and memory."""
import os
import subprocess
import sys
import tempfile
import time

HOME = os.path.dirname(os.path.dirname(os.path.abspath(__file__)))
WORK = os.path.join(HOME, "bench", "work")
LAUNCHER = os.path.join(HOME, "thinlto")
BUILT = os.path.join(HOME, "crates", "thinlto", "out", "thinlto")
SEED = 20261126
MOST_BYTES = 2**24


def scale():
    """The share of the full sizes that is asked for."""
    return float(sys.argv[1]) if len(sys.argv) > 1 else 1.0


def built():
    """The program, which the launcher proves and builds where that is due; then it is called without it."""
    subprocess.run([LAUNCHER, "link", "-o", os.devnull, os.path.join(HOME, "examples", "sum.ll")], check=True)
    os.makedirs(WORK, exist_ok=True)
    return BUILT


def numbers(seed=SEED):
    """The linear congruential sequence x -> 1103515245 x + 12345 modulo 2^31, so that inputs are always the same."""
    while True:
        seed = (seed * 1103515245 + 12345) % 2**31
        yield seed >> 16


def write(name, lines):
    """Writes a text, line by line so that it is never held here; its path, and how long it is in MiB."""
    path = os.path.join(WORK, name + ".ll")
    with open(path, "w") as file:
        file.writelines(line + "\n" for line in lines)
    size = os.path.getsize(path)
    if size > MOST_BYTES:
        sys.exit(f"bench: {name} is past 16 MiB")
    return path, size / 2**20


class Used:
    """The least seconds, the least peak of memory, in MiB, and the least seconds of a processor of the runs of a command."""

    def __init__(self, seconds, mib, processor):
        self.seconds = seconds
        self.mib = mib
        self.processor = processor


def once(command, status=0):
    with tempfile.TemporaryFile() as notes:
        begin = time.perf_counter()
        child = subprocess.Popen(command, stdin=subprocess.DEVNULL, stdout=subprocess.DEVNULL, stderr=notes)
        _, ended, used = os.wait4(child.pid, 0)
        seconds = time.perf_counter() - begin
        child.returncode = os.waitstatus_to_exitcode(ended)
        if child.returncode != status:
            notes.seek(0)
            words = " ".join(command)
            sys.exit(f"bench: {words[:300]}: status {child.returncode}: {notes.read().decode()[:300]}")
    return Used(seconds, used.ru_maxrss / 1024, used.ru_utime + used.ru_stime)


def least(command, runs=3, status=0):
    done = [once(command, status) for _ in range(runs)]
    return Used(*(min(getattr(run, what) for run in done) for what in ["seconds", "mib", "processor"]))


def takes(command):
    """Whether a command ends well."""
    try:
        return subprocess.run(command, stdin=subprocess.DEVNULL, stdout=subprocess.DEVNULL, stderr=subprocess.DEVNULL).returncode == 0
    except FileNotFoundError:
        return False
