"""LLVM's tools, as far as they are installed, for the checks in this folder."""
import os
import re
import shutil
import subprocess
import tempfile

# What releases after 14 have given a text that this project drops, with what stands for it in older ones.
# Dropping such a word makes fewer values poison and fewer runs undefined, so a program that is defined
# does the same without it.
NEWER = [
    (r" memory\([^()]*\)", ""),
    (r' allockind\("[^"]*"\)', ""),
    (r" captures\([^()]*\)", ""),
    (r" range\([^()]*\)", ""),
    (r" initializes\((\([^()]*\)(, )?)*\)", ""),
    (r" (nneg|disjoint|samesign|dead_on_unwind|writable|allocptr)\b", ""),
    (r"\btrunc( nuw| nsw)+", "trunc"),
    (r"\bgetelementptr inbounds (nuw|nusw)", "getelementptr inbounds"),
    (r'^(!\d+ = !\{)i32 8, (!"PIC Level")', r"\1i32 7, \2"),
    (r'!"branch_weights", !"expected"', '!"branch_weights"'),
    (r"(declare void @llvm\.lifetime\.\w+\.p0\()ptr", r"\1i64, ptr"),
    (r"(call void @llvm\.lifetime\.\w+\.p0\()ptr", r"\1i64 -1, ptr"),
]


def in_older_words(text):
    for newer, older in NEWER:
        text = re.sub(newer, older, text, flags=re.MULTILINE)
    return text


def assemblers():
    """The ways to call the assemblers that are installed, newest first: opaque pointers want a flag in
    some releases."""
    names = [f"llvm-as-{release}" for release in range(40, 13, -1)] + ["llvm-as"]
    tools = {os.path.realpath(tool): tool for tool in map(shutil.which, names) if tool is not None}
    return [[tool, *flags, "-o", os.devnull] for tool in tools.values() for flags in ([], ["-opaque-pointers"])]


def refusal(text, calls):
    """None where one of these calls takes the text, else the error of the last."""
    errors = []
    for call in calls:
        done = subprocess.run(call, input=text, text=True, capture_output=True)
        if done.returncode == 0:
            return None
        errors.append(done.stderr.strip())
    return errors[-1]


def clang_flags():
    """The flags with which the installed clang reads opaque pointers; None where there is none that does."""
    if shutil.which("clang") is None:
        return None
    with tempfile.TemporaryDirectory() as work:
        path = os.path.join(work, "pointer.ll")
        with open(path, "w") as file:
            file.write("define ptr @p(ptr %x) {\n  ret ptr %x\n}\n")
        for flags in [[], ["-mllvm", "-opaque-pointers"]]:
            done = subprocess.run(["clang", "-w", *flags, "-c", path, "-o", os.path.join(work, "pointer.o")], capture_output=True)
            if done.returncode == 0:
                return flags
    return None
