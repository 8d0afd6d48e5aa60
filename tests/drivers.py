#!/usr/bin/env python3
"""The program that plays scripts (tests/scripts) and the one that is timed (bench/parts). They are no crates, so the gate doesn't prove
them: their sources end with .txt. Here they become crates of a copy of the repository, where `rt try` builds them unproved, or `rt run` proved.

usage: tests/drivers.py NAME < SCRIPT      plays a script by the player of this name, as log_scripts: some two minutes
"""
import contextlib
import os
import re
import shutil
import subprocess
import sys
import tempfile

TOP = os.path.dirname(os.path.dirname(os.path.abspath(__file__)))
SCRIPTS = os.path.join(TOP, "tests", "scripts")
PARTS = os.path.join(TOP, "bench", "parts")
HOMES = {**{name: os.path.join(SCRIPTS, name) for name in ("script_lines", "players")}, "bench_parts": PARTS}


def read(path):
    """A file's text."""
    with open(path, encoding="utf-8") as file:
        return file.read()


def put_driver(name, crate):
    """Copies the sources of a driver into its crate."""
    for part in ("src", "specs", "proofs"):
        for at, _, files in os.walk(os.path.join(HOMES[name], part)):
            to = os.path.join(crate, os.path.relpath(at, HOMES[name]))
            os.makedirs(to)
            for file in files:
                shutil.copy(os.path.join(at, file), os.path.join(to, file.removesuffix(".txt")))


def below(name, lines):
    """The crate of this name, and all of the repository below it."""
    named = {line.split()[0].rstrip(":"): line.partition(":")[2].split() for line in lines.splitlines() if ":" in line.split("#")[0]}
    found, left = set(), [name]
    while left:
        it = left.pop()
        if it in named and it not in found:
            found.add(it)
            left += named[it]
    return found


@contextlib.contextmanager
def crate(name, is_proved=False):
    """The folder of a driver's crate, beside those below it in a copy of the repository; with their libraries, where it is to be proved."""
    lines = read(os.path.join(TOP, "crates.txt")) + read(os.path.join(SCRIPTS, "lines.txt"))
    wanted = below(name, lines)
    with tempfile.TemporaryDirectory(prefix="photon_driver.") as folder:
        for it in wanted:
            to = os.path.join(folder, "crates", it)
            if it in HOMES:
                put_driver(it, to)
            else:
                shutil.copytree(os.path.join(TOP, "crates", it), to, ignore=shutil.ignore_patterns("must-fail", "refused", *["out"] * (not is_proved)))
        with open(os.path.join(folder, "crates.txt"), "w", encoding="utf-8") as file:
            file.writelines(f"{line}\n" for line in lines.splitlines() if line and line.split()[0].rstrip(":") in wanted)
        yield os.path.join(folder, "crates", name)


def is_newest(program, name):
    """Whether a driver that was built is newer than its sources, and the repository's."""
    asked = subprocess.run(["sh", "-c", 'top=$1; . "$top/bin/sources.sh"; is_newest "$2"', "sh", TOP, program], check=False)
    own = [os.path.join(at, file) for at, _, files in os.walk(HOMES[name]) for file in files if file.endswith(".txt")]
    return asked.returncode == 0 and all(os.path.getmtime(file) < os.path.getmtime(program) for file in own)


def has_toolchain():
    """Whether rt is here."""
    return shutil.which("rt") is not None


def tried(name, inputs):
    """Builds a driver once by `rt try`, unproved, and runs it on each of these inputs, by name its words and its text. Gives what it printed
    for those that ended well, and what rt said. A run may take an hour, since this build is slow; the interpreter of `rt try` runs none."""
    with crate(name) as at, tempfile.TemporaryDirectory() as cases:
        for case, (words, text) in inputs.items():
            for file, data in ((case, text), (f"{case}.args", "".join(f"{word}\n" for word in words))):
                with open(os.path.join(cases, file), "w", encoding="utf-8") as to:
                    to.write(data)
        asked = ["rt", "try", "--steps", "1", "--seconds", "3600", "--cases", cases]
        ended = subprocess.run(asked, cwd=at, stdin=subprocess.DEVNULL, capture_output=True, text=True, check=False)
    well = re.findall(r"^case=(\S+) run=ended status=0 ", ended.stderr, re.MULTILINE)
    _, *parts = re.split(rf"^== ({'|'.join(map(re.escape, inputs))})\n", ended.stdout, flags=re.MULTILINE)
    return {case: output for case, output in zip(parts[::2], parts[1::2]) if case in well}, ended.stderr


def main(words):
    """Plays standard input by the player of this name."""
    if len(words) != 1:
        print(__doc__, file=sys.stderr)
        return 2
    outputs, said = tried("players", {"rows": (words, sys.stdin.read())})
    print(outputs.get("rows", said), end="")
    return 0 if outputs else 1


if __name__ == "__main__":
    sys.exit(main(sys.argv[1:]))
