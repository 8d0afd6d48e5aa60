#!/usr/bin/env python3
"""Tells how large the repository is for the gate, and where the gate's time goes.

usage: bench/gate.py                   the crates, the longest chain of them, the paths from the topmost, the lines, the wrong bodies
       bench/gate.py --check N C P     the same; exits with 1 where there are more than N crates, a chain of more than C or more than P paths
       bench/gate.py --stamp           a filter: each line of standard input, behind the seconds since the start
       bench/gate.py --clock FILE      a table by crate of a gate's output, as .ci/run 2>&1 | bench/gate.py --stamp > FILE leaves it
       bench/gate.py --part FILE NAME COMMAND..   runs a part of the gate, and adds a line to the file: its minutes of processor and of wall time
       bench/gate.py --parts FILE SECONDS         prints these lines as a table, with the sum, and the wall time of all

A path goes from a crate to itself or to a library, over libraries, since rt reads the sources below a crate anew on each path.

Of a proof and of a crate's tests the gate prints only the end, and of its wrong bodies only the begin. The table has these, and how long
each took at most: from where the last library below was proved to its end, and of wrong bodies from their begin to where all is proved.
An = says that no more tasks were open then than --lanes N (default: the processors here), so that it began at once, unless memory or
a proof on several lanes held it up; else it may have waited for a lane. The order is that of proof and tests together.
"""
import os
import re
import signal
import subprocess
import sys
import time
from pathlib import Path

TOP = os.path.dirname(os.path.dirname(os.path.abspath(__file__)))
# What the gate prints where a task ends, or where the wrong bodies begin.
MARKS = {
    "proof": re.compile(r"rt: (\w+) (?:NOT PROVED|proved)"),
    "tests": re.compile(r"rt: (\w+): its tests are (?:NOT PROVED|proved)"),
    "wrong bodies": re.compile(r"rt: (\w+): trying its must-fail edits"),
}
# The first line behind the last task.
AFTER = re.compile(r"rt: must-fail |rt: \w+: its tests (?:passed|FAILED)|rt: \w+ ran\b|rt: ok;|rt: FAILED|\d+ passed, ")


def libraries(root):
    """Each crate of crates.txt with the crates below it that its line names."""
    named = {}
    with open(os.path.join(root, "crates.txt"), encoding="utf-8") as file:
        for line in file:
            name, colon, rest = line.split("#")[0].partition(":")
            if colon:
                named[name.split()[0]] = rest.split()
    return {name: [it for it in rest if it in named] for name, rest in named.items()}


def measured(below):
    """The longest chain from each crate down, and its number of paths."""
    chain, paths = {}, {}

    def measure(name):
        if name not in chain:
            for it in below[name]:
                measure(it)
            chain[name] = 1 + max([chain[it] for it in below[name]], default=0)
            paths[name] = 1 + sum(paths[it] for it in below[name])

    for name in below:
        measure(name)
    return chain, paths


def files(root, ending):
    """The files of the crates whose names end so, but for what was built."""
    for at, folders, names in os.walk(os.path.join(root, "crates")):
        folders[:] = [it for it in folders if it != "out"]
        yield from (os.path.join(at, name) for name in names if name.endswith(ending))


def lines_of(root, ending):
    return sum(Path(path).read_bytes().count(b"\n") for path in files(root, ending))


def sizes(root, limits):
    """Prints the sizes. Whether none is over its limit."""
    chain, paths = measured(libraries(root))
    longest, topmost = max(chain, key=chain.get), max(paths, key=paths.get)
    told = [(len(chain), "crates"), (chain[longest], f"crates in the longest chain, down from {longest}"), (paths[topmost], f"paths from {topmost}")]
    lines = [(lines_of(root, ending), f"lines of {ending}") for ending in (".rt", ".antt")]
    for number, what in told + lines + [(sum(1 for _ in files(root, ".edit")), "wrong bodies")]:
        print(f"{number:7} {what}")
    over = [(number, what, limit) for (number, what), limit in zip(told, limits) if number > limit]
    for number, what, limit in over:
        print(f"gate: {number} {what}: more than {limit}")
    return not over


def stamp():
    begin = time.monotonic()
    for line in sys.stdin.buffer:
        sys.stdout.buffer.write(b"%9.2f %s" % (time.monotonic() - begin, line))
        sys.stdout.buffer.flush()


def moments(file):
    """When each task ended, or its wrong bodies began, and when nothing was left to prove."""
    at, last = {}, 0.0
    with open(file, encoding="utf-8", errors="replace") as lines:
        for line in lines:
            seconds, _, text = line.strip().partition(" ")
            if not re.fullmatch(r"\d+\.\d+", seconds):
                continue
            if AFTER.match(text):
                return at, float(seconds)
            for kind, mark in MARKS.items():
                if found := mark.match(text):
                    at[found[1], kind] = float(seconds)
            last = float(seconds)
    return at, last


def spans(at, last, below):
    """The time within which each task was on a lane: the last moment at which it can't have begun, and its end."""
    found = {}
    for (name, kind), moment in at.items():
        ready = max([at.get((it, "proof"), 0.0) for it in below.get(name, [])], default=0.0)
        found[name, kind] = (moment, last) if kind == "wrong bodies" else (min(ready, moment), moment)
    return found


def clock(root, file, lanes):
    at, last = moments(file)
    found = spans(at, last, libraries(root))
    open_at = lambda moment: sum(begin <= moment < end for begin, end in found.values())
    length = lambda task: found[task][1] - found[task][0] if task in found else 0.0
    names = sorted({name for name, _ in found}, key=lambda name: -length((name, "proof")) - length((name, "tests")))
    print(f"{'':20}   proof  at most      tests  at most     bodies  at most")
    for name in names:
        row = f"{name:20}"
        for kind in MARKS:
            span = found.get((name, kind))
            sign = "=" if span and kind != "wrong bodies" and open_at(span[0]) <= lanes else " "
            row += f"{at[name, kind]:8.0f} {length((name, kind)):8.0f}{sign}  " if span else " " * 20
        print(row.rstrip())
    print(f"nothing was left to prove at {last:.0f} seconds")


def run_part(file, name, command):
    """Runs a part of the gate, and adds what it used to the file: the name behind both numbers. Gives its status."""
    begin = time.monotonic()
    child = subprocess.Popen(command)
    signal.signal(signal.SIGTERM, lambda *_: child.terminate())
    _, status, used = os.wait4(child.pid, 0)
    with open(file, "a", encoding="utf-8") as figures:
        figures.write(f"{(used.ru_utime + used.ru_stime) / 60:.2f} {(time.monotonic() - begin) / 60:.2f} {name}\n")
    code = os.waitstatus_to_exitcode(status)
    return code if code >= 0 else 128 - code


def tell_parts(file, seconds):
    """The table of the parts. Some run beside others, so the wall time of all isn't the sum of theirs."""
    rows = [line.split(" ", 2) for line in Path(file).read_text(encoding="utf-8").splitlines()]
    print(f"{'minutes of':34} processor     wall")
    for processor, wall, name in rows:
        print(f"{name:34} {float(processor):9.1f} {float(wall):8.1f}")
    print(f"{'all':34} {sum(float(row[0]) for row in rows):9.1f} {seconds / 60:8.1f}")


def main(words):
    if words[:1] == ["--part"] and len(words) > 3:
        return run_part(words[1], words[2], words[3:])
    shape = [it if it.startswith("--") else "N" if it.isdigit() else "FILE" for it in words]
    if shape in ([], ["--check", "N", "N", "N"]):
        return 0 if sizes(TOP, [int(it) for it in words[1:]]) else 1
    if shape == ["--parts", "FILE", "N"]:
        return tell_parts(words[1], int(words[2]))
    if shape == ["--stamp"]:
        return stamp()
    if shape in (["--clock", "FILE"], ["--clock", "FILE", "--lanes", "N"]):
        return clock(TOP, words[1], int(words[-1]) if len(words) == 4 else os.cpu_count())
    print(__doc__, file=sys.stderr)
    return 2


if __name__ == "__main__":
    sys.exit(main(sys.argv[1:]))
