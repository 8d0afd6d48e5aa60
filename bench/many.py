#!/usr/bin/env python3
"""Times a join in parts beside the same join in one process, and prints time and memory of each step.

usage: bench/many.py [--at-once N] [--whole CLICKS] [CLICKS PARTS] ..      (default: 4 at once, 200000 4)

Each pair of numbers makes a log of CLICKS clicks and one of a quarter as many queries in a temporary folder, splits both into PARTS parts,
joins N of them at once, and merges the reports. The totals are checked: each tenth click has no query. With --whole logs of that many
clicks are joined in one process too, and both reports compared. Printed are seconds of wall time and of the processors, the largest
resident set of one process, and the bytes of all state directories.
"""
import concurrent.futures
import os
import subprocess
import sys
import tempfile
import time

from shared import TOP, build, bytes_in, join_words, last_line, make_logs, run, totals

BIN = os.path.join(TOP, "bin")


def tell(what, wall, processor, most, more=""):
    """Prints a line."""
    print(f"{what:<44} {wall:>8.1f} s {processor:>8.1f} processor s {most:>7.0f} MB{more}", flush=True)


def in_parts(folder, logs, clicks, parts, at_once):
    """Splits, joins and merges: the path of the report."""
    many, report = os.path.join(folder, "many"), os.path.join(folder, "merged")
    words = ["--queries", logs[0], "--clicks", logs[1], "--parts", str(parts), "--into", many]
    tell(f"{clicks} clicks, split into {parts} parts", *run([os.path.join(BIN, "photon-split"), *words])[:3])
    join = lambda part: run([os.path.join(BIN, "photon-part"), os.path.join(many, str(part))])
    began = time.perf_counter()
    with concurrent.futures.ThreadPoolExecutor(at_once) as pool:
        used = list(pool.map(join, range(parts)))
    wall = time.perf_counter() - began
    state = sum(bytes_in(os.path.join(many, str(part), "state")) for part in range(parts))
    walls, spent, most, _ = zip(*used)
    tell(f"joined, {at_once} at once", wall, sum(spent), max(most), f" a part, {max(walls):.1f} s at most, {state / 1e6:.0f} MB of state")
    tell("merged", *run([os.path.join(BIN, "photon-merge"), many], report)[:3])
    return report


def main():
    words, at_once, whole = sys.argv[1:], 4, 0
    while words[:1] in (["--at-once"], ["--whole"]):
        if words[0] == "--whole":
            whole = int(words[1])
        else:
            at_once = int(words[1])
        words = words[2:]
    build()
    numbers = [int(word) for word in words] or [200_000, 4]
    for clicks, parts in zip(numbers[::2], numbers[1::2]):
        with tempfile.TemporaryDirectory() as folder:
            logs = make_logs(folder, clicks, max(1, clicks // 4))
            merged = in_parts(folder, logs, clicks, parts, at_once)
            if last_line(merged) != totals(clicks):
                sys.exit(f"bench: the totals are {last_line(merged)}")
            if clicks == whole:
                state, report = os.path.join(folder, "state"), os.path.join(folder, "report")
                used = run(join_words(logs, state), report)
                tell("in one process", *used[:3], f", {bytes_in(state) / 1e6:.0f} MB of state")
                if subprocess.run(["cmp", merged, report], check=False).returncode:
                    sys.exit("bench: the reports differ")
    return 0


if __name__ == "__main__":
    sys.exit(main())
