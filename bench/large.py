#!/usr/bin/env python3
"""Times `photon join` over query logs that are much longer than the click log, and prints what a query line costs.

usage: bench/large.py [--joiners N] [--beside PROGRAM] [QUERIES CLICKS] ..      (default: 1 joiner, 100000 200 1000000 200 1000000 20000)

Each pair of numbers makes a query log of QUERIES lines, in order of time, and a click log of CLICKS lines whose queries are spread
evenly over it, the last one at its end, in a temporary folder. `photon` joins them over a new state directory, and with PROGRAM, another
build, the same is done beside it. Printed are seconds of wall time and of the processors, the largest resident set, and for each
pair after the first the bytes of memory and the microseconds of processor time that each further query line took, where only the
number of queries differs. A query line is read once by the check and once by each joiner of the two sites: with 1 joiner the most
memory is the check's, with 4 joiners the run's, of which each of the eight joiners has an eighth.
"""
import os
import sys
import tempfile

from shared import PHOTON, build, join_words, last_line, run


def make_logs(folder, queries, clicks):
    """Queries by 4 processes; the clicks, by 2, come in the order of their queries."""
    query_log, click_log = os.path.join(folder, "queries"), os.path.join(folder, "clicks")
    id_of = lambda k: f"10.0.0.{k % 4}:7:{1_000_000 + 10 * k}"
    with open(query_log, "w", encoding="ascii") as file:
        for k in range(queries):
            file.write(f"{id_of(k)} words {k}\n")
    with open(click_log, "w", encoding="ascii") as file:
        for k in range(clicks):
            file.write(f"10.1.0.{k % 2}:9:{2_000_000_000 + 10 * k} {id_of((k + 1) * queries // clicks - 1)} click {k}\n")
    return query_log, click_log


def join(program, folder, logs, clicks, joiners):
    """What a join used. Every click has to be joined."""
    report = os.path.join(folder, "report")
    used = run(join_words(logs, tempfile.mkdtemp(dir=folder), joiners, program), report)
    if last_line(report) != f"= {clicks} 0 0 0":
        sys.exit(f"bench: the totals of {program} are {last_line(report)}")
    return used


def main():
    words, programs, joiners = sys.argv[1:], [PHOTON], "1"
    while words[:1] in (["--beside"], ["--joiners"]):
        if words[0] == "--beside":
            programs.append(words[1])
        else:
            joiners = words[1]
        words = words[2:]
    numbers = [int(word) for word in words] or [100_000, 200, 1_000_000, 200, 1_000_000, 20_000]
    build()
    print(f"{'queries':>8} {'clicks':>7}  {'program':<8} {'seconds':>8} {'processor':>9} {'MB':>6}  a further query line")
    earlier = {}
    for queries, clicks in zip(numbers[::2], numbers[1::2]):
        with tempfile.TemporaryDirectory() as folder:
            logs = make_logs(folder, queries, clicks)
            for program in programs:
                used = join(program, folder, logs, clicks, joiners)
                name = "photon" if program == PHOTON else "beside"
                line = f"{queries:>8} {clicks:>7}  {name:<8} {used.wall:>8.2f} {used.processor:>9.2f} {used.megabytes:>6.0f}"
                before = earlier.get((program, clicks))
                if before and before[0] != queries:
                    further = queries - before[0]
                    line += f"  {(used.megabytes - before[1].megabytes) / further * 1e6:.1f} bytes, {(used.processor - before[1].processor) / further * 1e6:.2f} us"
                earlier[program, clicks] = queries, used
                print(line, flush=True)
    return 0


if __name__ == "__main__":
    sys.exit(main())
