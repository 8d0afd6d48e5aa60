#!/usr/bin/env python3
"""Times `photon join` beside other programs on the same clicks, in one run, and prints ratios.

usage: bench/join.py [--on DIR] [LINES ..]      (default: 1000 10000, in a temporary folder)

Each size makes a query log and a click log of that many lines. `photon` joins them over a new state directory with 1, 2 and 4 joiners a site,
then once more over what that left, and then over logs of twice as many lines. Beside it, each left out with a line where it isn't here:

    sqlite3  puts the same clicks into a table on disk, a transaction a click with the query looked up in it, as one site alone would do (WAL,
             synchronous=FULL)
    etcd     three members on the loopback take each pair if its click is absent, from as many clients as there are joiners in both sites; it is
             stopped after 20 seconds, with the pairs that it has by then
    awk      joins the logs in memory and keeps nothing: the join alone

The pairs are counted and compared. Beside each is the disk of the folder: how many syncs a second it gives to appends, a body, a sync, a byte
and a sync, to one file and to as many at once as there are joiners. Ratios alone count where other work runs on the machine.

Printed are seconds of wall time, clicks a second, their ratio to sqlite3's, megabytes of the largest resident set (no less than Python's own,
some 20), the bytes of the state and context switches a click. Where strace is here, a run of at most 1000 clicks counts threads and syncs, by
disk, and, where valgrind is here, one of at most 200 rounds and turns. Nothing is written outside the folder.
"""
import collections
import os
import re
import subprocess
import sys
import tempfile

import beside
from shared import TOP, build, bytes_in, has, join_words, last_line, make_logs, run

JOINERS = (1, 2, 4)


def photon(folder, logs, state, joiners):
    """What a join used, and the pairs that the report counts."""
    report = os.path.join(folder, "report")
    return run(join_words(logs, state, joiners), report), int(last_line(report).split()[1])


def syncs(words):
    """The threads that a run starts, and its syncs by kind of disk."""
    done = subprocess.run(["strace", "-f", "-y", "-qq", "-e", "trace=fsync,fdatasync,clone,clone3", *words], capture_output=True, text=True, check=True)
    found = re.findall(r"^.*\b(?:f(?:data)?sync\(\d+<(?:[^>]*/)?([^>/]*)>|(clone)3?\()", done.stderr, re.M)
    return sum(bool(clone) for _, clone in found), collections.Counter(disk.split("-")[0] for disk, clone in found if not clone)


def calls(words, folder):
    """How often a run called some functions: rounds (the bus is asked whether all is quiet once a round) and turns."""
    found, names, called = os.path.join(folder, "calls"), {}, {}
    # bin/photon is a script, which valgrind would measure in place of the program.
    here = ["sh", "-c", 'top=$1; . "$top/bin/sources.sh"; program_here', "sh", TOP]
    program = subprocess.run(here, capture_output=True, text=True, check=False).stdout.strip() or words[0]
    subprocess.run(["valgrind", "--tool=callgrind", f"--callgrind-out-file={found}", program, *words[1:]], capture_output=True, check=True)
    callee = None
    with open(found, encoding="utf-8", errors="replace") as file:
        for line in file:
            name = re.match(r"(c?)fn=\((\d+)\)(?: (.*))?", line)
            if name:
                names.setdefault(name[2], (name[3] or "").split("::<")[0])
                callee = name[2] if name[1] else callee
            elif line.startswith("calls="):
                called[callee] = called.get(callee, 0) + int(line[6:].split()[0])
    of = lambda wanted: sum(count for key, count in called.items() if names.get(key) == wanted)
    return of("bus_seat::bus::Bus::quiet"), of("bus_seat::bus::Bus::end")


def times(folder, lines, tools):
    """Prints the times of one size."""
    logs, more = make_logs(folder, lines), make_logs(folder, 2 * lines)
    wanted = lines - lines // 10
    pace = beside.sqlite(folder, logs, lines) if tools["sqlite3"] else (0, 0)

    def tell(what, clicks_a_second, pairs, rest=""):
        ratio = f"{clicks_a_second / pace[0]:>8.2f}" if pace[0] else " " * 8
        print(f"{lines:>7}  {what:<28} {clicks_a_second:>9.0f} {ratio} {rest}{'' if pairs == wanted else f'  {pairs} PAIRS'}", flush=True)

    print(f"{'lines':>7}  {'program':<28} {'clicks/s':>9} {'ratio':>8} {'seconds':>8} {'MB':>6} {'state MB':>9} {'switches a click':>17}")
    if tools["sqlite3"]:
        tell("sqlite3, one site", *pace)
    if tools["awk"]:
        tell("awk, in memory", *beside.awk(folder, logs, lines))
    for joiners in JOINERS:
        if tools["etcd"]:
            tell(f"etcd, {2 * joiners} clients", *beside.etcd(logs, 2 * joiners))
        print(f"{'':>7}  the disk: {beside.disk(folder, 1):.0f} syncs a second to one file, {beside.disk(folder, 2 * joiners):.0f} to {2 * joiners}")
        state = os.path.join(folder, f"state{joiners}")
        for name, over, count in (("new", logs, lines), ("again", logs, lines), ("grown", more, 2 * lines)):
            used, pairs = photon(folder, over, state, joiners)
            rest = f"{used.wall:>8.2f} {used.megabytes:>6.0f} {bytes_in(state) / 1e6:>9.2f} {used.switches / count:>17.1f}"
            tell(f"photon, {joiners} joiners, {name}", count / used.wall, pairs - (count - lines) // 10 * 9, rest)


def counts(folder, sizes, tools):
    """Prints what is counted, in runs of their own."""
    for tool, most in (("strace", 1000), ("valgrind", 200)):
        few = min(most, *sizes)
        logs = make_logs(folder, few)
        for joiners in JOINERS if tools[tool] else ():
            words = join_words(logs, os.path.join(folder, f"{tool}{joiners}"), joiners)
            if tool == "strace":
                threads, found = syncs(words)
                by_disk = ", ".join(f"{disk} {count / few:.2f}" for disk, count in found.most_common(4))
                print(f"{few:>7}  photon, {joiners} joiners: {threads} threads, {found.total() / few:.2f} syncs a click ({by_disk})")
            else:
                rounds, turns = calls(words, folder)
                print(f"{few:>7}  photon, {joiners} joiners: {rounds} rounds, {turns / few:.2f} turns a click")


def main():
    words, on = sys.argv[1:], None
    if words[:1] == ["--on"]:
        on, words = words[1], words[2:]
    sizes = [int(word) for word in words] or [1000, 10000]
    tools = {tool: has(tool) for tool in ("sqlite3", "etcd", "awk", "strace", "valgrind")}
    build()
    for lines in sizes:
        with tempfile.TemporaryDirectory(dir=on) as folder:
            times(folder, lines, tools)
    with tempfile.TemporaryDirectory(dir=on) as folder:
        counts(folder, sizes, tools)
    return 0


if __name__ == "__main__":
    sys.exit(main())
