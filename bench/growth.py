#!/usr/bin/env python3
"""Times `photon` at several sizes in one run, and prints the cost of a click beside that at the first size.

usage: bench/growth.py bulk [CLICKS ..]                      (default: 1000 10000 100000)
       bench/growth.py join [--joiners N] [CLICKS ..]        (default: 1 joiner, 1000 10000 100000 1000000: some minutes, and a gigabyte of disk)

`bulk` makes its logs in memory and touches no disk, so this is the work of the nodes, the bus and the journals alone, under the losses of
its plan. A join is over logs and a new state directory in a temporary folder, and waits for its disk. The totals are compared with what the
logs have to give. Printed are seconds of wall time, clicks a second, processor microseconds and context switches a click, the microseconds'
ratio to the first size's, the largest resident set, and of a join the bytes of its state.
"""
import os
import sys
import tempfile

from shared import PHOTON, build, bytes_in, join_words, last_line, make_logs, run, totals


def bulk_totals(clicks):
    """Of ten clicks of `bulk` the fifth is expired and the last has no query."""
    expired, unmatched = (clicks + 5) // 10, clicks // 10
    return f"= {clicks - expired - unmatched} 0 {expired} {unmatched}"


def main():
    kind, words, joiners = sys.argv[1] if len(sys.argv) > 1 else "", sys.argv[2:], 1
    if kind not in ("bulk", "join"):
        sys.exit(__doc__.strip())
    if words[:1] == ["--joiners"]:
        joiners, words = words[1], words[2:]
    sizes = [int(word) for word in words] or [1000, 10_000, 100_000] + [1_000_000] * (kind == "join")
    build()
    first = None
    print(f"{'clicks':>8} {'seconds':>8} {'clicks/s':>9} {'us/click':>9} {'switches':>9} {'beside':>7} {'MB':>6} {'state MB':>9}")
    for clicks in sizes:
        with tempfile.TemporaryDirectory() as folder:
            report, state = os.path.join(folder, "report"), os.path.join(folder, "state")
            is_bulk = kind == "bulk"
            program = [PHOTON, "bulk", "--seed", "1", "--clicks", str(clicks)] if is_bulk else join_words(make_logs(folder, clicks), state, joiners)
            used = run(program, report)
            if last_line(report) != (bulk_totals(clicks) if is_bulk else totals(clicks)):
                sys.exit(f"bench: the totals are {last_line(report)}")
            cost = used.processor / clicks
            first = first or cost
            print(f"{clicks:>8} {used.wall:>8.2f} {clicks / used.wall:>9.0f} {cost * 1e6:>9.1f} {used.switches / clicks:>9.1f} {cost / first:>7.2f} "
                  f"{used.megabytes:>6.0f} {bytes_in(state) / 1e6 if not is_bulk else 0:>9.2f}", flush=True)
    return 0


if __name__ == "__main__":
    sys.exit(main())
