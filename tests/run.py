"""Runs the tests of the program that PHOTON names; see `bin/test --help`."""
import argparse
import collections
import concurrent.futures
import contextlib
import os
import random
import shutil
import signal
import subprocess
import sys
import tempfile
import traceback

sys.dont_write_bytecode = True
import groups
from case import Case, Failed, Skipped

HERE = os.path.dirname(os.path.abspath(__file__))
SEEDS = (1, 2)


class Pool(concurrent.futures.ThreadPoolExecutor):
    """Runs some cases at once; where the run is ended early, those that haven't begun aren't begun."""

    def __exit__(self, *fault):
        self.shutdown(wait=True, cancel_futures=True)


def read_words():
    """The options."""
    parser = argparse.ArgumentParser(prog="bin/test", description="Runs the program over everything that the pages say of it.")
    parser.add_argument("--seed", type=int, action="append", help=f"a seed of the random cases; if missing {' and '.join(map(str, SEEDS))}")
    parser.add_argument("--random", action="store_true", help="takes one seed by chance")
    parser.add_argument("--case", action="append", help="runs this case, or this group, alone")
    parser.add_argument("--but", action="append", default=[], help="leaves out this case, or this group")
    parser.add_argument("--more", type=int, default=0, metavar="N", help="so many more cases of disks that fail for each seed: thousands take hours")
    parser.add_argument("--jobs", type=int, default=2, help="how many cases at once; if missing 2")
    parser.add_argument("--list", action="store_true", help="prints the names of the cases")
    return parser.parse_args()


def wanted(words, seeds):
    """The cases to run: (group, name, seed, function). Those without random numbers are run with the first seed alone."""
    found = []
    for group in groups.GROUPS:
        for name, function, is_random in group.cases(words.more):
            for seed in seeds if is_random else seeds[:1]:
                names = {name, group.name}
                is_wanted = names & set(words.case) if words.case else not group.is_asked
                if is_wanted and not names & set(words.but):
                    found.append((group.name, name, seed, function))
    return found


def build_library(top):
    """Builds the library that fails files (failing.c), where there is a C compiler."""
    words = ["cc", "-O2", "-shared", "-fPIC", "-o", os.path.join(top, "failing.so"), os.path.join(HERE, "failing.c"), "-ldl", "-pthread"]
    if shutil.which("cc"):
        subprocess.run(words, check=True)


def keep(folder, case, text):
    """Keeps the folder of a failed case, with what it ran, and gives its place."""
    place = os.path.join(HERE, "out", f"{case.seed}.{case.name}")
    shutil.rmtree(place, ignore_errors=True)
    with contextlib.suppress(OSError):  # a pipe, for one, can't be copied
        shutil.copytree(folder, place, symlinks=True)
    with open(os.path.join(place, "steps.txt"), "w", encoding="utf-8") as file:
        file.write("\n".join([*case.steps, "", text, ""]))
    return place


def run_case(top, program, name, seed, function):
    """Runs one case: what became of it, the text of its failure, or why it was skipped, or what it tells, and how many rows it played."""
    folder = tempfile.mkdtemp(prefix=f"{name}.", dir=top)
    library = os.path.join(top, "failing.so")
    case, end, text = Case(name, seed, program, folder, library if os.path.exists(library) else None), "passed", ""
    try:
        function(case)
    except Failed as failed:
        end, text = "failed", str(failed)
    except Skipped as skipped:
        end, text = "skipped", str(skipped)
    except Exception:
        end, text = "failed", traceback.format_exc()
    else:
        text = case.told
    case.close()
    if end == "failed":
        place = keep(folder, case, text)
        text = f"FAILED {name}, seed {seed}; kept in {place}; again by: bin/test --seed {seed} --case {name}\n{text}"
    shutil.rmtree(folder, ignore_errors=True)
    return end, text, case.rows


def tell_group(name, ends):
    """Prints each failure of a group, what cases tell, why some were skipped, and how many passed, with their rows."""
    for text in [text for end, text, _ in ends if end != "skipped" and text]:
        print(text, flush=True)
    for why, count in collections.Counter(text for end, text, _ in ends if end == "skipped").items():
        print(f"SKIPPED {count} of {name}, NOT TESTED HERE: {why}", flush=True)
    rows = sum(rows for end, _, rows in ends if end == "passed")
    print(f"{name}: {sum(end == 'passed' for end, _, _ in ends)} of {len(ends)} passed{f', {rows} rows' if rows else ''}", flush=True)


def run_all(cases, program, jobs):
    """Runs the cases, prints a line for each group, and gives how many passed, failed and were skipped."""
    count = collections.Counter()
    with tempfile.TemporaryDirectory(prefix="photon_test.") as top, Pool(jobs) as pool:
        build_library(top)
        runs = [(group, pool.submit(run_case, top, program, name, seed, function)) for group, name, seed, function in cases]
        for group in dict.fromkeys(group for group, _ in runs):
            ends = [run.result() for one, run in runs if one == group]
            tell_group(group, ends)
            count.update(end for end, _, _ in ends)
    return count


def can_run(program):
    """Calls the program once without words, which it refuses; bin/photon builds it then, where need be."""
    try:
        ended = subprocess.run([program], stdin=subprocess.DEVNULL, capture_output=True, check=False)
    except OSError as fault:
        print(f"test: {program} can't be run: {fault.strerror}", file=sys.stderr)
        return False
    if ended.returncode != 2:
        print(f"test: {program} without words ends with {ended.returncode}: {ended.stderr.decode('utf-8', 'replace')}", file=sys.stderr)
    return ended.returncode == 2


def main():
    """Runs what the words ask for; 1 where something failed."""
    words = read_words()
    seeds = words.seed or ([random.SystemRandom().randrange(1 << 32)] if words.random else list(SEEDS))
    cases = wanted(words, seeds)
    if words.list:
        print("\n".join(dict.fromkeys(name for _, name, _, _ in cases)))
        return 0
    if not cases:
        sys.exit("test: there is no such case; --list prints them")
    signal.signal(signal.SIGTERM, lambda *_: sys.exit(143))
    program = os.path.abspath(os.environ["PHOTON"])
    if not can_run(program):
        return 127
    print(f"{program}, seeds {' '.join(map(str, seeds))}", flush=True)
    count = run_all(cases, program, words.jobs)
    print(f"{count['passed']} passed, {count['failed']} failed" + (f", {count['skipped']} SKIPPED" if count["skipped"] else ""))
    return 1 if count["failed"] else 0


if __name__ == "__main__":
    sys.exit(main())
