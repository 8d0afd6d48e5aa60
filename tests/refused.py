#!/usr/bin/env python3
"""Tries the wrong bodies of crates/NAME/refused, which the prover has to refuse, many in one check; twins.py tells how.

usage: tests/refused.py [--all] [--show] [--jobs N] [--beside LOG] [--libs CRATES] [NAME..]

Without --all it tries, of all crates or of those named, each edit that tests/TRIED doesn't have with the sum of what its verdict depends on:
the edit, the src/, specs/ and proofs/ of its crate and of those below it, the kit, this file and twins.py. Of the rest it tries those of a
fifth of the crates, which the hash of the last commit chooses. Where nothing fails, tests/TRIED gets the new sums; nobody else writes it.

The libraries below a crate are those of CRATES/NAME/out/rlib, where it is missing this repository's, as `rt ci` leaves them in a clean clone.
With --beside a crate is begun as soon as LOG, the output of an `rt ci` that still runs, has it and all below it as proved, or has its end.
N checks run at once, if missing as many as there are processors, and fewer where memory is short.

Into each crate that it tries it plants a change that means the same, which must not be refused. It prints a line for each edit that fails: NOT
REFUSED, where the prover takes the wrong body, so the contract has to say more; NOT TRIED, where nothing shows whether it does, as where the
edit doesn't compile, or where a proof file alone fails since it cites a name that is gone. The last line counts, and the exit status is 1
where anything failed.
"""
import argparse
import contextlib
import hashlib
import os
import re
import subprocess
import sys
import threading
import time

sys.dont_write_bytecode = True
import twins
from twins import PASSED, REFUSED, UNTRIED

HERE = os.path.dirname(os.path.abspath(__file__))
TOP = os.path.dirname(HERE)
TRIED = os.path.join(HERE, "TRIED")
SHARE = 5  # one crate in so many is tried although nothing changed
NEED = 3 << 20  # kilobytes that have to be free for a check
YOUNG = 40  # seconds after which a check has most of its memory
PLANT = "a change that means the same"
LANES = 4  # the most processors for one check
READY = re.compile(r"(?:\s*[\d.]+ )?rt: (\w+) (?:proved$|is kept:)")
ENDED = re.compile(r"(?:\s*[\d.]+ )?\d+ passed, \d+ failed")


def read_words():
    """The options."""
    parser = argparse.ArgumentParser(prog="tests/refused.py", description="Tries the wrong bodies that the prover has to refuse.")
    parser.add_argument("--all", action="store_true", help="tries each edit; else those that changed, and a fifth of the crates")
    parser.add_argument("--show", action="store_true", help="prints why each edit is refused, too")
    parser.add_argument("--jobs", type=int, default=os.cpu_count(), help="how many checks at once; if missing as many as there are processors")
    parser.add_argument("--beside", metavar="LOG", help="the output of an rt ci that runs at the same time")
    parser.add_argument("--libs", metavar="CRATES", default=os.path.join(TOP, "crates"), help="where the libraries were built")
    parser.add_argument("names", nargs="*", metavar="NAME", help="crates; if missing all")
    return parser.parse_args()


def printed(*words):
    """What a command prints, without space around it."""
    return subprocess.run(words, cwd=TOP, stdout=subprocess.PIPE, text=True, check=True).stdout.strip()


def needs_of():
    """Each crate of crates.txt, with the crates and libraries that its line names."""
    lines = (line.split("#")[0].partition(":") for line in twins.read(os.path.join(TOP, "crates.txt")).splitlines())
    return {key.split()[0]: rest.split() for key, colon, rest in lines if colon}


def edits_of(name):
    """The texts of a crate's edits, by CRATE/NAME."""
    folder = os.path.join(TOP, "crates", name, "refused")
    paths = sorted(os.listdir(folder)) if os.path.isdir(folder) else []
    return {f"{name}/{it[:-5]}": twins.read(os.path.join(folder, it)) for it in paths if it.endswith(".edit")}


# ---- what a verdict depends on

def sum_of(*parts):
    """A sum of texts and bytes in their order."""
    return hashlib.sha256(repr(parts).encode()).hexdigest()


class Sums:
    """The sum of what each edit's verdict depends on."""

    def __init__(self, needs):
        self.needs, self.crates = needs, {}
        self.tool = sum_of(printed("rt", "version"), *(twins.read(os.path.join(HERE, it)) for it in ("refused.py", "twins.py")))

    def crate(self, name):
        """The sum of a crate's files, and of those below it."""
        if name not in self.crates:
            at = os.path.join(TOP, "crates", name)
            files = [(os.path.relpath(it, at), sum_of(twins.read(it))) for part in twins.PARTS for it in twins.files_below(os.path.join(at, part))]
            self.crates[name] = sum_of(self.needs[name], files, [self.crate(it) for it in self.needs[name] if it in self.needs])
        return self.crates[name]

    def edit(self, label, text):
        return sum_of(self.tool, self.crate(label.partition("/")[0]), label, text)[:24]


def read_tried():
    """The sum that each edit had when it was last refused."""
    lines = twins.read(TRIED).splitlines() if os.path.exists(TRIED) else []
    return dict(line.split() for line in lines if line and not line.startswith("#"))


def write_tried(sums):
    head = "# Written by tests/refused.py alone: each wrong body with the sum of what its verdict depended on when it was last refused.\n"
    twins.write(TRIED, head + "".join(f"{label} {sum}\n" for label, sum in sorted(sums.items())))


def drawn_of(names):
    """The crates that the last commit's hash chooses."""
    commit = printed("git", "rev-parse", "HEAD")
    return set(sorted(names, key=lambda it: sum_of(commit, it))[:-(-len(names) // SHARE)])


# ---- the plant

def plant_of(crate, edits):
    """A harmless edit of a function with a contract, if possible of one without loops and proof files that a wrong body turns; None without one."""
    turned, found = {(it.file, it.function) for it in edits}, []
    for file, functions in crate.functions.items():
        lines = crate.sources[file]
        for function in functions:
            indent = re.match(r"\s*", lines[function.at])[0]
            body = next((i for i in range(function.at, function.last) if lines[i] == indent + "{"), None)
            if body is None or twins.is_of_trait(function):
                continue
            has_proof = bool(crate.proofs_of(crate.at, crate.path(file, function)))
            is_spare = (file, function) not in turned or any(re.match(r"\s*(for|while|loop)\b", it) for it in lines[body:function.last])
            name = f"{crate.name}: {PLANT}, in {'::'.join(crate.path(file, function))}"
            edit = twins.Edit(name, file, function, [*lines[:body], lines[body] + " let _planted = 0_u8;", *lines[body + 1:]])
            if "#[cfg(test)]" not in "".join(lines) and not crate.is_in_place(edit):
                found.append((has_proof, is_spare, function.last - function.first, file, function.at, edit))
    return min(found)[-1] if found else None


# ---- many crates at once

class Room:
    """Lets so many checks run at once, and no more than memory has room for."""

    def __init__(self, jobs):
        self.slots, self.lock, self.begun = threading.Semaphore(jobs), threading.Lock(), {}

    def is_free(self):
        """Whether memory has room for one more check, and for what those that began just now will yet take."""
        free = int(re.search(r"MemAvailable:\s*(\d+)", twins.read("/proc/meminfo"))[1])
        young = sum(time.monotonic() - it < YOUNG for it in self.begun.values())
        return not self.begun or free >= NEED * (1 + young)

    @contextlib.contextmanager
    def start(self):
        key = object()
        with self.slots:
            while True:
                with self.lock:
                    if self.is_free():
                        self.begun[key] = time.monotonic()
                        break
                time.sleep(1)
            try:
                yield
            finally:
                with self.lock:
                    del self.begun[key]


class Log:
    """What the output of an rt ci says so far; without one all is proved."""

    def __init__(self, path):
        self.path, self.proved, self.is_over = path, set(), path is None

    def look(self):
        if self.is_over or not os.path.exists(self.path):
            return
        with open(self.path, encoding="utf-8", errors="replace") as lines:
            for line in lines:
                if of := READY.match(line.rstrip()):
                    self.proved.add(of[1])
                self.is_over = self.is_over or bool(ENDED.match(line))

    def has(self, names):
        return self.is_over or self.proved.issuperset(names)


class Run:
    """The crates that are tried, and how their edits came out."""

    def __init__(self, words, needs, edits):
        self.words, self.needs, self.edits = words, needs, edits
        self.kit, self.room, self.log = os.path.dirname(printed("rt", "doc").splitlines()[0]), Room(words.jobs), Log(words.beside)
        self.lock, self.refused, self.failed = threading.Lock(), [], 0
        self.waiting, self.open = sorted(edits, key=self.weight, reverse=True), 0
        sys.path.append(f"{self.kit}/bin")

    def weight(self, name):
        """The larger a crate is, the earlier it is begun."""
        size = sum(os.path.getsize(it) for it in twins.files_below(os.path.join(TOP, "crates", name, "src")))
        return size * (2 + len(self.edits[name]))

    def next(self):
        """The first crate that waits and can be tried, None where none waits."""
        while True:
            with self.lock:
                self.log.look()
                for name in self.waiting:
                    if self.log.has([*twins.below(self.needs, name), name]):
                        self.waiting.remove(name)
                        self.open += 1
                        return name
                if not self.waiting:
                    return None
            time.sleep(3)

    def work(self):
        while name := self.next():
            try:
                self.try_crate(name)
            except Exception as fault:  # such a crate fails, and the others are tried all the same
                self.tell(name, {f"{name}: all edits": (UNTRIED, repr(fault))}, "")
            with self.lock:
                self.open -= 1

    def lanes(self):
        """How many processors a check may use: more than one where few crates are left."""
        with self.lock:
            return max(1, min(LANES, self.words.jobs // max(1, self.open + len(self.waiting))))

    def stop_on_stale(self, name):
        """Refuses a library that rt check left and that isn't of these sources. What rt ci leaves has no stamp; it works in a clean clone."""
        import rtlib
        for it in (it for it in self.needs[name] if it in self.needs):
            stamp = f"{self.words.libs}/{it}/out/rlib/stamp"
            if os.path.exists(stamp) and twins.read(stamp) != rtlib.Crate(f"{TOP}/crates/{it}", TOP, {}).stamp():
                raise twins.Bad(f"the library {it} isn't of these sources: run rt check in crates/{name}")

    def try_crate(self, name):
        """Tries a crate's edits, with a plant among them."""
        self.stop_on_stale(name)
        crate = twins.Crate(TOP, self.needs, name, self.words.libs, self.kit, self.room.start, self.lanes)
        edits, said = [], {}
        for label, text in self.edits[name].items():
            try:
                edits.append(crate.place(label, text))
            except twins.Bad as why:
                said[label] = UNTRIED, str(why)
        plant = plant_of(crate, edits)
        if plant is None:
            raise twins.Bad(f"no function takes {PLANT}")
        said.update(crate.verdicts([*edits, plant]))
        if said[plant.name][0] == PASSED:
            del said[plant.name]
        self.tell(name, said, f", {crate.seconds:.0f} seconds of processor in {crate.checks} checks")

    def tell(self, name, said, more):
        refused = [label for label in self.edits[name] if said.get(label, ("",))[0] == REFUSED]
        with self.lock:
            for label, (kind, why) in said.items():
                if label not in refused or self.words.show:
                    print(f"{label}: {'REFUSED' if kind == REFUSED and label not in refused else kind}: {why}", flush=True)
                self.failed += label not in refused
            self.refused += refused
            print(f"{name}: {len(refused)} of {len(self.edits[name])} refused{more}", flush=True)

    def all(self):
        threads = [threading.Thread(target=self.work) for _ in range(self.words.jobs)]
        for it in threads:
            it.start()
        for it in threads:
            it.join()


def main():
    words, needs = read_words(), needs_of()
    if unknown := [it for it in words.names if it not in needs]:
        sys.exit(f"refused: {unknown[0]} is no crate of crates.txt")
    words.libs = os.path.abspath(words.libs)
    found = {name: edits_of(name) for name in needs}
    sums, tried = Sums(needs), read_tried()
    now = {label: sums.edit(label, text) for edits in found.values() for label, text in edits.items()}
    names = [name for name in words.names or needs if found[name]]
    drawn = set(names) if words.all else drawn_of([name for name in needs if found[name]])
    changed = {label for label, sum in now.items() if tried.get(label) != sum}
    edits = {name: {label: text for label, text in found[name].items() if name in drawn or label in changed} for name in names}
    run = Run(words, needs, {name: those for name, those in edits.items() if those})
    run.all()
    if not run.failed:
        tried.update({label: now[label] for label in run.refused})
        write_tried({label: sum for label, sum in tried.items() if label in now})
    count, kept = sum(map(len, run.edits.values())), sum(label not in changed for those in run.edits.values() for label in those)
    print(f"refused: {len(run.refused)} passed, {run.failed} failed; tried {count} of {len(now)} wrong bodies, {kept} of them drawn")
    return 1 if run.failed else 0


if __name__ == "__main__":
    sys.exit(main())
