"""What bin/photon-watch shows, beside the model's reading of the same directory; docs/GUIDE.md and docs/FORMATS.md."""
import importlib.machinery
import importlib.util
import os
import pty
import re
import signal
import time

import journals
import kills
import model
import runs
import store as stores
from case import TOP
from directory import Directory

LINE = re.compile(r"([0-9.]+) %, left (\S+): A (\d+) and B (\d+) of (\d+) bytes, (\d+) pairs \((\d+)/s\), (\d+) and (\d+) parked, (\d+) batches \((\d+)/s\)")


def numbers_of(store, end):
    """What the model reads of a store: both offsets, the end of the click log, pairs, parked of both sites, decided batches."""
    offsets = [store.last(f"offset-{site}") for site in "AB"]
    parked = [len(stores.pending_of(store.records[f"retry-{site}"])) for site in "AB"]
    return [*offsets, end, len(list(store.outputs())), *parked, sum(len(store.decided(shard)) for shard in range(16))]


def numbers_in(case, line):
    """The same numbers of a line that was shown, of which the share has to be that of both offsets."""
    fits = LINE.fullmatch(line)
    case.check(fits, f"it shows {line!r}")
    a, b, end, pairs, _, *parked, batches, _ = (int(number) for number in fits.groups()[2:])
    share = min(100, 50 * (a + b) / end) if end else 100
    case.check(abs(float(fits[1]) - share) < 0.06, f"it shows {fits[1]} %, and it is {share}")
    case.check(fits[2] in ("?", "0:00:00") or a + b < 2 * end, f"there is time left: {line!r}")
    return [a, b, end, pairs, *parked, batches]


def compare(case, state="state"):
    """Looks at a directory once, and compares; no file changes."""
    before = stores.read_files(case.path(state))
    ended = case.run([state, "clicks", "--once"], tool="photon-watch")
    case.check((ended.status, ended.err) == (0, ""), f"status {ended.status}, {ended.err!r}")
    with open(case.path("clicks"), "rb") as file:
        end = file.read().rfind(b"\n") + 1
    case.check_same(str(numbers_in(case, ended.out.decode().rstrip("\n"))), str(numbers_of(stores.Store(before), end)), "the numbers")
    case.check(stores.read_files(case.path(state)) == before, "the watch has changed files")


def invented(case):
    """Directories that the model writes, with any records and bytes behind them."""
    inventor = journals.Inventor(case)
    case.write("clicks", inventor.log)
    stores.write_files(case.path("state"), inventor.files(inventor.records()))
    compare(case)


def growing(case):
    """Files that grow by any bytes, between them a record that isn't whole or whose gate is closed: the numbers are the model's each time,
    and only what is new is read."""
    inventor = journals.Inventor(case)
    files = {name: data[:stores.gate_rule(data)[2] + 1] for name, data in inventor.files(inventor.records()).items()}
    tables = [payload for _, payload in stores.gate_rule(files["topology"])[0]]  # the table grows in the midst
    watch = load()
    progress, watch.os = watch.Progress(case.path("state")), Reads()
    for step in range(1, 21):
        shown = {name: cut(data, len(data) * step // 20) for name, data in files.items()}
        shown["topology"] = stores.framed(tables[:1 if step < 10 else None])
        stores.write_files(case.path("state"), shown)
        progress.read()
        got = [*progress.offsets, 0, progress.pairs, *progress.parked, progress.counts()[2]]
        case.check_same(str(got), str(numbers_of(stores.Store(shown), 0)), f"the numbers at step {step}")
        gates = {name: stores.gate_rule(data)[2] for name, data in shown.items()}
        for name, place in watch.os.places.items():
            case.check(place == gates.get(name, 0), f"{name} was read last from {place}, and its last gate is at {gates.get(name)}")
    case.check(not watch.os.again, f"these were read again: {watch.os.again}")


def cut(data, size):
    """A front of a journal; the gate before a record that isn't whole is closed, as an append leaves it until the body is written."""
    _, damage, gate = stores.gate_rule(data[:size])
    return data[:size] if damage is None else data[:gate] + b"\0" + data[gate + 1:size]


class Reads:
    """The module os, with the place from which each file was read last, and those that were read from an earlier place than before."""

    def __init__(self):
        self.places, self.again = {}, []

    def __getattr__(self, name):
        return getattr(os, name)

    def pread(self, file, size, place):
        """As that of os."""
        name = os.path.basename(os.readlink(f"/proc/self/fd/{file}"))
        if place < self.places.get(name, 0):
            self.again.append(name)
        self.places[name] = place
        return os.pread(file, size, place)


def load():
    """The watch as a module."""
    loader = importlib.machinery.SourceFileLoader("photon_watch", os.path.join(TOP, "bin", "photon-watch"))
    module = importlib.util.module_from_spec(importlib.util.spec_from_loader("photon_watch", loader))
    loader.exec_module(module)
    return module


def live(case):
    """Beside a join: the numbers never fall, stand still while the join is held, and are the model's when it has ended, and the watch too."""
    maker = kills.longer_logs(case, 1500)
    directory = Directory(case)
    directory.give(maker.queries, maker.clicks)
    watch = case.start(["state", "clicks", "--wait", 60, "--every", 0.05], tool="photon-watch")
    join = case.start(directory.join_words())
    if kills.stop_within(directory, join):
        compare(case)
        time.sleep(0.3)
        case.check(watch.poll() is None, "the watch has ended before the join")
        join.send_signal(signal.SIGCONT)
    case.check(case.end(join).status == 0, "the join failed")
    ended = case.end(watch)
    case.check((ended.status, ended.err) == (0, ""), f"the watch ended with {ended.status}, {ended.err!r}")
    lines = [numbers_in(case, line) for line in ended.out.decode().splitlines()]
    for earlier, later in zip(lines, lines[1:]):
        falls = [at for at in (0, 1, 2, 3, 6) if later[at] < earlier[at]]
        case.check(not falls, f"{earlier} is followed by {later}")
    case.check_same(str(lines[-1]), str(numbers_of(directory.read(), model.log_end(directory.clicks))), "the last numbers")


def terminal(case):
    """On a terminal one line is written anew, and ends with the watch."""
    for name in ("queries", "clicks"):
        case.write(name, runs.read_example("shop", name))
    case.check(case.run(["join", "--queries", "queries", "--clicks", "clicks", "--state", "state"]).status == 0, "the join failed")
    ours, theirs = pty.openpty()
    ended = case.run(["state", "clicks", "--once"], tool="photon-watch", stdout=theirs, env={"COLUMNS": "200"})
    os.close(theirs)
    text = os.read(ours, 10_000).decode()
    os.close(ours)
    case.check(ended.status == 0, f"status {ended.status}")
    case.check(re.fullmatch(r"\r\x1b\[K\[#{40}\] 100.0 %, 0:00:00 left, 34 pairs 0/s, \d+ parked, \d+ batches 0/s\r\n", text), f"it shows {text!r}")


def refused(case):
    """No run, no directory, no click log, damage, other words."""
    for name in ("queries", "clicks"):
        case.write(name, runs.read_example("one_line", name))
    line = b"0.0 %, left ?: A 0 and B 0 of 36 bytes, 0 pairs (0/s), 0 and 0 parked, 0 batches (0/s)\n"
    case.expect(["state", "clicks"], 1, "photon-watch: no run has state", line, tool="photon-watch")
    case.expect(["state", "nowhere"], 4, "photon-watch: read: clicks", b"", tool="photon-watch")
    case.check(case.run(["state"], tool="photon-watch").status == 2, "words are taken")
    case.check(not os.path.exists(case.path("state")), "the directory was made")
    good = stores.framed([b"\x03" + bytes(7) + b"\x24"])
    rows = [(b"\xa5\0\1\0\0", 1), (stores.framed([b"\x04" + bytes(8)]), 1), (stores.framed([b"\x03"]), 1), (good[:-1] + stores.framed([b"\x02"]), 15)]
    for data, place in rows:
        stores.write_files(case.path("state"), {"offset-B": data})
        case.expect(["state", "clicks", "--once"], 7, f"photon-watch: damaged: offset-B at {place}", b"", tool="photon-watch")


CASES = [(function.__name__, function) for function in (terminal, refused)]
