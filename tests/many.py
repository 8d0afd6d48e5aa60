"""Logs that are split into parts, joined part by part and merged, beside the same logs joined whole; docs/SCALE.md.

Which part a line falls into is worked out here from that page, the report of the whole by the model.
"""
import glob
import os
import re
import shutil
import signal
import time

import kills
import logs
import model
import runs
import store as stores
from case import TOP

IN_FLIGHT = 64  # clicks in flight of one joiner at each of both sites
MANY = os.path.join(TOP, "examples", "many")


# ---- what the page says

def part_of(event, parts):
    """The part of a query's id."""
    address, process, timestamp = event
    hashed = 0
    for number in (*address.to_bytes(4, "big"), process, timestamp // 1_000_000, timestamp % 1_000_000):
        hashed = (48271 * hashed + number) % 67_108_859
    return hashed * hashed % 67_108_859 % parts


def front(log, kind, parts, part):
    """The lines of a log that fall into a part."""
    query = 1 if kind == "clicks" else 0  # where a record has the query's id
    lines = [line for line in model.read_log(log, kind)[0] if part_of(line.record[query], parts) == part]
    return b"".join(log[line.start:line.end] for line in lines)


class Many:
    """A directory of parts."""

    def __init__(self, case, parts):
        self.case, self.parts, self.folder = case, parts, f"many{parts}"
        self.words = ["--queries", "queries", "--clicks", "clicks", "--parts", parts, "--into", self.folder]

    def path(self, part, name):
        """The path of a part's file."""
        return self.case.path(f"{self.folder}/{part}/{name}")

    def split(self):
        """Splits the logs of the case's folder, and compares each part with the page; no part has a report afterwards."""
        self.case.expect(self.words, 0, "", b"", tool="photon-split")
        self.case.check(not glob.glob(self.case.path(f"{self.folder}/*/report")), "a report of an earlier round is left")
        for kind in ("queries", "clicks"):
            whole = read(self.case.path(kind))
            for part in range(self.parts):
                self.case.check_same(read(self.path(part, kind)), front(whole, kind, self.parts, part), f"the {kind} of part {part} of {self.parts}")

    def join(self, part, options=()):
        """Joins a part."""
        return self.case.run([f"{self.folder}/{part}", *options], tool="photon-part")

    def join_all(self, options=()):
        """Joins all parts, each of which ends well."""
        for part in range(self.parts):
            ended = self.join(part, options)
            self.case.check((ended.status, ended.err) == (0, ""), f"part {part} ended with {ended.status}, {ended.err!r}")

    def merge(self, expected):
        """Merges the reports, which gives these bytes."""
        self.case.expect([self.folder], 0, "", expected, tool="photon-merge")

    def refuses_merge(self, part, why, name="report"):
        """The merge ends with 3 for this part, and prints no totals."""
        ended = self.case.run([self.folder, name], tool="photon-merge")
        self.case.check(ended.status == 3 and ended.err.startswith(f"photon-merge: {part}/{name}: {why}"), f"status {ended.status}, {ended.err!r}")
        self.case.check(b"=" not in [line[:1] for line in ended.out.splitlines()], "a refused merge has printed totals")


def read(path):
    """The bytes of a file."""
    with open(path, "rb") as file:
        return file.read()


def write_logs(case, queries, clicks):
    """Writes both logs into the case's folder."""
    case.write("queries", queries)
    case.write("clicks", clicks)


# ---- the report of the parts is the report of the whole

def whole_and_parts(case):
    """Logs that grow, joined whole and in 2, 3 and 16 parts, with the same options: the reports are the same bytes each time."""
    maker = logs.Maker(case.random)
    for _ in range(3):
        maker.add_queries(case.random.randint(1, 8))
        maker.add_clicks(case.random.randint(5, 15), 0.3)
        maker.add_late_queries()
    joiners, rows = case.random.choice([1, 1, 3]), logs.random_table(case.random, maker.base)
    options = ["--joiners", joiners, "--shards", model.table_text(rows)]
    every, joined, bound = [Many(case, parts) for parts in (2, 3, 16)], set(), 0
    early = [runs.cut(case, log, 0) for log in (maker.queries, maker.clicks)]
    for both in (early, maker.logs()):
        write_logs(case, *both)
        horizon = maker.horizon()
        bound = max(bound, horizon)
        records = [model.records(model.read_log(log, kind)[0]) for log, kind in zip(both, ("queries", "clicks"))]
        expected = model.report_of_logs(*records, bound, joined)
        joined = {event for event, letter in model.letters_of(expected)[0].items() if letter == "J"}
        words = ["join", "--queries", "queries", "--clicks", "clicks", "--state", "whole", "--horizon", horizon, *options]
        case.expect(words, 0, "", expected)
        for many in every:
            many.split()
            many.join_all(["--horizon", horizon, *options])
            many.merge(expected)
    verify_parts(every[1], expected)


def verify_parts(many, expected):
    """What verifications of the parts tell is merged under its own name."""
    for part in range(many.parts):
        ended = many.case.run(["verify", "--clicks", many.path(part, "clicks"), "--state", many.path(part, "state")])
        many.case.write(f"{many.folder}/{part}/verified", ended.out)
    many.case.expect([many.folder, "verified"], 0, "", expected, tool="photon-merge")


def killed(case):
    """One part of three is killed in its work: nothing is merged. Run again alone, each click is told as in the whole, or is missing in that part
    alone; joined anew, all bytes are the whole's."""
    maker = kills.longer_logs(case, 400)
    write_logs(case, maker.queries, maker.clicks)
    expected = runs.one_report(maker.queries, maker.clicks)
    case.expect(["join", "--queries", "queries", "--clicks", "clicks", "--state", "whole"], 0, "", expected)
    many = Many(case, 3)
    many.split()
    for part in (0, 2):
        case.check(many.join(part).status == 0, f"part {part} failed")
    if not kill_part(many, 1, case.random.choice([300, 2000, 5000])):
        return  # it ended before it could be killed
    many.refuses_merge(1, "it is not there")
    case.check(many.join(1).status == 0, "the killed part, run again, failed")
    compare_killed(many, 1, expected)
    shutil.rmtree(many.path(1, "state"))
    case.check(many.join(1).status == 0, "the killed part, joined anew, failed")
    many.merge(expected)


def kill_part(many, part, size):
    """Kills a part and its join once the state directory has so many bytes; whether it was killed."""
    case, state = many.case, many.path(part, "state")
    child = case.start([f"{many.folder}/{part}"], tool="photon-part", start_new_session=True)
    until = time.monotonic() + 60
    while child.poll() is None and time.monotonic() < until and bytes_in(state) < size:
        time.sleep(0.0005)
    try:
        os.killpg(child.pid, signal.SIGKILL)
    except ProcessLookupError:
        pass
    child.communicate()
    return child.returncode == -signal.SIGKILL


def bytes_in(folder):
    """The bytes of all files of a folder."""
    try:
        return sum(entry.stat().st_size for entry in os.scandir(folder))
    except OSError:
        return 0


def compare_killed(many, part, expected):
    """After a kill: the lines of the whole, but for clicks of that part that are missing, as many as may be in flight."""
    case = many.case
    ended = case.run([many.folder], tool="photon-merge")
    case.check((ended.status, ended.err) == (0, ""), f"the merge ended with {ended.status}, {ended.err!r}")
    theirs = {model.id_text(event) for event in model.records(model.read_log(read(many.path(part, "clicks")), "clicks")[0])}
    got, wanted = ended.out.splitlines(), expected.splitlines()
    case.check(len(got) == len(wanted), f"{len(got)} lines, and {len(wanted)} of the whole")
    missing = 0
    for one, other in zip(got[:-1], wanted[:-1]):
        if one != other:
            event = other.split(b" ")[1]
            case.check(one == b"M " + event and other[:1] == b"J" and event in theirs, f"{one!r}, and in the whole {other!r}")
            missing += 1
    case.check(missing <= IN_FLIGHT, f"{missing} clicks are missing")
    joined, _, expired, unmatched = (int(number) for number in wanted[-1].split()[1:])
    case.check_same(got[-1].decode(), f"= {joined - missing} {missing} {expired} {unmatched}", "the totals after a kill")


def stopped(case):
    """A part that gets a signal to end ends its join first, and leaves no report."""
    maker = kills.longer_logs(case, 1500)
    write_logs(case, maker.queries, maker.clicks)
    many = Many(case, 1)
    many.split()
    child = case.start([f"{many.folder}/0"], tool="photon-part")
    while child.poll() is None and bytes_in(many.path(0, "state")) < 300:
        time.sleep(0.0005)
    child.terminate()
    ended = case.end(child)
    if ended.status == 0:
        return  # it ended before the signal came
    case.check(ended.status == 143, f"status {ended.status}")
    case.check_same(sorted(os.listdir(case.path(f"{many.folder}/0"))), ["clicks", "queries", "state"], "the files of the part")
    store = stores.Store(stores.read_files(many.path(0, "state")))
    case.check(store.last("offset-A") < len(maker.clicks), "the join went on to its end")
    ended = case.run(["verify", "--clicks", many.path(0, "clicks"), "--state", many.path(0, "state")])
    case.check(ended.status in (0, 1), f"the join still has the directory: {ended.status}, {ended.err!r}")


# ---- what is refused

def wrong(case):
    """Logs with spoilt lines: the split refuses them, or a join of some part does; right logs are split and joined."""
    maker = logs.Maker(case.random)
    maker.add_queries(case.random.randint(1, 10))
    maker.add_clicks(case.random.randint(1, 10))
    kept = list(maker.logs())
    if case.random.random() < 0.9:
        at = case.random.randrange(2)
        kept[at] = logs.wrong_log(case.random, kept[at], ("queries", "clicks")[at])
    write_logs(case, *kept)
    is_right = all(model.read_log(log, kind)[1] is None for log, kind in zip(kept, ("queries", "clicks")))
    many = Many(case, 3)
    ended = case.run(many.words, tool="photon-split")
    statuses = [many.join(part).status for part in range(3)] if ended.status == 0 else [ended.status]
    case.check(set(statuses) == {0} if is_right else set(statuses) in ({3}, {0, 3}), f"the statuses are {statuses}")
    if ended.status == 3:
        case.check(ended.err.startswith("photon-split: ") and not os.path.exists(case.path(f"{many.folder}/parts")), f"{ended.err!r}")


LINE = b"10.0.0.2:9:2000 10.0.0.1:7:1000 buy\n"
QUERY = b"10.0.0.1:7:1000 shoes\n"
REFUSED = [
    (b"", LINE + b"10.0.0.2:9:2000 10.0.0.1:7:1001 buy\n", "clicks: 10.0.0.2:9:2000 has two queries"),
    (QUERY + b"x\n", LINE, "queries:2: Space"), (QUERY, LINE + b"10.0.0.2:9:2001 10.0.0.1:7:1000\n", "clicks:2: Space"),
    (b"x y\n", b"", "queries:1: Id"), (QUERY, b"10.0.0.2:9 10.0.0.1:7:1000 buy\n", "clicks:1: Id"),
    (QUERY, LINE + b"10.0.0.2:9:2001 10.0.0.1:7: buy\n", "clicks:2: QueryId"), (QUERY, LINE + b" " + LINE, "clicks:2: Id"),
    (QUERY, LINE + b"10.0.0.2:9:2001  10.0.0.1:7:1000 buy\n", "clicks:2: QueryId"),
    (QUERY, LINE + LINE[:-1] + b"y" * 300 + b"\n", "clicks:2: TooLong"),
]


def refused_splits(case):
    """Logs that a split refuses, with the first line of the whole log at fault; words, files and directories that it refuses."""
    many = Many(case, 3)
    for queries, clicks, text in REFUSED:
        write_logs(case, queries, clicks)
        case.expect(many.words, 3, f"photon-split: {text}", b"", tool="photon-split")
        case.check(not glob.glob(case.path("many3/*/*")), "a refused split has left files")
    write_logs(case, QUERY + b"not yet", LINE + LINE + b"10.0.0.2:9:2000 10.0.0.9:7:1000 not y")
    many.split()
    case.expect([*many.words[:5], 4, *many.words[6:]], 2, "photon-split: many3 has 3 parts, and no other number", b"", tool="photon-split")
    for queries, clicks, text in ((b"10.0.0.1:7:1000 boots\n", LINE, "queries"), (QUERY, b"", "clicks"), (QUERY, LINE.replace(b"buy", b"try"), "clicks")):
        write_logs(case, queries, clicks)
        part = part_of((10 << 24 | 1, 7, 1000), 3)
        case.expect(many.words, 3, f"photon-split: {text}: the part many3/{part} was made of other lines", b"", tool="photon-split")
    case.check_same(read(many.path(part, "queries")) + read(many.path(part, "clicks")), QUERY + LINE + LINE, "the part after refused splits")
    case.expect([*many.words[:3], "nowhere", *many.words[4:]], 4, "photon-split: read: clicks", b"", tool="photon-split")
    for words in ([], many.words[:6], [*many.words[:5], 0, *many.words[6:]], [*many.words[:5], 257, *many.words[6:]], [*many.words, "--more", 1]):
        case.check(case.run(words, tool="photon-split").status == 2, f"the words {words} are taken")


def refused_merges(case):
    """Reports that are cut, mixed up, changed or there twice."""
    for name in ("queries", "clicks"):
        case.write(name, runs.read_example("shop", name))
    many = Many(case, 3)
    many.split()
    many.join_all()
    reports = [read(many.path(part, "report")) for part in range(3)]
    lines = reports[1].splitlines(keepends=True)
    spoilt = [(b"".join(lines[:-1]), "it is not there"), (b"".join(lines[:2] + lines[3:]), "its totals"), (reports[1] + lines[0], "there is more"),
              (b"".join([lines[1], lines[0], *lines[2:]]), "this line is not in order"), (b"".join([lines[0], *lines]), "this line is not in order"),
              (reports[1].replace(b"\nJ ", b"\nK ", 1), "this is no line"), (b"", "it is not there"), (reports[1][:-3], "its totals"),
              (b"".join(lines[:-1]) + b"= 1 2 3\n", "its totals")]
    for data, why in spoilt:
        case.write("many3/1/report", data)
        many.refuses_merge(1, why)
    case.write("many3/1/report", reports[0])
    ended = case.run([many.folder], tool="photon-merge")
    case.check(ended.status == 3 and "another part has this click too" in ended.err, f"status {ended.status}, {ended.err!r}")
    for words in ([], ["nowhere"], ["many3", "report", "more"]):
        case.check(case.run(words, tool="photon-merge").status == 2, f"the words {words} are taken")
    for words in ([], ["nowhere"], ["many3/0", "--horizon", "x"]):
        case.check(case.run(words, tool="photon-part").status == 2, f"the words {words} are taken")
    many.refuses_merge(0, "it is not there")
    case.write("many3/0/report", reports[0])
    case.write("many3/1/report", reports[1])
    many.merge(runs.one_report(runs.read_example("shop", "queries"), runs.read_example("shop", "clicks")))


# ---- engines

def engines(case):
    """Each task of the Slurm file and each pod of the Kubernetes file joins its part."""
    names = {name: runs.read_example("shop", name) for name in ("queries", "clicks")}
    write_logs(case, **names)
    many = Many(case, 16)
    many.split()
    path = {"PATH": os.path.join(TOP, "bin") + os.pathsep + os.environ["PATH"]}
    for part in range(0, 16, 2):
        ended = case.run(["many16", "--joiners", 2], tool="../examples/many/slurm.sh", env={**path, "SLURM_ARRAY_TASK_ID": str(part)})
        case.check(ended.status == 0, f"the task {part} ended with {ended.status}, {ended.err!r}")
    text = read(os.path.join(MANY, "kubernetes.yaml")).decode()
    case.check("completions: 16\n" in text, "the job has 16 pods")
    shell = re.search(r"command: \[/bin/sh, -c, '(.*)'\]", text)[1].replace("/many/", case.path("many16/"))
    for part in range(1, 16, 2):
        ended = case.run(["-c", shell], tool="/bin/sh", env={**path, "JOB_COMPLETION_INDEX": str(part)})
        case.check(ended.status == 0, f"the pod {part} ended with {ended.status}, {ended.err!r}")
    many.merge(runs.one_report(names["queries"], names["clicks"]))


CASES = [(function.__name__, function) for function in (whole_and_parts, stopped, refused_splits, refused_merges, engines)]
