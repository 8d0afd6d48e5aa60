"""`reshard`: what it refuses and in which order, what it leaves, also where it is stopped, and histories in which tables grow between runs."""
import os
import re
import shutil

import disks
import fields
import journals
import logs
import model
import odd
import runs
import store as stores
from adapters import without
from directory import Directory
from power import Machine
from texts import EXPIRED, JOIN, REPORT, VERIFY, one_line

ADD = ["reshard", "--state", "state", "--add"]
ROW = ("topology", 1, ((0, 4),))
PLACE, BALLOT = (3, 0), (1, 1, 0)


def records_of(case, joiners=1):
    """The records of the case's directory, with its damage."""
    store = stores.Store(stores.read_files(case.path("state")), joiners)
    return store.records, store.damage


def expect(case, row, status, text, out=b""):
    """A `reshard` of the case's directory, after which a refused row has changed no record, and another one has added its own."""
    before = records_of(case)
    case.expect([*ADD, row], status, text, out)
    after = records_of(case)
    if status == 0:
        rows = model.read_table(out.rstrip(b"\n"))[0]
        before[0]["topology"].append(("topology", before[0]["topology"][-1][1], rows, 2))
    case.check_same(after, before, "the records after a reshard")


# ---- words

BAD_ROWS = ["", "0", "5:", ":4", "5:0", "5:17", "5:256", "05:4", "5:04", "+5:4", " 5:4", "5:4 ", "5:4,", ",5:4", "0:4,5:8", "5:8,9:1", "5;8", f"{1 << 64}:1",
            f"{10 ** 30}:1", "5:-1", "5:4:4", "5:99999999999999999999", "x:4", "5:x", "5", ":", "0x5:4", "5.0:4", "\u0665:4"]


def bad_rows(case):
    """Words that are no row: 2, before the directory is made or opened. A row as such is read, as one that begins at 0."""
    case.write("file", b"")
    for text in BAD_ROWS:
        case.check(model.read_row(text.encode()) is None, f"{text!r} is a row")
        for state in ("state", "file"):
            case.expect(["reshard", "--state", state, "--add", text], 2, "photon: table: row 0")
    case.check(not os.path.exists(case.path("state")), "the state directory was touched")
    os.mkdir(case.path("state"))
    for text in ("0:1", "7:16", f"{logs.LATEST}:1"):
        case.expect(["reshard", "--add", text, "--state", "state"], 11, "photon: reshard: no topology")


# ---- the worked click

def one_click(case):
    """The worked click: its id may not change its shard, its table may grow behind it, and the runs afterwards go by the table that is kept last."""
    one_line(case)
    os.mkdir(case.path("state"))
    expect(case, "2001:8", 11, "photon: reshard: no topology")
    case.expect(JOIN, 0, "", REPORT)
    for row, why in (("0:8", "start 0 0"), ("1:16", "id 10.0.0.2:9:2000"), ("2000:8", "id 10.0.0.2:9:2000")):
        expect(case, row, 11, f"photon: reshard: {why}")
    expect(case, "2001:8", 0, "", b"0:4,2001:8\n")
    topology = "a50000000d01020101000000000000000004" + "a50000001601020102000000000000000004" + "00000000000007d108" + "00"
    case.check_same(stores.read_files(case.path("state"))["topology"].hex(), topology, "the topology's journal")
    case.expect(VERIFY, 0, "", REPORT)
    case.expect(JOIN, 9, "photon: topology: table 0:4,2001:8 0:4")
    case.expect([*JOIN, "--joiners", "2"], 9, "photon: topology: joiners 1 2")
    case.expect([*JOIN, "--shards", "0:4,2001:8"], 0, "", REPORT)
    for row, why in (("2001:8", "start 2001 2001"), ("2001:1", "start 2001 2001"), ("2000:8", "start 2001 2000")):
        expect(case, row, 11, f"photon: reshard: {why}")
    expect(case, "2002:1", 0, "", b"0:4,2001:8,2002:1\n")
    expect(case, f"{logs.LATEST}:16", 0, "", f"0:4,2001:8,2002:1,{logs.LATEST}:16\n".encode())
    for row in ("2003:1", "0:1"):
        expect(case, row, 11, "photon: reshard: rows 4")
    case.expect([*JOIN, "--shards", f"0:4,2001:8,2002:1,{logs.LATEST}:16", "--batch", "1"], 0, "", REPORT)
    case.expect(VERIFY, 0, "", REPORT)


def one_bound(case):
    """A bound forbids the starts below it, and not its own."""
    one_line(case)
    case.expect([*JOIN, "--horizon", "2001"], 0, "", EXPIRED)
    for row in ("1:8", "2000:8"):
        expect(case, row, 11, "photon: reshard: bound 2001")
    expect(case, "2001:8", 0, "", b"0:4,2001:8\n")
    case.expect(VERIFY, 0, "", EXPIRED)
    case.expect([*JOIN, "--shards", "0:4,2001:8"], 0, "", EXPIRED)


def new_shards(case):
    """Clicks on both sides of a row go to its shards and to those before it; those that were joined before stay where they are."""
    one_line(case)
    case.expect(JOIN, 0, "", REPORT)
    expect(case, "3000:16", 0, "", b"0:4,3000:16\n")
    wanted, lines = ((10 << 24 | 1, 7, 1000), b"shoes"), []
    for micros in (1999, 2000, 2999, *range(3000, 3016)):
        lines.append(((10 << 24 | 2, 9, micros), wanted[0], b"buy"))
    case.write("clicks", b"".join(model.click_line(line) for line in sorted(lines, key=lambda line: line[0][2] != 2000)))
    report = model.report([(line[0], "J", model.pair_line(line, wanted)) for line in lines])
    case.expect([*JOIN, "--shards", "0:4,3000:16"], 0, "", report)
    store = stores.Store(stores.read_files(case.path("state")))
    shards = {event[2]: place[0] for place, votes in store.votes.items() for _, batch in votes for event, _ in batch[1]}
    case.check_same(shards, {line[0][2]: sum(line[0]) % (4 if line[0][2] < 3000 else 16) for line in lines}, "the shard of each click")


def old_store(case):
    """A store whose topology was written in version 1: it is run, gets a row in version 2, and is run again."""
    maker = logs.Maker(case.random, odd=False)
    directory = Directory(case, 2, ((0, 3), (5, 4)))
    records = {"topology": [("topology", 2, directory.rows, 1)]}
    stores.write_files(case.path("state"), stores.files_of(records))
    for size in (12, 8, 0):
        maker.add_queries(4)
        maker.add_clicks(size)
        maker.add_late_queries()
        directory.give(maker.queries, maker.clicks)
        directory.join()
        directory.verify()
        case.check(directory.reshard((maker.times + 1 + size, 16)) == (len(directory.rows) <= 4 and size > 0), "a row behind all clicks is refused")
        directory.verify()
    case.check_same([record[3] for record in directory.seen.records["topology"]], [1, 2, 2], "the versions")


# ---- refusals and their order

def accepted(bound, *events):
    """Records of one replica that accepted a batch, which is decided nowhere."""
    return [("promised", PLACE, BALLOT), ("accepted", PLACE, BALLOT, (bound, tuple((event, (7, 1, number)) for number, event in enumerate(events))))]


def order(case):
    """Of several things that are wrong the first is told: a disk, a limit, no topology, four rows, the start, the bound, the id."""
    late, later = (1, 1, 6001), (0, 0, 9000)
    rows = ((0, 4), (10, 2), (1000, 1), (9000, 1))
    put = {
        "topology": [("topology", 1, rows)], "server-B": [("epoch", fields.LAST_EPOCH)], "epoch-A0": [("epoch", fields.LAST_EPOCH)],
        "replica-1": accepted(7000, late), "replica-2": accepted(5, later),
    }
    steps = [("offset-A", b"\xa5\0\0", 7, "photon: damaged: offset-A at 1"), ("offset-A", [("offset", 7)], 10, f"photon: limit: server-B {fields.LAST_EPOCH}"),
             ("server-B", [], 10, f"photon: limit: epoch-A0 {fields.LAST_EPOCH}"), ("topology", [], 11, "photon: reshard: no topology"),
             ("topology", put["topology"], 10, f"photon: limit: epoch-A0 {fields.LAST_EPOCH}"), ("epoch-A0", [], 11, "photon: reshard: rows 4"),
             ("topology", [("topology", 1, (*rows[:2], (6000, 1)))], 11, "photon: reshard: start 6000 6000"),
             ("topology", [("topology", 1, rows[:3], 1)], 11, "photon: reshard: bound 7000"),
             ("replica-1", accepted(6000, late), 11, "photon: reshard: id 0.0.0.0:0:9000"), ("replica-2", accepted(6000), 11, "photon: reshard: id 0.0.0.1:1:6001"),
             ("replica-1", [("promised", PLACE, BALLOT)], 0, "")]
    stores.write_files(case.path("state"), stores.files_of(put))
    for name, data, status, text in steps:
        stores.write_files(case.path("state"), {name: data} if isinstance(data, bytes) else stores.files_of({name: data}))
        out = b"0:4,10:2,1000:1,6000:8\n" if status == 0 else b""
        if status == 7:
            case.expect([*ADD, "6000:8"], status, text, out)
        else:
            expect(case, "6000:8", status, text, out)


def undecided(case):
    """What one replica alone accepted counts: bounds and ids, in any place, at any ballot; what is only promised doesn't."""
    high = ("accepted", (15, 9), (3, 2, 1), (4000, ()))
    rows = [({"replica-0": accepted(3001)}, "bound 3001"), ({"replica-2": [high]}, "bound 4000"), ({"replica-0": accepted(3000)}, None),
            ({"replica-1": accepted(0, (9, 9, 2999), (9, 9, 3000))}, "id 0.0.0.9:9:3000"), ({"replica-1": accepted(0, (9, 9, 2999))}, None),
            ({"replica-0": accepted(1, (9, 9, 3000)), "replica-1": accepted(2, (9, 8, 9999)), "replica-2": accepted(3, (9, 8, 10_000))}, "id 0.0.0.9:8:9999"),
            ({"replica-0": [("promised", (0, 0), BALLOT)]}, None)]
    for number, (records, why) in enumerate(rows):
        stores.write_files(case.path("state"), stores.files_of({"topology": [ROW], **{f"replica-{n}": [] for n in range(3)}, **records}))
        case.note(f"{number}: {records}")
        expect(case, "3000:2", *((11, f"photon: reshard: {why}", b"") if why else (0, "", b"0:4,3000:2\n")))


def invented(case):
    """Any records, also damaged ones: the row is taken or refused by the model, and only its own record comes to them."""
    inventor = journals.Inventor(case)
    inventor.bounds, inventor.rows = inventor.bounds[:case.random.choice([2, 2, 5, 6])], inventor.rows[:case.random.choice([1, 2, 3, 4])]
    records = inventor.records()
    chance = case.random.random()
    if chance < 0.1:
        records["topology"] = []
    elif chance < 0.3:
        journals.spoil(case.random, records, case.random.choice("AB"))
    files = inventor.files(records)
    if case.random.random() < 0.1:
        name = case.random.choice(sorted(files))
        files[name] = journals.torn(case.random, files[name])
        if journals.is_twice_damaged(name, files[name]):
            return  # the pages don't say which of two damages of one file is told
    stores.write_files(case.path("state"), files)
    store = stores.Store(files)
    for row in [(start_for(case, store, inventor.clicks), case.random.randint(1, 16)) for _ in range(3)]:
        refused = stores.reshard_refusal(store, row[0])
        rows = store.topology and (*store.topology[1], row)
        case.expect(["reshard", "--state", "state", "--add", "{}:{}".format(*row)], *(refused or (0, "")), b"" if refused else model.table_text(rows).encode() + b"\n")
        left = stores.Store(stores.read_files(case.path("state")))
        added = [] if refused else [("topology", store.joiners, rows, 2)]
        expected = {**store.records, "topology": store.records["topology"] + added}
        case.check((left.records, left.damage) == (expected, store.damage), "a reshard has left other records")
        store = left


def start_for(case, store, clicks):
    """A start about what forbids one: the last row's, the bounds, the ids; mostly the first that nothing forbids."""
    bounds = [batch[0] for votes in store.votes.values() for _, batch in votes] or [0]
    times = [event[2] for event, _ in store.accepted_inserts()] + [line.record[0][2] for line in clicks] or [0]
    last = store.topology[1][-1][0] if store.topology else 0
    least = max(last, max(bounds) - 1, max(times))
    start = case.random.choice([last, last + 1, max(bounds), max(bounds) - 1, max(times), case.random.choice(times), least + case.random.choice([1, 9])])
    return max(0, min(logs.LATEST, case.random.choice([start, least + 1])))


# ---- the output, other processes, files

def outputs(case):
    """An output that takes nothing: 5, and the row is kept; a refused row and lost errors: the status alone."""
    one_line(case)
    case.expect(JOIN, 0, "", REPORT)
    with open("/dev/full", "wb") as full:
        case.expect([*ADD, "3000:8"], 5, "photon: write", stdout=full)
    expect(case, "3000:8", 11, "photon: reshard: start 3000 3000")
    ended = without(case, [*ADD, "4000:8"], ">&-")
    case.check((ended.returncode, ended.stderr) == (5, b"photon: write\n"), f"status {ended.returncode}, {ended.stderr!r}")
    reader, writer = os.pipe()
    os.close(reader)
    with os.fdopen(writer, "wb") as shut:
        case.expect([*ADD, "5000:8"], 5, "photon: write", stdout=shut)
    expect(case, "6000:8", 11, "photon: reshard: rows 4")
    ended = without(case, [*ADD, "6000:8"], "2>&-")
    case.check((ended.returncode, ended.stdout) == (11, b""), f"status {ended.returncode}, {ended.stdout!r}")
    case.expect([*JOIN, "--shards", "0:4,3000:8,4000:8,5000:8"], 0, "", REPORT)
    case.check_same(len(records_of(case)[0]["topology"]), 4, "the records of the topology")


def at_once(case):
    """Rows that are added at once: each is printed, refused, or finds the directory locked, and the table has those that were printed."""
    one_line(case)
    case.expect(JOIN, 0, "", REPORT)
    rows = [(3000 + case.random.randrange(3), case.random.randint(1, 16)) for _ in range(4)]
    ends = [case.end(child) for child in [case.start([*ADD, "{}:{}".format(*row)]) for row in rows]]
    told = {ended.out for ended in ends if ended.status == 0}
    for ended in ends:
        fits = [(0, ""), (6, "photon: store: directory")]
        case.check((ended.status, ended.err) in fits or re.fullmatch(r"photon: reshard: (start 300\d 300\d|rows 4)", ended.err), f"status {ended.status}, {ended.err!r}")
        case.check((ended.out != b"") == (ended.status == 0), f"status {ended.status}, and {ended.out!r} was printed")
    kept = stores.Store(stores.read_files(case.path("state")), 1)
    case.check_same(len(kept.records["topology"]), 1 + len(told), "the records of the topology")
    case.check(all(model.table_text(record[2]).encode() + b"\n" in told for record in kept.records["topology"][1:]), f"printed was {told}")
    case.expect([*JOIN, "--shards", model.table_text(kept.topology[1])], 0, "", REPORT)


def held(case):
    """While a join has the directory a `reshard` ends with 6 and changes nothing, and so does a join while a `reshard` has it."""
    directory, _ = odd.new_logs(case)
    for words, others in ((directory.join_words(), directory.reshard_words((logs.LATEST, 2))), (directory.reshard_words((logs.LATEST, 2)), directory.join_words())):
        Machine(case).plan("hold:20")
        child = case.start(words)
        case.settings.clear()
        os.waitid(os.P_PID, child.pid, os.WSTOPPED | os.WEXITED | os.WNOWAIT)
        before = directory.copy_files()
        case.expect(others, 6, "photon: store: directory")
        case.check(directory.copy_files() == before, "a refused run has changed files")
        ended = odd.go_on(case, child)
        case.check((ended.status, ended.err) == (0, ""), f"status {ended.status}, {ended.err!r}")
    directory.rows = (*directory.rows, (logs.LATEST, 2))
    directory.join()
    directory.verify()


def no_files(case):
    """No directory, or something else in place of a disk: 6 with the first one. Without a topology no joiner's disk is opened."""
    one_line(case)
    case.write("file", b"")
    for bad in ("nowhere/state", "file", "file/state", ""):
        case.expect(["reshard", "--state", bad, "--add", "5:8"], 6, "photon: store: directory")
    names = stores.disk_names(1)
    for number, name in enumerate(names):
        state = f"state{number}"
        for bad in names[number:]:
            os.makedirs(case.path(f"{state}/{bad}"))
        is_opened = stores.kind_of(name) not in ("epoch", "output")
        case.expect(["reshard", "--state", state, "--add", "5:8"], *((6, f"photon: store: {name}") if is_opened else (11, "photon: reshard: no topology")))
        if number:
            stores.write_files(case.path(state), stores.files_of({"topology": [ROW]}))
            case.expect(["reshard", "--state", state, "--add", "5:8"], 6, f"photon: store: {name}")


# ---- stops

def reshard_with(directory, machine, row, plan, is_lost):
    """A `reshard` in which something happens; the power may go afterwards. It leaves the old table or the new one, and the report stays."""
    case, before, rows = directory.case, directory.seen, directory.rows
    refused = stores.reshard_refusal(before, row[0])
    directory.asked = None if refused else (*rows, row)
    earlier = len(machine.calls())
    machine.plan(plan)
    ended = case.run(directory.reshard_words(row))
    machine.plan("")
    hit = [call for call in machine.calls()[earlier:] if call[-1]]
    happened = [call[-1] for call in hit]
    told = refused or (0, "")
    names = "|".join(stores.disk_names(directory.joiners))
    if ended.status == 6:
        case.check({*happened} - {*disks.UNSEEN} and re.fullmatch(f"photon: store: (directory|{names})", ended.err) and ended.out == b"", f"status 6, {ended.err!r}")
    elif ended.status != -9:
        case.check((ended.status, ended.err) == told, f"status {ended.status}, {ended.err!r}; by the pages {told}")
        case.check_same(ended.out, b"" if refused else model.table_text(directory.asked).encode() + b"\n", "the table")
    judge_after(directory, before, ended.status == 0)
    if is_lost or "power" in plan:
        machine.lose_power(directory.state)
        directory.seen = None
        judge_after(directory, before, ended.status == 0)
    directory.verify()  # which brings to the disk what the files now show
    machine.store, directory.rows, directory.asked = directory.seen, directory.seen.topology[1] if directory.seen.topology else rows, None
    return ended.status, happened, [call[0] for call in hit]


def judge_after(directory, before, is_new):
    """The store is sound for the old table or the new one, for that alone where it was printed; all other records and the report are as before."""
    store, old = directory.judge("after a reshard"), before.records["topology"]
    changed = [name for name in store.records if name != "topology" and store.records[name] != before.records[name]]
    directory.case.check(not changed, f"a reshard has changed {changed}")
    new = [*old, ("topology", directory.joiners, directory.asked, 2)] if directory.asked else old
    directory.case.check(store.records["topology"] in ([new] if is_new else [old, new]), f"a reshard has left {store.records['topology']}")
    directory.same_report(before, store)


def call_count(directory):
    """How many calls a `reshard` makes that adds a row: for each file its opening and what an empty one is given, and an append with its mark."""
    files = directory.copy_files()
    return 6 + sum(2 + 4 * (len(files[name]) <= 1) for name in stores.disk_names(directory.joiners))


def at_each_call(kind):
    """At each call of a `reshard` something of this kind happens; then it is called again, and the directory is joined."""
    def run(case):
        maker = logs.Maker(case.random, odd=False)
        maker.add_queries(5)
        maker.add_clicks(8)
        machine, base = Machine(case), Directory(case, case.random.choice([1, 2]))
        base.give(maker.queries, maker.clicks)
        base.join()
        base.verify()
        row = (maker.times + 1, case.random.randint(1, 16))
        maker.add_queries(2)
        maker.add_clicks(4)
        number, count = 0, call_count(base)
        while number < count:
            directory = Directory(case, base.joiners)
            directory.state = f"state.{number}"
            shutil.copytree(case.path(base.state), case.path(directory.state))
            directory.give(maker.queries, maker.clicks)
            directory.joined, directory.seen = set(base.joined), directory.read()
            machine.restart()
            *ended, hit = reshard_with(directory, machine, row, f"{kind}:{number}", case.random.random() < 0.5)
            expected = {"eintr": 0, "short": 0, "power": -9, "kill": -9}.get(kind, 6), [kind]
            if expected[0] == 6 and (hit == ["unlink"] or not hit and kind in ("sync", "drop")):  # a mark that can't be taken away stays
                expected = 0, [kind] * len(hit)
            case.check(tuple(ended) == expected, f"at call {number} it ended so: {ended}; by the pages {expected}")
            if case.random.random() < 0.25:  # a run of the table that was left, after which the row may come too late
                directory.join()
                directory.reshard(row)
            else:
                directory.reshard(row)
                case.check(len(directory.rows) == 2, "the row isn't there")
                if case.random.random() < 0.25:
                    directory.join()
            shutil.rmtree(case.path(directory.state))
            number += 1 if number >= count - 6 else case.random.randint(1, 7)
    return run


def calls(case):
    """A `reshard` makes the calls of an opening, and those of one append to the topology's disk; where a row is refused those of the opening alone."""
    one_line(case)
    machine = Machine(case)
    case.expect(JOIN, 0, "", REPORT)
    for row, status, text in (("2000:8", 11, "photon: reshard: id 10.0.0.2:9:2000"), ("2001:8", 0, "")):
        before = stores.Store(stores.read_files(case.path("state")))
        machine.restart()
        case.expect([*ADD, row], status, text, None)
        found = {}
        for what, path, at, size, _ in machine.calls():
            found.setdefault(path, []).append((what, int(at), int(size)))
        expected = {path: calls for name in stores.disk_names(1) for path, calls in disks.expected_calls(Directory(case), before, name).items()}
        case.check_same(found, expected, "the calls of a reshard")
        case.check_same(len(machine.calls()), call_count(Directory(case)) - (6 if status else 0), "how many calls a reshard makes")


# ---- histories

def history(case):
    """Runs, tables that grow, and logs that do, with stops and losses of power between, over a directory of either version."""
    maker = logs.Maker(case.random, odd=case.random.random() < 0.3)
    machine = Machine(case) if case.failing else None
    directory = Directory(case, case.random.choice([1, 1, 2]), logs.random_table(case.random, maker.base)[:2])
    if case.random.random() < 0.3:
        old = {"topology": [("topology", directory.joiners, directory.rows, 1)]}
        stores.write_files(case.path(directory.state), stores.files_of(old))
    directory.seen = directory.read()
    for _ in range(case.random.randint(2, 4)):
        maker.add_queries(case.random.randint(0, 4))
        maker.add_clicks(case.random.randint(0, 6), 0.3)
        maker.add_late_queries()
        directory.give(*maker.logs())
        step(directory, machine, maker)
    directory.join(None, runs.random_batch(case))
    directory.verify()


def step(directory, machine, maker):
    """A run, stopped or not, and then a row, stopped or not, or a run of the table before."""
    case = directory.case
    if machine and case.random.random() < 0.3:
        disks.run_with(directory, machine, f"{case.random.choice(disks.KINDS)}:{case.random.randrange(250)}", None)
    elif case.random.random() < 0.8:
        directory.join(case.random.choice([None, None, maker.horizon(), maker.times + case.random.randrange(40)]), runs.random_batch(case))
        if machine:
            machine.store = directory.seen
    start = start_for(case, directory.seen, directory.clicks)
    row, rows = (start, case.random.randint(1, 16)), directory.rows
    if machine and directory.seen.topology and case.random.random() < 0.3:
        directory.verify()  # which brings to the disk what a killed run has left
        count = call_count(directory)
        call = case.random.choice([case.random.randrange(count), count - case.random.randint(1, 4)])
        reshard_with(directory, machine, row, f"{case.random.choice(disks.KINDS)}:{call}", case.random.random() < 0.5)
    elif directory.reshard(row) and case.random.random() < 0.3:
        kept, directory.rows = directory.rows, rows
        case.expect(directory.join_words(), 9, f"photon: topology: table {model.table_text(kept)} {model.table_text(rows)}")
        directory.rows = kept
    if machine:
        machine.store = directory.seen


CASES = [(function.__name__, function) for function in (bad_rows, one_click, one_bound, new_shards, old_store, order, undecided, outputs, at_once, held, no_files,
                                                         calls)]
CASES += [(f"at_call.{kind}", at_each_call(kind)) for kind in disks.KINDS]
