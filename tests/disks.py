"""Joins over disks that fail, and machines that lose power. The store is judged after each, and the command is run again."""
import re

import logs
import model
import runs
import sound
import store as stores
from case import Failed
from directory import Directory
from power import Machine

KINDS = ("eio", "enospc", "eintr", "short", "sync", "drop", "power", "kill")
UNSEEN = ("eintr", "short", "")  # what no run may show


def told(directory, ended):
    """The run ended well with the report of what its journals keep, or with 6 and one of its texts."""
    case = directory.case
    names = "|".join(stores.disk_names(directory.joiners))
    nodes = "|".join(map(str, range(7 + 2 * directory.joiners)))
    if ended.status == 6:
        texts = f"photon: store: (directory|{names}|node ({nodes}) stopped 8 times)"
        case.check(re.fullmatch(texts, ended.err) and ended.out == b"", f"status 6, {ended.err!r}")
    else:
        case.check((ended.status, ended.err) == (0, ""), f"status {ended.status}, {ended.err!r}")
        expected = stores.report_of_store(directory.read(), model.records(directory.clicks))
        case.check_same(ended.out, expected, "the report over a disk that failed")


def lose_power(directory, machine):
    """Loses power: the store is sound, and has the records of the last run that ended well and those that were synced."""
    synced = stores.Store(machine.synced(directory.state), directory.joiners)
    machine.lose_power(directory.state)
    directory.seen = machine.store
    machine.store = directory.judge("after a loss of power")
    directory.case.check_none(sound.wrong_growth(synced, machine.store), "the store after a loss of power, beside what was synced")


def run_with(directory, machine, plan, batch):
    """A join in which something happens, and what it leaves; the power may go afterwards."""
    case = directory.case
    if "drop" in plan:  # takes what a run that was killed wrote and didn't sync
        directory.seen = stores.Store(machine.synced(directory.state), directory.joiners)
    machine.plan(plan)
    ended = case.run(directory.join_words(None, batch))
    machine.plan("")
    if any(call[-1] not in UNSEEN or call[0] == "mkdir" and call[-1] for call in machine.calls()):  # mkdir isn't called again
        directory.stops += 8
    case.check(ended.status == 0 or directory.stops, f"status {ended.status} over a disk that met nothing")
    if ended.status != -9:
        told(directory, ended)
    store = directory.judge(f"after {plan}")
    if ended.status == 0:
        machine.store = store
        directory.joined = set(store.pairs())
    if "power" in plan or "lie" in plan or case.random.random() < 0.5:
        lose_power(directory, machine)


def trouble(case, joiners, has_run, plans):
    """A new directory, or one that a join has left; joins in which something happens; then one to the end, and a loss of power."""
    maker = logs.Maker(case.random, odd=False)
    maker.add_queries(6)
    maker.add_clicks(8)
    directory = Directory(case, joiners)
    directory.state = f"state.{len(case.steps)}"
    machine = Machine(case)
    if has_run:
        directory.give(maker.queries, maker.clicks)
        directory.join()
        machine.store = directory.seen
    maker.add_queries(2)
    maker.add_clicks(case.random.choice([4, 12]))
    directory.give(maker.queries, maker.clicks)
    for plan in plans:
        run_with(directory, machine, plan, runs.random_batch(case))
    directory.join(None, runs.random_batch(case))
    machine.store = directory.seen
    lose_power(directory, machine)
    directory.verify()
    return directory, machine


def at_call(number):
    """Joins in which something happens at the call of this number, with 1 and 4 joiners, one over a new directory and one over a kept one."""
    def run(case):
        for joiners in (1, 4):
            trouble(case, joiners, (joiners == 1) == bool(number % 2), [f"{case.random.choice(KINDS)}:{number}"])
    return run


def random_plan(case):
    """One to three things that happen at random calls, some of them again and again."""
    events = []
    for _ in range(case.random.choice([1, 1, 2, 3])):
        often = case.random.choice(["", "", ":2", ":7", ":1000"])
        events.append(f"{case.random.choice(KINDS)}:{case.random.choice([case.random.randrange(90), case.random.randrange(400)])}{often}")
    return ",".join(events)


def at_random(case):
    """Joins in which things happen at random calls, one behind the other, and a verification in which something happens: it loses nothing."""
    plans = [random_plan(case) for _ in range(case.random.choice([1, 2, 3]))]
    directory, machine = trouble(case, case.random.choice([1, 4]), case.random.random() < 0.5, plans)
    machine.plan(random_plan(case))
    ended = case.run(directory.verify_words())
    machine.plan("")
    if ended.status in (0, 1):
        expected = stores.report_of_store(directory.seen, model.records(directory.clicks))
        case.check_same(ended.out, expected, "a verification over a disk that failed")
    else:
        case.check(ended.status in (6, -9) and ended.out == b"", f"a verification ended with {ended.status}, {ended.err!r}")
    before = directory.seen
    lose_power(directory, machine)
    case.check(directory.seen.records == before.records, "a verification has changed records")


def failed_sync(case):
    """A sync fails in the work of a join, which may go on; what was acknowledged afterwards outlives a loss of power."""
    first = case.random.randrange(60, 260)
    then = case.random.choice(["", f",power:{first + case.random.randrange(1, 60)}", f",kill:{first + case.random.randrange(1, 60)}"])
    trouble(case, case.random.choice([1, 4]), case.random.random() < 0.5, [f"sync:{first}{then}"])


def losses(case):
    """Syncs that fail, then a loss of power in the work or at an opening, five times over one directory: nothing acknowledged is lost."""
    plans = []
    for _ in range(5):
        first = case.random.choice([case.random.randrange(90), case.random.randrange(90, 300)])
        kinds = case.random.choice([["sync"], ["drop"], ["sync", "sync"], ["sync", "drop"], []])
        before = [f"{kind}:{max(0, first - case.random.randrange(1, 30))}" for kind in kinds]
        plans.append(",".join([*before, f"{case.random.choice(['power', 'power', 'kill'])}:{first}"]))
    trouble(case, case.random.choice([1, 1, 2]), case.random.random() < 0.7, plans)


# ---- what the checks stand on

def expected_calls(directory, before, name):
    """The calls for one disk in a join, by the pages, and those for its mark: it is opened or made, and each new record is appended; the mark
    stands while there was something to write."""
    old, new = before.files.get(name, b""), directory.read().files[name]
    sync = ("datasync", 0, 0)
    calls = [("open", 0, 0), sync]
    calls += [("write", 0, 1), sync] if len(old) <= 1 else []
    for at, payload in stores.gate_rule(new)[0][len(before.records.get(name, [])):]:
        calls += [("write", at, len(payload) + 5), sync, ("write", at - 1, 1), sync]
    return {f"/state/{name}": calls, **({f"/state/{name}.doubt": [("open", 0, 0), ("unlink", 0, 0)]} if len(calls) > 2 else {})}


def calls(case):
    """The library sees the calls of the pages and no others, over a new directory, a kept one, and one whose files are long."""
    maker = logs.Maker(case.random, odd=False)
    directory, machine = Directory(case), Machine(case)
    for queries, clicks, text in ((4, 6, b"short"), (0, 5, b"short"), (1, 500, b"x" * 200), (0, 4, b"short")):
        maker.text = lambda text=text: text
        maker.add_queries(queries)
        maker.add_clicks(clicks, 0)
        directory.give(maker.queries, maker.clicks)
        before = directory.read()
        machine.restart()
        directory.join()
        found = {}
        for what, path, at, size, _ in machine.calls():
            found.setdefault(path, []).append((what, int(at), int(size)))
        disks = stores.disk_names(1)
        names = ("sync", 0, 0)  # once, and for each name that is made
        others = {"": [names], "/state": [*([] if before.files else [("mkdir", 0, 0), *[names] * len(disks)]), names]}
        expected = {path: calls for name in disks for path, calls in expected_calls(directory, before, name).items()}
        case.check_same(found, {**expected, **others}, "the calls of a join")
    case.check(any(len(data) > 65_541 for data in directory.copy_files().values()), "no file is long")


def lies(case):
    """A disk that only says that it has synced is found out."""
    for joiners in (1, 4):
        try:
            trouble(case, joiners, False, ["lie:0:100000"])
        except Failed as failed:
            case.note(str(failed))
        else:
            raise Failed("nothing is wrong with a disk that doesn't sync")


def last_name(case):
    """A run is killed when it has made its last file, whose name isn't synced yet. What the next run writes there outlives a loss of power."""
    maker = logs.Maker(case.random, odd=False)
    maker.add_queries(4)
    maker.add_clicks(6)
    made = None  # the call that makes the last file
    for attempt in range(7):
        directory, machine = Directory(case), Machine(case)
        directory.state = f"state.{attempt}"
        directory.give(maker.queries, maker.clicks)
        machine.plan(f"kill:{made}" if made else "")
        ended = case.run(directory.join_words())
        machine.plan("")
        made = made or max(number for number, call in enumerate(machine.calls()) if call[0] == "open")
        case.check_same(ended.status, -9 if attempt else 0, "the status")
        directory.judge("after the kill")
        directory.join()
        machine.store = directory.seen
        lose_power(directory, machine)


AT_CALLS = [(str(number), at_call(number)) for number in range(200)]
LISTED = [(function.__name__, function) for function in (calls, last_name, lies)]
