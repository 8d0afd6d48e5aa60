"""Drills by random plans, plans that are none, and made logs. Expected is what docs/DRILLS.md, docs/FORMATS.md and docs/GUARANTEES.md say."""
import json

import logs
import model
import runs
import store as stores

KINDS = ("any", "dispatcher", "joiner", "server", "replica")
HARMLESS_EPOCH_CALL = 6  # up to this call a joiner comes up for the first time, with nothing in flight


# ---- random plans

def random_rule(chance):
    """A rule that loses, repeats or delays some packets."""
    rule = {"from": chance.choice(KINDS), "to": chance.choice(KINDS), "first": chance.choice([0, 0, 1, 2, 5, 30]),
            "count": chance.choice([0, 1, 2, 5, 20, 60]), "fate": chance.choice(["drop", "twice", "late"])}
    if chance.random() < 0.6:
        rule["every"] = chance.randint(1, 7)
    if chance.random() < 0.7:
        rule["by"] = chance.choice([0, 1, 2, 3, 10, 1000])
    return rule


def random_stop(chance, kinds, least):
    """A stop of a disk of one of these kinds, at this call or later."""
    return {"disk": chance.choice(kinds), "which": chance.choice(["all", 0, 1, 2, 5, 7]),
            "call": least + chance.choice([0, 1, 2, 3, 4, 5, 9, 30, 100]), "image": chance.choice(["old", "new", "noise"])}


def random_plan(chance):
    """A plan of rules, stops and perhaps a dead replica."""
    plan = {}
    if chance.random() < 0.6:
        plan["rules"] = [random_rule(chance) for _ in range(chance.randint(0, 4))]
    if chance.random() < 0.7:
        kinds = chance.choice([("offset",), ("retry",), ("server",), ("replica",), ("epoch",), ("output",), model.DISKS])
        least = 0 if chance.random() < 0.1 else 3
        plan["stops"] = [random_stop(chance, kinds, least) for _ in range(chance.choice([1, 1, 2, 4]))]
    if chance.random() < 0.3:
        plan["dead"] = chance.choice([[], [0], [1], [2]])
    return plan


# ---- what a plan leads to

def disks_of(stop, joiners):
    """The names of the disks that a stop is for, in their order."""
    names = [name for name in stores.disk_names(joiners) if stores.kind_of(name) == stop["disk"]]
    return names if stop["which"] == "all" else names[stop["which"]:stop["which"] + 1]


def node_of(name, joiners):
    """The number of the node that a disk belongs to."""
    kind, rest = name.split("-")
    if kind == "replica":
        return 4 + int(rest)
    if kind in ("epoch", "output"):
        return stores.joiner_number(joiners, rest[0], int(rest[1:]))
    return "AB".index(rest) + (2 if kind == "server" else 0)


def stop_in_opening(plan, joiners):
    """The first disk, in the order of opening, that a stop meets in the opening; or None."""
    met = {name for stop in plan.get("stops", []) if stop["call"] <= 2 for name in disks_of(stop, joiners)}
    return next((name for name in stores.disk_names(joiners) if name in met), None)


def gives_up(plan, joiners):
    """The texts with which a drill may give up: a node that stops eight times, or a disk that stops while it is opened again after a stop."""
    calls = {(name, stop["call"]) for stop in plan.get("stops", []) for name in disks_of(stop, joiners)}
    nodes = [node_of(name, joiners) for name, _ in calls]
    often = {f"photon: store: node {node} stopped 8 times" for node in nodes if nodes.count(node) >= 8}
    return often | {f"photon: store: {name}" for name, _ in calls if nodes.count(node_of(name, joiners)) > 1}


def may_miss(plan, joiners):
    """The most clicks that may be missing: 32 for each stop of a joiner's disk, none for those of its first start alone."""
    stops = [(name, stop) for stop in plan.get("stops", []) for name in disks_of(stop, joiners) if stop["disk"] in ("epoch", "output")]
    if all(stop["disk"] == "epoch" and stop["call"] <= HARMLESS_EPOCH_CALL for _, stop in stops):
        return 0
    return 32 * len(stops)


def compare_drill(case, ended, plan, setting):
    """Compares a drill's end with what its plan leads to; `setting` is (queries, clicks, horizon, joiners)."""
    queries, clicks, horizon, joiners = setting
    first = stop_in_opening(plan, joiners)
    if first:
        case.check((ended.status, ended.err, ended.out) == (6, f"photon: store: {first}", b""), f"{ended.status}, {ended.err!r}; {first} stops in the opening")
        return
    if ended.status == 6 and ended.err in gives_up(plan, joiners):
        case.check(ended.out == b"", f"{len(ended.out)} bytes of output with status 6")
        return
    case.check((ended.status, ended.err) == (0, ""), f"the drill ended with {ended.status}, {ended.err!r}")
    expected = model.report_of_logs(queries, clicks, horizon)
    if may_miss(plan, joiners) == 0:
        case.check_same(ended.out, expected, "the report of a drill that loses no click")
    else:
        compare_missing(case, ended.out, expected, may_miss(plan, joiners))


def compare_missing(case, out, expected, most):
    """Each line is that of the two logs, or M in place of J; at most so many are M."""
    got, wanted = out.split(b"\n"), expected.split(b"\n")
    case.check(len(got) == len(wanted), f"the report has {len(got)} lines, and by the logs {len(wanted)}")
    missing = 0
    for line, fits in zip(got[:-2], wanted[:-2]):
        if line != fits:
            missing += 1
            case.check(fits.startswith(b"J ") and line == b"M " + fits.split(b" ")[1], f"{line!r} stands in place of {fits!r}")
    joined, _, expired, unmatched = (int(word) for word in wanted[-2].split()[1:])
    case.check(got[-2] == f"= {joined - missing} {missing} {expired} {unmatched}".encode(), f"{got[-2]!r}, {missing} being missing")
    case.check(missing <= most, f"{missing} clicks are missing, and at most {most} may be")


def drill_words(case, maker, joiners, rows, horizon):
    """The words of a drill over the logs and the plan of the case's folder."""
    options = [["--queries", "queries"], ["--clicks", "clicks"], ["--plan", "plan"], ["--horizon", horizon], ["--joiners", joiners]]
    batch = runs.random_batch(case)
    options += [["--shards", model.table_text(rows)]] + ([["--batch", batch]] if batch else [])
    case.random.shuffle(options)
    return ["drill"] + [word for option in options for word in option]


def drill(case):
    """Random logs under a random plan; nothing is left behind."""
    maker = logs.Maker(case.random)
    maker.add_queries(case.random.choice([0, 1, 10]))
    maker.add_clicks(case.random.choice([1, 5, 20, 50]))
    queries, clicks = (model.read_log(case_log(case, log, kind), kind)[0] for log, kind in zip(maker.logs(), ("queries", "clicks")))
    plan, horizon, joiners = random_plan(case.random), maker.horizon(), case.random.choice([1, 1, 2])
    case.write("plan", json.dumps(plan).encode())
    case.note(json.dumps(plan))
    ended = case.run(drill_words(case, maker, joiners, logs.random_table(case.random, maker.base), horizon))
    compare_drill(case, ended, plan, (model.records(queries), model.records(clicks), horizon, joiners))
    case.check(sorted(stores.read_files(case.folder)) == ["clicks", "plan", "queries"], "the drill has left something behind")


def case_log(case, data, kind):
    """Writes a log, and gives its bytes."""
    case.write(kind, data)
    return data


def many_joiners(case):
    """Drills and made logs with three and four joiners a site."""
    for kind in ("queries", "clicks"):
        case_log(case, runs.read_example("shop", kind), kind)
    case.write("plan", b'{"dead": [0]}')
    records = [model.records(model.read_log(runs.read_example("shop", kind), kind)[0]) for kind in ("queries", "clicks")]
    for joiners in (3, 4):
        words = ["drill", "--queries", "queries", "--clicks", "clicks", "--plan", "plan", "--joiners", joiners]
        case.expect(words, 0, "", model.report_of_logs(*records, 0))
        case.expect(["bulk", "--seed", 5, "--clicks", 200, "--joiners", joiners], 0, "", model.totals_of_bulk(200))


# ---- plans that are none

def spoil_value(chance, value):
    """A value that stands where another should, or the same."""
    return chance.choice([-1, 0, 1, 2, 3, 7, 8, 64, 1001, 1_000_001, (1 << 64) - 1, 1 << 64, 1.0, True, None, "", "all", "old", "any", "drop", [], {}, value])


def spoil_plan(chance, plan):
    """A plan with one thing changed."""
    lists = [plan[key] for key in ("rules", "stops") if isinstance(plan.get(key), list)]
    entries = [entry for one in lists for entry in one if isinstance(entry, dict)]
    kind = chance.randrange(6)
    if kind <= 2 and entries:
        entry = chance.choice(entries)
        key = chance.choice([*sorted(entry), "more"])
        if kind == 0:
            entry.pop(key, None)
        else:
            entry[key] = spoil_value(chance, entry.get(key))
    elif kind == 3:
        plan[chance.choice(["rules", "stops", "dead", "more"])] = spoil_value(chance, None)
    elif kind == 4:
        key = chance.choice(["rules", "stops", "dead"])
        plan[key] = [*(plan.get(key) or []), spoil_value(chance, None)] if isinstance(plan.get(key, []), list) else {}
    else:
        plan["dead"] = chance.choice([[3], [0, 1], [0, 0], [-1], ["0"], [1.0], [None], [[0]]])
    return plan


def spoil_text(chance, text):
    """A plan's text with something changed in its spelling."""
    return chance.choice([
        lambda: text[:-1], lambda: text + b" x", lambda: b" \n\t\r" + text + b"\n", lambda: b"\xef\xbb\xbf" + text, lambda: text[:5] + b"\xff" + text[5:],
        lambda: text.replace(b"0", b"-0", 1), lambda: text.replace(b"1", b"1e0", 1), lambda: text.replace(b": 1", b": 01", 1),
        lambda: text.replace(b"}", b",}", 1), lambda: text.replace(b"\"first\"", b"\"first\": -1, \"first\"", 1), lambda: b"[]", lambda: b"", lambda: b"null",
        lambda: b"NaN", lambda: b"{\"dead\": [NaN]}", lambda: b"{} {}", lambda: text.replace(b"drop", b"\\u0064rop"), lambda: b"{'dead': []}",
        lambda: text + b" " * (model.LONGEST_PLAN - len(text)), lambda: text + b" " * (model.LONGEST_PLAN + 1 - len(text)),
    ])()


def full_plan(chance):
    """A plan with rules and stops that do nothing: 64 of a kind, or more."""
    rule = {"from": "any", "to": "any", "first": 0, "count": 0, "fate": "late"}
    stop = {"disk": "output", "which": 7, "call": (1 << 64) - 1, "image": "old"}
    key, entry = chance.choice([("rules", rule), ("stops", stop)])
    return {key: [dict(entry) for _ in range(chance.choice([1, 3, 63, 64, 65, 70]))], "dead": [2]}


def plans(case):
    """A plan's text, right or wrong: refused at its first bad place, whatever the logs are; else the drill is run."""
    plan = case.random.choice([full_plan, random_plan])(case.random)
    for _ in range(case.random.choice([0, 1, 1, 2])):
        plan = spoil_plan(case.random, plan)
    text = json.dumps(plan).encode()
    if case.random.random() < 0.4:
        text = spoil_text(case.random, text)
    case.write("plan", text)
    case.note(text[:2000].decode("utf-8", "replace"))
    place, read = model.plan_place(text)
    if place:
        case.expect(["drill", "--queries", "nowhere", "--clicks", "nowhere", "--plan", "plan"], 2, f"photon: plan: {place}")
        return
    queries, clicks = (case_log(case, runs.read_example("one_line", kind), kind) for kind in ("queries", "clicks"))
    ended = case.run(["drill", "--queries", "queries", "--clicks", "clicks", "--plan", "plan"])
    records = [model.records(model.read_log(log, kind)[0]) for log, kind in ((queries, "queries"), (clicks, "clicks"))]
    compare_drill(case, ended, read, (*records, 0, 1))


# ---- made logs

def bulk(case):
    """Made logs: the totals of the formula."""
    clicks = case.random.choice([0, 1, 4, 5, 9, 10, 11, 14, 15, 99, 100, 333])
    words = ["bulk", "--seed", case.random.choice([0, 1, (1 << 64) - 1, case.random.randrange(1 << 64)]), "--clicks", clicks]
    if case.random.random() < 0.5:
        words += ["--joiners", case.random.randint(1, 2)]
    if case.random.random() < 0.5:
        words += ["--shards", model.table_text(logs.random_table(case.random, 1_000_000))]
    if case.random.random() < 0.5:
        words += ["--batch", case.random.choice([1, 2, 64])]
    case.expect(words, 0, "", model.totals_of_bulk(clicks))
