"""Joins: random logs, right and wrong, over new directories and over ones that grow."""
import os
import threading

import because
import fields
import logs
import model
import store as stores
from directory import Directory

TOP = os.path.dirname(os.path.dirname(os.path.abspath(__file__)))


def random_directory(case, maker):
    """A directory of random joiners and a random table."""
    return Directory(case, case.random.choice([1, 1, 1, 2, 3, 4]), logs.random_table(case.random, maker.base))


def random_batch(case):
    """A greatest batch, or none."""
    return case.random.choice([None, None, 1, 2, 7, 63, 64])


def fresh(case):
    """Random logs over a new directory: the whole report, the whole store; verified; joined again."""
    maker = logs.Maker(case.random)
    maker.add_queries(case.random.choice([0, 1, 5, 20, 40]))
    maker.add_clicks(case.random.choice([0, 1, 10, 30, 90]))
    maker.add_late_queries()
    directory = random_directory(case, maker)
    directory.give(*maker.logs())
    directory.join(maker.horizon(), random_batch(case))
    directory.verify()
    if case.random.random() < 0.5:
        directory.join(case.random.choice([None, maker.horizon()]), random_batch(case))


def cut(case, log, least):
    """A front of a log that is longer than an earlier one, mostly within a line."""
    return log[:case.random.randint(least, len(log))]


def growing(case):
    """Logs that grow by any bytes at their ends, joined after each growth, with horizons that rise and fall; moved now and then."""
    maker = logs.Maker(case.random)
    for _ in range(4):
        maker.add_queries(case.random.randint(0, 12))
        maker.add_clicks(case.random.randint(0, 25), 0.3)
        maker.add_late_queries()
    whole, grown = (maker.queries, maker.clicks), [0, 0]
    directory = random_directory(case, maker)
    for last in [False] * case.random.randint(2, 3) + [True]:
        parts = [log if last else cut(case, log, least) for log, least in zip(whole, grown)]
        grown = [len(part) for part in parts]
        directory.give(*parts)
        if case.random.random() < 0.3:
            directory.verify()
        directory.join(case.random.choice([None, maker.horizon()]), random_batch(case))
        if case.random.random() < 0.3:
            directory.rename()
        directory.verify()


def live(case):
    """Logs that are written to while a join reads them: the report is that of what they held at some moment."""
    maker = logs.Maker(case.random, odd=False)
    maker.add_queries(10)
    maker.add_clicks(20)
    directory = Directory(case)
    directory.give(maker.queries, maker.clicks)
    fronts = [[maker.queries], [maker.clicks]]
    for _ in range(6):
        maker.add_queries(3)
        maker.add_clicks(5)
        maker.add_late_queries()
        fronts[0].append(maker.queries)
        fronts[1].append(maker.clicks)
    child = case.start(directory.join_words())
    writer = threading.Thread(target=append_all, args=(case, directory.names, fronts))
    writer.start()
    ended = case.end(child)
    writer.join()
    case.check((ended.status, ended.err) == (0, ""), f"the join ended with {ended.status}, {ended.err!r}")
    fits = {one_report(queries, clicks) for queries in fronts[0] for clicks in fronts[1]}
    case.check(ended.out in fits, "the report is of no moment of the logs")
    directory.give(maker.queries, maker.clicks)
    directory.judge("after the logs grew in a join")
    directory.join()


def append_all(case, names, fronts):
    """Appends to both logs, whole lines at a time."""
    for number in range(1, len(fronts[0])):
        for name, versions in zip(names, fronts):
            with open(case.path(name), "ab", buffering=0) as file:
                file.write(versions[number][len(versions[number - 1]):])


def one_report(queries, clicks):
    """The report of two logs."""
    lines = [model.records(model.read_log(log, kind)[0]) for log, kind in ((queries, "queries"), (clicks, "clicks"))]
    return model.report_of_logs(*lines, 0)


def wrong(case):
    """Logs with spoilt lines: the first refused line with the first why, the queries' before the clicks', and no directory is made."""
    maker = logs.Maker(case.random)
    maker.add_queries(case.random.randint(1, 12))
    maker.add_clicks(case.random.randint(1, 12))
    kept = [maker.queries, maker.clicks]
    for at in case.random.choice([[0], [1], [1], [0, 1]]):
        kept[at] = logs.wrong_log(case.random, kept[at], ("queries", "clicks")[at])
    kept = [log + maker.unfinished() for log in kept]
    directory = Directory(case)
    directory.give(*kept)
    refusals = [(kind, model.read_log(log, kind)[1]) for kind, log in zip(("queries", "clicks"), kept)]
    told = [f"photon: {kind}:{why}" for kind, why in refusals if why]
    if not told:
        directory.join()
        return
    kind, log, refusal = next((kind, log, why) for log, (kind, why) in zip(kept, refusals) if why)
    case.expect(directory.join_words(), 3, told[0], reason=because.of_log(directory.names[kind == "clicks"], log, refusal))
    case.check(directory.copy_files() == {}, "the state directory was touched")
    if refusals[1][1]:
        case.expect(directory.verify_words(), 3, f"photon: clicks:{refusals[1][1]}")
        case.check(directory.copy_files() == {}, "the state directory was touched")


def example(case, name):
    """The logs of examples/ over each number of joiners, with a table, a batch and horizons; the report by the model and its totals by the pages."""
    totals = {"one_line": "= 1 0 0 0", "shop": "= 34 0 0 3"}[name]
    for joiners, rows in ((1, model.DEFAULT_TABLE), (4, ((0, 4), (1719000000000000, 8)))):
        directory = Directory(case, joiners, rows)
        directory.state = f"state{joiners}"
        directory.give(*(read_example(name, log) for log in ("queries", "clicks")))
        directory.join(None, case.random.choice([None, 1, 16]))
        clicks = model.records(directory.clicks)
        case.check_same(model.letters_of(stores.report_of_store(directory.read(), clicks))[1], totals, "the totals")
        directory.verify()
        directory.join(sorted(clicks)[0][2] + 1)
        directory.verify()


def read_example(name, log):
    """A log of examples/."""
    with open(f"{TOP}/examples/{name}/{log}", "rb") as file:
        return file.read()


def one_line_bytes(case):
    """The files that a join of examples/one_line leaves, byte by byte where the pages fix them."""
    directory = Directory(case)
    directory.give(read_example("one_line", "queries"), read_example("one_line", "clicks"))
    directory.join()
    files = directory.copy_files()
    epoch, offset = [("epoch", 1)], [("offset", 36)]
    fixed = {"topology": [("topology", 1, ((0, 4),), fields.NEW_VERSION)]}
    fixed.update({f"{kind}-{site}": those for site in "AB" for kind, those in (("server", epoch), ("offset", offset), ("retry", []))})
    fixed.update({f"epoch-{site}0": epoch for site in "AB"})
    for name, data in stores.files_of(fixed).items():
        case.check_same(files[name].hex(" "), data.hex(" "), name)
    sizes = sorted(len(files[f"output-{site}0"]) for site in "AB")
    case.check(sizes == [1, 79], f"the outputs have {sizes} bytes")
