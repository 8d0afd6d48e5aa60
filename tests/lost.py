"""Directories that lack a file: one that was lost is never made anew, and a first run that was stopped before it had made them all goes on."""
import os

import logs
import model
import odd
import store as stores
from directory import Directory
from power import Machine

FIRST_CALLS = 150  # as many calls that change files a first run makes at least, those of its opening among them


def words_of(directory):
    """A join, a verification and a `reshard`."""
    return directory.join_words(), directory.verify_words(), directory.reshard_words((logs.LATEST, 1))


def each_file(joiners):
    """Each file of a directory taken away in turn, and all from it on: 6 with the name of the first, and nothing is made or changed."""
    def run(case):
        directory = odd.joined(case, joiners)
        folder = case.path("state")
        names = stores.disk_names(joiners)
        for at, name in enumerate(names):
            for gone in ([name], names[at:]):
                for one in gone:
                    os.rename(os.path.join(folder, one), case.path(f"aside.{one}"))
                before = directory.copy_files()
                for words in words_of(directory) if before else ():
                    case.expect(words, 6, f"photon: store: {name}", reason=f"state/{name}: it is missing")
                    case.check(directory.copy_files() == before, f"files were made or changed where {name} is missing")
                for one in gone:
                    os.rename(case.path(f"aside.{one}"), os.path.join(folder, one))
        directory.verify()
        directory.join()
    return run


def another_name(case):
    """A file under another name is missing, and is left alone."""
    directory = odd.joined(case)
    name = case.random.choice(stores.disk_names(1))
    os.rename(case.path(f"state/{name}"), case.path(f"state/{name}.old"))
    before = directory.copy_files()
    for words in words_of(directory):
        case.expect(words, 6, f"photon: store: {name}")
    case.check(directory.copy_files() == before, "a refused run has changed files")
    os.rename(case.path(f"state/{name}.old"), case.path(f"state/{name}"))
    directory.verify()


def first_run(kind, part):
    """A first run that is ended at each call in turn goes on, also where a verification and a `reshard` come between."""
    def run(case):
        maker = logs.Maker(case.random, odd=False)
        maker.add_queries(4)
        maker.add_clicks(6)
        for number in range(part, FIRST_CALLS, 4):
            directory = Directory(case)
            directory.state = f"state.{number}"
            directory.give(maker.queries, maker.clicks)
            machine = Machine(case)
            machine.plan(f"{kind}:{number}")
            ended = case.run(directory.join_words())
            machine.plan("")
            case.check(ended.status == -9, f"status {ended.status}, {ended.err!r}; it should end at call {number}")
            if kind == "power":
                machine.lose_power(directory.state)
            directory.stops = 1
            if os.path.isdir(case.path(directory.state)):
                directory.judge(f"after {kind}:{number}")
                look(directory)
            directory.join()
            directory.verify()
    return run


def look(directory):
    """A verification of what a first run has left, which makes and changes nothing."""
    case, before = directory.case, directory.copy_files()
    store = directory.read()
    expected = stores.report_of_store(store, model.records(directory.clicks))
    status = int(model.letters_of(expected)[1].split()[2] != "0")
    case.expect(directory.verify_words(), status, "", expected)
    case.check(directory.copy_files() == before, "a verification has changed files")


CASES = [("each_file.1", each_file(1)), ("each_file.4", each_file(4)), ("another_name", another_name)]
CASES += [(f"first_run.{kind}.{part}", first_run(kind, part)) for kind in ("kill", "power") for part in range(4)]
