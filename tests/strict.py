"""The judge of stores beside stores made by hand: one that is sound, and others that are spoilt in one way each and have to be told."""
import copy

import model
import sound
import store as stores
from worked import BATCH, CLICK, QUERY, TOKEN

PLACE, BALLOT, OTHER = (3, 0), (1, 1, 0), (1, 1, 1)
VOTES = [("promised", PLACE, BALLOT), ("accepted", PLACE, BALLOT, BATCH)]
FOREIGN = (0, ((CLICK[0], (8, 1, 0)),))


def good():
    """The records of a directory that a run over the page's two logs may leave."""
    one, far = [("epoch", 1)], [("offset", 36)]
    return {"topology": [("topology", 1, ((0, 4),))], "offset-A": list(far), "offset-B": list(far), "retry-A": [], "retry-B": [],
            "server-A": list(one), "server-B": list(one), "replica-0": list(VOTES), "replica-1": list(VOTES), "replica-2": VOTES[:1],
            "epoch-A0": list(one), "epoch-B0": list(one), "output-A0": [("pair", CLICK, QUERY, TOKEN)], "output-B0": []}


def put(**changed):
    """The good records with some disks changed; the names have _ in place of -."""
    records = copy.deepcopy(good())
    records.update({name.replace("_", "-"): those for name, those in changed.items()})
    return records


def vote(ballot, batch, place=PLACE):
    """A promise and an acceptance."""
    return [("promised", place, ballot), ("accepted", place, ballot, batch)]


PAIR = ("pair", CLICK, QUERY, TOKEN)
ROW = ("topology", 1, ((0, 4),), 2)
ADDED = [("topology", 1, ((0, 4), (2001, 8)), 2), ("topology", 1, ((0, 4), (2001, 8), (2002, 1)), 2)]
BOUND = (0, ())
SOUND = {
    "good": put(), "empty": {}, "topology alone": {"topology": good()["topology"]}, "missing": put(output_A0=[]),
    "an old store": put(topology=[("topology", 1, ((0, 4),), 1)]), "rows that were added": put(topology=[("topology", 1, ((0, 4),), 1), *ADDED]),
    "one vote, not passed": put(replica_1=VOTES[:1], output_A0=[], offset_A=[], offset_B=[]),
    "pending": put(replica_0=[], replica_1=[], replica_2=[], output_A0=[], offset_B=[], retry_A=[("park", 0)]),
    "a higher ballot with the same batch": put(replica_2=vote((2, 1, 1), BATCH), replica_1=[*VOTES, ("promised", PLACE, (2, 1, 1))]),
    "the other batch first, by one": put(replica_2=vote((1, 1, 1), (5, ())), replica_0=[("promised", PLACE, OTHER), *vote((2, 1, 0), BATCH)],
                                         replica_1=vote((2, 1, 0), BATCH)),
}
SPOILT = {
    "no topology": put(topology=[]), "a row for settled ids": put(topology=[ROW, ("topology", 1, ((0, 4), (2000, 3)), 2)]),
    "a row in version 1": put(topology=[ROW, (*ADDED[0][:3], 1)]), "two rows at once": put(topology=[ROW, ADDED[1]]), "a table again": put(topology=[ROW, ROW]),
    "other joiners": put(topology=[ROW, ("topology", 2, ((0, 4), (2001, 8)), 2)]), "a row that goes": put(topology=[*ADDED, ROW]),
    "another row": put(topology=[ROW, ("topology", 1, ((0, 5), (2001, 8)), 2)]),
    "written twice": put(output_B0=[PAIR]),
    "another's pair": put(output_A0=[], output_B0=[PAIR]),
    "not granted": put(output_A0=[("pair", CLICK, QUERY, (7, 1, 1))]),
    "not decided": put(replica_1=VOTES[:1]),
    "another query": put(output_A0=[("pair", CLICK, (QUERY[0], b"boots"), TOKEN)]),
    "another text": put(output_A0=[("pair", (CLICK[0], CLICK[1], b"sell"), QUERY, TOKEN)]),
    "a click of no log": put(output_A0=[("pair", ((1, 1, 1), QUERY[0], b"buy"), QUERY, TOKEN)]),
    "an epoch that wasn't kept": put(epoch_A0=[]), "epochs with a gap": put(server_A=[("epoch", 1), ("epoch", 3)]),
    "a ballot of no epoch": put(server_A=[]), "a ballot of round 0": put(replica_2=[("promised", PLACE, (0, 1, 0))]),
    "a ballot twice": put(replica_2=[*VOTES[:1], ("promised", (2, 0), BALLOT)]),
    "falling ballots": put(replica_2=[("promised", PLACE, (3, 1, 0)), ("promised", PLACE, (2, 1, 0))]),
    "a note twice": put(replica_2=[*VOTES, VOTES[1]]),
    "two batches at a ballot": put(replica_2=vote(BALLOT, FOREIGN)),
    "two batches chosen": put(replica_1=[*VOTES, *vote((2, 1, 1), FOREIGN)], replica_2=vote((2, 1, 1), FOREIGN)),
    "an unsafe batch": put(replica_2=vote((2, 1, 1), (5, ())), replica_1=[*VOTES, ("promised", PLACE, (2, 1, 1))]),
    "accepted without promises": put(replica_1=[], replica_2=[]),
    "a slot left out": put(replica_2=[*VOTES[:1], ("promised", (3, 2), (2, 1, 0))]),
    "a shard too many": put(replica_2=[*VOTES[:1], ("promised", (4, 0), (2, 1, 0))]),
    "another shard": put(replica_0=vote(BALLOT, BATCH, (2, 0)), replica_1=vote(BALLOT, BATCH, (2, 0)), replica_2=[]),
    "an empty batch": put(replica_0=vote(BALLOT, BOUND), replica_1=vote(BALLOT, BOUND), output_A0=[], offset_A=[], offset_B=[]),
    "an id again": put(**{name: [*VOTES, *vote((2, 1, 0), (0, ((CLICK[0], (7, 1, 1)),)), (3, 1))] for name in ("replica_0", "replica_1")}),
    "the other site's joiner": put(replica_0=vote(BALLOT, FOREIGN), replica_1=vote(BALLOT, FOREIGN), output_A0=[]),
    "a token of two ids": put(replica_2=[*VOTES[:1], *vote((2, 1, 0), (0, (((10 << 24 | 2, 9, 2001), TOKEN),)), (0, 0))],
                              replica_1=[*VOTES, ("promised", (0, 0), (2, 1, 0))]),
    "passed and not settled": put(replica_0=[], replica_1=[], replica_2=[], output_A0=[]),
    "an offset within a line": put(offset_A=[("offset", 35)]), "a place within a line": put(retry_B=[("park", 1)]),
    "an offset that falls": put(offset_A=[("offset", 36), ("offset", 36)]), "parked twice": put(retry_A=[("park", 0), ("park", 0)]),
}


def judged(records):
    """What is wrong with these records, over the page's two logs."""
    logs = [model.read_log(line, kind)[0] for line, kind in ((model.query_line(QUERY), "queries"), (model.click_line(CLICK), "clicks"))]
    return sound.wrong_with(stores.Store(stores.files_of(records)), *logs)


def sound_ones(case):
    """Nothing is wrong with sound stores."""
    for name, records in SOUND.items():
        case.check_none(judged(records), name)


def spoilt_ones(case):
    """Something is wrong with each spoilt store."""
    for name, records in SPOILT.items():
        case.check(judged(records), f"nothing is wrong with the store that is spoilt by: {name}")


def resting(case):
    """A store at rest has come to the log's end, keeps the clicks without a query, and has its bounds and its starts from this run."""
    logs = [model.read_log(line, kind)[0] for line, kind in ((model.query_line(QUERY), "queries"), (model.click_line(CLICK), "clicks"))]
    before = stores.Store({}, 1)
    wrong = {"good": (good(), 0), "an offset": (put(offset_B=[]), 0), "pending": (put(retry_A=[("park", 0)]), 0), "a bound": (good(), 1),
             "a start": (put(server_B=[("epoch", 1), ("epoch", 2)]), 0)}
    for name, (records, horizon) in wrong.items():
        told = sound.wrong_at_rest(stores.Store(stores.files_of(records)), *logs, horizon, before)
        case.check(bool(told) == (name != "good"), f"{name}: {told}")
    case.check(sound.wrong_growth(stores.Store(stores.files_of(good())), stores.Store(stores.files_of(put(output_A0=[])))), "a lost record")


CASES = [(function.__name__, function) for function in (sound_ones, spoilt_ones, resting)]
