"""Whether a store is sound, by docs/DEFINITIONS.md ("Sound stores", "Rest") and the rows of docs/TURNS.md. Each check tells what is wrong.

A store is judged with the lines of both logs: `queries` and `clicks` are lists of model.Line.
"""
import model
import store as stores


class Judge:
    """Collects what is wrong with a store."""

    def __init__(self, store, queries, clicks):
        self.store, self.queries, self.clicks = store, model.records(queries), model.records(clicks)
        self.lines = clicks
        self.wrong = []
        self.registry = stores.Registry(store) if store.topology else None
        self.pairs = store.pairs()

    def fail(self, text):
        """Notes one thing that is wrong."""
        self.wrong.append(text)

    def epoch_of_joiner(self, number):
        """The kept epoch of a joiner's node number, None where no joiner has it."""
        joiners = self.store.joiners
        if not 7 <= number < 7 + 2 * joiners:
            return None
        return self.store.last(f"epoch-{'AB'[(number - 7) // joiners]}{(number - 7) % joiners}")

    def site_of_joiner(self, number):
        """0 or 1."""
        return (number - 7) // self.store.joiners

    def is_join(self, event):
        """Whether the id is that of a click whose query is in the query log."""
        return event in self.clicks and self.clicks[event][1] in self.queries

    # ---- the files

    def files(self):
        """The files are those of the pages, with marks and copies of stopped runs, and none is damaged; the topology comes first."""
        expected = set(stores.disk_names(self.store.joiners))
        more = {name for name in self.store.files if name.removesuffix(".doubt").removesuffix(".copy") not in expected}
        if more:
            self.fail(f"there are other files: {sorted(more)}")
        if self.store.damage:
            self.fail("{} is damaged at {}".format(*self.store.damage))
        if self.store.topology is None and any(self.store.records.values()):
            self.fail("a disk has a record and the topology has none")

    def epochs(self):
        """Each epoch is the one before plus 1."""
        for name, records in self.store.records.items():
            if stores.kind_of(name) in ("server", "epoch") and [record[1] for record in records] != list(range(1, len(records) + 1)):
                self.fail(f"{name} has the epochs {[record[1] for record in records]}")

    # ---- the replicas

    def notes(self):
        """In each place a replica's ballots never fall, and it writes no note again."""
        for replica in range(3):
            last = {}
            for kind, place, ballot, *_ in self.store.records[f"replica-{replica}"]:
                before = last.get(place)
                if before and (ballot < before[0] or (ballot == before[0] and kind == "promised") or (ballot, kind) == before):
                    self.fail(f"replica-{replica} has {kind} {ballot} behind {before[1]} {before[0]} in {place}")
                last[place] = (ballot, kind)

    def ballots(self):
        """Each ballot is of an epoch that its server has kept, and of one place alone."""
        place_of = {}
        for replica in range(3):
            for _, place, ballot, *_ in self.store.records[f"replica-{replica}"]:
                if place_of.setdefault(ballot, place) != place:
                    self.fail(f"ballot {ballot} stands in {place_of[ballot]} and in {place}")
                kept = self.store.last(f"server-{'AB'[ballot[2]]}")
                if not (1 <= ballot[1] <= kept and ballot[0] >= 1):
                    self.fail(f"ballot {ballot} in {place}, its server's epoch being {kept}")

    def promises(self, place):
        """What each replica promised last in a place, below every ballot where nothing."""
        promised = []
        for replica in range(3):
            ballots = [note[2] for note in self.store.records[f"replica-{replica}"] if note[1] == place]
            promised.append(max(ballots, default=(-1, 0, 0)))
        return promised

    def agreement(self):
        """One ballot has one batch, a majority promised it, at most one batch is chosen, and what is accepted is safe."""
        for place, votes in self.store.votes.items():
            batches = {}
            for ballot, batch in votes:
                if batches.setdefault(ballot, batch) != batch:
                    self.fail(f"two batches at ballot {ballot} in {place}")
            if len({batch for (_, batch), who in votes.items() if len(who) >= 2}) > 1:
                self.fail(f"two batches are chosen in {place}")
            promised = self.promises(place)
            for ballot, batch in votes:
                self.safe(place, ballot, batch, promised)

    def safe(self, place, ballot, batch, promised):
        """Below an accepted ballot no other batch can be chosen any more."""
        if sum(one >= ballot for one in promised) < 2:
            self.fail(f"no majority has promised {ballot}, which was accepted in {place}")
        for (other, value), who in self.store.votes[place].items():
            open_ones = {replica for replica in range(3) if promised[replica] <= other}
            if other < ballot and value != batch and len(who | open_ones) >= 2:
                self.fail(f"in {place} another batch than that of {ballot} may still be chosen at {other}")

    def places(self):
        """Notes are of shards of the table, and of slots up to the first that isn't decided."""
        for replica in range(3):
            for _, place, *_ in self.store.records[f"replica-{replica}"]:
                shard, slot = place
                if shard >= len(self.registry.lists) or slot > len(self.registry.lists[shard]):
                    self.fail(f"replica-{replica} has a note in {place}, and the slots before aren't all decided")
                    return

    # ---- batches and inserts

    def batches(self):
        """What each accepted batch may hold, by what is decided before its slot."""
        for (shard, slot), votes in self.store.votes.items():
            before = self.registry.lists[shard][:slot]
            for ballot, batch in votes:
                self.batch(shard, slot, before, batch)
                self.drawer((shard, slot), min(one for one, other in votes if other == batch), batch)

    def batch(self, shard, slot, before, batch):
        """A batch has something to do, and no insert that is answered already."""
        bound, inserts = batch
        held, low = stores.first_inserts(before), stores.bound_of(before)
        if not inserts and bound <= low:
            self.fail(f"the batch of shard {shard}, slot {slot} does nothing")
        if len({token for _, token in inserts}) != len(inserts):
            self.fail(f"a token stands twice in the batch of shard {shard}, slot {slot}")
        for event, _ in inserts:
            if model.shard_of(self.registry.rows, event) != shard:
                self.fail(f"an insert of {event} stands in shard {shard}")
            if event in held or event[2] < low:
                self.fail(f"an insert of {event} in shard {shard}, slot {slot} is answered by an earlier slot")

    def drawer(self, place, ballot, batch):
        """The inserts of a batch come from the joiners of one site, that of the server which proposed it first."""
        sites = {self.site_of_joiner(token[0]) for _, token in batch[1]}
        if sites - {ballot[2]}:
            self.fail(f"the batch that site {'AB'[ballot[2]]} drew in {place} has inserts of the other site's joiners")

    def inserts(self):
        """Each insert is for a click with a query, by a joiner in an epoch that it has kept, and a token is of one id."""
        drawn = set(self.store.accepted_inserts()) | {(record[1][0], record[3]) for _, record in self.store.outputs()}
        id_of = {}
        for event, token in drawn:
            if id_of.setdefault(token, event) != event:
                self.fail(f"token {token} is of {id_of[token]} and of {event}")
            if not self.is_join(event):
                self.fail(f"an insert of {event}, which is no click with a query")
            kept = self.epoch_of_joiner(token[0])
            if kept is None or not 1 <= token[1] <= kept:
                self.fail(f"token {token}, its joiner's epoch being {kept}")

    # ---- outputs

    def outputs(self):
        """A click is written once; each pair is a click with its own query, of this joiner, under a granted token that no other has."""
        ids, tokens = set(), set()
        for joiner, (_, click, query, token) in self.store.outputs():
            if click[0] in ids:
                self.fail(f"{click[0]} is written twice")
            if token in tokens:
                self.fail(f"two pairs have the token {token}")
            ids.add(click[0])
            tokens.add(token)
            if self.clicks.get(click[0]) != click or self.queries.get(query[0]) != query or click[1] != query[0]:
                self.fail(f"the pair of {click[0]} isn't the click with its own query")
            if token[0] != joiner or not self.registry.is_granted(click[0], token):
                self.fail(f"the pair of {click[0]} at joiner {joiner} under {token}, which isn't granted")

    # ---- dispatchers

    def dispatchers(self):
        """Offsets end lines, pending positions start lines, and each click that was passed is pending or settled."""
        ends, starts = model.boundaries(self.lines), {line.start: number for number, line in enumerate(self.lines)}
        for site in "AB":
            offset, records = self.store.last(f"offset-{site}"), self.store.records[f"retry-{site}"]
            pending = stores.pending_of(records)
            for record in self.store.records[f"offset-{site}"]:
                if record[1] not in ends:
                    self.fail(f"offset-{site} has {record[1]}, where no line ends")
            passed = sum(line.end <= offset for line in self.lines)
            for _, position in records:
                if starts.get(position, passed + 64) >= passed + 64:
                    self.fail(f"retry-{site} has {position}, which starts none of the lines up to the offset and the 64 behind it")
            for line in self.lines[:passed]:
                if line.start not in pending and not self.is_settled(line.record[0]):
                    self.fail(f"the line at {line.start} was passed at {site}, and is neither pending nor settled")

    def is_settled(self, event):
        """The id is registered, expired or written."""
        return event in self.pairs or self.registry.is_registered(event) or event[2] < self.registry.bound(event)


def wrong_with(store, queries, clicks):
    """What is wrong with a store, a list of texts; a sound store has none."""
    judge = Judge(store, queries, clicks)
    judge.files()
    if judge.wrong or store.topology is None:
        return judge.wrong
    for check in (judge.epochs, judge.notes, judge.ballots, judge.agreement, judge.places):
        check()
    if not judge.wrong:
        for check in (judge.batches, judge.inserts, judge.outputs, judge.dispatchers):
            check()
    return judge.wrong


def wrong_at_rest(store, queries, clicks, horizon, before):
    """What is wrong with a store after a join that ended with 0: `before` is the store that the join has opened."""
    known, wrong = model.records(queries), [f"{name} is left" for name in store.files if name.endswith(".doubt")]
    without = {line.start for line in clicks if line.record[1] not in known}
    for site in "AB":
        if store.last(f"offset-{site}") != model.log_end(clicks):
            wrong.append(f"offset-{site} is {store.last(f'offset-{site}')} and not the log's end")
        if set(stores.pending_of(store.records[f"retry-{site}"])) != without:
            wrong.append(f"retry-{site} doesn't keep exactly the clicks without a query")
    for shard, bound in enumerate(stores.Registry(store).bounds):
        earlier = before.accepted_bounds(shard)
        if bound < horizon or (bound != horizon and bound not in earlier):
            wrong.append(f"the bound of shard {shard} is {bound}, the horizon {horizon}, those of earlier runs {sorted(earlier)}")
    for name, records in store.records.items():
        old = len(before.records.get(name, []))
        if stores.kind_of(name) in ("server", "epoch") and len(records) != old + 1:
            wrong.append(f"{name} has {len(records)} starts, and had {old} before the join")
    return wrong


def wrong_growth(before, after):
    """What is wrong where records of a store aren't those of an earlier moment with others behind them."""
    return [f"{name} has lost or changed records" for name, records in before.records.items()
            if after.records.get(name, [])[:len(records)] != records]


def wrong_batches(before, after, most, horizon):
    """What is wrong with the batches that were accepted since an earlier moment, in a run with this greatest batch and horizon."""
    wrong = []
    for place, votes in after.votes.items():
        old = {batch for _, batch in before.votes.get(place, {})}
        for _, batch in votes:
            if batch not in old and (len(batch[1]) > most or batch[0] != horizon):
                wrong.append(f"in {place} a batch of {len(batch[1])} inserts and bound {batch[0]}; asked were {most} and {horizon}")
    return wrong


