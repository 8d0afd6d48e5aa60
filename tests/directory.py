"""A state directory under test with its two logs: runs over it are compared with the model, and its files are judged after each."""
import os

import model
import sound
import store as stores

IN_FLIGHT = 32  # clicks in flight of a joiner


class Directory:
    """A state directory, the logs that it belongs to, and what is known of its runs so far."""

    def __init__(self, case, joiners=1, rows=model.DEFAULT_TABLE):
        self.case, self.joiners, self.rows = case, joiners, rows
        self.state, self.names = "state", ("queries", "clicks")
        self.joined, self.bound, self.stops = set(), 0, 0
        self.seen, self.asked = None, None  # what it kept when it was judged last; a table that a stopped `reshard` may have left

    def give(self, queries, clicks):
        """Writes both logs."""
        self.case.write(self.names[0], queries)
        self.case.write(self.names[1], clicks)
        self.queries = model.read_log(queries, "queries")[0]
        self.clicks = model.read_log(clicks, "clicks")[0]

    def rename(self):
        """Gives the logs and the directory other names."""
        count = len(self.case.steps)
        new = [f"queries.{count}", f"clicks.{count}", f"state.{count}"]
        for old, name in zip([*self.names, self.state], new):
            if os.path.exists(self.case.path(old)):
                os.rename(self.case.path(old), self.case.path(name))
        self.names, self.state = tuple(new[:2]), new[2]

    # ---- words

    def join_words(self, horizon=None, batch=None):
        """The words of a join, its options in any order."""
        options = [["--queries", self.names[0]], ["--clicks", self.names[1]], ["--state", self.state]]
        options += [["--horizon", horizon]] if horizon is not None else []
        options += [["--batch", batch]] if batch is not None else []
        if self.joiners != 1 or self.case.random.random() < 0.3:
            options.append(["--joiners", self.joiners])
        if self.rows != model.DEFAULT_TABLE or self.case.random.random() < 0.3:
            options.append(["--shards", model.table_text(self.rows)])
        self.case.random.shuffle(options)
        return ["join"] + [word for option in options for word in option]

    def verify_words(self):
        """The words of a verification."""
        return ["verify", "--clicks", self.names[1], "--state", self.state]

    def reshard_words(self, row):
        """The words of a `reshard` with this row, its options in any order."""
        options = [["--state", self.state], ["--add", f"{row[0]}:{row[1]}"]]
        self.case.random.shuffle(options)
        return ["reshard", *options[0], *options[1]]

    # ---- what the directory keeps

    def read(self):
        """What the files keep now."""
        return stores.Store(stores.read_files(self.case.path(self.state)), self.joiners)

    def judge(self, when):
        """What the files keep: a sound store, with all records that were there when it was judged before."""
        store = self.read()
        self.case.check_none(sound.wrong_with(store, self.queries, self.clicks), f"the store {when}")
        if store.topology:
            kept = self.asked if self.asked and store.topology[1] == self.asked else self.rows
            self.case.check(store.topology == (self.joiners, kept), f"the store {when} keeps the topology {store.topology}")
        if self.seen:
            self.case.check_none(sound.wrong_growth(self.seen, store), f"the store {when}")
        self.seen = store
        return store

    # ---- runs

    def join(self, horizon=None, batch=None):
        """A join to its end. Of a directory that no run was stopped over, its report is that of the two logs."""
        before = self.seen or self.read()
        ended = self.case.run(self.join_words(horizon, batch))
        self.case.check((ended.status, ended.err) == (0, ""), f"the join ended with {ended.status}, {ended.err!r}")
        self.rested(ended.out, before, horizon or 0, batch or 64)

    def rested(self, out, before, horizon, batch):
        """Compares what a join that ended with 0 has printed and left."""
        store = self.judge("after a join")
        self.case.check_none(sound.wrong_at_rest(store, self.queries, self.clicks, horizon, before), "the store at rest")
        self.case.check_none(sound.wrong_batches(before, store, batch, horizon), "the batches of a run")
        clicks = model.records(self.clicks)
        self.case.check_same(out, stores.report_of_store(store, clicks), "the report, by what the journals keep")
        if self.stops == 0:
            self.bound = max(self.bound, horizon)
            expected = model.report_of_logs(model.records(self.queries), clicks, self.bound, self.joined)
            self.case.check_same(out, expected, "the report, by the two logs")
        else:
            self.compare_letters(out, before, horizon, store)
        self.joined = set(store.pairs())

    def compare_letters(self, out, before, horizon, store):
        """After stops: each click's letter is that of the two logs, or M where an accepted insert held the id before this run."""
        queries, registry = model.records(self.queries), stores.Registry(store)
        letters, held = model.letters_of(out)[0], {event for event, _ in before.accepted_inserts()}
        written, missing = before.pairs(), 0
        for event, click in model.records(self.clicks).items():
            letter, bound = letters.get(event), registry.bound(event)
            fits = {model.class_of_logs(click, queries, bound, written)}
            if click[1] in queries and event not in written and event in held:
                fits.add("M" if event[2] >= bound else "X")
            if click[1] in queries and event[2] >= horizon and event not in written:
                fits.add("J")
            self.case.check(letter in fits, f"{model.id_text(event)} is {letter}, and has to be one of {sorted(fits)}")
            missing += letter == "M"
        most = self.stops * 2 * self.joiners * IN_FLIGHT
        self.case.check(missing <= most, f"{missing} clicks are missing after {self.stops} stops")

    def verify(self):
        """A verification: the report of what the journals keep, 1 where a click is missing; no record is lost or added. It makes no directory."""
        if not os.path.isdir(self.case.path(self.state)):
            self.case.expect(self.verify_words(), 6, "photon: store: directory")
            self.case.check(not os.path.exists(self.case.path(self.state)), "a verification has made a directory")
            return
        store = self.read()
        expected = stores.report_of_store(store, model.records(self.clicks))
        missing = model.letters_of(expected)[1].split()[2] != "0"
        self.case.expect(self.verify_words(), int(missing), "", expected)
        after = self.judge("after a verification")
        self.case.check(after.records == store.records, "a verification has changed records")

    def reshard(self, row):
        """A row behind the table, or its refusal, by the model; whether it was taken. No other record changes, and the report stays the same."""
        before = self.seen or self.read()
        refused = stores.reshard_refusal(before, row[0]) if os.path.isdir(self.case.path(self.state)) else (6, "photon: store: directory")
        out = b"" if refused else model.table_text((*self.rows, row)).encode() + b"\n"
        self.case.expect(self.reshard_words(row), *(refused or (0, "")), out)
        self.resharded(before, None if refused else row)
        return not refused

    def resharded(self, before, row):
        """What a `reshard` has left that ended with 0 or 5, which adds this row, or that was refused."""
        if row:
            self.rows = (*self.rows, row)
        after = self.judge("after a reshard")
        added = [("topology", self.joiners, self.rows, 2)] if row else []
        expected = {**before.records, "topology": before.records["topology"] + added}
        self.case.check(after.records == expected, f"a reshard has left {after.records['topology']}, or changed other records")
        self.same_report(before, after)

    def same_report(self, before, after):
        """Two stores have the same report."""
        clicks = model.records(self.clicks)
        self.case.check_same(stores.report_of_store(after, clicks), stores.report_of_store(before, clicks), "the report after a reshard")

    def copy_files(self):
        """The bytes of all files."""
        return stores.read_files(self.case.path(self.state))
