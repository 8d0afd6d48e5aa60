"""State directories whose files the model writes: read, refused or reported by the program as the pages say."""
import fields
import logs
import model
import store as stores


class Inventor:
    """Invents the records of a whole state directory, which no run need have left."""

    def __init__(self, case):
        self.case, self.random = case, case.random
        maker = logs.Maker(case.random)
        maker.add_queries(8)
        maker.add_clicks(case.random.choice([0, 4, 20]))
        self.log = maker.clicks
        self.clicks = model.read_log(self.log, "clicks")[0]
        self.maker = maker
        self.joiners = self.random.randint(1, 4)
        self.rows = logs.random_table(self.random, maker.base)
        self.ids = [line.record[0] for line in self.clicks] + [maker.new_id(13) for _ in range(3)]
        self.bounds = [0, 0, maker.base, maker.times, maker.times // 2, logs.LATEST]

    def token(self):
        """Some token."""
        return (self.random.choice([7, 8, 14, 65_535]), self.random.choice([0, 1, 2, (1 << 32) - 1]), self.random.choice([0, 1, logs.LATEST]))

    def batch(self):
        """Some batch."""
        size = self.random.choice([0, 1, 2, 5, 64])
        return (self.random.choice(self.bounds), tuple((self.random.choice(self.ids), self.token()) for _ in range(size)))

    def ballot(self):
        """Some ballot, not of the last round."""
        return (self.random.choice([0, 1, 2, 3, fields.LAST_ROUND - 1]), self.random.choice([0, 1, 5, (1 << 32) - 1]), self.random.randrange(2))

    def notes(self):
        """Notes of three replicas: in each slot a few batches at a few ballots, each accepted by some replicas."""
        notes = [[], [], []]
        for shard in range(16):
            for slot in range(self.random.choice([0, 0, 1, 3])):
                votes = [(self.ballot(), self.batch()) for _ in range(self.random.choice([1, 1, 2]))]
                votes += [(self.ballot(), batch) for _, batch in votes[:1]] + [(ballot, self.batch()) for ballot, _ in votes[:1]]
                for vote in votes:
                    for replica in self.random.sample(range(3), self.random.choice([0, 1, 2, 2, 3])):
                        notes[replica].append(("accepted", (shard, slot), *vote))
                notes[self.random.randrange(3)].append(("promised", (shard, slot + self.random.randrange(2)), self.ballot()))
        for one in notes:
            self.random.shuffle(one)
        return notes

    def pairs(self):
        """Pairs of some clicks, each once, in some outputs."""
        outputs = {(site, number): [] for site in "AB" for number in range(self.joiners)}
        for event in self.random.sample(sorted(set(self.ids)), len(set(self.ids)) // 3):
            wanted = self.random.choice(self.ids)
            pair = ("pair", (event, wanted, self.maker.text()), (wanted, self.maker.text()), self.token())
            outputs[self.random.choice(list(outputs))].append(pair)
        return outputs

    def epochs(self):
        """Rising epochs, none the last."""
        return [("epoch", epoch) for epoch in sorted(self.random.sample([1, 2, 3, 9, 70_000, fields.LAST_EPOCH - 1], self.random.randrange(4)))]

    def offsets(self):
        """Rising offsets, the last of which ends a line."""
        end = self.random.choice(sorted(model.boundaries(self.clicks)))
        below = sorted(self.random.sample(range(1, end), min(2, end - 1))) if end else []
        return [("offset", place) for place in [*below, end] if place]

    def parked(self):
        """Positions parked and settled, those pending being lines."""
        starts = [line.start for line in self.clicks]
        records = [("park", place) for place in self.random.sample(starts, len(starts) // 3)]
        for _, place in self.random.sample(records, len(records) // 2):
            records.append(("settle", place))
        return records + [("park", 7 + (1 << 40)), ("settle", 7 + (1 << 40))] * self.random.randrange(3)

    def topologies(self):
        """The topology's records: the table at once, or then row by row; the first one is in either version."""
        first = self.random.randint(1, len(self.rows))
        counts = range(first, len(self.rows) + 1)
        return [("topology", self.joiners, self.rows[:count], self.random.choice([1, 2]) if count == first else 2) for count in counts]

    def records(self):
        """The records of all disks by name."""
        found = {"topology": self.topologies()}
        for site in "AB":
            found.update({f"offset-{site}": self.offsets(), f"retry-{site}": self.parked(), f"server-{site}": self.epochs()})
            found.update({f"epoch-{site}{number}": self.epochs() for number in range(self.joiners)})
        found.update({f"replica-{replica}": notes for replica, notes in enumerate(self.notes())})
        found.update({f"output-{site}{number}": those for (site, number), those in self.pairs().items()})
        return found

    def noise(self, data):
        """The file with another closed gate, and with bytes behind it."""
        if self.random.random() < 0.6:
            return data
        gate = bytes([self.random.choice([0, 1, 0x17, 0x5a, 0xa4, 0xff])])
        return data[:-1] + gate + bytes(self.random.choice([0, 0xa5, 0x5a, 255]) for _ in range(self.random.randrange(40)))

    def files(self, records):
        """The files of these records, some with bytes behind their last gate."""
        files = {name: self.noise(data) for name, data in stores.files_of(records).items()}
        for name, those in records.items():
            if not those and self.random.random() < 0.5:
                files[name] = self.random.choice([b"", b"\0", b"\xa5", b"Z", b"\0\xa5"])
            if not those and self.random.random() < 0.2:
                del files[name]
        return files


def verify(case, inventor, files):
    """Has the program verify the files, and compares what it tells and what it leaves."""
    case.write("clicks", inventor.log)
    stores.write_files(case.path("state"), files)
    store = stores.Store(files)
    words = ["verify", "--clicks", "clicks", "--state", "state"]
    refused = stores.refusal(store, inventor.clicks)
    if refused:
        case.expect(words, *refused)
    else:
        expected = stores.report_of_store(store, model.records(inventor.clicks))
        status = int(model.letters_of(expected)[1].split()[2] != "0")
        case.expect(words, status, "", expected)
    left = stores.Store(stores.read_files(case.path("state")))
    case.check((left.records, left.damage) == (store.records, store.damage), "the verification has changed records")


def invented(case):
    """Any records: a verification tells their report, whatever store they are of; without a topology each click is U."""
    inventor = Inventor(case)
    records = inventor.records()
    if case.random.random() < 0.1:
        records["topology"] = []
    verify(case, inventor, inventor.files(records))


# ---- damage

def torn(chance, data):
    """Bytes of a journal cut somewhere, or with one byte changed."""
    if chance.random() < 0.5:
        return data[:chance.randrange(len(data) + 1)]
    at = chance.randrange(len(data))
    return data[:at] + bytes([chance.choice([0, 1, 0x7f, 0xa5, 0xff, data[at] ^ 1])]) + data[at + 1:]


def odd_payloads(inventor):
    """Records that fit no disk, or no disk of another kind, or not behind others."""
    chance = inventor.random
    place, ballot, batch = (chance.randrange(16), 5), (2, 1, 1), (0, (((1, 2, 3), (7, 1, 0)),))
    put = fields.put_record
    accepted = put(("accepted", place, ballot, batch))
    pair = put(("pair", ((1, 2, 3), (4, 5, 6), b"a"), ((4, 5, 6), b"b"), (7, 1, 0)))
    records = [b"", b"\0", b"\x09", put(("epoch", 0)), put(("epoch", 1)), put(("epoch", (1 << 32) - 1)), put(("offset", 0)), put(("offset", 1)),
               put(("park", 0)), put(("settle", 3)), put(("topology", 1, ((0, 4),))), put(("topology", 4, ((0, 1), (9, 16)))),
               put(("promised", place, ballot)), accepted, pair, accepted + b"\0", pair[:-1], pair + b"\0"]
    records += [put(("topology", 1, ((0, 4),), version)) for version in (1, 3, 255)]
    records += [b"\x01\x02\x05" + put(("topology", 1, ((0, 4),)))[3:], put(("topology", inventor.joiners, (*inventor.rows[:3], (logs.LATEST, 1)), 1)),
                put(("topology", 1, ((1, 4),))), put(("topology", 1, ((0, 17),))), put(("topology", 1, ((0, 0),))),
                put(("topology", 1, ((0, 4), (0, 4)))), put(("topology", 0, ((0, 4),))), b"\x01\x01\x01\x00"]
    records += [put(("promised", (16, 5), ballot)), put(("promised", (1, 1 << 48), ballot)), put(("promised", place, (1 << 48, 1, 1))),
                put(("promised", place, (1, 1, 2))), accepted[:31] + b"\x41" + accepted[32:], accepted[:31] + b"\x02" + accepted[32:]]
    records += [pair.replace(b"\x01a", b"\x01\x1f"), pair.replace(b"\x01b", b"\x01\x7f"), pair.replace(b"\x01a", b"\xc9" + b"a" * 201)]
    return records


def damaged(case):
    """One or two files with cut or changed bytes, or an odd record: the first damage, misplaced place or last number is told."""
    inventor = Inventor(case)
    files = inventor.files(inventor.records())
    for name in case.random.sample(sorted(files), min(len(files), case.random.choice([1, 1, 2]))):
        data = files[name]
        if case.random.random() < 0.35 and data:
            files[name] = torn(case.random, data)
        else:
            payloads = [payload for _, payload in stores.gate_rule(data)[0]]
            payloads.insert(case.random.randint(0, len(payloads)), case.random.choice(odd_payloads(inventor)))
            files[name] = stores.framed(payloads)
    if any(is_twice_damaged(name, data) for name, data in files.items()):
        return  # the pages don't say which of two damages of one file is told
    verify(case, inventor, files)


def is_twice_damaged(name, data):
    """Whether a file has both a record that doesn't fit and an open gate without a record."""
    payloads, damage, _ = stores.gate_rule(data)
    return damage is not None and read_payloads(name, payloads) is not None


def read_payloads(name, payloads):
    """The place of the first payload that is no record of the disk, or None."""
    whole = stores.framed([payload for _, payload in payloads])
    return stores.read_disk(stores.kind_of(name), whole)[1]


# ---- places, limits, and what a run asks for

def misfits(case):
    """Places that aren't of the log, numbers that are the last, other joiners or another table: the first is told, of a join as well."""
    inventor = Inventor(case)
    records = inventor.records()
    site = case.random.choice("AB")
    for _ in range(case.random.choice([1, 1, 2])):
        spoil(case.random, records, site)
    files = stores.files_of(records)
    verify(case, inventor, files)
    case.write("queries", inventor.maker.queries)
    asked = case.random.choice([(inventor.joiners, inventor.rows)] * 3 + [(inventor.joiners % 4 + 1, ((0, 3),)), (inventor.joiners, ((0, 16), (5, 1)))])
    refused = stores.refusal(stores.Store(files), inventor.clicks, asked)
    if refused:
        words = ["join", "--queries", "queries", "--clicks", "clicks", "--state", "state", "--joiners", asked[0]]
        case.expect(words + ["--shards", model.table_text(asked[1])], *refused)


def spoil(chance, records, site):
    """Makes one thing of the records unfit for use."""
    last, kind = fields.LAST_EPOCH, chance.randrange(6)
    if kind == 0:
        records[f"offset-{site}"].append(("offset", (records[f"offset-{site}"] or [(0, 0)])[-1][1] + chance.choice([1, 2, 1 << 41])))
    elif kind == 1:
        records[f"retry-{site}"] += [("park", chance.choice([1, 5, 1 << 50]))]
    elif kind in (2, 3):
        name = chance.choice([f"server-{site}", f"epoch-{site}0"])
        records[name] = [*records[name], ("epoch", last)]
    else:
        ballot = (chance.choice([1, fields.LAST_ROUND]), 1, 0)
        place = (0, 0 if ballot[0] > 1 else fields.LAST_ROUND)
        note = ("promised", place, ballot) if kind == 4 else ("accepted", place, ballot, (0, ()))
        records[f"replica-{chance.randrange(3)}"].append(note)
