"""A state directory as the pages describe it: its files, the gate rule, what the records keep, and the report of that.

Written from docs/FORMATS.md ("Journals", "The disks and their records", "The report") and docs/DEFINITIONS.md ("Looking back").
"""
import os

import fields
import model

OPEN = 0xa5
KINDS_OF_DISK = {
    "topology": ("topology",), "offset": ("offset",), "retry": ("park", "settle"), "server": ("epoch",),
    "replica": ("promised", "accepted"), "epoch": ("epoch",), "output": ("pair",),
}


def disk_names(joiners):
    """The files of a state directory in the order in which they are opened."""
    names = ["topology"]
    names += [f"{kind}-{site}" for kind in ("offset", "retry", "server") for site in "AB"]
    names += [f"replica-{number}" for number in range(3)]
    names += [f"{kind}-{site}{number}" for kind in ("epoch", "output") for site in "AB" for number in range(joiners)]
    return names


def kind_of(name):
    """The kind of a disk by its name."""
    return name.split("-")[0]


def joiner_number(joiners, site, number):
    """The node number of a joiner: behind two dispatchers, two servers and three replicas, those of A before those of B."""
    return 7 + "AB".index(site) * joiners + number


# ---- the gate rule

def framed(payloads):
    """The bytes of a journal with these payloads, whole and with nothing behind it."""
    return b"".join(bytes([OPEN]) + fields.number(len(one), 4) + one for one in payloads) + b"\0"


def gate_rule(data):
    """The payloads that count, each with the place at which its length begins; the place of damage or None; the place of the last gate."""
    found, at = [], 0
    if len(data) <= 1:
        return found, None, 0
    while data[at] == OPEN:
        size = int.from_bytes(data[at + 1:at + 5], "big")
        behind = at + 5 + size
        if len(data) < at + 5 or size > 65_535 or behind >= len(data):
            return found, at + 1, at
        found.append((at + 1, data[at + 5:behind]))
        at = behind
    return found, None, at


def in_order(kind, before, record):
    """Whether a record may stand behind the records before it on a disk of its kind."""
    if record is None or record[0] not in KINDS_OF_DISK[kind]:
        return False
    if kind == "topology":
        return not before or record[3] == 2 and record[1] == before[-1][1] and record[2][:-1] == before[-1][2]
    if kind == "offset":
        return record[1] > (before[-1][1] if before else 0)
    if kind in ("server", "epoch"):
        return (before[-1][1] if before else 0) < record[1] <= fields.LAST_EPOCH
    if kind == "retry":
        return (record[1] in pending_of(before)) == (record[0] == "settle")
    return True


def pending_of(records):
    """The positions parked and not settled, in the order of parking."""
    pending = {}
    for kind, position in records:
        if kind == "park":
            pending[position] = True
        else:
            del pending[position]
    return list(pending)


def read_disk(kind, data):
    """The records of a disk, and the place of its damage or None: gate damage is told before a record out of order."""
    payloads, damage, _ = gate_rule(data)
    records = []
    for at, payload in payloads:
        record = fields.take_record(payload)
        if not in_order(kind, records, record):
            return records, at if damage is None else damage
        records.append(record)
    return records, damage


# ---- a store

class Store:
    """What a state directory keeps."""

    def __init__(self, files, joiners=None):
        """From the bytes of its files by their names; `joiners` counts where no topology is kept."""
        self.files = files
        topology = read_disk("topology", files.get("topology", b""))[0]
        self.topology = topology[-1][1:3] if topology else None
        self.joiners = self.topology[0] if self.topology else joiners or 0
        self.records, self.damage = {}, None
        for name in disk_names(self.joiners):
            self.records[name], damage = read_disk(kind_of(name), files.get(name, b""))
            if damage is not None and self.damage is None:
                self.damage = (name, damage)
        self.votes = self.accepted_votes()

    def accepted_votes(self):
        """By place the ballots and batches that were accepted, in the order of replicas and notes, each with who accepted it."""
        votes = {}
        for replica in range(3):
            for record in self.records[f"replica-{replica}"]:
                if record[0] == "accepted":
                    votes.setdefault(record[1], {}).setdefault(record[2:], set()).add(replica)
        return votes

    def chosen(self, place):
        """The batch that two of three replicas accepted at one ballot, the one of the least ballot; or None."""
        most = [vote for vote, who in self.votes.get(place, {}).items() if len(who) >= 2]
        return min(most, key=lambda vote: vote[0])[1] if most else None

    def decided(self, shard):
        """The batches that are decided in a shard: those of its slots up to the first in which none is chosen."""
        batches = []
        while True:
            batch = self.chosen((shard, len(batches)))
            if batch is None:
                return batches
            batches.append(batch)

    def accepted_inserts(self):
        """Every insert of a batch that some replica accepted."""
        return {insert for votes in self.votes.values() for _, batch in votes for insert in batch[1]}

    def accepted_bounds(self, shard):
        """Every bound that some replica accepted in a shard."""
        return {batch[0] for place, votes in self.votes.items() if place[0] == shard for _, batch in votes}

    def outputs(self):
        """The records of all pairs, each with its joiner's node number."""
        for site in "AB":
            for number in range(self.joiners):
                for record in self.records[f"output-{site}{number}"]:
                    yield joiner_number(self.joiners, site, number), record

    def pairs(self):
        """The pair of each click id that is written: (click, query, token)."""
        found = {}
        for _, record in self.outputs():
            found.setdefault(record[1][0], record[1:])
        return found

    def last(self, name):
        """The last number that an epoch's or offset's disk keeps, 0 where none."""
        return self.records[name][-1][1] if self.records[name] else 0


class Registry:
    """What the decided batches of each shard say of ids."""

    def __init__(self, store):
        self.rows = store.topology[1]
        self.lists = [store.decided(shard) for shard in range(model.shard_count(self.rows))]
        self.bounds = [bound_of(batches) for batches in self.lists]
        self.first = [first_inserts(batches) for batches in self.lists]

    def bound(self, event):
        """The bound of an id's shard."""
        return self.bounds[model.shard_of(self.rows, event)]

    def is_registered(self, event):
        """Whether some token holds the id."""
        return event[2] >= self.bound(event) and event in self.first[model.shard_of(self.rows, event)]

    def is_granted(self, event, token):
        """Whether the token's insert of the id is decided and was granted."""
        shard = model.shard_of(self.rows, event)
        slot, first = self.first[shard].get(event, (0, None))
        return first == token and event[2] >= bound_of(self.lists[shard][:slot + 1])


def bound_of(batches):
    """The greatest bound of some batches, 0 where there are none."""
    return max([batch[0] for batch in batches], default=0)


def first_inserts(batches):
    """For each id of some batches the slot and the token of its earliest insert."""
    first = {}
    for slot, (_, inserts) in enumerate(batches):
        for event, token in inserts:
            first.setdefault(event, (slot, token))
    return first


def report_of_store(store, clicks):
    """The report of what a store keeps, for the first records of a click log; every click is U where no topology is kept."""
    if store.topology is None:
        return model.report([(event, "U", None) for event in clicks])
    registry, pairs, lines = Registry(store), store.pairs(), []
    for event in clicks:
        if event in pairs:
            lines.append((event, "J", model.pair_line(*pairs[event][:2])))
        elif registry.is_registered(event):
            lines.append((event, "M", None))
        else:
            lines.append((event, "X" if event[2] < registry.bound(event) else "U", None))
    return model.report(lines)


# ---- what keeps a store from being used

def refusal(store, clicks, asked=None):
    """The status and text with which a run or a verification refuses a store, or None.

    `clicks` are the click log's lines, `asked` the joiners and table that a run asks for. In this order: the first damaged disk, the
    joiners, the table, the places, the numbers that are the last of their kind.
    """
    if store.damage:
        return 7, "photon: damaged: {} at {}".format(*store.damage)
    if asked and store.topology and store.topology[0] != asked[0]:
        return 9, f"photon: topology: joiners {store.topology[0]} {asked[0]}"
    if asked and store.topology and store.topology[1] != asked[1]:
        return 9, f"photon: topology: table {model.table_text(store.topology[1])} {model.table_text(asked[1])}"
    misplaced = first_misplaced(store, clicks)
    if misplaced:
        return 9, "photon: topology: {} {} {}".format(*misplaced)
    last = first_last(store)
    return (10, "photon: limit: {} {}".format(*last)) if last else None


def reshard_refusal(store, start):
    """The status and text with which `reshard` refuses to put a row of this start behind a store's table, or None.

    In this order: the first damaged disk, the numbers that are the last of their kind, and what forbids the row.
    """
    if store.damage:
        return 7, "photon: damaged: {} at {}".format(*store.damage)
    last = first_last(store)
    if last:
        return 10, "photon: limit: {} {}".format(*last)
    why = why_no_row(store, start)
    return (11, f"photon: reshard: {why}") if why else None


def why_no_row(store, start):
    """What forbids a row of this start, or None. What any replica accepted counts, whether it is decided or not."""
    if store.topology is None:
        return "no topology"
    rows = store.topology[1]
    if len(rows) == 4:
        return "rows 4"
    if start <= rows[-1][0]:
        return f"start {rows[-1][0]} {start}"
    bound = bound_of([batch for votes in store.votes.values() for _, batch in votes])
    if bound > start:
        return f"bound {bound}"
    late = [event for event, _ in store.accepted_inserts() if event[2] >= start]
    return f"id {model.id_text(min(late)).decode()}" if late else None


def first_misplaced(store, clicks):
    """The first disk that keeps a place that isn't one of the click log, with that place and the next lower one that would do."""
    ends, starts = model.boundaries(clicks), {line.start for line in clicks}
    kept = [(f"offset-{site}", [store.last(f"offset-{site}")], ends) for site in "AB"]
    kept += [(f"retry-{site}", pending_of(store.records[f"retry-{site}"]), starts) for site in "AB"]
    for name, places, good in kept:
        for place in places:
            if place not in good:
                return name, place, max((one for one in good if one < place), default=0)
    return None


def first_last(store):
    """The first disk that keeps the last number of its kind, with that number."""
    for name in disk_names(store.joiners):
        kind = kind_of(name)
        if kind in ("server", "epoch") and store.last(name) == fields.LAST_EPOCH:
            return name, fields.LAST_EPOCH
        if kind == "replica" and any(fields.LAST_ROUND in (note[1][1], note[2][0]) for note in store.records[name]):
            return name, fields.LAST_ROUND
    return None


# ---- files

def read_files(folder):
    """The bytes of each file of a directory, by name; none where it isn't there. What is no file is passed over."""
    if not os.path.isdir(folder):
        return {}
    files = {}
    for name in os.listdir(folder):
        if not os.path.isfile(os.path.join(folder, name)):
            continue
        with open(os.path.join(folder, name), "rb") as file:
            files[name] = file.read()
    return files


def write_files(folder, files):
    """Writes files into a directory, which is made where it isn't there; other files of it that are missing are made empty."""
    os.makedirs(folder, exist_ok=True)
    kept = Store({**read_files(folder), **files}, 1).topology
    for name in disk_names(kept[0] if kept else 1):
        if not os.path.lexists(os.path.join(folder, name)):
            files = {name: b"", **files}
    for name, data in files.items():
        with open(os.path.join(folder, name), "wb") as file:
            file.write(data)


def files_of(records):
    """The bytes of the files that keep these records, by name."""
    return {name: framed([fields.put_record(record) for record in those]) for name, those in records.items()}
