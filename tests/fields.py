"""The fields and records of the journals as bytes, written from docs/FORMATS.md ("Fields", "The disks and their records").

A token is (joiner's node number, epoch, number), an insert (id, token), a batch (bound, (inserts)), a ballot (round, epoch, site), so
that ballots are ordered as triples are; a place is (shard, slot). A record is a tuple that begins with its kind.
"""
import model

TAGS = {1: "topology", 2: "epoch", 3: "offset", 4: "park", 5: "settle", 6: "pair", 7: "promised", 8: "accepted"}
LAST_ROUND = (1 << 48) - 1  # also the last slot
LAST_EPOCH = 4_294_967_294
NEW_VERSION = 2  # of the topology's record that a new store gets


# ---- putting

def number(value, size=8):
    """A number, high byte first."""
    return value.to_bytes(size, "big")


def put_id(event):
    """An id's 16 bytes."""
    return number(event[0], 4) + number(event[1], 4) + number(event[2])


def put_token(token):
    """A token's 14 bytes."""
    return number(token[0], 2) + number(token[1], 4) + number(token[2])


def put_insert(insert):
    """An insert's 30 bytes."""
    return put_id(insert[0]) + put_token(insert[1])


def put_ballot(ballot):
    """A ballot's 13 bytes."""
    return number(ballot[0]) + number(ballot[1], 4) + number(ballot[2], 1)


def put_place(place):
    """A place's 9 bytes."""
    return number(place[0], 1) + number(place[1])


def put_text(text):
    """A text behind its length."""
    return number(len(text), 1) + text


def put_query(query):
    """A query."""
    return put_id(query[0]) + put_text(query[1])


def put_click(click):
    """A click."""
    return put_id(click[0]) + put_id(click[1]) + put_text(click[2])


def put_batch(batch):
    """A batch."""
    return number(batch[0]) + number(len(batch[1]), 1) + b"".join(put_insert(insert) for insert in batch[1])


def put_topology(joiners, rows, version=None):
    """The topology's fields, its version in front, which is that of a new store where none is given."""
    return bytes([version or NEW_VERSION, joiners, len(rows)]) + b"".join(number(start) + number(count, 1) for start, count in rows)


PUT = {
    "topology": put_topology,
    "epoch": lambda epoch: number(epoch, 4),
    "offset": number,
    "park": number,
    "settle": number,
    "pair": lambda click, query, token: put_click(click) + put_query(query) + put_token(token),
    "promised": lambda place, ballot: put_place(place) + put_ballot(ballot),
    "accepted": lambda place, ballot, batch: put_place(place) + put_ballot(ballot) + put_batch(batch),
}
TAG_OF = {kind: tag for tag, kind in TAGS.items()}


def put_record(record):
    """A record's bytes: its tag and its fields."""
    return bytes([TAG_OF[record[0]]]) + PUT[record[0]](*record[1:])


# ---- taking

class BadField(Exception):
    """Bytes that spell no such field."""


class Reader:
    """Takes fields from bytes, one behind the other."""

    def __init__(self, data):
        self.data, self.at = data, 0

    def take(self, size):
        """The next bytes."""
        if self.at + size > len(self.data):
            raise BadField
        self.at += size
        return self.data[self.at - size:self.at]

    def number(self, size=8, below=None):
        """The next number, which has to lie below a limit where one is given."""
        value = int.from_bytes(self.take(size), "big")
        if below is not None and value >= below:
            raise BadField
        return value

    def id(self):
        """The next id."""
        return (self.number(4), self.number(4), self.number())

    def token(self):
        """The next token."""
        return (self.number(2), self.number(4), self.number())

    def ballot(self):
        """The next ballot."""
        return (self.number(below=LAST_ROUND + 1), self.number(4), self.number(1, below=2))

    def place(self):
        """The next place."""
        return (self.number(1, below=16), self.number(below=LAST_ROUND + 1))

    def text(self):
        """The next text."""
        text = self.take(self.number(1, below=model.LONGEST_TEXT + 1))
        if any(byte < 0x20 or byte > 0x7e for byte in text):
            raise BadField
        return text

    def query(self):
        """The next query."""
        return (self.id(), self.text())

    def click(self):
        """The next click."""
        return (self.id(), self.id(), self.text())

    def batch(self):
        """The next batch."""
        bound, count = self.number(), self.number(1, below=65)
        return (bound, tuple((self.id(), self.token()) for _ in range(count)))

    def topology(self):
        """The next topology: joiners, table, version."""
        version, joiners, count = self.number(1), self.number(1), self.number(1)
        if not 1 <= version <= 2 or not 1 <= joiners <= 4 or not 1 <= count <= 4:
            raise BadField
        rows = []
        for _ in range(count):
            start, shards = self.number(), self.number(1)
            if not model.may_follow(rows, start, shards):
                raise BadField
            rows.append((start, shards))
        return joiners, tuple(rows), version


TAKE = {
    "topology": lambda reader: reader.topology(),
    "epoch": lambda reader: (reader.number(4),),
    "offset": lambda reader: (reader.number(),),
    "park": lambda reader: (reader.number(),),
    "settle": lambda reader: (reader.number(),),
    "pair": lambda reader: (reader.click(), reader.query(), reader.token()),
    "promised": lambda reader: (reader.place(), reader.ballot()),
    "accepted": lambda reader: (reader.place(), reader.ballot(), reader.batch()),
}


def take_record(data):
    """The record that the bytes spell, or None."""
    kind = TAGS.get(data[0]) if data else None
    if kind is None:
        return None
    reader = Reader(data[1:])
    try:
        fields = TAKE[kind](reader)
    except BadField:
        return None
    return (kind, *fields) if reader.at == len(reader.data) else None
