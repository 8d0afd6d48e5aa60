"""Random logs, right and wrong, and random tables."""
import model

WORDS = b"shoes boots lamp tea red blue bike desk cat food rain coat".split()
LATEST = (1 << 64) - 1


class Maker:
    """Makes two logs that go together, and makes them longer."""

    def __init__(self, chance, odd=True):
        """`chance` gives the random numbers; `odd` asks for rare ids and texts too."""
        self.random, self.odd = chance, odd
        self.queries, self.clicks = b"", b""
        self.query_ids, self.seen = [], set()
        self.later = []  # ids of queries that clicks have, and that may come into the log later
        self.base = chance.choice([0, 1000, 1_719_000_000_000_000]) if odd else 1_719_000_000_000_000
        self.times = self.base

    def text(self):
        """A text of 0 to 200 printable bytes."""
        if self.odd and self.random.random() < 0.08:
            size = self.random.choice([0, 1, 199, 200])
            return bytes(self.random.randrange(0x20, 0x7f) for _ in range(size))
        return b" ".join(self.random.choice(WORDS) for _ in range(self.random.randint(1, 4)))

    def new_id(self, first):
        """An id that wasn't given yet; `first` is the address's first part."""
        while True:
            self.times += self.random.randint(0, 50)
            event = (first << 24 | self.random.randrange(3), self.random.randrange(4), self.times)
            if self.odd and self.random.random() < 0.06:
                event = (self.random.choice([0, event[0], (1 << 32) - 1]), self.random.choice([0, event[1], (1 << 32) - 1]),
                         self.random.choice([0, max(0, event[2] - 40), LATEST, LATEST - self.random.randrange(9)]))
            if event not in self.seen:
                self.seen.add(event)
                return event

    def add_queries(self, count):
        """Adds lines to the query log."""
        for _ in range(count):
            self.query_ids.append(self.new_id(10))
            self.queries += self.again(self.queries, model.query_line((self.query_ids[-1], self.text())))

    def again(self, log, line):
        """The line, now and then with an earlier line of the log behind it."""
        if log and self.random.random() < 0.06:
            return line + self.random.choice(log.split(b"\n")[:-1]) + b"\n"
        return line

    def add_clicks(self, count, missing=0.15):
        """Adds lines to the click log; some have a query that isn't in the log, and may come later."""
        for _ in range(count):
            wanted = self.random.choice(self.query_ids) if self.query_ids else None
            if wanted is None or self.random.random() < missing:
                wanted = self.new_id(11)
                if self.random.random() < 0.5:
                    self.later.append(wanted)
            self.clicks += self.again(self.clicks, model.click_line((self.new_id(12), wanted, self.text())))

    def add_late_queries(self):
        """Adds some of the queries that clicks waited for."""
        self.random.shuffle(self.later)
        for _ in range(self.random.randint(0, len(self.later))):
            self.query_ids.append(self.later.pop())
            self.queries += model.query_line((self.query_ids[-1], self.text()))

    def logs(self):
        """Both logs, now and then with an unfinished line."""
        return tuple(log + self.unfinished() for log in (self.queries, self.clicks))

    def unfinished(self):
        """Bytes without a line feed: nothing, the beginning of a line, or any bytes."""
        kind = self.random.random()
        if kind < 0.6:
            return b""
        if kind < 0.8:
            return model.click_line(((1, 2, 3), (4, 5, 6), b"not yet"))[:self.random.randint(1, 25)]
        return bytes(self.random.choice(b"\0\r abc\xff") for _ in range(self.random.choice([1, 5, 296, 297, 400])))

    def horizon(self):
        """A horizon: mostly 0, or about the time of a click."""
        if self.random.random() < 0.5:
            return 0
        return max(0, min(LATEST, self.random.randint(self.base - 5, self.times + 5)))


def random_table(chance, base):
    """A table of one to four rows about a time."""
    if chance.random() < 0.3:
        return model.DEFAULT_TABLE
    starts = sorted({0} | {chance.choice([base + chance.randrange(2000), chance.randrange(1, LATEST)]) for _ in range(chance.randrange(4))})
    return tuple((start, chance.randint(1, 16)) for start in starts[:4])


# ---- wrong logs

def long_line(line):
    """A line of over 296 bytes."""
    return line + b"x" * (297 - len(line))


def bad_id(event):
    """Texts that are no id's, close to one."""
    text = model.id_text(event)
    a, rest = text.split(b".", 1)
    front, process, timestamp = text.split(b":")
    return [b"", b"x", b"0" + text, b"+" + text, b"256." + rest, a + b"." + rest + b":", front + b":" + process, front + b":4294967296:1",
            front + b":" + process + b":18446744073709551616", front + b":01:" + timestamp, front + b":" + process + b":-1",
            front + b"." + b"1:" + process + b":" + timestamp, a + b"," + rest, text.replace(b":", b";", 1), text + b"\t",
            b"1.2.3:" + process + b":" + timestamp, front + b"::" + timestamp, front + b":" + process + b":" + b"9" * 30]


def spoil(chance, line, kind, earlier):
    """A line made wrong in one way: no space, no id, a text too long or with a bad byte, a conflict."""
    parts = line.split(b" ", 1 if kind == "queries" else 2)
    event = model.read_id(parts[0])
    ways = [
        lambda: parts[0], lambda: b"", lambda: long_line(line), lambda: line + b"\r",
        lambda: b" ".join([chance.choice(bad_id(event)), *parts[1:]]),
        lambda: b" ".join(parts[:-1] + [b"y" * 201]), lambda: b" ".join(parts[:-1] + [b"y" * chance.randint(201, 290)]),
        lambda: b" ".join(parts[:-1] + [parts[-1][:100] + bytes([chance.choice([0, 9, 0x1f, 0x7f, 0x80, 0xff])])]),
        lambda: b" ".join(parts[:1] + [b"", *parts[1:]]), lambda: b" " + line,
    ]
    if kind == "clicks":
        ways += [lambda: b" ".join([parts[0], chance.choice(bad_id(event)), parts[2]]), lambda: b" ".join(parts[:2])]
    if earlier:
        old = chance.choice(earlier)
        ways += [lambda: old + b"x", lambda: old[:-1] if old[-1:] != b" " else old + b" "] * 2
    return chance.choice(ways)()


def wrong_log(chance, log, kind):
    """A log of which one or two lines are spoilt, mostly."""
    lines = log.split(b"\n")[:-1]
    for at in chance.sample(range(len(lines)), min(len(lines), chance.choice([1, 1, 2]))):
        lines[at] = spoil(chance, lines[at], kind, lines[:at])
    return b"".join(line + b"\n" for line in lines)
