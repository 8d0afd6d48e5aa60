#!/usr/bin/env python3
"""The rows of scripts that are made: what the parts have to answer by the model of the pages, never by the program.

usage: tests/rows.py           checks that tests/scripts/*/stdin have these rows, and that stdout counts all rows that they play
       tests/rows.py --write   makes the rows anew, and the counts
       tests/rows.py NAME      prints the rows of one place, as `registries`

A place in a script begins with the line `# made by tests/rows.py: NAME` and ends with `# made: end`.
"""
import itertools
import math
import random
import sys
from pathlib import Path

sys.dont_write_bytecode = True
import fields
import journals
import logs
import model
import store as stores

TOP = Path(__file__).resolve().parent.parent
BEGIN, END = "# made by tests/rows.py: ", "# made: end"
BACK = "and back, each front bad at its end"


def hexed(data):
    """Bytes as a word of a row."""
    return data.hex() or "-"


def dotted(numbers):
    """A token or a ballot."""
    return ".".join(map(str, numbers))


def id_word(event):
    """An id."""
    return model.id_text(event).decode()


def batch_word(batch):
    """A batch."""
    return str(batch[0]) + "".join(f";{id_word(event)}={dotted(token)}" for event, token in batch[1])


def shown(data):
    """A row's text for a line of a log, or None where the script can't have it so."""
    text = data.decode("latin-1")
    return text if all(" " <= letter < "\x7f" for letter in text) and " => " not in text else None


# ---- ids, lines and logs

def some_id(chance):
    """Some id, often with numbers at the end of their ranges."""
    ends = [0, 1, 9, 10, 255, 256, (1 << 31), (1 << 32) - 1]
    return (chance.choice([*ends, chance.randrange(1 << 32)]), chance.choice([*ends, chance.randrange(1 << 32)]),
            chance.choice([*ends, (1 << 63), logs.LATEST, chance.randrange(1 << 64)]))


def spoilt(chance, text):
    """The text with a byte more, less, or another."""
    at = chance.randrange(len(text) + 1)
    return text[:at] + chance.choice(["", *"0123456789.:+- a/"]) + text[at + chance.randrange(2):]


def ids(chance):
    """Ids, right and wrong."""
    for _ in range(700):
        text = id_word(some_id(chance))
        for _ in range(chance.choice([0, 0, 1, 1, 2])):
            text = spoilt(chance, text)
        event = model.read_id(text.encode())
        told = f"{event[0]} {event[1]} {event[2]}, {fields.put_id(event).hex()}, and back" if event else "no id"
        yield f"{text} => {told}"


def order(chance):
    """Ids are ordered as triples are."""
    for _ in range(200):
        one = some_id(chance)
        other = chance.choice([one, some_id(chance), (one[0], one[1], chance.randrange(1 << 64)), (one[0], chance.randrange(9), one[2])])
        yield f"{id_word(one)} {id_word(other)} => {'Less' if one < other else 'Greater' if one > other else 'Equal'}"


def tables(chance):
    """Tables, right and wrong, and shards under them."""
    for _ in range(400):
        rows = logs.random_table(chance, chance.choice([0, 1000]))
        text = model.table_text(rows)
        for _ in range(chance.choice([0, 0, 1, 2])):
            text = spoilt(chance, text + chance.choice(["", ",", ",9:4"]))
        rows, bad = model.read_table(text.encode())
        told = f"bad row {bad}" if rows is None else f"{model.shard_count(rows)} shards:" + "".join(f" {n} from {at}" for at, n in rows)
        yield f"table {text} => {told}"
        if rows:
            event = some_id(chance)
            yield f"shard {text} {id_word(event)} => {model.shard_of(rows, event)}"


def log_lines(chance):
    """Lines of logs, right and wrong."""
    maker = logs.Maker(chance)
    maker.add_queries(150)
    maker.add_clicks(150)
    for kind, log in (("query", maker.queries), ("click", maker.clicks)):
        many = {"query": "queries", "click": "clicks"}[kind]
        for line in log.split(b"\n")[:-1]:
            for line in (line, logs.spoil(chance, line, many, [])):
                why, record = model.line_why(line, many, 0)
                if shown(line) is not None:
                    yield f"{kind} {shown(line)} => {why or f'{len(record[-1])} bytes of text, and back'}"


def whole_logs(chance):
    """Whole logs, right and wrong, with their ends."""
    for _ in range(160):
        maker = logs.Maker(chance)
        maker.add_queries(chance.randint(0, 5))
        maker.add_clicks(chance.randint(0, 5))
        for kind, log in zip(("queries", "clicks"), maker.logs()):
            if chance.random() < 0.6:
                log = logs.wrong_log(chance, log, kind)
            yield from gathered(log)
            lines, why = model.read_log(log, kind)
            yield f"{kind} => {why or f'{len(lines)} lines'}"


def gathered(data):
    """The lines that gather these bytes."""
    *lines, rest = data.split(b"\n")
    for line in lines:
        yield f"| {shown(line)}" if shown(line) is not None else f"& {(line + bytes([10])).hex()}"
    if rest:
        yield f"+ {shown(rest)}" if shown(rest) is not None else f"& {rest.hex()}"


def seen(kind):
    """Lines as they stream by, some of them again."""
    def rows(chance):
        maker = logs.Maker(chance)
        maker.add_queries(60)
        maker.add_clicks(60)
        lines = (maker.queries if kind == "queries" else maker.clicks).split(b"\n")[:-1]
        first, place = {}, 0
        for _ in range(200):
            line = chance.choice(lines)
            line = logs.spoil(chance, line, kind, []) if chance.random() < 0.2 else line
            why, record = model.line_why(line, kind, 0)
            if shown(line) is None:
                continue
            told = why or (f"again, first at {first[record[0]]}" if record[0] in first else "new")
            if not why:
                first.setdefault(record[0], place)
            yield f"{place} {shown(line)} => {told}"
            place += len(line) + 1
    return rows


def tails(chance):
    """The lines of logs, by reads of any size, from any place."""
    for _ in range(60):
        log = b"".join(b"a" * chance.choice([0, 1, 7, 295, 296, 297, 300, 4095, 4096, 5000]) + b"\n" for _ in range(chance.randint(0, 5)))
        log += b"b" * chance.choice([0, 1, 400])
        for line in log.split(b"\n")[:-1]:
            yield f"* {len(line)} a"
            yield "| "
        yield f"* {log.count(b'b')} b"
        place = chance.choice([0, 0, chance.randint(0, len(log))])
        yield f"open {place} {chance.choice([1, 5, 296, 297, 4095, 4096, 100000])} => at {place}"
        while (feed := log.find(b"\n", place)) >= 0:
            size = feed - place
            yield f"next => {place} to {feed + 1}, {'long' if size > model.LONGEST_LINE else f'{size} bytes'}"
            place = feed + 1
        yield f"next => end at {place}"


# ---- event stores

PROCESSES = [(0x0a000001, 7), (0x0a000001, 8), (0x0a000002, 7)]


def random_lines(chance, count):
    """So many lines of three processes, of which most rise; of each its id, or None where it is refused, and its text."""
    lasts, lines = [1000, 1000, 1000], []
    for number in range(count):
        at = chance.randrange(3)
        micros = chance.choice([lasts[at] + chance.randint(1, 3)] * 5 + [lasts[at], chance.randint(999, lasts[at]), chance.randint(999, lasts[at])])
        event = (*PROCESSES[at], micros)
        form = chance.choice(["record"] * 12 + ["no space", "bad id", "long text", "long line"])
        word = id_word(event)
        text = {"record": f"{word} {number}", "no space": word, "bad id": f"0{word} {number}", "long text": f"{word} {number:0>201}",
                "long line": f"{word} {number:0>300}"}[form]
        lines.append((event if form == "record" else None, text))
        if form == "record":
            lasts[at] = max(lasts[at], micros)
    return lines


def entries(ids):
    """The entries of an index: one for each 16 lines of a process in order, and one for each id of the others."""
    above, count, strays = {}, {}, set()
    for event in ids:
        if event is None:
            continue
        process = event[:2]
        if event[2] > above.get(process, -1):
            above[process] = event[2]
            count[process] = count.get(process, 0) + 1
        else:
            strays.add(event)
    return len(strays) + sum(-(-one // 16) for one in count.values())


def lookups(ids, process, first, count):
    """What so many look-ups answer: each answer that isn't the one before it, behind its microseconds."""
    told, last = [], None
    for micros in range(first, first + count):
        event = (*process, micros)
        answer = str(ids.index(event)) if event in ids else f"not in {len(ids)}"
        if answer != last:
            told.append(f"{micros} {answer}")
        last = answer
    return " | ".join(told)


def event_stores(chance):
    """Random logs, beside the plain list of their lines."""
    for cache, most in [(1, 100000), (8, 4096), (3, 1)]:
        lines = random_lines(chance, 180)
        for _, text in lines:
            yield f"| {text}"
        yield "+ 10.0.0.1:7:5000 a"
        yield f"open {cache} {most} => open"
        for end in range(12, 181, 12):
            yield "advance 12 => Ok(Line)"
            ids = [event for event, _ in lines[:end]]
            yield f"entries => {entries(ids)}"
            for process in [*PROCESSES, (0x0a000002, 8)]:
                yield f"lookups {id_word((*process, 998))} 102 => {lookups(ids, process, 998, 102)}"
        yield "advance 1 => Ok(End)"


def faulty_stores(chance):
    """One log of forty lines, of which one read fails: what is tried once more is answered as if nothing had been."""
    lines = random_lines(chance, 40)
    for _, text in lines:
        yield f"| {text}"
    for failing in range(24):
        yield f"open 1 100000 {failing} => open"
        for end in range(1, 41):
            yield "read on => Ok(Line)"
            event = lines[end // 2][0]
            if event:
                ids = [event for event, _ in lines[:end]]
                yield f"find {id_word(event)} => {ids.index(event) if event in ids else f'not in {end}'}"
        yield "close => 1 faults"


# ---- plans and reports

KINDS = ["dispatcher", "joiner", "server", "replica"]


def fate_of(rules, sender, receiver, ordinal):
    """The fate of a packet: that of the first rule that fits."""
    for rule in rules:
        steps, rest = divmod(ordinal - rule["first"], rule.get("every", 1))
        if rule["from"] in ("any", sender) and rule["to"] in ("any", receiver) and rest == 0 and 0 <= steps < rule["count"]:
            by = f"({rule.get('by', 0)})"
            return {"drop": "Drop", "late": "Late" + by, "twice": "Twice" + by}[rule["fate"]]
    return "Deliver"


def random_rules(chance):
    """Some rules."""
    rules = []
    for _ in range(chance.randint(0, 5)):
        rule = {"from": chance.choice(["any", *KINDS]), "to": chance.choice(["any", *KINDS]), "first": chance.choice([0, 1, 5, logs.LATEST]),
                "count": chance.choice([0, 1, 3, 1000]), "fate": chance.choice(["drop", "late", "twice"])}
        if chance.random() < 0.5:
            rule["every"] = chance.choice([1, 2, 7])
        if chance.random() < 0.5:
            rule["by"] = chance.choice([0, 1, 1000])
        rules.append(rule)
    return rules


def plan_text(rules):
    """A plan with these rules alone."""
    return '{"rules":[' + ",".join(str(rule).replace("'", '"').replace(" ", "") for rule in rules) + "]}"


def fates(chance):
    """Fates under random rules."""
    for _ in range(50):
        rules = random_rules(chance)
        yield f"plan {plan_text(rules)} => [], dead None"
        for _ in range(12):
            sender, receiver, ordinal = chance.choice(KINDS), chance.choice(KINDS), chance.choice([*range(12), 1000, logs.LATEST])
            yield f"fate {sender} {receiver} {ordinal} => {fate_of(rules, sender, receiver, ordinal)}"


def reports(chance):
    """Reports into sinks with little room, with writes that fail."""
    ids = sorted({(0x0a000002, 9, chance.randrange(10 ** chance.randint(1, 6))) for _ in range(14)})
    lines = []
    for number, event in enumerate(ids):
        letter = chance.choice("JMXU")
        wanted = (0x0a000001, 7, chance.randrange(99))
        click, query = (event, wanted, chance.choice(logs.WORDS)), (wanted, chance.choice(logs.WORDS))
        pair = model.pair_line(click, query)
        words = f"{(model.click_line(click)[:-1]).decode()} / {(model.query_line(query)[:-1]).decode()}" if letter == "J" else id_word(event)
        yield f"{letter} {words} => line {number + 1}"
        lines.append((event, letter, pair if letter == "J" else None))
    text = model.report(lines)
    for _ in range(120):
        room, most = chance.randint(0, len(text) + 9), chance.choice([1, 7, 100, 1000])
        failing = chance.choice([chance.randint(0, 20), 10 ** 6])
        taken, writes, fault = b"", 0, False
        while len(taken) < len(text) and not fault:
            size = min(most, len(text) - len(taken), room - len(taken))
            fault = writes == failing or size == 0
            taken += b"" if fault else text[len(taken):len(taken) + size]
            writes += 1
        told = f"{len(taken)} bytes" if len(taken) > 400 else '"' + taken.decode().replace("\t", "\\t").replace("\n", "\\n") + '"'
        end = "Err(WriteFault)" if fault else "Ok(())"
        yield f"report {room} {most} {failing} => {end}, {writes} writes, {int(fault)} faults, {told}"


# ---- journals

def all_files(_):
    """Every file of at most seven bytes, each 00, 01 or a5."""
    for size in range(8):
        for data in itertools.product((0, 1, 0xa5), repeat=size):
            found, damage, _ = stores.gate_rule(bytes(data))
            told = "records" + "".join(" " + payload.hex() for _, payload in found)
            yield f"open {hexed(bytes(data))} => {told if damage is None else damaged(damage)}"


def damaged(at):
    """What is told of a file that is damaged at a place."""
    return f"Damaged {{ at: {at} }}"


def disk_files(kind, told):
    """Files of a kind of disk: records in order, or out of it, of other kinds, with bytes changed."""
    def rows(chance):
        for _ in range(150):
            records = []
            for _ in range(chance.randint(0, 5)):
                records.append(random_record(chance, kind, records))
            data = bytearray(stores.framed([fields.put_record(record) for record in records]))
            for _ in range(chance.choice([0, 0, 0, 1, 2])):
                data[chance.randrange(len(data))] = chance.choice([0, 1, 2, 3, 0xa5, 0xff])
            data = bytes(data[:chance.choice([len(data)] * 4 + [chance.randint(0, len(data))])])
            records, damage = stores.read_disk(kind, data)
            damage = stores.gate_rule(data)[1] or damage
            yield f"open {hexed(data)} => {told(records) if damage is None else damaged(damage)}"
    return rows


def random_record(chance, kind, before):
    """A record that mostly may stand behind those before it."""
    last = before[-1][1] if before and isinstance(before[-1][1], int) else 0
    if kind == "epoch":
        return ("epoch", min((1 << 32) - 1, last + chance.choice([0, 1, 1, 1, 1, 9, 10 ** 9])))
    if kind == "offset":
        return ("offset", min(logs.LATEST, last + chance.choice([0, 1, 36, 36, 36, 10 ** 18])))
    if kind == "retry":
        return (chance.choice(["park", "park", "settle"]), chance.choice([0, 36, 72]))
    if kind == "output":
        query = (0x0a000001, 7, chance.randrange(99))
        return ("pair", ((0x0a000002, 9, chance.randrange(99)), query, chance.choice(logs.WORDS)), (query, chance.choice([b"", b"~ ~"])), (7, 1, chance.randrange(9)))
    if before and chance.random() < 0.8:
        start = min(logs.LATEST, before[-1][2][-1][0] + chance.choice([0, 1, 1000]))
        return ("topology", before[-1][1], (*before[-1][2], (start, chance.randint(1, 16))), chance.choice([1, 2, 2, 2]))
    return ("topology", chance.randint(1, 4), logs.random_table(chance, 1000), chance.choice([1, 2]))


def told_topology(records):
    """The topology of a disk."""
    if not records:
        return "none"
    rows = ", ".join(f"ShardRow {{ start: {start}, count: {count} }}" for start, count in records[-1][2])
    return f"{records[-1][1]} joiners, [{rows}]"


def told_pair(pair):
    """A pair."""
    click, query, token = pair
    return f"{dotted(token)} {model.click_line(click)[:-1].decode()} / {model.query_line(query)[:-1].decode()}"


def last_of(records):
    """The last number of a disk's records."""
    return records[-1][1] if records else 0


# ---- fields and packets

def token_of(chance):
    """Some token."""
    return (chance.choice([7, 65_535]), chance.choice([0, 1, (1 << 32) - 1]), chance.choice([0, 5, logs.LATEST]))


def batch_of(chance):
    """Some batch."""
    return (chance.choice([0, 5, logs.LATEST]), [(some_id(chance), token_of(chance)) for _ in range(chance.choice([0, 0, 1, 3]))])


def ballot_of(chance):
    """Some ballot."""
    return (chance.choice([0, 1, fields.LAST_ROUND]), chance.choice([0, 1, (1 << 32) - 1]), chance.randrange(2))


def parts_of(chance):
    """A function for each kind of field that gives the bytes of some value."""
    number = lambda: fields.number(chance.choice([0, 9, logs.LATEST]))
    text = lambda: bytes(chance.randrange(0x20, 0x7f) for _ in range(chance.choice([0, 1, 5, 200])))
    event = lambda: fields.put_id(some_id(chance))
    token = lambda: fields.put_token(token_of(chance))
    ballot = lambda: fields.put_ballot(ballot_of(chance))
    batch = lambda: fields.put_batch(batch_of(chance))
    return {
        "number": number, "id": event, "token": token, "insert": lambda: event() + token(), "ballot": ballot, "batch": batch,
        "place": lambda: fields.put_place((chance.randrange(16), chance.choice([0, 3, fields.LAST_ROUND]))),
        "prior": lambda: chance.choice([b"\0", b"\1" + ballot() + batch()]),
        "answer": lambda: chance.choice([b"\0", b"\1" + token(), b"\2" + number()]),
        "text": lambda: fields.put_text(text()), "query": lambda: event() + fields.put_text(text()),
        "click": lambda: event() + event() + fields.put_text(text()),
        "outcome": lambda: chance.choice([b"\0", b"\1" + token(), b"\2" + number(), b"\3" + number(), b"\4"]),
    }


def some_fields(chance):
    """Values of each kind of field, with bytes behind them."""
    parts = parts_of(chance)
    del parts["outcome"]
    for kind, part in parts.items():
        for _ in range(12):
            data, rest = part(), bytes(chance.randrange(256) for _ in range(chance.randrange(3)))
            yield f"{kind} {(data + rest).hex()} => {len(data)} bytes of {len(data) + len(rest)}, {BACK}"


# The tag of each packet, and its fields.
PACKETS = {
    0x11: ["number", "click"], 0x12: ["number", "outcome"], 0x13: ["insert"], 0x14: ["insert", "answer"], 0x15: ["place", "ballot"],
    0x16: ["place", "ballot", "prior"], 0x17: ["place", "ballot", "ballot"], 0x18: ["place", "ballot", "batch"], 0x19: ["place", "ballot"],
    0x1a: ["place", "batch"],
}


def packets(chance):
    """Packets of each kind, and the same with a byte too much."""
    parts = parts_of(chance)
    for tag, kinds in PACKETS.items():
        for _ in range(12):
            data = bytes([tag]) + b"".join(parts[kind]() for kind in kinds)
            yield f"{data.hex()} => {len(data)} bytes, {BACK}"
            yield f"{data.hex()}{chance.randrange(256):02x} => bad at {len(data)}"


# ---- registries and Paxos

class PlainRegistry:
    """A registry by the plain rule."""

    def __init__(self):
        self.bound, self.held = 0, {}

    def apply(self, batch):
        """The answers to a batch."""
        self.bound = max(self.bound, batch[0])
        self.held = {event: token for event, token in self.held.items() if event[2] >= self.bound}
        for event, token in batch[1]:
            if event[2] >= self.bound:
                self.held.setdefault(event, token)
        return [self.replay(*insert) for insert in batch[1]]

    def replay(self, event, token):
        """What an insert is answered."""
        if event[2] < self.bound:
            return f"below {self.bound}"
        holder = self.held.get(event)
        return "none" if holder is None else "granted" if holder == token else f"of {dotted(holder)}"


def small_insert(chance):
    """An insert of one of few ids by one of few tokens."""
    return ((0x0a000002, 9, chance.randrange(12)), (chance.choice([7, 8]), 1, chance.randrange(4)))


def registries(chance):
    """Batches and look-ups by chance."""
    for _ in range(25):
        yield "== registries"
        registry, bound = PlainRegistry(), 0
        for _ in range(24):
            (event, token), kind = small_insert(chance), chance.randrange(4)
            if kind < 2:
                bound = chance.choice([0, 0, bound, bound + chance.randrange(3)])
                batch = (bound, [small_insert(chance) for _ in range(chance.randint(1, 4))])
                yield f"apply {batch_word(batch)} => {', '.join(registry.apply(batch))}"
            elif kind == 2:
                yield f"replay {id_word(event)} {dotted(token)} => {registry.replay(event, token)}"
            else:
                holder = registry.held.get(event)
                yield f"holder {id_word(event)} => {dotted(holder) if holder else 'none'}"
        yield f"bound => {registry.bound}"


def queues(chance):
    """Inserts that wait, and batches that answer some of them, by chance. A token is of one insert."""
    for _ in range(25):
        yield "== queues"
        waiting, number = [], 0
        for _ in range(24):
            kind = chance.randrange(4)
            if kind < 2 or not waiting:
                again = waiting and chance.random() < 0.2
                insert = chance.choice(waiting) if again else ((0x0a000002, 9, chance.randrange(6)), (7, 1, number))
                number += 1
                if insert not in waiting:
                    waiting.append(insert)
                yield f"put {id_word(insert[0])}={dotted(insert[1])} => waits"
            elif kind == 2:
                bound, count = chance.randrange(9), chance.choice([0, 1, 2, 64, 99])
                yield f"front {bound} {count} => {batch_word((bound, waiting[:min(count, 64)]))}"
            else:
                batch = (chance.choice([0, 0, 3]), chance.sample(waiting, chance.randint(0, len(waiting))))
                registry = PlainRegistry()
                registry.apply(batch)
                told = [(insert, registry.replay(*insert)) for insert in waiting]
                answered = [(insert, answer) for insert, answer in told if answer != "none"]
                yield f"answered {batch_word(batch)} => " + ", ".join(f"{dotted(insert[1])} {answer}" for insert, answer in answered)
                waiting = [insert for insert, answer in told if answer == "none"]
        yield f"len => {len(waiting)}, {'true' if not waiting else 'false'}"


def acceptors(chance):
    """Prepares and Accepts in two places by chance."""
    for _ in range(25):
        yield "== acceptors"
        promised, accepted = {}, {}
        for _ in range(24):
            place = chance.choice([(0, 0), (3, 7)])
            ballot, batch = (chance.randrange(4), 1, chance.randrange(2)), (chance.randrange(3), [])
            words, high = f"{place[0]} {place[1]} {dotted(ballot)}", promised.get(place)
            kind = chance.choice(["prepare", "accept"])
            word = words if kind == "prepare" else f"{words} {batch_word(batch)}"
            if high is not None and high > ballot:
                yield f"{kind} {word} => refused for {dotted(high)}, no note"
            elif kind == "prepare":
                prior = accepted.get(place)
                told = f"promised, prior {dotted(prior[0])} {batch_word(prior[1])}" if prior else "promised"
                yield f"prepare {word} => {told}, {'no note' if high == ballot else f'note promised {words}'}"
                promised[place] = ballot
            else:
                is_noted = accepted.get(place) == (ballot, batch)
                yield f"accept {word} => accepted, {'no note' if is_noted else f'note accepted {word}'}"
                promised[place], accepted[place] = ballot, (ballot, batch)


def proposers(chance):
    """A proposal and the answers of its three replicas by chance."""
    for _ in range(25):
        yield "== proposers"
        mine, value, best, heard, phase = (5, 1, 1), "9", None, set(), "promising"
        yield f"start 3 {dotted(mine)} {value} => slot 3"
        for _ in range(14):
            replica, ballot = chance.randrange(3), chance.choice([mine] * 5 + [(5, 1, 0)])
            counts = ballot == mine and replica not in heard
            if chance.random() < 0.6:
                prior = chance.choice([None, ((chance.randrange(4), 1, 0), str(chance.randrange(9)))])
                row = f"promise {replica} {dotted(ballot)}" + (f" {dotted(prior[0])} {prior[1]}" if prior else "")
                counts = counts and phase == "promising"
                if counts and prior and (best is None or prior[0] > best[0]):
                    best, value = prior, prior[1]
                yield f"{row} => {f'send {value}' if counts and len(heard) == 1 else 'not yet'}"
                next_phase = "accepting"
            else:
                counts = counts and phase == "accepting"
                yield f"accepted {replica} {dotted(ballot)} => {'chosen' if counts and len(heard) == 1 else 'not yet'}"
                next_phase = "ended"
            if counts and len(heard) == 1:
                phase, heard = next_phase, set()
            elif counts:
                heard.add(replica)
        yield f"value => {value}"
        yield f"phase => slot 3, {'accepting' if phase == 'accepting' else 'not accepting'}"


# ---- the air

class PlainAir:
    """The air by the plain rule: of each node its packets in the order of arrival, each with its delay."""

    def __init__(self, kinds, rules):
        self.kinds, self.rules = kinds, rules
        self.is_up, self.waiting, self.sent = [False] * len(kinds), [[] for _ in kinds], {}

    def turn(self, node, sends):
        """What a turn begins with; it sends these packets."""
        if not self.is_up[node]:
            self.is_up[node], told = True, "start"
        elif self.waiting[node]:
            least = min(self.waiting[node], key=lambda packet: packet[1])
            self.waiting[node].remove(least)
            self.waiting[node] = [[word, max(0, delay - 1)] for word, delay in self.waiting[node]]
            told = least[0]
        else:
            return "nothing"
        for receiver, byte in sends:
            self.send(node, receiver, f"{node}={byte:02x}")
        return told

    def send(self, node, receiver, word):
        """A packet comes as its fate says."""
        ordinal = self.sent.get((node, receiver), 0)
        self.sent[node, receiver] = ordinal + 1
        fate = fate_of(self.rules, self.kinds[node], self.kinds[receiver], ordinal)
        by = int(fate.partition("(")[2].rstrip(")") or 0)
        delays = {"Drop": [], "Deliver": [0], "Late": [by], "Twice": [0, by]}[fate.partition("(")[0]]
        self.waiting[receiver] += [[word, delay] for delay in delays]


def airs(chance):
    """Turns of a few nodes under random rules."""
    for _ in range(40):
        kinds, rules = [chance.choice(KINDS) for _ in range(3)], random_rules(chance)
        for rule in rules:
            rule["by"] = chance.randrange(4)
        air, byte = PlainAir(kinds, rules), 0
        yield f"+ {plan_text(rules)}"
        yield f"nodes {' '.join(kinds)} => 3 nodes"
        for _ in range(30):
            node, sends = chance.randrange(3), []
            for _ in range(chance.choice([0, 0, 1, 2])):
                byte += 1
                sends.append((chance.randrange(3), byte))
            told = air.turn(node, sends)
            yield " ".join([f"turn {node}", *(f"{receiver}={byte:02x}" for receiver, byte in sends)]) + f" => {told}"


# ---- whole stores

def votes(chance):
    """What became of ids, by random notes of three replicas and random pairs."""
    class Case:
        random = chance
    for _ in range(2):
        invented = journals.Inventor(Case)
        invented.ids = invented.ids[:12]
        notes, pairs = invented.notes(), invented.pairs()
        records = {"topology": [("topology", invented.joiners, invented.rows)], **{f"replica-{n}": those for n, those in enumerate(notes)}}
        records.update({f"output-{site}{n}": those for (site, n), those in pairs.items()})
        store = stores.Store(stores.files_of(records))
        table = model.table_text(invented.rows)
        yield "== votes and pairs"
        for number, those in enumerate(notes):
            for count, record in enumerate(those):
                batch = f" {batch_word(record[3])}" if record[0] == "accepted" else ""
                yield f"note {record[0]} {record[1][0]} {record[1][1]} {dotted(record[2])}{batch} => {count + 1} notes"
            yield f"replica => {number + 1} replicas"
        for number, those in enumerate(pairs[site, n] for site in "AB" for n in range(invented.joiners)):
            for count, record in enumerate(those):
                yield f"pair {told_pair(record[1:])} => {count + 1} pairs"
            yield f"output => {number + 1} outputs"
        yield f"classify {table} {' '.join(map(id_word, invented.ids))} => {classes(store, set(invented.ids))}"
        registry, written = stores.Registry(store), store.pairs()
        left = sorted({event for event, _ in store.accepted_inserts() if registry.is_registered(event) and event not in written})
        yield f"missing {table} => {', '.join([str(len(left)), *map(id_word, left)])}"


def classes(store, ids):
    """The classes of ids, by the report of the store."""
    told = []
    for line in stores.report_of_store(store, ids).decode().splitlines()[:-1]:
        told.append(line.replace("\t", " / "))
    return ", ".join(told)


def places(chance):
    """Places that are kept of logs, by reads of any size."""
    for _ in range(60):
        maker = logs.Maker(chance)
        maker.add_queries(1)
        maker.add_clicks(chance.randint(0, 4))
        log = maker.clicks + b"10.0"
        lines = model.read_log(log, "clicks")[0]
        some = [0, model.log_end(lines), *(line.start for line in lines), chance.randint(0, len(log) + 3)]
        offsets = [chance.choice(some) for _ in "AB"]
        pending = [sorted({chance.choice(some) for _ in range(chance.randrange(3))}) for _ in "AB"]
        records = {f"offset-{site}": [("offset", at)] if at else [] for site, at in zip("AB", offsets)}
        records.update({f"retry-{site}": [("park", at) for at in those] for site, those in zip("AB", pending)})
        bad = stores.first_misplaced(stores.Store(stores.files_of(records), 0), lines)
        yield from gathered(log)
        lists = [",".join(map(str, those)) or "-" for those in pending]
        told = "{} keeps {}, behind {}".format(*bad) if bad else "all fit"
        yield f"{model.log_end(lines)} {offsets[0]} {offsets[1]} {lists[0]} {lists[1]} {chance.choice([1, 3, 4096])} => {told}"


PLACES = {
    "ids": ids, "order of ids": order, "tables": tables, "lines": log_lines, "logs": whole_logs, "queries that are seen": seen("queries"),
    "clicks that are seen": seen("clicks"), "tails": tails, "event stores": event_stores, "event stores with a fault": faulty_stores,
    "fates": fates, "reports": reports,
    "journals": all_files, "epochs": disk_files("epoch", lambda records: f"epoch {last_of(records)}"),
    "offsets": disk_files("offset", lambda records: f"offset {last_of(records)}"),
    "retries": disk_files("retry", lambda records: f"pending {stores.pending_of(records)}"),
    "outputs": disk_files("output", lambda records: "pairs" + "".join(" | " + told_pair(record[1:]) for record in records)),
    "topologies": disk_files("topology", told_topology),
    "fields": some_fields, "packets": packets, "registries": registries, "queues": queues, "acceptors": acceptors, "proposers": proposers,
    "airs": airs, "votes": votes, "places": places,
}


def made(name):
    """The rows of a place."""
    return list(PLACES[name](random.Random(name)))


def remade(text):
    """A script with the rows of its places made anew."""
    lines, is_made = [], False
    for line in text.splitlines():
        if line.startswith(BEGIN):
            lines += [line, *made(line[len(BEGIN):])]
            is_made = True
        elif line == END:
            is_made = False
        if not is_made:
            lines.append(line)
    return "".join(line + "\n" for line in lines)


def row_count(text):
    """How many rows a script plays: those of a block once for each choice of its values."""
    names, times, rows = [], 1, 0
    for line in text.splitlines():
        if line.startswith("#"):
            continue
        for mark, value in names:
            line = line.replace(mark, value)
        word, _, rest = line.partition(" ")
        if word == "let":
            name, _, value = rest.partition(" ")
            names.append((f"<{name}>", value))
        elif word == "each":
            times = math.prod(map(set_size, rest.split()))
        elif line == "done":
            times = 1
        else:
            rows += times * (" => " in line)
    return rows


def set_size(word):
    """How many values a set of a block has."""
    first, dots, last = word.partition("..")
    return int(last) - int(first) + 1 if dots else len(word.split("|"))


def scripts():
    """The scripts."""
    return sorted(TOP.glob("tests/scripts/*/stdin"))


def main(words):
    """Checks the scripts, writes them or prints the rows of one place; gives the status."""
    if words and words[0] in PLACES:
        print("\n".join(made(words[0])))
        return 0
    wrong = 0
    for path in scripts():
        old = path.read_text(encoding="utf-8")
        new = remade(old)
        counted = f"{row_count(new)} rows, 0 wrong\n"
        count = path.with_name("stdout")
        if words == ["--write"]:
            path.write_text(new, encoding="utf-8")
            count.write_text(counted, encoding="utf-8")
        for file, want in ((path, new), (count, counted)):
            if file.read_text(encoding="utf-8") != want:
                print(f"rows: {file.relative_to(TOP)} isn't as tests/rows.py makes it")
                wrong = 1
    return wrong


if __name__ == "__main__":
    sys.exit(main(sys.argv[1:]))
