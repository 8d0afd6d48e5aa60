"""The model beside the worked rows of the pages: what docs/FORMATS.md shows in dumps and tables, the model has to say too."""
import os
import re
import subprocess
import sys

import fields
import model
import store as stores
from case import shown
from runs import TOP

QUERY = ((10 << 24 | 1, 7, 1000), b"shoes")
CLICK = ((10 << 24 | 2, 9, 2000), QUERY[0], b"buy")
TOKEN = (7, 1, 0)
BATCH = (0, ((CLICK[0], TOKEN),))


def dumps():
    """The byte strings that docs/FORMATS.md dumps: lines of an offset, sixteen bytes and their characters, put together."""
    found, now = [], b""
    with open(os.path.join(TOP, "docs", "FORMATS.md"), encoding="utf-8") as page:
        for line in page:
            fits = re.match(r"    ([0-9a-f]{4})  ((?:[0-9a-f]{2} )*[0-9a-f]{2})(?:  |$)", line)
            if fits and int(fits.group(1), 16) == len(now):
                now += bytes.fromhex(fits.group(2))
                continue
            found, now = [*found, now], bytes.fromhex(fits.group(2)) if fits else b""
    return set(found)


SPELLED = {
    "id": fields.put_id(CLICK[0]), "token": fields.put_token((7, 258, 36)), "ballot": fields.put_ballot((515, 4, 1)),
    "place": fields.put_place((15, 9)), "batch": fields.put_batch((6, BATCH[1])), "text": fields.put_text(b"hi"),
    "query": fields.put_query(QUERY), "click": fields.put_click(CLICK),
    "retry": stores.framed([fields.put_record(("park", 0)), fields.put_record(("park", 36))]),
}
RECORDS = [("topology", 2, ((0, 4),), 1), ("topology", 2, ((0, 4),), 2), ("topology", 2, ((0, 4), (3000, 8)), 2),
           ("epoch", 1), ("offset", 36), ("park", 36), ("settle", 36), ("pair", CLICK, QUERY, TOKEN),
           ("promised", (3, 0), (1, 1, 0)), ("accepted", (3, 0), (1, 1, 0), BATCH)]


def bytes_of_the_page(case):
    """Each field and record has the page's bytes, and is read from them."""
    shown = dumps()
    for name, data in SPELLED.items():
        case.check(data in shown, f"the page has no dump of this {name}: {data.hex(' ')}")
    for record in RECORDS:
        data = fields.put_record(record)
        case.check(data in shown, f"the page has no dump of {record}: {data.hex(' ')}")
        case.check(fields.take_record(data) == record, f"{record} is read as {fields.take_record(data)}")
        case.check(fields.take_record(data + b"\0") is None and fields.take_record(data[:-1]) is None, f"{record} with a byte more or less is read")


def sizes(case):
    """The longest records are as long as the page says."""
    text, latest = b"x" * 200, ((1 << 32) - 1, (1 << 32) - 1, (1 << 64) - 1)
    longest = {40: ("topology", 4, ((0, 1), (1, 1), (2, 1), (3, 1))), 465: ("pair", (latest, latest, text), (latest, text), TOKEN),
               1952: ("accepted", (15, 1), (1, 1, 1), (0, ((latest, TOKEN),) * 64)), 23: RECORDS[8], 9: RECORDS[4], 5: RECORDS[3]}
    for size, record in longest.items():
        case.check(len(fields.put_record(record)) == size, f"a {record[0]} has {len(fields.put_record(record))} bytes, and by the page {size}")


def gates(case):
    """The gate rule on the page's rows."""
    one = "00 00 00 01 61 00"
    rows = [("", [], None), ("00", [], None), ("a5", [], None), ("00 " + one, [], None), ("17 " + one, [], None), ("a5 " + one, [b"a"], None),
            ("a5 00 00", [], 1), ("00 5a 5a 5a 5a 5a 5a", [], None), ("a5 00 00 00 01 61 a5", [b"a"], 7), ("a5 00 00 00 01 61", [], 1)]
    for text, payloads, damage in rows:
        got = stores.gate_rule(bytes.fromhex(text))
        case.check(([payload for _, payload in got[0]], got[1]) == (payloads, damage), f"{text!r} stands for {got}")
    case.check(stores.read_disk("epoch", bytes.fromhex("a5 00 00 00 01 61 00")) == ([], 1), "a record of no kind is damage at 1")
    two = stores.framed([fields.put_record(("epoch", 1)), b"\0"])
    case.check(stores.read_disk("epoch", two)[1] == 6 + 5, "the second record behind a payload of 5 bytes is told at 11")


def shards_and_tables(case):
    """The shards and the first bad rows of the page's tables."""
    rows = model.read_table(b"0:4,3000:8")[0]
    case.check(model.table_text(rows) == "0:4,3000:8", "a table's text")
    for timestamp, shard in ((2999, 2), (3000, 3)):
        case.check(model.shard_of(rows, (CLICK[0][0], 9, timestamp)) == shard, f"10.0.0.2:9:{timestamp} is of shard {shard}")
    for text, row in ((b"", 0), (b"0:4,0:8", 1), (b"0:4,", 1), (b"0:1,1:1,2:1,3:1,4:1", 4), (b"0:1,1:1,1:1,3:1,4:1", 2), (b"0:17", 0)):
        case.check(model.read_table(text) == (None, row), f"{text!r} is {model.read_table(text)}")


def lines(case):
    """The first why of a line, by the order of the page's table, and the report of the page's click."""
    rows = [(b"x", "Space"), (b"x " + b"y" * 300, "TooLong"), (b"x y", "Id"), (b"1.1.1.1:1:1 " + b"y" * 201, "TooLong"), (b"1.1.1.1:1:1 \r", "Text"),
            (b"1.1.1.1:1:01 y", "Id"), (b"1.1.1.1:1:1 ", None), (b"1.1.1.1:1:1", "Space"), (b"", "Space")]
    for line, why in rows:
        refusal = model.read_log(b"2.2.2.2:2:2 a\n" + line + b"\n", "queries")[1]
        case.check(refusal == (f"2: {why}" if why else None), f"{line!r} is refused as {refusal}")
    case.check(model.read_log(b"1.1.1.1:1:1 a\n1.1.1.1:1:1 a\n1.1.1.1:1:1 b\n", "queries")[1] == "3: Conflict", "a conflict")
    case.check(model.read_log(b"1.1.1.1:1:1 2 a\n", "clicks")[1] == "1: QueryId", "a query's id")
    case.check(model.read_log(model.click_line(CLICK), "clicks")[0][0].end == 36, "the offset behind the page's click")
    for horizon, text in ((0, b"J 10.0.0.2:9:2000 10.0.0.1:7:1000 buy\tshoes\n= 1 0 0 0\n"), (2001, b"X 10.0.0.2:9:2000\n= 0 0 1 0\n")):
        case.check_same(model.report_of_logs({QUERY[0]: QUERY}, {CLICK[0]: CLICK}, horizon), text, f"the report at horizon {horizon}")


def kept(case):
    """The report of records by hand: written, registered, expired, unmatched; a batch that one replica alone accepted decides nothing."""
    place, ballot = (model.shard_of(((0, 4),), CLICK[0]), 0), (1, 1, 0)
    vote = ("accepted", place, ballot, BATCH)
    bound = ("accepted", (place[0], 1), ballot, (2001, ()))
    pair = {"output-A0": [("pair", CLICK, QUERY, TOKEN)]}
    rows = [({}, b"U"), ({"replica-0": [vote]}, b"U"), ({"replica-0": [vote], "replica-2": [vote]}, b"M"), (pair, b"J"),
            ({"replica-0": [vote, bound], "replica-2": [vote, bound]}, b"X"), ({"replica-1": [bound], "replica-2": [bound]}, b"U"),
            ({"replica-0": [vote], "replica-2": [("accepted", place, (2, 1, 0), BATCH)]}, b"U")]
    for records, letter in rows:
        store = stores.Store(stores.files_of({"topology": [("topology", 1, ((0, 4),))], **records}))
        got = stores.report_of_store(store, {CLICK[0]: CLICK})
        case.check(got.startswith(letter + b" "), f"{records} is told as {got!r}")


def plans(case):
    """The first bad places of some plans."""
    rule = b'{"from": "any", "to": "any", "first": 0, "count": 1, "fate": "drop"}'
    rows = [(b"{}", None), (b"[]", "top"), (b"{", "json"), (b"\xff", "json"), (b'{"more": []}', "top"), (b'{"dead": 1}', "top"), (b'{"dead": [0, 1]}', "dead"),
            (b'{"dead": [3]}', "dead"), (b'{"dead": [1.0]}', "dead"), (b'{"dead": [-0]}', "dead"), (b'{"rules": [{}]}', "rules 0"),
            (b'{"rules": [' + rule + b", 1]}", "rules 1"), (b'{"rules": [' + b",".join([rule] * 65) + b"]}", "rules 64"),
            (b'{"stops": [1], "dead": [3]}', "stops 0"), (b" " * 1_048_577, "size"), (b'{"dead": [3], "dead": [2]}', None)]
    for text, place in rows:
        case.check(model.plan_place(text)[0] == place, f"{text[:100]!r} is refused at {model.plan_place(text)[0]}")


def pages(case):
    """The commands and paths of the pages, by .ci/pages.py."""
    ended = subprocess.run([sys.executable, os.path.join(TOP, ".ci", "pages.py")], env={**os.environ, "PHOTON": case.program}, cwd=TOP,
                           stdin=subprocess.DEVNULL, capture_output=True, check=False)
    text = (ended.stdout + ended.stderr).decode("utf-8", "replace")
    case.note(text)
    case.check(ended.returncode == 0 and text.splitlines()[-1:] == ["pages: ok"], shown(text))


CASES = [(function.__name__, function) for function in (bytes_of_the_page, sizes, gates, shards_and_tables, lines, kept, plans)]
