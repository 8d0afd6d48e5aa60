"""The model of ids, logs, tables, plans and reports, written from docs/FORMATS.md, README.md and docs/GUIDE.md.

Nothing here is taken from the program: what it should print is worked out from these rules alone.

An id is a triple of numbers (address, process, timestamp), so ids are ordered as triples are. A query is (id, text), a click is
(id, query's id, text); texts are bytes.
"""
import json
import re

LONGEST_LOG = 1 << 40
LONGEST_LINE = 296
LONGEST_TEXT = 200
LONGEST_PLAN = 1_048_576
NUMBER = rb"(0|[1-9][0-9]*)"
ID = re.compile(rb"\.".join([NUMBER] * 4) + b":" + NUMBER + b":" + NUMBER)
ROW = re.compile(rb"(0|[1-9][0-9]*):(0|[1-9][0-9]*)")


# ---- ids

def read_id(text):
    """The id that a text spells, or None."""
    fits = ID.fullmatch(text)
    if fits is None:
        return None
    a, b, c, d, process, timestamp = (int(part) for part in fits.groups())
    if max(a, b, c, d) > 255 or process >= 1 << 32 or timestamp >= 1 << 64:
        return None
    return (a << 24 | b << 16 | c << 8 | d, process, timestamp)


def id_text(event):
    """The one text of an id."""
    address, process, timestamp = event
    dotted = ".".join(str(address >> shift & 255) for shift in (24, 16, 8, 0))
    return f"{dotted}:{process}:{timestamp}".encode()


# ---- logs

class Line:
    """A whole line of a log: the place of its first byte, the place behind its line feed, its record."""

    def __init__(self, start, end, record):
        self.start, self.end, self.record = start, end, record


def line_why(line, kind, at):
    """The first reason for which a line is refused, or None; and its record. `at` is the place of its line feed."""
    if at >= LONGEST_LOG:
        return "TooBig", None
    if len(line) > LONGEST_LINE:
        return "TooLong", None
    parts = line.split(b" ", 1 if kind == "queries" else 2)
    if len(parts) < (2 if kind == "queries" else 3):
        return "Space", None
    ids = [read_id(part) for part in parts[:-1]]
    text = parts[-1]
    if ids[0] is None:
        return "Id", None
    if kind == "clicks" and ids[1] is None:
        return "QueryId", None
    if len(text) > LONGEST_TEXT:
        return "TooLong", None
    if any(byte < 0x20 or byte > 0x7e for byte in text):
        return "Text", None
    return None, (*ids, text)


def read_log(data, kind):
    """The whole lines of a log, and its refusal as `LINE: WHY`, or None. `kind` is "queries" or "clicks"."""
    lines, seen, start = [], {}, 0
    while True:
        feed = data.find(b"\n", start)
        if feed < 0:
            return lines, None
        line = data[start:feed]
        why, record = line_why(line, kind, feed)
        if why is None and seen.setdefault(record[0], line) != line:
            why = "Conflict"
        if why:
            return lines, f"{len(lines) + 1}: {why}"
        lines.append(Line(start, feed + 1, record))
        start = feed + 1


def records(lines):
    """The first record of each id."""
    found = {}
    for line in lines:
        found.setdefault(line.record[0], line.record)
    return found


def log_end(lines):
    """The end of the last whole line, 0 where there is none."""
    return lines[-1].end if lines else 0


def boundaries(lines):
    """The places at which an offset may stand."""
    return {0} | {line.end for line in lines}


def query_line(query):
    """A query's line with its line feed."""
    return id_text(query[0]) + b" " + query[1] + b"\n"


def click_line(click):
    """A click's line with its line feed."""
    return id_text(click[0]) + b" " + id_text(click[1]) + b" " + click[2] + b"\n"


# ---- tables of shards

DEFAULT_TABLE = ((0, 4),)


def read_table(text):
    """The rows of a table and None, or None and the number of the first bad row."""
    rows = []
    for number, part in enumerate(text.split(b",")):
        row = read_row(part)
        if row is None or not may_follow(rows, *row):
            return None, number
        rows.append(row)
    return tuple(rows), None


def read_row(text):
    """The row that a text spells, as a start and a count, or None."""
    fits = ROW.fullmatch(text)
    row = (int(fits.group(1)), int(fits.group(2))) if fits else (0, 0)
    return row if row[0] < 1 << 64 and 1 <= row[1] <= 16 else None


def may_follow(rows, start, count):
    """Whether a row may stand behind these rows of a table."""
    rises = start > rows[-1][0] if rows else start == 0
    return len(rows) < 4 and rises and start < 1 << 64 and 1 <= count <= 16


def table_text(rows):
    """The text of a table."""
    return ",".join(f"{start}:{count}" for start, count in rows)


def shard_of(rows, event):
    """The shard of an id."""
    count = [count for start, count in rows if start <= event[2]][-1]
    return sum(event) % count


def shard_count(rows):
    """How many shards a table has: the numbers below its greatest count."""
    return max(count for _, count in rows)


# ---- reports

def pair_line(click, query):
    """The line of a joined click."""
    return b" ".join([b"J", id_text(click[0]), id_text(click[1]), click[2]]) + b"\t" + query[1]


def report(lines):
    """The bytes of a report, from (id, letter, pair's line or None) for each click, in the order of ids."""
    totals = {letter: 0 for letter in "JMXU"}
    text = []
    for event, letter, pair in sorted(lines, key=lambda line: line[0]):
        totals[letter] += 1
        text.append(pair if letter == "J" else letter.encode() + b" " + id_text(event))
    text.append(b"= " + b" ".join(str(totals[letter]).encode() for letter in "JMXU"))
    return b"".join(line + b"\n" for line in text)


def class_of_logs(click, queries, bound, joined=()):
    """J, X or U of a click by the logs alone; `joined` has the ids that an earlier run has joined."""
    event, wanted = click[0], click[1]
    if event in joined or (wanted in queries and event[2] >= bound):
        return "J"
    return "X" if event[2] < bound else "U"


def report_of_logs(queries, clicks, bound, joined=()):
    """The report of runs without stops, from the first records of both logs and the highest horizon of the runs so far."""
    lines = []
    for event, click in clicks.items():
        letter = class_of_logs(click, queries, bound, joined)
        lines.append((event, letter, pair_line(click, queries[click[1]]) if letter == "J" else None))
    return report(lines)


def letters_of(text):
    """The letter of each click of a printed report, and the totals as printed."""
    lines = text.decode("ascii", "replace").splitlines()
    letters = {}
    for line in lines[:-1]:
        letter, event = line.split(" ")[:2]
        letters[read_id(event.encode())] = letter
    return letters, lines[-1] if lines else ""


# ---- plans

KINDS = ("any", "dispatcher", "joiner", "server", "replica")
DISKS = ("offset", "retry", "server", "replica", "epoch", "output")
RULE = {
    "from": lambda value: value in KINDS,
    "to": lambda value: value in KINDS,
    "first": lambda value: in_range(value, 0, (1 << 64) - 1),
    "count": lambda value: in_range(value, 0, 1_000_000),
    "every": lambda value: in_range(value, 1, 1_000_000),
    "fate": lambda value: value in ("drop", "twice", "late"),
    "by": lambda value: in_range(value, 0, 1_000),
}
STOP = {
    "disk": lambda value: value in DISKS,
    "which": lambda value: value == "all" or in_range(value, 0, 7),
    "call": lambda value: in_range(value, 0, (1 << 64) - 1),
    "image": lambda value: value in ("old", "new", "noise"),
}


def in_range(value, least, most):
    """Whether a value is a whole number in a range."""
    return isinstance(value, int) and not isinstance(value, bool) and least <= value <= most


def whole(text):
    """A whole number of a plan; -0 is none."""
    return fraction(text) if text == "-0" else int(text)


def fraction(text):
    """A number of a plan that isn't spelled as a whole one; one beyond what 64 bits can hold as a fraction is no JSON to the reader."""
    if float(text) in (float("inf"), float("-inf")):
        raise ValueError(text)
    return "no number"


def refuse(text):
    """A constant that JSON has not."""
    raise ValueError(text)


def fits_keys(value, checks, optional=()):
    """Whether a value is an object with these keys, each with a value that passes its check."""
    return (isinstance(value, dict)
            and all(key in checks and checks[key](value[key]) for key in value)
            and all(key in value or key in optional for key in checks))


def first_bad(values, fits):
    """The number of the first value that doesn't fit, 64 where 64 fit and more follow, else None."""
    for number, value in enumerate(values):
        if number == 64 or not fits(value):
            return number
    return None


def plan_place(data):
    """The first place at which bytes are no plan, or None; and the plan."""
    if len(data) > LONGEST_PLAN:
        return "size", None
    try:
        plan = json.loads(data.decode("utf-8"), parse_float=fraction, parse_int=whole, parse_constant=refuse)
    except ValueError:
        return "json", None
    keys = ("rules", "stops", "dead")
    if not isinstance(plan, dict) or any(key not in keys or not isinstance(plan[key], list) for key in plan):
        return "top", None
    plan = {key: plan.get(key, []) for key in keys}
    bad = first_bad(plan["rules"], lambda rule: fits_keys(rule, RULE, ("every", "by")))
    if bad is not None:
        return f"rules {bad}", None
    bad = first_bad(plan["stops"], lambda stop: fits_keys(stop, STOP))
    if bad is not None:
        return f"stops {bad}", None
    if len(plan["dead"]) > 1 or not all(in_range(number, 0, 2) for number in plan["dead"]):
        return "dead", None
    return None, plan


# ---- made logs

def totals_of_bulk(clicks):
    """The totals line of a run over made logs."""
    expired, unmatched = (clicks + 5) // 10, clicks // 10
    return f"= {clicks - expired - unmatched} 0 {expired} {unmatched}\n".encode()
