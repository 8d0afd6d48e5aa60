"""The statuses and texts of docs/GUARANTEES.md ("Statuses and their texts") and docs/GUIDE.md, a case for each."""
import os
import shlex
import shutil
import subprocess

import fields
import model
import runs
import store as stores
from case import TOP

JOIN = ["join", "--queries", "queries", "--clicks", "clicks", "--state", "state"]
DRILL = ["drill", "--queries", "queries", "--clicks", "clicks", "--plan", "plan"]
VERIFY = ["verify", "--clicks", "clicks", "--state", "state"]
BULK = ["bulk", "--seed", "1", "--clicks", "10"]
RESHARD = ["reshard", "--state", "state", "--add", "3000:8"]
REPORT = b"J 10.0.0.2:9:2000 10.0.0.1:7:1000 buy\tshoes\n= 1 0 0 0\n"
EXPIRED = b"X 10.0.0.2:9:2000\n= 0 0 1 0\n"
LATEST = str((1 << 64) - 1)


def one_line(case):
    """Writes the logs of examples/one_line and an empty plan into the case's folder."""
    for kind in ("queries", "clicks"):
        case.write(kind, runs.read_example("one_line", kind))
    case.write("plan", b"{}")


# ---- words

REFUSED = {
    "none": [], "help": ["--help"], "help_of_join": ["join", "--help"], "unknown": ["mend"], "empty": [""],
    "no_options": ["join"], "no_queries": JOIN[:1] + JOIN[3:], "no_clicks": JOIN[:3] + JOIN[5:], "no_state": JOIN[:5],
    "no_plan": DRILL[:5], "no_value": JOIN[:6], "plan_of_join": [*JOIN, "--plan", "plan"], "state_of_drill": [*DRILL, "--state", "state"],
    "queries_of_verify": [*VERIFY, "--queries", "queries"], "horizon_of_verify": [*VERIFY, "--horizon", "1"], "no_seed": BULK[:1] + BULK[3:],
    "horizon_of_bulk": [*BULK, "--horizon", "1"], "state_of_bulk": [*BULK, "--state", "state"], "no_state_of_verify": VERIFY[:3],
    "twice": [*JOIN, "--horizon", "1", "--horizon", "2"], "log_twice": [*JOIN, "--clicks", "clicks"], "one_more": [*JOIN, "more"],
    "horizon_word": [*JOIN, "--horizon", "now"], "horizon_below": [*JOIN, "--horizon", "-1"], "horizon_above": [*JOIN, "--horizon", str(1 << 64)],
    "horizon_empty": [*JOIN, "--horizon", ""], "shards_empty": [*JOIN, "--shards", ""], "joiners_0": [*JOIN, "--joiners", "0"], "joiners_5": [*JOIN, "--joiners", "5"],
    "batch_0": [*JOIN, "--batch", "0"], "batch_65": [*JOIN, "--batch", "65"], "batch_of_drill": [*DRILL, "--batch", "65"],
    "clicks_of_bulk": ["bulk", "--seed", "1", "--clicks", "100001"], "seed_above": ["bulk", "--seed", str(1 << 64), "--clicks", "1"],
    "no_row": RESHARD[:3], "no_state_of_reshard": ["reshard", *RESHARD[3:]], "row_below": [*RESHARD[:4], "-1:8"],
    "row_twice": [*RESHARD, "--add", "4000:8"], "clicks_of_reshard": [*RESHARD, "--clicks", "clicks"], "shards_of_reshard": [*RESHARD, "--shards", "0:4"],
    "help_of_reshard": ["reshard", "--help"], "row_of_verify": [*VERIFY, "--add", "3000:8"],
    "seed_word": ["bulk", "--seed", "x", "--clicks", "1"], "joiners_of_bulk": [*BULK, "--joiners", "9"],
}


def refused(words):
    """The words are refused, or ask for help: 2, a text of the parser's own, no output, no directory."""
    def run(case):
        one_line(case)
        ended = case.run(words)
        case.check(ended.status == 2 and (ended.err.startswith("error: ") or "Usage: photon" in ended.err) and ended.out == b"", f"status {ended.status}, {ended.err!r}, output {ended.out!r}")
        case.check(not os.path.exists(case.path("state")), "the state directory was touched")
    return run


def version(case):
    """The version is asked for: 2, the program, its release and the kit that builds it, no output."""
    if shutil.which("rt"):
        kit = subprocess.run(["rt", "version"], stdout=subprocess.PIPE, text=True, check=True).stdout.strip()
    else:
        with open(os.path.join(TOP, "dist", "RELEASE"), encoding="utf-8") as file:
            kit = dict(line.rstrip().split(": ", 1) for line in file)["kit"]
    case.expect(["--version"], 2, f"photon 1.0, built by {kit}", b"")


TAKEN = {
    "horizon_0": ([*JOIN, "--horizon", "0"], REPORT), "horizon_at": ([*JOIN, "--horizon", "2000"], REPORT),
    "horizon_past": ([*JOIN, "--horizon", "2001"], EXPIRED), "horizon_last": ([*JOIN, "--horizon", LATEST], EXPIRED),
    "joiners_4": ([*JOIN, "--joiners", "4", "--batch", "1"], REPORT), "batch_64": ([*JOIN, "--batch", "64", "--joiners", "1"], REPORT),
    "table_of_4": ([*JOIN, "--shards", f"0:1,1:16,2000:3,{LATEST}:2"], REPORT), "any_order": (["join", *JOIN[5:], *JOIN[3:5], *JOIN[1:3]], REPORT),
    "drill": (DRILL, REPORT), "drill_all": ([*DRILL, "--horizon", "2001", "--joiners", "2", "--shards", "0:16", "--batch", "3"], EXPIRED),
    "verify_new": (VERIFY, b"U 10.0.0.2:9:2000\n= 0 0 0 1\n"), "bulk": (BULK, b"= 8 0 1 1\n"),
    "bulk_none": (["bulk", "--clicks", "0", "--seed", LATEST], b"= 0 0 0 0\n"),
}


def taken(words, out):
    """The words are taken: 0 and this output."""
    def run(case):
        one_line(case)
        if words[0] == "verify":
            os.mkdir(case.path("state"))
        case.expect(words, 0, "", out)
    return run


TABLES = ["0", "0:", ":4", "0:0", "0:17", "1:4", "00:4", "0:04", "+0:4", " 0:4", "0:4 ", "0:4,", ",0:4", "0:4,0:8", "0:4,5:8,5:1", "0:4,5:8,4:1",
          "0:4;5:8", "0:4,1:1,2:1,3:1,4:1", "0:4,1:1,2:1,2:1,4:1", f"0:4,{1 << 64}:1", "0:4,x:1", "0:-1", "0:4,1:1,2:17", "0:4:4", "0:99999999999999999999"]


def table(text):
    """A text that is no table: its first bad row, before a log or a plan is read."""
    def run(case):
        row = model.read_table(text.encode())[1]
        for command in ("join", "drill"):
            words = [command, "--queries", "nowhere", "--clicks", "nowhere", "--state" if command == "join" else "--plan", "nowhere"]
            case.expect([*words, "--shards", text], 2, f"photon: table: row {row}")
        case.expect([*BULK, "--shards", text], 2, f"photon: table: row {row}")
        case.check(not os.path.exists(case.path("nowhere")), "the state directory was touched")
    return run


# ---- logs and plans that can't be read

def unread(case):
    """Files that aren't there or are directories: 4 with the name, the queries before the clicks; nothing is touched."""
    one_line(case)
    os.mkdir(case.path("folder"))
    for bad in ("nowhere", "folder", "queries/below", ""):
        for at, name in ((2, "queries"), (4, "clicks")):
            for words in (JOIN, DRILL):
                changed = [*words[:at], bad, *words[at + 1:]]
                case.expect(changed, 4, f"photon: read: {name}")
        case.expect([*VERIFY[:2], bad, *VERIFY[3:]], 4, "photon: read: clicks")
        case.expect([*DRILL[:6], bad], 4, "photon: read: plan")
    case.expect([*JOIN[:2], "nowhere", "--clicks", "nowhere", *JOIN[5:]], 4, "photon: read: queries")
    case.check(not os.path.exists(case.path("state")), "the state directory was touched")


def queries_first(case):
    """The queries are looked at before the clicks."""
    case.write("queries", b"x\n")
    case.write("clicks", b"y\n")
    case.expect(JOIN, 3, "photon: queries:1: Space")
    case.expect([*JOIN[:2], "nowhere", *JOIN[3:]], 4, "photon: read: queries")
    case.expect([*JOIN[:4], "nowhere", *JOIN[5:]], 3, "photon: queries:1: Space")
    case.check(not os.path.exists(case.path("state")), "the state directory was touched")


# ---- the output

def full_output(case):
    """An output that takes no bytes: 5; all that was joined is kept, and told by the next run."""
    one_line(case)
    for words in (JOIN, DRILL, VERIFY, BULK):
        with open("/dev/full", "wb") as full:
            case.expect(words, 5, "photon: write", stdout=full)
    case.expect(JOIN, 0, "", REPORT)


def shut_output(case):
    """A pipe that nobody reads any more: 5."""
    one_line(case)
    for words in (JOIN, VERIFY):
        reader, writer = os.pipe()
        os.close(reader)
        with os.fdopen(writer, "wb") as shut:
            case.expect(words, 5, "photon: write", stdout=shut)
    case.expect(VERIFY, 0, "", REPORT)


def cut_output(case):
    """A file that takes only some bytes of a long report: 5, and what went out begins the report."""
    lines = [model.click_line(((9, 9, number), (1, 1, 1), b"click")) for number in range(700)]
    case.write("queries", b"")
    case.write("clicks", b"".join(lines))
    os.mkdir(case.path("state"))
    whole = case.run(VERIFY).out
    case.check(whole.endswith(b"= 0 0 0 700\n"), "the totals of a new directory")
    words = shlex.join([case.program, *VERIFY])
    script = f"ulimit -f 4 2>/dev/null; trap '' XFSZ; {words} > part"
    ended = subprocess.run(["/bin/sh", "-c", script], cwd=case.folder, capture_output=True, check=False)
    with open(case.path("part"), "rb") as file:
        part = file.read()
    case.check((ended.returncode, ended.stderr.decode().strip()) == (5, "photon: write"), f"status {ended.returncode}, {ended.stderr!r}")
    case.check(whole.startswith(part) and len(part) < len(whole), f"{len(part)} bytes went out")


# ---- the directory

def no_directory(case):
    """A directory above that isn't there, a file in its place, or below a file: 6."""
    one_line(case)
    case.write("file", b"")
    for bad in ("nowhere/state", "file", "file/state", ""):
        case.expect([*JOIN[:6], bad], 6, "photon: store: directory")
        case.expect([*VERIFY[:4], bad], 6, "photon: store: directory")


def no_disk(case):
    """A directory in place of a disk: 6 with the disk's name, the first in the order of opening."""
    one_line(case)
    names = stores.disk_names(1)
    for number, name in enumerate(names):
        for bad in names[number:]:
            os.makedirs(case.path(f"state{number}/{bad}"))
        case.expect([*JOIN[:6], f"state{number}"], 6, f"photon: store: {name}")


def topology(case):
    """Other joiners, another table, another log than the directory's: 9."""
    one_line(case)
    case.expect([*JOIN, "--joiners", "2", "--shards", "0:4,3000:8"], 0, "", REPORT)
    case.expect(JOIN, 9, "photon: topology: joiners 2 1")
    case.expect([*JOIN, "--joiners", "2"], 9, "photon: topology: table 0:4,3000:8 0:4")
    case.expect([*JOIN, "--joiners", "4", "--shards", "0:4,3000:8"], 9, "photon: topology: joiners 2 4")
    case.write("clicks", b"10.0.0.2:9:2000 10.0.0.1:7:1000 buys\n")
    case.expect(VERIFY, 9, "photon: topology: offset-A 36 0")
    case.write("clicks", b"")
    case.expect(VERIFY, 9, "photon: topology: offset-A 36 0")


def order(case):
    """Of several things that are wrong with a directory the first is told: a disk, joiners, table, places, limits."""
    one_line(case)
    last = [("epoch", fields.LAST_EPOCH)]
    records = {"topology": [("topology", 1, ((0, 4),))], "offset-A": [("offset", 7)], "server-B": last, "epoch-A0": last}
    steps = [("server-A", b"\xa5\0\0", 7, "photon: damaged: server-A at 1"), (None, ["--joiners", "2", "--shards", "0:5"], 9, "photon: topology: joiners 1 2"),
             (None, ["--shards", "0:5"], 9, "photon: topology: table 0:4 0:5"), (None, [], 9, "photon: topology: offset-A 7 0"),
             ("offset-A", b"", 10, "photon: limit: server-B 4294967294"), ("server-B", b"", 10, "photon: limit: epoch-A0 4294967294")]
    stores.write_files(case.path("state"), stores.files_of(records))
    for name, data, status, text in steps:
        if name:
            stores.write_files(case.path("state"), {name: data})
        case.expect([*JOIN, *(data if name is None else [])], status, text)
        if status == 7:
            stores.write_files(case.path("state"), {name: b""})
    stores.write_files(case.path("state"), {"epoch-A0": b""})
    case.expect(JOIN, 0, "", REPORT)


def last_but_one(case):
    """The last start that a server's and a joiner's epoch allow, and the one behind it."""
    one_line(case)
    last = fields.LAST_EPOCH
    for name in ("server-A", "epoch-B0"):
        records = {"topology": [("topology", 1, ((0, 4),))], name: [("epoch", last - 1)]}
        stores.write_files(case.path(f"state-{name}"), stores.files_of(records))
        words = [*JOIN[:6], f"state-{name}"]
        case.expect(words, 0, "", REPORT)
        case.expect(words, 10, f"photon: limit: {name} {last}")


def missing(case):
    """A verification with an M line ends with 1, a join with 0; past the horizon the click is expired."""
    one_line(case)
    case.expect(JOIN, 0, "", REPORT)
    stores.write_files(case.path("state"), {"output-A0": b"", "output-B0": b""})
    for words, status, out in ((VERIFY, 1, b"M 10.0.0.2:9:2000\n= 0 1 0 0\n"), (JOIN, 0, b"M 10.0.0.2:9:2000\n= 0 1 0 0\n"),
                               ([*JOIN, "--horizon", "2001"], 0, EXPIRED), (VERIFY, 0, EXPIRED)):
        case.expect(words, status, "", out)


CASES = [(f"refused.{name}", refused(words)) for name, words in REFUSED.items()]
CASES += [(f"taken.{name}", taken(*what)) for name, what in TAKEN.items()]
CASES += [(f"table.{number}", table(text)) for number, text in enumerate(TABLES)]
CASES += [(function.__name__, function) for function in (version, unread, queries_first, full_output, shut_output, cut_output, no_directory, no_disk, topology,
                                                         order, last_but_one, missing)]
