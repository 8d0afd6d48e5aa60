"""The program's own ends: files, pipes and terminals as its output and its errors, and files of all kinds as its logs."""
import os
import pty
import select
import subprocess
import termios
import time
import tty

import model
import store as stores
from texts import BULK, DRILL, JOIN, REPORT, VERIFY, one_line

# What each command prints in a directory with the worked click.
PRINTED = [(JOIN, REPORT), (DRILL, REPORT), (VERIFY, REPORT), (BULK, b"= 8 0 1 1\n")]
# A call that is refused, or fails, with its status and its text.
TOLD = [([], 2, None), ([*JOIN, "--shards", "1:4"], 2, b"photon: table: row 0\n"), ([*JOIN[:2], "nowhere", *JOIN[3:]], 4,
         b"photon: read: queries\nphoton: because: nowhere: it isn't there\n"),
        ([*JOIN[:6], "file"], 6, b"photon: store: directory\nphoton: because: file: it isn't a directory\n"), ([*JOIN, "--joiners", "2"], 9, b"photon: topology: joiners 1 2\n")]


# ---- terminals

def read_terminal(case, child, master):
    """What a call writes to a terminal, until it has ended and nothing more is there."""
    taken, until = b"", time.monotonic() + 60
    while time.monotonic() < until:
        ended = child.poll() is not None
        if select.select([master], [], [], 0.1)[0]:
            try:
                taken += os.read(master, 1 << 16)
            except OSError:
                return taken
        elif ended:
            return taken
    case.check(False, "the terminal was read for a minute, and the program hasn't ended")
    return taken


def on_terminal(case, words, streams, cooked=False):
    """Runs the program with these streams on a new terminal: its status, and what the terminal took."""
    master, slave = pty.openpty()
    try:
        if not cooked:
            tty.setraw(slave, termios.TCSANOW)
        child = case.start(words, **{stream: slave for stream in streams})
        os.close(slave)
        taken = read_terminal(case, child, master)
        case.end(child)
    finally:
        os.close(master)
    return child.returncode, taken


def terminals(case):
    """A terminal takes the report, and the errors; a cooked one gets its line ends from the system."""
    one_line(case)
    for words, out in PRINTED:
        case.check_same(on_terminal(case, words, ["stdout"]), (0, out), "a terminal as the output")
        cooked = on_terminal(case, words, ["stdout", "stderr"], cooked=True)
        case.check_same(cooked, (0, out.replace(b"\n", b"\r\n")), "a cooked terminal")
    case.write("file", b"")
    for words, status, text in TOLD:
        ended, taken = on_terminal(case, words, ["stderr"])
        case.check(ended == status and (taken if text is None else taken == text), f"status {ended}, {taken!r} on the terminal")


# ---- files and pipes

def file_output(case):
    """A file gets the report where it stands open: at its begin, behind what it has, or in its midst."""
    one_line(case)
    for words, out in PRINTED:
        with open(case.path("new"), "wb") as new:
            case.expect(words, 0, "", b"", stdout=new)
        case.check_same(read(case, "new"), out, "a new file")
        with open(case.path("new"), "ab") as grown:
            case.expect(words, 0, "", b"", stdout=grown)
        case.check_same(read(case, "new"), out * 2, "a file that is appended to")
        with open(case.path("new"), "r+b") as midst:
            midst.seek(3)
            case.expect(words, 0, "", b"", stdout=midst)
        case.check_same(read(case, "new"), out[:3] + out + out[3:], "a file that is written over")


def read(case, name):
    """The bytes of a file of the case's folder."""
    with open(case.path(name), "rb") as file:
        return file.read()


def long_report(case):
    """Logs whose report is longer than a pipe holds, and the report."""
    case.write("queries", b"")
    os.mkdir(case.path("state"))
    lines = [((9, 9, number), (1, 1, 1), b"click") for number in range(8000)]
    case.write("clicks", b"".join(model.click_line(line) for line in lines))
    return b"".join(b"U " + model.id_text(event) + b"\n" for event, _, _ in lines) + b"= 0 0 0 8000\n"


def slow_pipe(case):
    """A pipe that is read slowly gets the whole report."""
    whole = long_report(case)
    case.check(len(whole) > 1 << 16, f"the report has {len(whole)} bytes")
    child = case.start(VERIFY, bufsize=0)
    taken = b""
    while piece := child.stdout.read(5000):
        taken += piece
        time.sleep(0.002)
    case.check((child.wait(), child.stderr.read()) == (0, b""), f"status {child.returncode}")
    case.check_same(taken, whole, "what came through the pipe")


def pipe_closed_early(case):
    """A pipe that is closed once some bytes were read: 5, and they begin the report."""
    whole = long_report(case)
    for size in (1, 100, 5000):
        child = case.start(VERIFY, bufsize=0)
        taken = child.stdout.read(size)
        child.stdout.close()
        text = child.stderr.read()
        case.check((child.wait(), text) == (5, b"photon: write\n"), f"status {child.returncode}, {text!r}")
        case.check(taken and whole.startswith(taken), f"{len(taken)} bytes that don't begin the report")


def lost_errors(case):
    """Errors that can't be written: a full file, a shut pipe, no errors at all. Each status is the same, and so is the output."""
    one_line(case)
    case.expect(JOIN, 0, "", REPORT)
    case.write("file", b"")
    for words, status, _ in [*TOLD, (VERIFY, 0, None)]:
        out = REPORT if status == 0 else b""
        with open("/dev/full", "wb") as full:
            case.expect(words, status, "", out, stderr=full)
        reader, writer = os.pipe()
        os.close(reader)
        with os.fdopen(writer, "wb") as shut:
            case.expect(words, status, "", out, stderr=shut)
        ended = without(case, words, "2>&-")
        case.check((ended.returncode, ended.stdout) == (status, out), f"status {ended.returncode}, {ended.stdout!r}")
    with open("/dev/full", "wb") as full:
        case.expect(VERIFY, 5, "", b"", stdout=full, stderr=full)


def without(case, words, closed):
    """Runs the program with a stream closed: the first file that it opens may get the stream's number."""
    case.note(f"photon {words} {closed}")
    line = ["/bin/sh", "-c", f'exec "$@" {closed}', "sh", case.program, *words]
    return subprocess.run(line, cwd=case.folder, stdin=subprocess.DEVNULL, capture_output=True, check=False, timeout=60)


def no_output(case):
    """No standard output at all: 5, and nothing is written into a log, a plan or a disk in its place."""
    one_line(case)
    case.expect(JOIN, 0, "", REPORT)
    logs = [read(case, name) for name in ("queries", "clicks", "plan")]
    disks = stores.read_files(case.path("state"))
    for words in (VERIFY, DRILL, BULK):
        ended = without(case, words, ">&-")
        case.check((ended.returncode, ended.stderr) == (5, b"photon: write\n"), f"status {ended.returncode}, {ended.stderr!r}: {words}")
    case.check([read(case, name) for name in ("queries", "clicks", "plan")] == logs, "a log or the plan has changed")
    case.check(stores.read_files(case.path("state")) == disks, "a disk has changed")
    case.expect(VERIFY, 0, "", REPORT)


# ---- logs

def join_of(queries, clicks):
    """The words of a join of these logs."""
    return ["join", "--queries", queries, "--clicks", clicks, "--state", "state"]


def odd_logs(case):
    """A device that is empty, one that isn't, a pipe that is held open, and a link as a log."""
    one_line(case)
    case.expect(join_of("/dev/null", "/dev/null"), 0, "", b"= 0 0 0 0\n")
    case.expect(join_of("queries", "/dev/zero"), 4, "photon: read: clicks")
    os.mkfifo(case.path("pipe"))
    os.symlink("clicks", case.path("link"))
    holder = os.open(case.path("pipe"), os.O_RDWR)
    try:
        case.expect(join_of("pipe", "clicks"), 4, "photon: read: queries")
    finally:
        os.close(holder)
    case.expect(join_of("queries", "link"), 0, "", REPORT)


def blocks(case):
    """Logs of more than one block of 64 KiB, with a line that ends just before, at and just behind each block's end."""
    for behind in (-1, 0, 1):
        queries, clicks = [], []
        for block in (1, 2, 3):
            fill(queries, block * (1 << 16) + behind, lambda number, text: ((10 << 24, 1, number), text), model.query_line)
            fill(clicks, block * (1 << 16) + behind, lambda number, text: ((11 << 24, 1, number), (10 << 24, 1, number), text), model.click_line)
        case.write("queries", b"".join(map(model.query_line, queries)))
        case.write("clicks", b"".join(map(model.click_line, clicks)))
        whole = model.report_of_logs(model.records(model.read_log(read(case, "queries"), "queries")[0]), {line[0]: line for line in clicks}, 0)
        case.expect([*JOIN[:6], f"state{behind}"], 0, "", whole)


def fill(lines, size, make, spell):
    """Adds lines of long texts until they have just so many bytes."""
    have = sum(len(spell(line)) for line in lines)
    while have < size:
        left = size - have
        empty = len(spell(make(len(lines), b"")))
        text = 200 if left > 2 * (empty + 200) else min(200, left // 2 - empty) if left > empty + 200 else left - empty
        lines.append(make(len(lines), b"x" * text))
        have += empty + text


CASES = [(function.__name__, function) for function in (terminals, file_output, slow_pipe, pipe_closed_early, lost_errors, no_output, odd_logs, blocks)]
