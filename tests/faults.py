"""Calls that fail below the program, and files that are of another kind or size than they should be: it tells what failed, and ends."""
import bz2
import gzip
import lzma
import os
import resource
import stat
import subprocess
import time

import because
import logs
import model
import odd
import store as stores
from case import Failed, Skipped
from directory import Directory
from disks import told
from power import Machine, read
from texts import DRILL, JOIN, VERIFY, one_line

SOON = 20  # seconds within which a refusal comes
ROW = (logs.LATEST, 1)


def soon(case, words, status, err, reason=None, **more):
    """Expects this end of the program, and that it comes soon."""
    child = case.start(words, **more)
    until = time.monotonic() + SOON
    while child.poll() is None:
        case.check(time.monotonic() < until, f"the program hasn't ended after {SOON} seconds: {case.steps[-1]}")
        time.sleep(0.005)
    ended = case.end(child)
    case.check((ended.status, ended.err, ended.out) == (status, err, b""), f"status {ended.status}, {ended.err!r}; by the pages {status}, {err!r}: {case.steps[-2]}")
    if reason:
        case.check_same(ended.because, [because.FRONT + reason], f"the reason behind {err!r}")


# ---- calls that fail

def struck(machine):
    """What happened to calls that are counted by kinds, and clears that."""
    path = os.path.join(machine.kept, "struck")
    with open(path, encoding="ascii") as file:
        found = [line.split(" ")[:2] for line in file]
    os.remove(path)
    return found


def run_with(machine, words, plan, only=""):
    """A run in which something happens, and to what."""
    case = machine.case
    machine.plan(plan)
    case.settings["env"]["FAILING_ONLY"] = only
    ended = case.run(words)
    machine.plan("")
    return ended, struck(machine)


def small(case):
    """A directory that a join has left, with longer logs, and a machine."""
    maker = logs.Maker(case.random, odd=False)
    maker.add_queries(6)
    maker.add_clicks(4)
    directory = Directory(case)
    directory.give(maker.queries, maker.clicks)
    directory.join()
    maker.add_queries(3)
    maker.add_clicks(8)
    directory.give(maker.queries, maker.clicks)
    return directory, Machine(case)


def check_log_reads(case, kind):
    """Each read of a log fails in turn: 4 with its name. No click is lost by it, and none stays unread."""
    directory, machine = small(case)
    for name in directory.names:
        hits = 0
        for number in range(40):
            directory.stops += 1
            before = directory.seen
            ended, found = run_with(machine, directory.join_words(), f"{kind}:{number}", f"/{name}")
            if not found:
                told(directory, ended)
                directory.judge("after a join in which no read failed")
                break
            hits += 1
            case.check_same(found, [[kind, f"/{name}"]], "what was struck")
            case.check_same((ended.status, ended.err, ended.out), (4, f"photon: read: {name}", b""), f"a join whose read {number} of the {name} failed")
            directory.judge(f"after a read of the {name} failed")
            case.check(before is None or directory.seen.topology == before.topology, "the topology has changed")
        case.check(hits >= 3, f"{hits} reads of the {name} were made")
    directory.join()
    for number in range(2):
        ended, found = run_with(machine, directory.verify_words(), f"{kind}:{number}", "/clicks")
        case.check_same((ended.status, ended.err, bool(found)), (4, "photon: read: clicks", True), "a verification whose read of the clicks failed")
    directory.verify()


def log_reads(case):
    """A log's read that fails is told."""
    check_log_reads(case, "read")


def blind(case):
    """The check of reads tells a program that takes a failed read for a log's end: here the library does it in the program's place."""
    try:
        check_log_reads(case, "blind")
    except Failed as failed:
        case.check("a join whose read 0 of the queries failed" in str(failed), f"something else is wrong: {failed}")
    else:
        raise Failed("nothing is wrong with logs that seem to end where a read fails")


def brief(case):
    """Reads that give one byte at a time change nothing."""
    directory, machine = small(case)
    machine.plan("brief:0:1000000")
    directory.join()
    directory.verify()
    machine.plan("")
    directory.verify()


def fails_at(directory, machine, plan, only, texts):
    """A join in which something fails at one place: 6 with one of the texts, or 0 where it was made good. Whether anything was struck."""
    case = directory.case
    ended, found = run_with(machine, directory.join_words(), plan, only)
    if found:
        directory.stops += 8
    if ended.status == 0:
        told(directory, ended)
    else:
        case.check(ended.err in texts and ended.status == 6 and ended.out == b"" and found, f"status {ended.status}, {ended.err!r}, {found} in {plan} of {only}")
    directory.judge(f"after {plan} of {only}")
    return bool(found)


def disk_reads(case):
    """Reads and looks at disks and at the directory that fail, in turn: 6 with its name, or 0 where the node could go on. Nothing is lost."""
    directory, machine = small(case)
    for name in [*stores.disk_names(1), ""]:
        place = f"/state/{name}".rstrip("/")
        texts = [f"photon: store: {name or 'directory'}"]
        hits = {kind: sum(fails_at(directory, machine, f"{kind}:{number}", place, texts) for number in range(3)) for kind in ("read", "stat")}
        case.check(hits["read"] + hits["stat"], f"neither a read nor a look at {name or 'the directory'} was made")
    directory.join()
    directory.verify()


def locks(case):
    """A lock that can't be had for another cause than a holder: a join and a `reshard` end with 6; a verification goes on, and says so."""
    directory, machine = small(case)
    directory.join()
    for words in (directory.join_words(), directory.reshard_words(ROW)):
        ended, found = run_with(machine, words, "lock:0")
        case.check((ended.status, ended.err, ended.out, len(found)) == (6, "photon: store: directory", b"", 1), f"status {ended.status}, {ended.err!r}")
    ended, _ = run_with(machine, directory.verify_words(), "lock:0")
    expected = stores.report_of_store(directory.read(), model.records(directory.clicks))
    case.check(ended.status in (0, 1) and ended.err == "photon: unlocked: a run may have changed the directory meanwhile", f"status {ended.status}, {ended.err!r}")
    case.check_same(ended.out, expected, "a verification without a lock")
    directory.join()


def threads(case):
    """Threads that can't be had, one or all: the join ends well, by those that are there, or with 8."""
    directory, machine = small(case)
    for plan in [f"thread:{number}" for number in range(6)] + ["thread:0:100", "thread:3:100"]:
        ended, found = run_with(machine, directory.join_words(), plan)
        directory.stops += 8
        case.check((ended.status, ended.err) in ((0, ""), (8, "photon: memory")) and found, f"status {ended.status}, {ended.err!r} at {plan}")
        directory.judge(f"after {plan}")
    directory.join()


def memory(part):
    """Memory that can't be had, at some of a run's calls for it: 8, or 0 where the run could do without. Nothing is lost."""
    def run(case):
        directory, machine = small(case)
        for number in [case.random.randrange(400) for _ in range(12)] + [case.random.randrange(3000) for _ in range(8)]:
            plan = f"memory:{number}{case.random.choice(['', '', ':2', ':1000000'])}"
            ended, found = run_with(machine, directory.join_words(), plan)
            directory.stops += 8
            if ended.status == 0:
                told(directory, ended)
            else:
                case.check((ended.status, ended.err, ended.out) == (8, "photon: memory", b"") and found, f"status {ended.status}, {ended.err!r} at {plan}")
            directory.judge(f"after {plan}")
            if part:
                ended, _ = run_with(machine, directory.verify_words(), plan)
                case.check(ended.status in (0, 1) or (ended.status, ended.err) == (8, "photon: memory"), f"status {ended.status}, {ended.err!r} at {plan}")
        directory.join()
        directory.verify()
    return run


# ---- files of another kind

def odd_file(put):
    """What isn't a file in place of a log or a plan: 4 with the name, soon, and nothing is made."""
    kind, reason = put

    def run(case):
        one_line(case)
        odd_put(case, kind, case.path("odd"))
        for words, at, name in ((JOIN, 2, "queries"), (JOIN, 4, "clicks"), (DRILL, 2, "queries"), (DRILL, 4, "clicks"), (DRILL, 6, "plan"), (VERIFY, 2, "clicks")):
            soon(case, [*words[:at], "odd", *words[at + 1:]], 4, f"photon: read: {name}", f"odd: {reason}")
        case.check(not os.path.exists(case.path("state")), "the state directory was touched")
    return run


def odd_put(case, kind, path):
    """Puts there what isn't a file."""
    try:
        if kind == "pipe":
            os.mkfifo(path)
        elif kind == "directory":
            os.mkdir(path)
        else:
            os.mknod(path, (stat.S_IFSOCK if kind == "socket" else stat.S_IFCHR) | 0o600, os.makedev(1, 5) if kind == "device" else 0)
    except PermissionError as fault:
        raise Skipped(f"no {kind} can be made here") from fault


def odd_disk(put):
    """The same in place of a disk: 6 with its name, soon, and nothing changes; and in place of the directory."""
    kind, reason = put

    def run(case):
        directory = odd.joined(case)
        for name in case.random.sample(stores.disk_names(1), 3):
            path = case.path(f"state/{name}")
            os.rename(path, case.path("aside"))
            odd_put(case, kind, path)
            before = odd.files_of(case.path("state"))
            for words in (directory.join_words(), directory.verify_words(), directory.reshard_words(ROW)):
                soon(case, words, 6, f"photon: store: {name}", f"state/{name}: {reason}")
            case.check(odd.files_of(case.path("state")) == before, "a refused run has changed files")
            (os.rmdir if kind == "directory" else os.remove)(path)
            os.rename(case.path("aside"), path)
        directory.verify()
        if kind != "directory":
            directory.state = "odd"
            odd_put(case, kind, case.path("odd"))
            for words in (directory.join_words(), directory.verify_words(), directory.reshard_words(ROW)):
                soon(case, words, 6, "photon: store: directory", "odd: it isn't a directory")
    return run


def links(case):
    """A link in place of a disk is refused, wherever it leads, and nothing is made or changed at its end. One to the directory is as good as that."""
    directory = odd.joined(case)
    folder = case.path("state")
    for name in case.random.sample(stores.disk_names(1), 4):
        path = os.path.join(folder, name)
        for target in ("../nowhere", "../gone/nowhere", "/dev/null", "../aside", "beside", name):
            os.rename(path, case.path("aside"))
            with open(os.path.join(folder, "beside"), "wb") as file:
                file.write(read(case.path("aside")))
            os.symlink(target, path)
            before, files = sorted(os.listdir(case.folder)), (read(case.path("aside")), read(os.path.join(folder, "beside")))
            for words in (directory.join_words(), directory.verify_words(), directory.reshard_words(ROW)):
                soon(case, words, 6, f"photon: store: {name}", f"state/{name}: it is a link")
            case.check(sorted(os.listdir(case.folder)) == before, f"something was made at the end of a link to {target}")
            case.check((read(case.path("aside")), read(os.path.join(folder, "beside"))) == files, f"a file at the end of a link to {target} was changed")
            os.remove(path)
            os.remove(os.path.join(folder, "beside"))
            os.rename(case.path("aside"), path)
    os.rename(folder, case.path("elsewhere"))
    os.symlink("elsewhere", folder)
    directory.verify()
    directory.join()


def compressed(case):
    """A log that is compressed is refused by its first line, and the reason says why."""
    one_line(case)
    log = b"".join(model.click_line(((9, 9, number), (1, 1, 1), b"click")) for number in range(50))
    forms = {"gz": gzip.compress(log), "bz2": bz2.compress(log), "xz": lzma.compress(log), "zst": b"\x28\xb5\x2f\xfd" + log, "plain": b"\x1f\x8c" + log}
    for ending, data in forms.items():
        data += b"\n"
        for kind, words in (("queries", [*JOIN[:2], f"log.{ending}", *JOIN[3:]]), ("clicks", [*JOIN[:4], f"log.{ending}", *JOIN[5:]])):
            case.write(f"log.{ending}", data)
            refusal = model.read_log(data, kind)[1]
            soon(case, words, 3, f"photon: {kind}:{refusal}", because.of_log(f"log.{ending}", data, refusal))
    case.check(not os.path.exists(case.path("state")), "the state directory was touched")


# ---- sizes

def sparse(case):
    """A disk of 3 GB whose first gate is closed keeps nothing: it isn't read whole. The file has no bytes of its own on the disk."""
    directory, _ = odd.new_logs(case)
    os.mkdir(case.path("state"))
    for name in ("topology", "offset-A"):
        os.truncate(case.write(f"state/{name}", b"\0") and case.path(f"state/{name}"), 3 << 30 if name == "offset-A" else 1)
    try:
        for words in (directory.verify_words(), directory.join_words()):
            most = read_bytes(case, words)
            case.check(most < 64 << 20, f"{most} bytes were read over a disk of 3 GB that keeps nothing")
    finally:
        os.remove(case.path("state/offset-A"))


def read_bytes(case, words):
    """How many bytes a call has read, by the system's count, which is looked at until it ends."""
    child, most, until = case.start(words), 0, time.monotonic() + SOON
    while os.waitid(os.P_PID, child.pid, os.WEXITED | os.WNOHANG | os.WNOWAIT) is None:
        case.check(time.monotonic() < until, f"the program hasn't ended after {SOON} seconds; it has read {most} bytes")
        most = max(most, count_of(child))
        case.check(most < 64 << 20, f"{most} bytes were read over a disk of 3 GB that keeps nothing")
        time.sleep(0.002)
    most = max(most, count_of(child))
    ended = case.end(child)
    case.check((ended.status, ended.err) == (0, ""), f"status {ended.status}, {ended.err!r}")
    return most


def count_of(child):
    """The bytes that a process has read."""
    try:
        with open(f"/proc/{child.pid}/io", encoding="ascii") as file:
            return int(file.read().split()[1])
    except (OSError, ValueError, IndexError) as fault:
        raise Skipped(f"the system doesn't count the bytes that a process reads: {fault}") from fault


def size_limit(case):
    """Files that may not grow beyond some bytes, with the signal as a shell leaves it: 6 with a disk, or 0. With the limit gone all is joined."""
    directory, _ = odd.new_logs(case)
    for most in (0, 1, 20, 100, 700, case.random.randrange(3000)):
        ended = case.run(directory.join_words(None, 8), preexec_fn=lambda most=most: resource.setrlimit(resource.RLIMIT_FSIZE, (most, resource.RLIM_INFINITY)))
        directory.stops += 8
        case.note(f"files may have {most} bytes")
        case.check(ended.status in (0, 6), f"status {ended.status}, {ended.err!r} where files may have {most} bytes")
        told(directory, ended)
        directory.judge(f"after files of {most} bytes at most")
    directory.join()
    directory.verify()
    words = [case.program, *directory.join_words()]
    ended = subprocess.run(["/bin/sh", "-c", 'ulimit -f 0 && exec "$@"', "sh", *words], cwd=case.folder, stdin=subprocess.DEVNULL, capture_output=True, check=False)
    case.check(ended.returncode == 6 and ended.stderr.startswith(b"photon: store: "), f"status {ended.returncode}, {ended.stderr!r} under ulimit -f 0")
    directory.join()


KINDS = [("pipe", "it is a pipe"), ("socket", "it is a socket"), ("device", "it is a device"), ("directory", "it is a directory")]
CASES = [(function.__name__, function) for function in (log_reads, blind, brief, disk_reads, locks, threads)]
CASES += [("memory", memory(False)), ("memory.verify", memory(True))]
CASES += [(f"{name}.{put[0]}", make(put)) for put in KINDS for name, make in (("log", odd_file), ("disk", odd_disk))]
CASES += [(function.__name__, function) for function in (links, compressed, size_limit)]
LATER = [("sparse", sparse)]  # what the program doesn't do yet: it reads a journal whole, whatever its first gate says
