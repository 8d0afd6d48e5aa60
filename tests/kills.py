"""Joins that are stopped: by SIGKILL, by a disk that takes no more bytes, beside another process. The store is judged after each."""
import os
import re
import resource
import signal
import subprocess

import logs
import model
import runs
import store as stores
from directory import Directory


def longer_logs(case, clicks):
    """Logs of so many clicks and some queries."""
    maker = logs.Maker(case.random, odd=case.random.random() < 0.5)
    maker.add_queries(25)
    maker.add_clicks(clicks, 0.1)
    return maker


def state_size(directory):
    """The bytes of all files of the directory."""
    folder = directory.case.path(directory.state)
    try:
        return sum(entry.stat().st_size for entry in os.scandir(folder))
    except OSError:
        return 0


def kill_once(directory, horizon, batch):
    """Starts a join, and kills it once its files have grown by some bytes; the store is judged and verified."""
    case = directory.case
    clicks = len(directory.clicks)
    least = state_size(directory) + case.random.choice([0, 1, case.random.randrange(300), case.random.randrange(190 * clicks + 1)])
    child = case.start(directory.join_words(horizon, batch), stdout=subprocess.DEVNULL, stderr=subprocess.DEVNULL)
    if case.kill_at(child, lambda: state_size(directory) > least):
        directory.stops += 1
    store = directory.judge("after a kill")
    if child.returncode == 0:
        directory.bound = max(directory.bound, horizon or 0)
        directory.joined = set(store.pairs())
    directory.verify()


def put_noise(directory):
    """Writes bytes behind the last gate of some files, as a stop of the machine within a body's write may leave them."""
    case = directory.case
    for name, data in directory.copy_files().items():
        if len(data) > 1 and case.random.random() < 0.4:
            end = stores.gate_rule(data)[2]
            noise = bytes(case.random.choice([0, 0xa5, 0x5a, 255, 7]) for _ in range(case.random.randrange(60)))
            stores.write_files(case.path(directory.state), {name: data[:end] + case.random.choice([b"\0", b"Z", b"\x17"]) + noise})
    directory.judge("with noise behind its gates")


def kill(case):
    """A directory whose joins are killed one to three times, then joined to the end, and again."""
    maker = longer_logs(case, case.random.choice([20, 60, 120]))
    directory = runs.random_directory(case, maker)
    share = case.random.choice([1, 1, 2])
    directory.give(maker.queries[:len(maker.queries) // share], maker.clicks[:len(maker.clicks) // share])
    for _ in range(case.random.choice([1, 1, 2, 3])):
        kill_once(directory, case.random.choice([None, None, maker.horizon()]), runs.random_batch(case))
        if case.random.random() < 0.4:
            put_noise(directory)
    directory.give(maker.queries, maker.clicks)
    directory.join(case.random.choice([None, maker.horizon()]), runs.random_batch(case))
    directory.verify()
    if case.random.random() < 0.4:
        directory.join(None, runs.random_batch(case))


# ---- a disk that takes no more bytes

def full_disk(case):
    """Files that may not grow beyond some bytes: the join ends with 0, or with 6 and a text; the store is judged, and joined again."""
    maker = longer_logs(case, case.random.choice([5, 40]))
    directory = runs.random_directory(case, maker)
    directory.give(maker.queries, maker.clicks)
    most = case.random.choice([0, 20, 33, case.random.randrange(100), case.random.randrange(3000), case.random.randrange(3000)])
    ended = case.run(directory.join_words(None, 8), preexec_fn=lambda: limit_files(most), restore_signals=False)
    case.note(f"files may have {most} bytes")
    store = directory.judge("after a disk was full")
    names = "|".join(stores.disk_names(directory.joiners))
    nodes = "|".join(map(str, range(7 + 2 * directory.joiners)))
    if ended.status == 6:
        texts = f"photon: store: (directory|{names}|node ({nodes}) stopped 8 times)"
        case.check(re.fullmatch(texts, ended.err) and ended.out == b"", f"status 6, {ended.err!r}")
    else:
        case.check((ended.status, ended.err) == (0, ""), f"status {ended.status}, {ended.err!r}")
        case.check_same(ended.out, stores.report_of_store(store, model.records(directory.clicks)), "the report over a full disk")
    directory.stops = 8
    directory.verify()
    directory.join()
    directory.verify()


def limit_files(most):
    """Of a new process: a write beyond so many bytes of a file fails, and no signal ends the process."""
    signal.signal(signal.SIGXFSZ, signal.SIG_IGN)
    resource.setrlimit(resource.RLIMIT_FSIZE, (most, resource.RLIM_INFINITY))


# ---- two processes

def held(case):
    """While a join has the directory, which is stopped in its work, a second join and a verification end with 6 and change nothing."""
    directory = Directory(case)
    for size in (60, 300, 1500):
        maker = longer_logs(case, size)
        directory.give(maker.queries, maker.clicks)
        child = case.start(directory.join_words())
        if stop_within(directory, child):
            break
        case.check(case.end(child).status == 0, "the join failed")
        directory = Directory(case)
        directory.state = f"state{size}"
    else:
        return  # each join ended before it could be held
    before = directory.copy_files()
    for words in (directory.join_words(), directory.verify_words()):
        case.expect(words, 6, "photon: store: directory")
    case.check(directory.copy_files() == before, "a refused run has changed files")
    child.send_signal(signal.SIGCONT)
    ended = case.end(child)
    case.check((ended.status, ended.err) == (0, ""), f"the held join ended with {ended.status}, {ended.err!r}")
    directory.rested(ended.out, stores.Store({}, 1), 0, 64)
    directory.verify()


def stop_within(directory, child):
    """Holds a process once its directory has some bytes: whether it is held in its work."""
    while child.poll() is None:
        if state_size(directory) > 200:
            child.send_signal(signal.SIGSTOP)
            os.waitid(os.P_PID, child.pid, os.WSTOPPED | os.WEXITED | os.WNOWAIT)
            store = directory.read()
            if any(store.last(f"offset-{site}") < model.log_end(directory.clicks) for site in "AB"):
                return True
            child.send_signal(signal.SIGCONT)
            return False
    return False


def race(case):
    """Joins and verifications of one directory that are started at once: each ends well or with 6, at least one well."""
    maker = longer_logs(case, case.random.choice([1, 10, 50]))
    directory = Directory(case)
    directory.give(maker.queries, maker.clicks)
    words = [directory.join_words() for _ in range(case.random.randint(2, 3))]
    words += [directory.verify_words()] * case.random.randrange(2)
    ends = [case.end(child) for child in [case.start(one) for one in words]]
    for ended in ends:
        fits = (ended.status == 0 and ended.err == "") or (ended.status, ended.err, ended.out) == (6, "photon: store: directory", b"")
        case.check(fits, f"status {ended.status}, {ended.err!r}")
    case.check(any(ended.status == 0 for ended in ends), "none of the runs that were started at once ended well")
    expected = model.report_of_logs(model.records(directory.queries), model.records(directory.clicks), 0)
    for one, ended in zip(words, ends):
        if one[0] == "join" and ended.status == 0:
            case.check_same(ended.out, expected, "the report of one of the joins")
    directory.judge("after a race")
    directory.join()
    directory.verify()
