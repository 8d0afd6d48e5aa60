"""Directories, files, logs and streams that aren't as they should be, for real: what the program tells, and that nothing is lost by it."""
import contextlib
import os
import shutil
import signal
import stat
import subprocess

import logs
import store as stores
from case import Skipped
from directory import Directory
from disks import told
from power import Machine

NOBODY = 65534


def joined(case, joiners=1, clicks=20):
    """A directory that a join has left."""
    maker = logs.Maker(case.random, odd=False)
    maker.add_queries(10)
    maker.add_clicks(clicks)
    directory = Directory(case, joiners)
    directory.give(maker.queries, maker.clicks)
    directory.join()
    return directory


def refused(directory, text):
    """A join, a verification and a `reshard` end with 6 and this text, and change no file."""
    before = directory.copy_files()
    for words in (directory.join_words(), directory.verify_words(), directory.reshard_words((logs.LATEST, 1))):
        directory.case.expect(words, 6, f"photon: store: {text}")
    directory.case.check(directory.copy_files() == before, "a refused run has changed files")


# ---- a disk that is no file

ODD = {
    "folder": os.mkdir, "fifo": os.mkfifo, "socket": lambda path: os.mknod(path, stat.S_IFSOCK | 0o600),
    "loop": lambda path: os.symlink(os.path.basename(path), path),
    "nowhere": lambda path: os.symlink("../nowhere/disk", path), "full": lambda path: os.symlink("/dev/full", path),
    "null": lambda path: os.symlink("/dev/null", path), "upwards": lambda path: os.symlink("..", path),
}


def odd_disk(put):
    """In place of a disk stands what isn't a file: 6 with its name, and nothing changes. With the disk back nothing was lost."""
    def run(case):
        directory = joined(case)
        folder = case.path(directory.state)
        for name in case.random.sample(stores.disk_names(1), 4):
            path = os.path.join(folder, name)
            os.rename(path, case.path("aside"))
            put(path)
            for words in (directory.join_words(), directory.verify_words(), directory.reshard_words((logs.LATEST, 1))):
                case.expect(words, 6, f"photon: store: {name}")
            (os.rmdir if os.path.isdir(path) and not os.path.islink(path) else os.remove)(path)
            os.rename(case.path("aside"), path)
        directory.verify()
        directory.join()
    return run


# ---- what may not be written

def as_nobody(case):
    """The calls of the case have no rights of their own to the files; the program is run from a copy, which they may reach."""
    if os.geteuid() == 0:
        case.settings.update(user=NOBODY, group=NOBODY, extra_groups=[])
        shutil.copy(case.program, case.path("photon"))
        os.chmod(case.path("photon"), 0o755)
        os.chmod(case.folder, 0o755)
        case.program = "./photon"
    try:
        ended = case.run([])
    except OSError as fault:
        raise Skipped(f"the program can't be run by a user without rights: {fault.strerror}") from fault
    if ended.status != 2:
        raise Skipped(f"the program can't be run by a user without rights: {ended.status}")


def read_only(case):
    """Without the right to write: 6 with the first disk that can't be opened, or with the directory. With it back nothing was lost."""
    directory = joined(case)
    folder = case.path(directory.state)
    before = directory.copy_files()
    as_nobody(case)
    for mode, of_files, text in ((0o555, 0o444, "topology"), (0o755, 0o444, "topology"), (0o000, 0o666, "directory"), (0o444, 0o666, "topology")):
        for name in before:
            os.chmod(os.path.join(folder, name), of_files)
        os.chmod(folder, mode)
        for words in (directory.join_words(), directory.reshard_words((logs.LATEST, 1))):
            case.expect(words, 6, f"photon: store: {text}")
        if mode & 0o1:
            directory.verify()
        else:
            case.expect(directory.verify_words(), 6, f"photon: store: {text}")
        os.chmod(folder, 0o755)
        case.check(directory.copy_files() == before, "a refused run has changed files")
    for name in before:
        os.chmod(os.path.join(folder, name), 0o666)
    os.chmod(folder, 0o555)
    directory.verify()
    case.check(case.run(directory.join_words()).status in (0, 6), "a join over a directory in which no file may be made")
    os.chmod(folder, 0o777)
    directory.join()
    os.chmod(folder, 0o755)
    os.mkdir(case.path("above"), 0o555)
    directory.state = "above/state"
    case.expect(directory.join_words(), 6, "photon: store: directory")
    case.check(not os.listdir(case.path("above")), "a directory was made")


@contextlib.contextmanager
def mounted(case, size):
    """A small file system of its own, in memory."""
    place = case.path("mounted")
    os.mkdir(place)
    words = ["mount", "-t", "tmpfs", "-o", f"size={size}", "tmpfs", place]
    if not shutil.which("mount") or subprocess.run(words, capture_output=True, check=False).returncode != 0:
        raise Skipped("nothing can be mounted here")
    try:
        yield place
    finally:
        subprocess.run(["umount", "-l", place], check=True)


def mount_again(place, options):
    """Changes the options of what is mounted."""
    subprocess.run(["mount", "-o", f"remount,{options}", place], capture_output=True, check=True)


def full(case):
    """A file system that is full: the join ends well, or with 6. With more room nothing was lost, and all is joined."""
    pages = case.random.choice([1, 2, 3, 6, 9, 12, 13, 14, 15, 16, 18, 22])
    with mounted(case, f"{4 * pages}k") as place:
        maker = logs.Maker(case.random, odd=False)
        maker.add_queries(20)
        maker.add_clicks(case.random.choice([5, 60, 200]))
        directory = Directory(case)
        directory.state = "mounted/state"
        directory.give(maker.queries, maker.clicks)
        ended = case.run(directory.join_words(None, 8))
        case.note(f"the file system had {pages} pages")
        told(directory, ended)
        directory.judge("over a full file system")
        directory.stops = 8
        mount_again(place, "size=8m")
        directory.join()
        directory.verify()


# ---- what changes in the work of a join

def start_held(directory, call):
    """Starts a join that holds itself before a call that changes a file, or ends."""
    case = directory.case
    Machine(case).plan(f"hold:{call}")
    child = case.start(directory.join_words())
    case.settings.clear()
    os.waitid(os.P_PID, child.pid, os.WSTOPPED | os.WEXITED | os.WNOWAIT)
    return child


def go_on(case, child):
    """Lets a join that is held go on to its end."""
    if child.poll() is None:
        child.send_signal(signal.SIGCONT)
    return case.end(child)


def new_logs(case):
    """A directory with logs, over which nothing was run."""
    maker = logs.Maker(case.random, odd=False)
    maker.add_queries(case.random.choice([10, 100]))
    maker.add_clicks(case.random.choice([30, 150]), 0.1)
    directory = Directory(case)
    directory.give(maker.queries, maker.clicks)
    return directory, maker


def vanish(case):
    """The directory is moved or removed while a join has it, and another may stand at its name: that ends well or with 6, and nothing is made
    or written there; a moved one is sound."""
    directory, _ = new_logs(case)
    child = start_held(directory, case.random.choice([2, case.random.randrange(1, 90), case.random.randrange(86, 250)]))
    moved, other = case.random.random() < 0.6, case.random.choice([None, "empty", "copy"])
    os.rename(case.path("state"), case.path("moved"))
    if other == "empty":
        os.mkdir(case.path("state"))
    elif other == "copy":
        shutil.copytree(case.path("moved"), case.path("state"))
    before = stores.read_files(case.path("state"))
    if not moved:
        shutil.rmtree(case.path("moved"))
    ended = go_on(case, child)
    case.check(os.path.exists(case.path("state")) == bool(other), "the directory was made again")
    check_other(case, before, stores.read_files(case.path("state")))
    directory.state = "moved"
    if moved:
        told(directory, ended)
        directory.judge("after it was moved")
        directory.stops += 0 if ended.status == 0 else 8
    else:
        case.check((ended.status, ended.err) == (0, "") or ended.status == 6, f"status {ended.status}, {ended.err!r}")
    directory.join()
    directory.verify()


def check_other(case, before, after):
    """Nothing was written into another directory at the old name: a call that was under way when it came there may have made an empty file."""
    wrong = [name for name, data in before.items() if after.get(name) != data] + [name for name, data in after.items() if name not in before and data]
    case.check(not wrong and len(after) <= len(before) + 1, f"files of another directory at the old name were changed or made: {wrong or sorted(set(after) - set(before))}")


def moved(case):
    """The directory is moved away from a join, another join runs over a new one at the old name, and then calls of the first one fail. It goes on
    in its own files or ends with 6: it loses nothing that it reports, and the other's files stay as they were left."""
    directory, _ = new_logs(case)
    call = case.random.choice([case.random.randrange(1, 90), case.random.randrange(86, 250)])
    Machine(case).plan(f"hold:{call},{case.random.choice(['eio', 'sync', 'drop'])}:{call + case.random.randrange(1, 12)}{case.random.choice(['', ':3'])}")
    child = case.start(directory.join_words())
    case.settings.clear()
    os.waitid(os.P_PID, child.pid, os.WSTOPPED | os.WEXITED | os.WNOWAIT)
    if child.poll() is not None or not os.path.exists(case.path("state")):
        go_on(case, child)
        return  # it was too quick, or has no directory yet
    os.rename(case.path("state"), case.path("moved"))
    other = Directory(case)
    other.names = ("queries.other", "clicks.other")
    maker = logs.Maker(case.random, odd=False)
    maker.add_queries(20)
    maker.add_clicks(40)
    other.give(maker.queries, maker.clicks)
    other.join()
    before = other.copy_files()
    ended = go_on(case, child)
    check_other(case, before, other.copy_files())
    directory.state = "moved"
    directory.stops += 8
    told(directory, ended)
    directory.judge("after it was moved, and calls failed")
    other.verify()
    directory.join()
    directory.verify()
    other.join()


def shrink(case):
    """A log is cut, emptied, written over or removed while a join reads it: no click is joined wrongly, and with the log back none is missing."""
    directory, maker = new_logs(case)
    child = start_held(directory, case.random.choice([1, case.random.randrange(86, 300)]))
    for name, log in zip(directory.names, (maker.queries, maker.clicks)):
        way = case.random.choice(["leave", "cut", "empty", "remove", "replace", "zeros"])
        case.note(f"{name}: {way}")
        if way == "remove":
            os.remove(case.path(name))
        elif way == "replace":
            case.write("other", log.replace(b"1", b"7"))
            os.replace(case.path("other"), case.path(name))
        elif way != "leave":
            os.truncate(case.path(name), 0 if way != "cut" else case.random.randrange(len(log)))
            os.truncate(case.path(name), len(log) if way == "zeros" else os.path.getsize(case.path(name)))
    ended = go_on(case, child)
    told(directory, ended)
    store = directory.judge("after the logs were cut")
    directory.give(maker.queries, maker.clicks)
    directory.joined = set(store.pairs())
    directory.join()
    directory.verify()


# ---- streams that are closed

def closed(case):
    """Input, output and errors are closed, in all ways: the status is as ever, and nothing is written into another file."""
    directory = joined(case)
    logs_before = [read(case.path(name)) for name in directory.names]
    for number in range(1, 8):
        shut = [stream for stream in range(3) if number >> stream & 1]
        for words in (directory.verify_words(), directory.join_words()):
            ended = case.run(words, preexec_fn=lambda shut=shut: [os.close(stream) for stream in shut], restore_signals=False)
            text = "photon: write" if 1 in shut and 2 not in shut else ""
            case.check((ended.status, ended.err) == (5 if 1 in shut else 0, text), f"{shut} closed: status {ended.status}, {ended.err!r}")
            directory.judge(f"with {shut} closed")
    name = case.random.choice(stores.disk_names(1))
    os.rename(os.path.join(case.path("state"), name), case.path("aside"))
    os.mkdir(os.path.join(case.path("state"), name))
    before = files_of(case.path("state"))
    for words in (directory.verify_words(), directory.join_words()):
        ended = case.run(words, preexec_fn=lambda: os.closerange(0, 3), restore_signals=False)
        case.check(ended.status == 6, f"all closed, and {name} a directory: status {ended.status}")
        case.check(files_of(case.path("state")) == before, "a refused run has changed files")
    case.check([read(case.path(name)) for name in directory.names] == logs_before, "a log was changed")
    os.rmdir(os.path.join(case.path("state"), name))
    os.rename(case.path("aside"), os.path.join(case.path("state"), name))
    directory.verify()
    directory.join()


def read(path):
    """The bytes of a file."""
    with open(path, "rb") as file:
        return file.read()


def files_of(folder):
    """The bytes of each file of a directory in which not all are files."""
    return {name: read(os.path.join(folder, name)) for name in os.listdir(folder) if os.path.isfile(os.path.join(folder, name))}


LISTED = [(f"disk.{name}", odd_disk(put)) for name, put in ODD.items()]
LISTED += [(function.__name__, function) for function in (read_only, closed)]
