"""Commands that only look, or that change one record: what they leave as it was, what they don't make, and when they are refused."""
import os
import shutil
import signal

import logs
import model
import odd
import store as stores
from directory import Directory
from power import Machine

ROW = (logs.LATEST, 1)


def stamps(folder):
    """All that a system keeps of a directory and its files but the time at which each was read last, by name."""
    paths = [folder, *(os.path.join(folder, name) for name in sorted(os.listdir(folder)))]
    found = {}
    for path in paths:
        one = os.lstat(path)
        found[path] = (one.st_ino, one.st_mode, one.st_uid, one.st_gid, one.st_size, one.st_nlink, one.st_mtime_ns, one.st_ctime_ns)
    return found


def mistyped(case):
    """A `verify` or a `reshard` of a directory that isn't there: 6, and none is made; so is a join's below one that isn't there."""
    directory = odd.joined(case)
    for name, reason in (("stat", "it isn't there"), ("nowhere/state", "the directory above it isn't there"), ("clicks", "it isn't a directory"),
                         ("clicks/state", None), ("", None)):
        before = sorted(os.listdir(case.folder))
        directory.state = name
        for words in (directory.verify_words(), directory.reshard_words(ROW)):
            case.expect(words, 6, "photon: store: directory", reason=reason and f"{name}: {reason}")
        if name != "stat":
            case.expect(directory.join_words(), 6, "photon: store: directory", reason=reason and f"{name}: {reason}")
        case.check(sorted(os.listdir(case.folder)) == before, f"something was made for the directory {name!r}")
    directory.state = "state"
    directory.verify()


def empty(case):
    """Of a directory that is there and empty `verify` says that each click is U, and `reshard` that there is no topology; no file is made."""
    directory, _ = odd.new_logs(case)
    os.mkdir(case.path("state"))
    before = stamps(case.path("state"))
    case.expect(directory.verify_words(), 0, "", stores.report_of_store(directory.read(), model.records(directory.clicks)))
    case.expect(directory.reshard_words(ROW), 11, "photon: reshard: no topology")
    case.check(stamps(case.path("state")) == before, "a command that looks has changed an empty directory")
    directory.join()


def times(case):
    """A verification leaves each file and the directory as they are, times of change too; so does a `reshard` that is refused, and one that is
    taken leaves all files but the topology's."""
    directory = odd.joined(case, case.random.choice([1, 3]))
    folder = case.path("state")
    for path in (folder, *(os.path.join(folder, name) for name in os.listdir(folder))):
        os.utime(path, ns=(10 ** 18, 10 ** 18))
    before = stamps(folder)
    directory.verify()
    case.check_same(stamps(folder), before, "the files behind a verification")
    kept = [name for name, data in directory.copy_files().items() if len(data) > 1]  # the others are given their first gate anew
    for row, changed in (((0, 1), []), (ROW, ["topology"])):
        directory.reshard(row)
        after = stamps(folder)
        others = [os.path.join(folder, name) for name in kept if name not in changed]
        case.check_same([after[path] for path in others], [before[path] for path in others], f"the files behind a reshard with the row {row}")


def no_rights(case):
    """A user who may read and not write verifies a directory; a join and a `reshard` are refused."""
    directory = odd.joined(case)
    folder = case.path("state")
    for name in os.listdir(folder):
        os.chmod(os.path.join(folder, name), 0o444)
    os.chmod(folder, 0o555)
    odd.as_nobody(case)
    before = stamps(folder)
    directory.verify()
    for words in (directory.join_words(), directory.reshard_words(ROW)):
        case.expect(words, 6, "photon: store: topology", reason="state/topology: it isn't permitted")
    case.check_same(stamps(folder), before, "the files behind a user without rights")
    os.chmod(folder, 0o000)
    for words in (directory.join_words(), directory.verify_words(), directory.reshard_words(ROW)):
        case.expect(words, 6, "photon: store: directory", reason="state: it isn't permitted")
    os.chmod(folder, 0o755)


def read_only_mount(case):
    """The same of a file system that is mounted read-only, by a user without rights."""
    directory = odd.joined(case)
    with odd.mounted(case, "8m") as place:
        shutil.copytree(case.path("state"), os.path.join(place, "state"))
        for name in os.listdir(os.path.join(place, "state")):
            os.chmod(os.path.join(place, "state", name), 0o666)
        odd.mount_again(place, "ro")
        directory.state = "mounted/state"
        before = stamps(case.path(directory.state))
        odd.as_nobody(case)
        directory.verify()
        for words in (directory.join_words(), directory.reshard_words(ROW)):
            case.expect(words, 6, "photon: store: topology", reason="mounted/state/topology: its file system is read-only")
        directory.state = "mounted/new"
        for words in (directory.verify_words(), directory.reshard_words(ROW), directory.join_words()):
            case.expect(words, 6, "photon: store: directory")
        directory.state = "mounted/state"
        case.check_same(stamps(case.path(directory.state)), before, "the files of a file system that is mounted read-only")


def held(case):
    """While a join has the directory all others are refused, and told who has it. While a verification has it others may verify."""
    directory, _ = odd.new_logs(case)
    child = odd.start_held(directory, 120)
    case.check(child.poll() is None, "the join wasn't held in its work")
    before = stamps(case.path("state"))
    for words in (directory.join_words(), directory.verify_words(), directory.reshard_words(ROW)):
        ended = case.expect(words, 6, "photon: store: directory")
        holders = [f"photon: because: state: {who} has it" for who in (f"process {child.pid}", "another process")]
        case.check(len(ended.because) == 1 and ended.because[0] in holders, f"the reason {ended.because}, and process {child.pid} has it")
    case.check_same(stamps(case.path("state")), before, "the files behind refused runs")
    ended = odd.go_on(case, child)
    case.check((ended.status, ended.err) == (0, ""), f"the held join ended with {ended.status}, {ended.err!r}")
    directory.rested(ended.out, stores.Store({}, 1), 0, 64)


def held_by_a_look(case):
    """While a verification has the directory others may verify, and no run may change it."""
    directory = odd.joined(case)
    Machine(case).plan("hold:0")
    child = case.start(directory.verify_words())
    case.settings.clear()
    os.waitid(os.P_PID, child.pid, os.WSTOPPED | os.WEXITED | os.WNOWAIT)
    case.check(child.poll() is None, "the verification wasn't held")
    directory.verify()
    for words in (directory.join_words(), directory.reshard_words(ROW)):
        case.expect(words, 6, "photon: store: directory")
    child.send_signal(signal.SIGCONT)
    ended = case.end(child)
    case.check((ended.status, ended.err) == (0, ""), f"the held verification ended with {ended.status}, {ended.err!r}")
    directory.join()


CASES = [(function.__name__, function) for function in (mistyped, empty, times, no_rights, read_only_mount, held, held_by_a_look)]
