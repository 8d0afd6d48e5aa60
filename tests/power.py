"""A machine whose disk fails and that loses power, by the library of tests/failing.c: the program runs under it, and this reads what it keeps."""
import os
import shutil
import struct

from case import Skipped

KEPT, WRITTEN, LOST, SURE = 1, 2, 4, 8  # marks of a byte, as tests/failing.c tells them
LONGEST = 1 << 18
NOISE = (0, 0xa5, 0x5a)  # gates among what a loss of power leaves
FRONT = 5  # bytes before the kept ones: how many bytes have marks, and whether the name is kept


class Kept:
    """What is kept of one file: what the disk has of its bytes, what syncs have acknowledged of them, and a mark for each."""

    def __init__(self, path):
        with open(path, "rb") as file:
            self.size, self.name = struct.unpack("<IB", file.read(FRONT))
            self.bytes, self.marks, self.sure = file.read(LONGEST)[:self.size], file.read(LONGEST)[:self.size], file.read(self.size)

    def length(self, mark):
        """Where the last byte with a mark ends."""
        return max((at + 1 for at, one in enumerate(self.marks) if one & mark), default=0)

    def synced(self):
        """What a sync that succeeded has acknowledged: no loss of power may take it."""
        return self.sure[:self.length(SURE)]

    def left(self, chance, now):
        """What a loss of power leaves, where the file now reads so. Each byte that was written since the last sync that succeeded is its old
        value, its new one, or anything, whether it was changed or not; the end is cut anywhere between the old one and the new one."""
        least = self.length(KEPT)
        most = max(least, self.length(WRITTEN | LOST))
        left = bytearray(chance.choice([least, most, chance.randint(least, most)]))
        ways = chance.choice([["old"], ["new"], ["noise"], ["old", "new"], ["old", "new", "noise"]])
        for at in range(len(left)):
            mark = self.marks[at]
            old = self.bytes[at] if mark & KEPT else chance.choice(NOISE)
            new = now[at] if at < len(now) else old
            way = chance.choice(ways) if mark & (WRITTEN | LOST) else "old"
            left[at] = {"old": old, "new": new, "noise": chance.choice([chance.randrange(256), *NOISE])}[way]
        return bytes(left)


class Machine:
    """The machine that all programs of a case run on from now on."""

    def __init__(self, case):
        if case.failing is None:
            raise Skipped("there is no C compiler (cc), so the library that fails isn't there")
        self.case, self.kept = case, case.path("kept")
        self.store = None  # what the last run that ended well, or the last loss of power, has left
        self.restart()
        self.plan("")

    def restart(self):
        """All that the files hold is kept."""
        shutil.rmtree(self.kept, ignore_errors=True)
        os.mkdir(self.kept)

    def plan(self, text):
        """Plans what happens in the next run."""
        case = self.case
        case.note(f"plan {text!r}")
        case.settings["env"] = {**os.environ, "LD_PRELOAD": case.failing, "FAILING_BELOW": os.path.realpath(case.folder),
                                "FAILING_KEPT": self.kept, "FAILING_PLAN": text, "FAILING_SEED": str(case.random.randrange(1 << 31))}

    def calls(self):
        """The calls that counted since the power was last lost, each as the call, its path, its place and size, and what happened."""
        path = os.path.join(self.kept, "calls")
        if not os.path.exists(path):
            return []
        with open(path, encoding="ascii") as file:
            return [line.rstrip("\n").split(" ") for line in file]

    def files(self, state, ending="kept"):
        """What is kept of each file of a directory, by name; with `was`, of those whose names are gone, which a loss of power may bring back."""
        front, ending = f"%{state}%", f".{ending}"
        found = [name for name in os.listdir(self.kept) if name.startswith(front) and name.endswith(ending)]
        return {name[len(front):-len(ending)]: Kept(os.path.join(self.kept, name)) for name in sorted(found)}

    def synced(self, state):
        """The bytes of each file of a directory that no loss of power may take."""
        return {name: kept.synced() for name, kept in self.files(state).items()}

    def lose_power(self, state):
        """Leaves of a directory what a loss of power may leave. A name that wasn't synced may be gone, or be what it was."""
        chance, folder = self.case.random, self.case.path(state)
        own = os.path.join(self.kept, f"%{state}.kept")
        if os.path.exists(own) and not Kept(own).name and chance.random() < 0.5:
            shutil.rmtree(folder, ignore_errors=True)
        if os.path.isdir(folder):
            left = self.left(state)
            for name in os.listdir(folder):
                if os.path.isfile(os.path.join(folder, name)) and left.get(name) is None and name in left:
                    os.remove(os.path.join(folder, name))
            for name, data in left.items():
                if data is not None:
                    with open(os.path.join(folder, name), "wb") as file:
                        file.write(data)
        self.case.note("the power is lost")
        self.restart()

    def left(self, state):
        """What a loss of power leaves of each file of a directory that is known, by name; None of one that is gone. A file that took another's
        name has it, or the other one has it still."""
        chance, files, gone, left = self.case.random, self.files(state), self.files(state, "was"), {}
        for name, kept in files.items():
            now = read(os.path.join(self.case.path(state), name))
            is_there = kept.name or name in gone and gone[name].name or chance.random() < 0.5
            left[name] = kept.left(chance, now) if now is not None and is_there else None
        for name, kept in gone.items():
            if chance.random() < 0.5:
                if name in files and "." not in name and f"{name}.copy" not in files:
                    left[f"{name}.copy"] = left[name]
                now = read(os.path.join(self.kept, f"%{state}%{name}.now"))
                left[name] = kept.left(chance, now) if kept.name or chance.random() < 0.5 else None
        return left


def read(path):
    """The bytes of a file, None where it isn't there."""
    if not os.path.isfile(path):
        return None
    with open(path, "rb") as file:
        return file.read()
