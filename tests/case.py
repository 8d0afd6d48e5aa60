"""A case of the tests: its folder, its random numbers, the program, and what it ran, which is kept where it fails."""
import os
import random
import shlex
import signal
import subprocess
import time

import because

LIMIT = float(os.environ.get("PHOTON_TEST_LIMIT", "600"))  # seconds for a call of the program
MEMORY = 1500  # megabytes that a call may take
PAGE = os.sysconf("SC_PAGE_SIZE")
TOP = os.path.dirname(os.path.dirname(os.path.abspath(__file__)))


class Failed(Exception):
    """The program did something else than the pages say."""


class Skipped(Exception):
    """The case can't be run on this machine."""


class Ended:
    """How a call of the program ended. A line that tells a reason stands by itself, in `because`."""

    def __init__(self, status, out, err):
        lines = err.decode("utf-8", "replace").strip().split("\n")
        self.status, self.out = status, out
        self.because = [line for line in lines if line.startswith(because.FRONT)]
        self.err = "\n".join(line for line in lines if line not in self.because)


class Case:
    """One case; the same name and seed give the same random numbers."""

    def __init__(self, name, seed, program, folder, failing=None):
        """`failing` is the library of tests/failing.c, None where there is no C compiler."""
        self.name, self.seed, self.program, self.folder, self.failing = name, seed, program, folder, failing
        self.random = random.Random(f"{seed} {name}")
        self.steps, self.children = [], []
        self.settings = {}  # of each call of the program from now on
        self.told, self.rows = "", 0  # a line that is printed where the case passes, and the rows of a script that it played

    # ---- files

    def path(self, name):
        """The path of a file of the case's folder."""
        return os.path.join(self.folder, name)

    def write(self, name, data):
        """Writes a file into the case's folder, and gives its name."""
        with open(self.path(name), "wb") as file:
            file.write(data)
        return name

    def note(self, text):
        """Keeps a line for whoever looks at a failed case."""
        self.steps.append(text)

    # ---- what is expected

    def check(self, fits, text):
        """Fails the case where something doesn't fit."""
        if not fits:
            raise Failed(text)

    def check_none(self, wrong, when):
        """Fails the case where anything is wrong."""
        if wrong:
            raise Failed(f"{when}: " + "; ".join(wrong[:5]) + (f"; and {len(wrong) - 5} more" if len(wrong) > 5 else ""))

    def check_same(self, got, expected, what):
        """Fails the case where two texts differ."""
        if got != expected:
            raise Failed(f"{what}: it is\n{shown(got)}\nand by the pages\n{shown(expected)}")

    # ---- the program

    def start(self, words, tool="photon", **more):
        """Starts the program, or another one of bin/, with these words in the case's folder."""
        self.note(f"{tool} " + shlex.join(str(word) for word in words))
        settings = {"stdin": subprocess.DEVNULL, "stdout": subprocess.PIPE, "stderr": subprocess.PIPE, **self.settings, **more}
        settings["env"] = {**os.environ, "PHOTON": self.program, **settings.get("env", {})}
        program = self.program if tool == "photon" else os.path.join(TOP, "bin", tool)
        child = subprocess.Popen([program, *map(str, words)], cwd=self.folder, **settings)
        self.children.append(child)
        return child

    def end(self, child):
        """Waits for the end of a call; one that takes too long or too much memory fails the case."""
        until = time.monotonic() + LIMIT
        while True:
            try:
                out, err = child.communicate(timeout=0.25)
                break
            except subprocess.TimeoutExpired:
                self.check(time.monotonic() < until, f"the program didn't end in {LIMIT:.0f} seconds: {self.steps[-1]}")
                self.check(megabytes(child) < MEMORY, f"the program takes over {MEMORY} megabytes: {self.steps[-1]}")
        ended = Ended(child.returncode, out or b"", err or b"")
        self.note(f"  status {ended.status}; {ended.err or 'nothing on standard error'}; {len(ended.out)} bytes of output")
        wrong = because.wrong_with(ended.err, ended.because)
        self.check(not wrong, wrong)
        return ended

    def run(self, words, **more):
        """Runs the program to its end."""
        return self.end(self.start(words, **more))

    def expect(self, words, status, err, out=b"", reason=None, **more):
        """Runs the program, and compares all that it tells; of a reason only where one is given, as `PATH: REASON`, "" for none."""
        ended = self.run(words, **more)
        if reason is not None:
            self.check_same(ended.because, [because.FRONT + reason] if reason else [], f"the reason behind {ended.err!r}, {self.steps[-2]}")
        self.check((ended.status, ended.err) == (status, err),
                   f"status {ended.status}, {ended.err!r}; by the pages {status}, {err!r}: {self.steps[-2]}")
        if out is not None:
            self.check_same(ended.out, out, self.steps[-2])
        return ended

    def kill_at(self, child, fits):
        """Kills a call once something holds, or lets it end; whether it was killed."""
        until = time.monotonic() + LIMIT
        while child.poll() is None and not fits():
            if time.monotonic() > until:
                raise Failed(f"the program didn't end in {LIMIT:.0f} seconds: {self.steps[-1]}")
            time.sleep(0.0005)
        child.kill()
        child.communicate()
        self.note(f"  ended with {child.returncode}")
        return child.returncode == -signal.SIGKILL

    def close(self):
        """Ends what the case has started and not waited for."""
        for child in self.children:
            if child.poll() is None:
                child.kill()
                child.communicate()


def megabytes(child):
    """The memory of a process, 0 where the system doesn't tell."""
    try:
        with open(f"/proc/{child.pid}/statm", encoding="ascii") as file:
            return int(file.read().split()[1]) * PAGE >> 20
    except (OSError, ValueError, IndexError):
        return 0


def shown(text):
    """A text for a message, its middle left out where it is long."""
    text = text.decode("utf-8", "replace") if isinstance(text, bytes) else str(text)
    return text if len(text) < 3000 else text[:1400] + "\n[..]\n" + text[-1400:]
