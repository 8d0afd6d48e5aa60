"""What the scripts that measure share: programs that are run and what they used, made logs, and tools that may be missing."""
import collections
import contextlib
import os
import shutil
import subprocess
import sys
import time

TOP = os.path.dirname(os.path.dirname(os.path.abspath(__file__)))
sys.path.insert(0, os.path.join(TOP, "tests"))
import drivers

PHOTON = os.environ.get("PHOTON", os.path.join(TOP, "bin", "photon"))

# Seconds of wall time and of the processors, megabytes of the largest resident set of one process, context switches. The system counts what
# the process had before it became the program, so no figure of memory is below that of Python, some 15 to 25 MB.
Used = collections.namedtuple("Used", "wall processor megabytes switches")


def run(words, out=os.devnull, stdin=os.devnull):
    """Runs a program from one file into another: what it and its children used."""
    with open(out, "wb") as taken, open(stdin, "rb") as given:
        began = time.perf_counter()
        child = subprocess.Popen(words, stdin=given, stdout=taken)
        _, status, used = os.wait4(child.pid, 0)
        wall = time.perf_counter() - began
    if status != 0:
        sys.exit(f"bench: {words[0]} ended with status {os.waitstatus_to_exitcode(status)}")
    return Used(wall, used.ru_utime + used.ru_stime, used.ru_maxrss / 1000, used.ru_nvcsw + used.ru_nivcsw)


def build():
    """Builds the program where need be, so that no build is timed."""
    subprocess.run([PHOTON], stderr=subprocess.DEVNULL, stdout=subprocess.DEVNULL, check=False)


def build_parts():
    """Builds `bench_parts`, proved as `rt run` wants it, where it isn't built of these sources, and gives its path; ends where that can't be."""
    program = os.path.join(drivers.PARTS, "out", "bench_parts")
    if not drivers.is_newest(program, "bench_parts") and drivers.has_toolchain():
        print("building bench_parts; over libraries that the gate built some minutes, from nothing an hour", file=sys.stderr)
        with drivers.crate("bench_parts", is_proved=True) as crate:
            subprocess.run(["rt", "run", "--", "none"], cwd=crate, stdout=subprocess.DEVNULL, stderr=subprocess.DEVNULL, check=False)
            with contextlib.suppress(FileNotFoundError):
                os.makedirs(os.path.dirname(program), exist_ok=True)
                shutil.copy(os.path.join(crate, "out", "bench_parts"), program)
    if not drivers.is_newest(program, "bench_parts"):
        sys.exit("bench_parts isn't built of these sources: nothing timed")
    return program


def has(tool):
    """Whether a tool is here. A line says what is left out."""
    if shutil.which(tool) is None:
        print(f"bench: {tool} is not here, left out")
        return False
    return True


def join_words(logs, state, joiners=1, program=PHOTON):
    """The words of a join."""
    return [program, "join", "--queries", logs[0], "--clicks", logs[1], "--state", state, "--joiners", str(joiners)]


def make_logs(folder, clicks, queries=None):
    """Paths of a query log by 3 servers and 64 processes, in order of time, and of a click log that goes over its queries, again and again where
    they are fewer. Of the clicks each tenth has no query. Logs of more lines begin with those of fewer."""
    queries = queries or clicks
    name = lambda k: f"10.0.{k % 3}.1:{k * 2654435761 % 64}:{1_719_000_000_000_000 + 1000 * k}"
    logs = os.path.join(folder, f"queries{clicks}"), os.path.join(folder, f"clicks{clicks}")
    with open(logs[0], "w", encoding="ascii") as file:
        file.writelines(f"{name(k)} words {k}\n" for k in range(queries))
    with open(logs[1], "w", encoding="ascii") as file:
        for k in range(clicks):
            wanted = f"9.9.9.9:9:{k}" if k % 10 == 9 else name(k % queries)
            file.write(f"10.1.0.{k % 16}:{k % 64}:{1_719_000_100_000_000 + 250 * k} {wanted} click {k}\n")
    return logs


def totals(clicks):
    """The report's last line over such logs."""
    return f"= {clicks - clicks // 10} 0 0 {clicks // 10}"


def last_line(path):
    """The last line of a file."""
    return subprocess.run(["tail", "-n", "1", path], capture_output=True, text=True, check=True).stdout.strip()


def bytes_in(folder):
    """The bytes of all files below a folder."""
    return sum(os.path.getsize(os.path.join(at, file)) for at, _, files in os.walk(folder) for file in files)


def seconds(words):
    """The best of three runs, and what was printed."""
    best, printed = None, ""
    for _ in range(3):
        begin = time.perf_counter()
        done = subprocess.run(words, capture_output=True, text=True, check=True)
        spent = time.perf_counter() - begin
        best, printed = (spent if best is None else min(best, spent)), done.stdout.strip()
    return best, printed


def rust_program(folder, text):
    """The program that this Rust text is, built in the folder, or None where there is no rustc."""
    if not has("rustc"):
        return None
    source, program = os.path.join(folder, "work.rs"), os.path.join(folder, "work")
    with open(source, "w", encoding="ascii") as file:
        file.write(text)
    subprocess.run(["rustc", "-O", "--edition", "2021", "-o", program, source], check=True)
    return program
