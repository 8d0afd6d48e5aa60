#!/usr/bin/env python3
"""Tries want of memory, one growth at a time: runs the program, and each test of the crates named, once for each of its
allocations, that one failing, until a run makes fewer.

usage: bench/memory.py [CRATE ..]      (default: the program alone)

The program runs on small logs in a temporary folder, with good words and bad ones, good logs and bad ones. Where an
allocation fails it must end with status 8, tell `photon: memory`, and print nothing, or answer as with all memory; where
words are refused, the status stays 2 and the parser's text may be missing. Its answer with all memory must be as wanted. A test of a crate, which must
have been built by `rt test` there, must pass or end with AllocError. All else is listed, and the exit status is 1.
It needs a C compiler, for a library that counts and fails allocations; with none it says so and does nothing.
"""
import os
import shutil
import subprocess
import sys
import tempfile

TOP = os.path.dirname(os.path.dirname(os.path.abspath(__file__)))
PROGRAM = os.environ.get("PHOTON", os.path.join(TOP, "crates/photon/out/photon"))

SHIM = r"""
#define _GNU_SOURCE
#include <dlfcn.h>
#include <errno.h>
#include <fcntl.h>
#include <stdlib.h>
#include <unistd.h>

static long calls;

/* A file says that the allocation that was to fail has come. */
static void tell(void)
{
    const char *mark = getenv("FAILING_MARK");
    int file = mark ? open(mark, O_CREAT | O_WRONLY, 0600) : -1;
    if (file >= 0)
        close(file);
}

static int fails(void)
{
    static long wanted = -1;
    if (wanted < 0) {
        const char *text = getenv("FAILING_ALLOCATION");
        wanted = text ? atol(text) : 0;
    }
    if (__sync_add_and_fetch(&calls, 1) != wanted)
        return 0;
    tell();
    errno = ENOMEM;
    return 1;
}

void *malloc(size_t size)
{
    static void *(*real)(size_t);
    if (!real)
        real = (void *(*)(size_t))dlsym(RTLD_NEXT, "malloc");
    return fails() ? NULL : real(size);
}

void *realloc(void *old, size_t size)
{
    static void *(*real)(void *, size_t);
    if (!real)
        real = (void *(*)(void *, size_t))dlsym(RTLD_NEXT, "realloc");
    return fails() ? NULL : real(old, size);
}
"""

# How a test ends that compares two values which differ.
OWN_STOP = -6

QUERY = "10.0.0.1:7:1000 shoes\n"
CLICK = "10.0.0.2:9:2000 10.0.0.1:7:1000 buy\n"
JOINED = "J 10.0.0.2:9:2000 10.0.0.1:7:1000 buy\tshoes\n"


def many_lines():
    queries = "".join(f"10.0.0.1:{k % 5}:{1000 + k} q{k}\n" for k in range(10))
    clicks = "".join(f"10.0.0.2:{k % 7}:{2000 + k} 10.0.0.1:{k % 5}:{1000 + k + k % 2 * 500} c{k}\n" for k in range(10))
    return queries, clicks


JOIN = ["join", "--queries", "queries", "--clicks", "clicks", "--state", "state"]
DRILL = ["drill", "--queries", "queries", "--clicks", "clicks", "--plan", "plan"]
VERIFY = ["verify", "--clicks", "clicks", "--state", "state"]

# Packets come twice, and both outputs stop within their first record.
PLAN = """{"rules":[{"from":"any","to":"any","first":0,"count":9,"fate":"twice","by":2}],
"stops":[{"disk":"output","which":"all","call":3,"image":"noise"}]}
"""


# Each case: its name, the query log, the click log, the words, then what is wanted with all memory: the status, the
# output (None: any), the errors (None: any).
def cases():
    queries, clicks = many_lines()
    return [
        ("both empty", "", "", JOIN, 0, "= 0 0 0 0\n", ""),
        ("one pair", QUERY, CLICK, JOIN, 0, JOINED + "= 1 0 0 0\n", ""),
        ("expired", QUERY, CLICK, JOIN + ["--horizon", "2001"], 0, "X 10.0.0.2:9:2000\n= 0 0 1 0\n", ""),
        ("many lines", queries, clicks, JOIN + ["--horizon", "2003"], 0, None, ""),
        ("a line twice", QUERY + QUERY, CLICK + CLICK, JOIN, 0, JOINED + "= 1 0 0 0\n", ""),
        ("a bad query", "10.0.0.01:7:1000 shoes\n", CLICK, JOIN, 3, "", "photon: queries:1: Id\n"),
        ("a conflict", QUERY, CLICK + CLICK.replace("buy", "sell"), JOIN, 3, "", "photon: clicks:2: Conflict\n"),
        ("a log that isn't there", None, CLICK, JOIN, 4, "", "photon: read: queries\n"),
        ("an unknown word", QUERY, CLICK, JOIN + ["--joyners", "2"], 2, "", None),
        ("a drill with a stop", QUERY, CLICK, DRILL, 0, "M 10.0.0.2:9:2000\n= 0 1 0 0\n", ""),
        ("a bad table of a drill", QUERY, CLICK, DRILL + ["--shards", "1:1"], 2, "", "photon: table: row 0\n"),
        ("a verification of nothing", None, CLICK, VERIFY, 0, "U 10.0.0.2:9:2000\n= 0 0 0 1\n", ""),
        ("a row for no table", None, None, ["reshard", "--state", "state", "--add", "1:8"], 11, "", "photon: reshard: no topology\n"),
        ("a row for a table", None, None, ["reshard", "--state", "kept", "--add", "1:8"], 0, "0:4,1:8\n", ""),
        ("a bad row", None, None, ["reshard", "--state", "kept", "--add", "1:0"], 2, "", "photon: table: row 0\n"),
        ("made logs", None, None, ["bulk", "--seed", "1", "--clicks", "5"], 0, "= 4 0 1 0\n", ""),
    ]


def run(words, folder, failing):
    """The status, the output, the errors, and whether there was such an allocation. Each run has a new state directory, and one that keeps a table."""
    for state in ("state", "kept"):
        shutil.rmtree(os.path.join(folder, state), ignore_errors=True)
    os.mkdir(os.path.join(folder, "kept"))
    with open(os.path.join(folder, "kept", "topology"), "wb") as file:
        file.write(bytes.fromhex("a50000000d0102010100000000000000000400"))
    mark = os.path.join(folder, "mark")
    if os.path.exists(mark):
        os.remove(mark)
    env = dict(os.environ, LD_PRELOAD=os.path.join(folder, "failing.so"), FAILING_ALLOCATION=str(failing), FAILING_MARK=mark)
    done = subprocess.run(words, cwd=folder, env=env, stdin=subprocess.DEVNULL, capture_output=True, timeout=60, check=False)
    return done.returncode, done.stdout.decode(), done.stderr.decode(), os.path.exists(mark)


def try_program(folder):
    tried, faults = 0, []
    with open(os.path.join(folder, "plan"), "w", encoding="ascii") as plan:
        plan.write(PLAN)
    for name, queries, clicks, asked, status, output, errors in cases():
        words = [PROGRAM] + asked
        for file, text in (("queries", queries), ("clicks", clicks)):
            path = os.path.join(folder, file)
            if os.path.exists(path):
                os.remove(path)
            if text is not None:
                with open(path, "w", encoding="ascii") as log:
                    log.write(text)
        whole = run(words, folder, 10**9)[:3]
        if whole[0] != status or output not in (None, whole[1]) or errors not in (None, whole[2]):
            faults.append(f"{name}: with all memory: {whole}")
        failing = 1
        while True:
            got = run(words, folder, failing)
            if not got[3]:
                break
            refused = status == 2 and got[0] == 2 and got[1] == ""
            if got[:3] not in ((8, "", "photon: memory\n"), whole) and not refused:
                faults.append(f"{name}: allocation {failing}: {got[:3]}")
            failing += 1
        print(f"program: {name}: {failing - 1} allocations, each failed once", flush=True)
        tried += failing - 1
    return tried, faults


def is_want_of_memory(status, told):
    """Whether a test that ended early did so by want of memory: its error says so or is a text of its own (which stands
    for any error of the call), or what it compared is an answer for want of memory. A signal but for the test's own stop is none."""
    if status == OWN_STOP:
        left = [line for line in told.splitlines() if line.strip().startswith("left:")]
        return any("Memory" in line or line.strip() == "left: 8" for line in left)
    return status > 0 and 'error: ' in told


def try_tests(crate, folder):
    tests = os.path.join(TOP, "crates", crate, "out", f"{crate}_tests")
    if not os.path.exists(tests):
        return 0, [f"{crate}: no tests built; run rt test in crates/{crate}"]
    listed = subprocess.run([tests, "--list"], capture_output=True, text=True, timeout=60, check=False).stdout
    names = [line.removesuffix(": test").strip() for line in listed.splitlines() if "::" in line]
    tried, faults = 0, []
    for name in names:
        failing = 1
        while True:
            status, output, errors, failed = run([tests, name], folder, failing)
            if not failed:
                break
            if status != 0 and not is_want_of_memory(status, output + errors):
                faults.append(f"{crate}: {name}: allocation {failing}: status {status}: {(output + errors).strip()[-300:]}")
            failing += 1
        if status != 0:
            faults.append(f"{crate}: {name}: with all memory: status {status}")
        print(f"{crate}: {name}: {failing - 1} allocations, each failed once")
        tried += failing - 1
    return tried, faults


def main():
    compiler = shutil.which("cc") or shutil.which("gcc") or shutil.which("clang")
    if compiler is None:
        print("no C compiler: nothing tried")
        return 0
    if not os.path.exists(PROGRAM):
        subprocess.run([os.path.join(TOP, "bin/photon")], stdout=subprocess.DEVNULL, check=False)
    with tempfile.TemporaryDirectory() as folder:
        source = os.path.join(folder, "failing.c")
        with open(source, "w", encoding="ascii") as file:
            file.write(SHIM)
        library = os.path.join(folder, "failing.so")
        subprocess.run([compiler, "-shared", "-fPIC", "-O1", "-o", library, source, "-ldl"], check=True)
        tried, faults = try_program(folder)
        for crate in sys.argv[1:]:
            more, others = try_tests(crate, folder)
            tried, faults = tried + more, faults + others
    for fault in faults:
        print("FAULT", fault)
    print(f"{tried} allocations failed, one a run; {len(faults)} answers not as wanted")
    return 1 if faults else 0


if __name__ == "__main__":
    sys.exit(main())
