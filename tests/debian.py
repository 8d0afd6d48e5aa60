"""The Debian package of bin/package, unpacked into a root of its own; and the completion of words in bash that it has."""
import gzip
import os
import re
import shutil
import subprocess

import runs
from case import TOP

TOOLS = ("photon", "photon-merge", "photon-part", "photon-split", "photon-watch")
SAMPLES = "usr/share/doc/photon/examples"


def read(path):
    """The bytes of a file."""
    with open(path, "rb") as file:
        return file.read()


def deb(case, *words):
    """What dpkg-deb prints."""
    ended = case.run(words, tool="/usr/bin/dpkg-deb")
    case.check((ended.status, ended.err) == (0, ""), f"dpkg-deb {words[0]} ended with {ended.status}, {ended.err!r}")
    return ended.out.decode()


def package(case):
    """The package has its fields and its files, is the same each time, and unpacked joins its own samples, whole and in parts."""
    if shutil.which("dpkg-deb") is None:
        case.note("there is no dpkg-deb, so no package is made")
        return
    os.mkdir(case.path("again"))
    made = [case.run(words, tool="package").out.decode().strip() for words in ([], ["again"])]
    case.check(all(os.path.isfile(path) for path in made), f"it made {made}")
    case.check(read(made[0]) == read(made[1]), "the package isn't the same a second time")
    info = deb(case, "--info", made[0])
    for field in (r"Package: photon", r"Version: \d{8}\+[0-9a-f]{12}", r"Architecture: \w+", r"Depends: libc6 \(>= 2\.\d+\)", r"Description: .+"):
        case.check(re.search(f"^ {field}$", info, re.MULTILINE), f"the package has no field {field}:\n{info}")
    check_contents(case, deb(case, "--contents", made[0]))
    deb(case, "-x", made[0], "root")
    case.check(read(case.path("root/usr/bin/photon")) == read(case.program), "the package has another program")
    case.check(gzip.decompress(read(case.path("root/usr/share/man/man1/photon.1.gz"))) == read(os.path.join(TOP, "docs", "photon.1")), "the manual page")
    join_samples(case)


def check_contents(case, contents):
    """Each file is root's, the programs can be run, and these are there."""
    lines = [line.split() for line in contents.splitlines()]
    case.check(all(line[1] == "root/root" for line in lines), "a file isn't root's")
    modes = {line[5]: line[0] for line in lines}
    wanted = {f"./usr/bin/{tool}": "-rwxr-xr-x" for tool in TOOLS}
    samples = ("one_line/queries", "one_line/clicks", "shop/queries", "shop/clicks", "drills/all_late.json", "many/kubernetes.yaml")
    wanted.update({f"./{SAMPLES}/{name}": "-rw-r--r--" for name in samples})
    wanted.update({f"./usr/share/{name}": "-rw-r--r--" for name in ("man/man1/photon.1.gz", "bash-completion/completions/photon", "doc/photon/docs/GUIDE.md")})
    for path, mode in wanted.items():
        case.check(modes.get(path) == mode, f"{path} has {modes.get(path)}")


def join_samples(case):
    """The unpacked programs, found by their names, join the unpacked samples."""
    samples = case.path(f"root/{SAMPLES}/shop")
    expected = runs.one_report(read(f"{samples}/queries"), read(f"{samples}/clicks"))
    path = os.pathsep.join([case.path("root/usr/bin"), "/usr/bin", "/bin"])
    script = f"""set -e
logs='--queries {samples}/queries --clicks {samples}/clicks'
photon join $logs --state state > whole
photon-watch state {samples}/clicks --once
photon-split $logs --parts 2 --into many
photon-part many/0
photon-part many/1
photon-merge many > merged"""
    surroundings = {"PATH": path, "LANG": "C"}
    ended = subprocess.run(["/bin/sh", "-c", script], cwd=case.folder, env=surroundings, stdin=subprocess.DEVNULL, capture_output=True, check=False)
    case.check((ended.returncode, ended.stderr) == (0, b""), f"status {ended.returncode}, {ended.stderr!r}")
    case.check_same(read(case.path("whole")), expected, "the report of the unpacked program")
    case.check_same(read(case.path("merged")), expected, "the merged report of the unpacked programs")


# ---- completion

def options_of_the_guide():
    """For each command its options, as docs/GUIDE.md shows them."""
    text = read(os.path.join(TOP, "docs", "GUIDE.md")).decode()
    lines = re.findall(r"^    photon (\w+) (--.*)$", text, re.MULTILINE)
    return {command: re.findall(r"--\w+", options) for command, options in lines}


def completed(case, *words):
    """What bash offers for the last of these words."""
    script = """. "$0"; COMP_WORDS=("$@"); COMP_CWORD=$(($# - 1)); _photon; [ "${#COMPREPLY[@]}" -eq 0 ] || printf '%s\\n' "${COMPREPLY[@]}" """
    ended = case.run(["-c", script, os.path.join(TOP, "docs", "photon.bash"), "photon", *words], tool="/bin/bash")
    case.check((ended.status, ended.err) == (0, ""), f"bash ended with {ended.status}, {ended.err!r}")
    return sorted(ended.out.decode().splitlines())


def completion(case):
    """Bash offers the commands, each option of the guide that isn't there yet, files and directories."""
    case.write("a log", b"")
    os.mkdir(case.path("a state"))
    options = options_of_the_guide()
    case.check_same(completed(case, ""), sorted(options), "the commands")
    for command, those in options.items():
        case.check_same(completed(case, command, ""), sorted(those), f"the options of {command}")
        case.check_same(completed(case, command, those[0], "a log", ""), sorted(those[1:]), f"the options left of {command}")
        case.check_same(completed(case, command, those[-1][:4]), [those[-1]], "an option that is begun")
    rows = [(["v"], ["verify"]), (["r"], ["reshard"]), (["reshard", "--add", ""], []), (["reshard", "--state", ""], ["a state"]), (["join", "--queries", ""], ["a log", "a state"]), (["join", "--clicks", "a l"], ["a log"]),
            (["join", "--state", ""], ["a state"]), (["bulk", "--clicks", ""], []), (["join", "--horizon", ""], []), (["drill", "--plan", "a"], ["a log", "a state"]), (["mend", ""], [])]
    for words, offered in rows:
        case.check_same(completed(case, *words), offered, f"behind {words}")


CASES = [(function.__name__, function) for function in (package, completion)]
