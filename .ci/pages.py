#!/usr/bin/env python3
"""Checks what the pages say of the repository, after the gate, and runs the commands that they show.

usage: .ci/pages.py

1. Each crate of crates.txt stands in docs/ARCHITECTURE.md, its name in backticks.
2. Each path that README.md, CONTRIBUTING.md or a page of docs/ names in backticks is there, if it begins with docs/, crates/, examples/,
   bin/, bench/, tests/ or .ci/, and so is each link that isn't one to the outside. Patterns (NAME, *, .., angle brackets) are skipped, and what a
   build leaves (out/).
3. In the code blocks of README.md, docs/GUIDE.md, docs/DRILLS.md and docs/SCALE.md a line that begins with "$ " is a command, and what follows
   it, up to the next command or the block's end, is what it prints: standard output, then standard error. A line ".." stands for any lines,
   a last line "(status N)" for the exit status, which is 0 where it is missing. Each block is run in a folder of its own with a copy of
   examples/, the built program as bin/photon, and the programs beside it. The program is PHOTON of the environment, or else the newest
   executable file crates/photon/out/photon*. Where there is none, a block is run only up to its first call of bin/photon, and where parallel
   isn't installed up to its first call. Behind a command that failed the rest of its block isn't run.

Prints what failed, and then exits with 1; else the last line is "pages: ok".
"""
import glob
import os
import re
import shutil
import subprocess
import sys
import tempfile

TOP = os.path.dirname(os.path.dirname(os.path.abspath(__file__)))
SHOWN = ["README.md", "docs/GUIDE.md", "docs/DRILLS.md", "docs/SCALE.md"]
HOMES = ("docs/", "crates/", "examples/", "bin/", "bench/", "tests/", ".ci/")
LIMIT = 300  # seconds for a command

failures = []


def fail(text):
    failures.append(text)
    print(f"pages: {text}")


def read(path):
    with open(os.path.join(TOP, path), encoding="utf-8") as file:
        return file.read()


def pages():
    found = [os.path.relpath(path, TOP) for path in glob.glob(os.path.join(TOP, "docs", "*.md"))]
    return ["README.md", "CONTRIBUTING.md"] + sorted(found)


# ---- crates

def crates():
    """The names that crates.txt lists."""
    names = []
    for line in read("crates.txt").splitlines():
        line = line.split("#")[0]
        if ":" in line:
            names.append(line.split(":")[0].split()[0])
    return names


def check_crates():
    page = "docs/ARCHITECTURE.md"
    named = set(re.findall(r"`([a-z0-9_]+)(?:::[^`]*)?`", read(page)))
    for name in crates():
        if name not in named:
            fail(f"{page} doesn't name the crate {name}")


# ---- paths

def is_pattern(path):
    return any(mark in path for mark in ("*", "..", "<", ">", "NAME", "/out/")) or path.endswith("/out")


def is_there(path, home=TOP):
    return os.path.exists(os.path.join(home, path.split("#")[0]))


def outside_of_blocks(text):
    """The lines that aren't of a fenced or an indented block, with their numbers."""
    fenced = False
    for number, line in enumerate(text.splitlines(), 1):
        if line.lstrip().startswith("```"):
            fenced = not fenced
        elif not fenced and not line.startswith("    "):
            yield number, line


def paths_in(line):
    """The paths of the repository that a line names in backticks."""
    for quoted in re.findall(r"`([^`]+)`", line):
        for word in quoted.split():
            path = word.rstrip(".,;:)")
            if path.startswith(HOMES) and not is_pattern(word):
                yield path


def links_in(line):
    """The targets of a line's links and pictures, but for those that lead outside and those within the page."""
    for target in re.findall(r"\]\(([^)\s]+)", line):
        if not re.match(r"[a-z]+:|#|//", target):
            yield target


def check_paths():
    for page in pages():
        home = os.path.dirname(os.path.join(TOP, page))
        for number, line in outside_of_blocks(read(page)):
            for path in paths_in(line):
                if not is_there(path):
                    fail(f"{page}:{number}: {path} isn't there")
            for target in links_in(line):
                if not is_there(target, home):
                    fail(f"{page}:{number}: the link to {target} leads nowhere")


# ---- commands

def blocks(text):
    """The code blocks of a page: for each the number of its first line, and its lines."""
    block, first, fenced = [], 0, False
    for number, line in enumerate(text.splitlines() + ["end"], 1):
        if line.startswith("```"):
            if block:
                yield first, block
            block, fenced = [], not fenced
            first = number + 1
        elif fenced:
            block.append(line)
        elif line.startswith("    "):
            if not block:
                first = number
            block.append(line[4:])
        elif block and not line.strip():
            block.append("")
        elif block:
            yield first, block
            block = []


class Command:
    """A command with what it prints, by the page."""

    def __init__(self, place, words):
        self.place, self.words, self.printed, self.status = place, words, [], 0

    def end(self):
        while self.printed and not self.printed[-1].strip():
            self.printed.pop()
        status = re.fullmatch(r"\(status (\d+)\)", self.printed[-1]) if self.printed else None
        if status:
            self.status = int(status.group(1))
            self.printed.pop()


def commands_in(page, first, block):
    found = []
    for number, line in enumerate(block, first):
        if line.startswith("$ "):
            found.append(Command(f"{page}:{number}", line[2:].strip()))
        elif found:
            found[-1].printed.append(line)
    for command in found:
        command.end()
    return found


def fits(printed, got):
    """Whether the lines are those that are shown, ".." standing for any lines."""
    shape = "".join("(?:.*\n)*?" if line == ".." else re.escape(line) + "\n" for line in printed)
    return re.fullmatch(shape, got) is not None


def program():
    """The built program, or None."""
    named = os.environ.get("PHOTON")
    if named:
        return os.path.abspath(named)
    built = glob.glob(os.path.join(TOP, "crates", "photon", "out", "photon*"))
    built = [path for path in built if os.path.isfile(path) and os.access(path, os.X_OK)]
    return max(built, key=os.path.getmtime) if built else None


def run(command, folder):
    """Runs a command and compares: whether it did as the page shows."""
    surroundings = {name: value for name, value in os.environ.items() if name != "PHOTON"}  # bin/photon alone says which program it is
    try:
        ended = subprocess.run(["/bin/sh", "-c", command.words], cwd=folder, env=surroundings, stdin=subprocess.DEVNULL, capture_output=True, timeout=LIMIT)
    except subprocess.TimeoutExpired:
        fail(f"{command.place}: didn't end in {LIMIT} seconds: {command.words}")
        return False
    got = (ended.stdout + ended.stderr).decode("utf-8", "replace")
    if ended.returncode != command.status:
        fail(f"{command.place}: status {ended.returncode} and not {command.status}: {command.words}\n{got}")
        return False
    if not fits(command.printed, got):
        fail(f"{command.place}: {command.words}\n-- the page shows\n" + "\n".join(command.printed) + f"\n-- it prints\n{got}")
        return False
    return True


def run_block(found, built):
    with tempfile.TemporaryDirectory(prefix="pages.") as folder:
        shutil.copytree(os.path.join(TOP, "examples"), os.path.join(folder, "examples"))
        os.mkdir(os.path.join(folder, "bin"))
        for beside in glob.glob(os.path.join(TOP, "bin", "photon-*")):
            os.symlink(beside, os.path.join(folder, "bin", os.path.basename(beside)))
        if built:
            os.symlink(built, os.path.join(folder, "bin", "photon"))
        for command in found:
            if "bin/photon" in command.words and not built:
                return
            if command.words.startswith("parallel ") and not shutil.which("parallel"):
                print(f"pages: {command.place}: parallel isn't installed, so the rest of the block is not run")
                return
            if not run(command, folder):
                return


def check_words(command):
    """The files of the repository that a command names are there, whether it is run or not."""
    for word in command.words.split():
        if word.startswith(HOMES) and not is_pattern(word) and not is_there(word):
            fail(f"{command.place}: {word} isn't there")


def check_commands():
    built = program()
    if built is None:
        print("pages: no program is built: commands are not run")
    elif not os.access(built, os.X_OK):
        fail(f"{built} can't be run")
        return
    for page in SHOWN:
        for first, block in blocks(read(page)):
            found = commands_in(page, first, block)
            for command in found:
                check_words(command)
            if found:
                run_block(found, built)


def main():
    check_crates()
    check_paths()
    check_commands()
    if failures:
        sys.exit(1)
    print("pages: ok")


main()
