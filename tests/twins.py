"""How the wrong bodies of one crate are tried in a check or two, over the libraries that were built below it.

The edit of a free function or of a type's method becomes a TWIN in a copy of the crate: the function under another name, with its clauses and
proof files, and the wrong body; nothing calls it. That of a trait's method, or of a function that calls itself, is put IN PLACE, one a function
and round; where a check gets no further for such a function, what is behind it waits for a later round. Only these are checked (--only); each
other function gets a hole for a proof (--allow-holes), since rt ci proves it. Beside the twins of a function with proof files stands one with
the right body: no verdict counts unless that one is proved.
"""
import collections
import os
import re
import shutil
import subprocess
import tempfile
import threading
from pathlib import Path

REFUSED, PASSED, UNTRIED, SPOILT = "refused", "NOT REFUSED", "NOT TRIED", "spoilt"
PARTS = ("src", "specs", "proofs")
FN = re.compile(r"^(\s*)(?:pub(?:\([^)]*\))?\s+)?(?:const\s+|unsafe\s+|final\s+)*fn\s+(\w+)")
TRAIT = re.compile(r"(?:pub(?:\([^)]*\))? )?(?:unsafe )?trait (\w+)")
HEAD = re.compile(r"(?:unsafe )?impl\b|" + TRAIT.pattern)
# What a proof file is told that cites a name which the edit took away.
NAMES_ONLY = re.compile(r"has no field|is not in scope|has no `|was not admitted|can be named from here")
# What is told of an open goal: of a clause or a loop, or of a type's invariant.
OPEN = re.compile(r"note: (?:\./)?(src/\S+?):(\d+):\d+: (?:it is not proved that|`search` found no proof)")
# What is told of a function that the prover takes.
TAKEN = re.compile(r"proved|no holes|depends on a hole")
LIMIT = 3 * 3600  # seconds for a check; the prover's own limits end it long before

# A function: the head of its impl or trait ("" if free), its first line with attributes, the lines of its head and of its end.
Function = collections.namedtuple("Function", "name head first at last")
# An edit that is one function's: what it is called, its file, the function, and the file's lines with it.
Edit = collections.namedtuple("Edit", "name file function lines")


class Bad(Exception):
    """Why an edit can't be tried."""


def read(path):
    return Path(path).read_text("utf-8")


def write(path, text):
    Path(path).parent.mkdir(parents=True, exist_ok=True)
    Path(path).write_text(text, "utf-8")


def files_below(folder):
    """The paths of the files below a folder, in order."""
    return sorted(os.path.join(at, name) for at, _, names in os.walk(folder) for name in names)


def pairs_of(text):
    """The (file, old, new) of an edit's text, as rt reads them."""
    path, old, found = "", "", []
    for line in text.split("\n"):
        if line.startswith("file: "):
            path = line[6:].strip()
        elif line.startswith("old: "):
            old = line[5:]
        elif line.startswith("new:"):
            found.append((path, old, line[4:].removeprefix(" ")))
    return found


# ---- Rattle's files, in the layout of rt fmt

def end_of(lines, at, indent):
    """The last line of an item: the first closing brace at its indent, or a line that ends in ; before any body."""
    if re.search(r"\{.*\}\s*$", lines[at]) or lines[at].rstrip().endswith(";"):
        return at
    has_body = lines[at].endswith("{")
    for i in range(at + 1, len(lines)):
        has_body = has_body or lines[i] == indent + "{"
        ends = lines[i] == indent + "{}" or lines[i].startswith(indent + "}")
        if ends or not has_body and lines[i].endswith(";"):
            return i
    return len(lines) - 1


def functions_of(lines):
    """Each function but those that a macro writes."""
    heads, macros, found = [], [], []
    for i, line in enumerate(lines):
        if HEAD.match(line):
            last = end_of(lines, i, "")
            whole = next((j for j in range(i, last) if lines[j].endswith("{")), i)
            heads.append((i, last, " ".join(it.strip() for it in lines[i:whole + 1])))
        if line.startswith("macro_rules!"):
            macros.append((i, end_of(lines, i, "")))
        if (of := FN.match(line)) and not any(a <= i <= b for a, b in macros):
            first = i
            while first and re.match(r"\s*(///|#\[)", lines[first - 1]):
                first -= 1
            head = next((head for a, b, head in heads if a <= i <= b), "")
            found.append(Function(of[2], head, first, i, end_of(lines, i, of[1])))
    return found


def names_of(head):
    """The type and the trait ("" if none) of an impl's head as a path has them: words run together, of arguments the outer ones alone."""
    if of := TRAIT.match(head):
        return of[1], ""
    head, depth = re.sub(r"^(unsafe )?impl\s*", "", head).rstrip("{ "), 0
    for i, c in enumerate(head if head.startswith("<") else ""):
        depth += (c == "<") - (c == ">" and head[i - 1] != "-")
        if not depth:
            head = head[i + 1:].strip()
            break
    trait, is_for, of = head.partition(" for ")
    of = re.match(r"[\w:]+", of if is_for else trait)
    flat = "".join(c for i, c in enumerate(trait) if trait[:i + 1].count("<") - trait[:i].count(">") < 2)
    return (of[0].split("::")[-1] if of else "?"), (re.sub(r"\W", "", flat) if is_for else "")


def is_of_trait(function):
    return " for " in function.head or bool(TRAIT.match(function.head))


class Crate:
    """A crate at the top's crates/NAME, with the libraries below it in LIBS/NAME/out/rlib.

    A check runs within starts(), which waits for room; lanes() says how many processors it may use.
    """

    def __init__(self, top, needs, name, libs, kit, starts, lanes):
        self.at, self.name, self.needs, self.libs, self.kit = f"{top}/crates/{name}", name, needs, libs, kit
        self.starts, self.lanes = starts, lanes
        self.sources = {os.path.relpath(it, self.at): read(it).split("\n") for it in files_below(f"{self.at}/src")}
        self.functions = {file: functions_of(lines) for file, lines in self.sources.items()}
        self.seconds, self.checks = 0.0, 0

    def place(self, name, text):
        """An edit of this text, which has to change one function alone, behind its head."""
        pairs = pairs_of(text)
        if len({it[0] for it in pairs}) != 1 or pairs[0][0] not in self.sources:
            raise Bad("it isn't of one file below src/")
        file, was = pairs[0][0], self.sources[pairs[0][0]]
        joined = "\n".join(was)
        for _, old, new in pairs:
            if joined.count(old) != 1:
                raise Bad(f"an 'old:' text stands {joined.count(old)} times in {file}")
            joined = joined.replace(old, new)
        now = joined.split("\n")
        changed = [i for i in range(len(was)) if was[i] != now[i]]
        holds = lambda it, i: it.at < i <= it.last or i == it.at and now[i].startswith(was[i])
        found = {next((it for it in self.functions[file] if holds(it, i)), None) for i in changed}
        if len(found) != 1 or None in found:
            raise Bad("it doesn't change one function's body alone, so it belongs into must-fail/")
        return Edit(name, file, found.pop(), now)

    def path(self, file, function):
        """The parts of a function's path: a type's method stands where the type is declared, a trait's where its impl stands."""
        of, trait = names_of(function.head) if function.head else ("", "")
        if of and not trait:
            declared = re.compile(rf"(pub(\([^)]*\))? )?(struct|enum) {of}\b")
            file = next((it for it, lines in self.sources.items() if any(declared.match(line) for line in lines)), file)
        module = [it for it in file[4:-3].split("/") if it not in ("lib", "main", "mod")]
        return (*module, *([of + trait] if of else []), function.name)

    def is_in_place(self, edit):
        """Whether the edit can't be a twin."""
        name, body = edit.function.name, "\n".join(edit.lines[edit.function.at + 1:edit.function.last])
        return is_of_trait(edit.function) or bool(re.search(rf"(?<![.\w:]){name}\(|Self::{name}\(|self\.{name}\(", body))

    def proofs_of(self, at, path):
        """The folders of a function's own proof files, and of those of its closures."""
        return [it for it in (f"{at}/proofs/{'/'.join(path)}", f"{at}/proofs/{'/'.join([*path[:-1], 'fn', path[-1]])}") if os.path.isdir(it)]

    def words(self, more):
        """The words of a check."""
        words = [f"{self.kit}/bin/rattle", "check", "--crate-name", self.name, "src/main.rt" if "src/main.rt" in self.sources else "src/lib.rt",
                 "--extern", f"std={self.kit}/rlibs/std.rlib", "-L", f"dependency={self.kit}/rlibs"]
        for it in self.needs[self.name]:
            words += ["--extern", f"{it}={self.libs}/{it}/out/rlib/{it}.rlib" if it in self.needs else f"{it}={self.kit}/rlibs/{it}.rlib"]
        for it in below(self.needs, self.name):
            words += ["-L", f"dependency={self.libs}/{it}/out/rlib"]
        return [*words, "--antt-project", f"{self.kit}/rattle/logic/antt-project.json", "--logic-built", f"{self.kit}/logic_built",
                "--links", f"{self.name}=", *more]

    def check(self, room, more):
        """Runs a check in a folder, where it is killed, as for memory, once more on one lane. Its status and what it printed."""
        for is_again in (False, True):
            with tempfile.TemporaryFile("w+", errors="replace") as out, self.starts():
                words = self.words(["--jobs", "1" if is_again else str(self.lanes()), *more])
                child = subprocess.Popen(words, cwd=room, stdin=subprocess.DEVNULL, stdout=out, stderr=subprocess.STDOUT)
                watch = threading.Timer(LIMIT, child.kill)
                watch.start()
                _, status, spent = os.wait4(child.pid, 0)
                child.returncode = os.waitstatus_to_exitcode(status)
                watch.cancel()
                self.seconds, self.checks = self.seconds + spent.ru_utime + spent.ru_stime, self.checks + 1
                out.seek(0)
                said = out.read()
            if child.returncode >= 0:
                break
        return child.returncode, said

    def verdicts(self, edits):
        """The verdict of each edit and why, by its name."""
        left, said = list(edits), {}
        while left:
            said.update(Round(self, left).verdicts())
            rest = [it for it in left if said[it.name][0] == SPOILT]
            left = rest if len(rest) < len(left) else []
        return {name: (UNTRIED if kind == SPOILT else kind, why) for name, (kind, why) in said.items()}


class Round:
    """Some edits in one copy of the crate."""

    def __init__(self, crate, edits):
        self.crate, self.edits = crate, edits
        self.texts = {file: [*lines] for file, lines in crate.sources.items()}
        self.asked = {}  # each that is checked: its path, its file, and whether it is in place
        self.behind = collections.defaultdict(list)  # the twins behind a function, by its file and its last line: key and lines
        self.spans = {}  # the first and the last line of each that is checked, counted from 1
        self.late = []  # the edits whose function another one has

    def verdicts(self):
        crate = self.crate
        with tempfile.TemporaryDirectory(prefix="refused-") as room:
            for part in (it for it in PARTS if os.path.isdir(f"{crate.at}/{it}")):
                shutil.copytree(f"{crate.at}/{part}", f"{room}/{part}")
            for number, edit in enumerate(self.edits, 1):
                self.put_in_place(edit) if crate.is_in_place(edit) else self.put_twins(room, edit, number)
            for file in self.texts:
                self.write_file(room, file)
            self.put_holes(room)
            only = [word for path, *_ in self.asked.values() for word in ("--only", "::".join(path))]
            status, out = crate.check(room, ["--allow-holes", *only])
        if status not in (0, 1) or not re.search(r"^only=\d+ ", out, re.M):
            why = next((it for it in out.splitlines() if re.search(r"\berror\b", it)), out.strip().rpartition("\n")[2])
            return {it.name: (UNTRIED, f"its round came to no verdict, status {status}: {why[:160]}") for it in self.edits}
        said = {key: self.judge(key, out) for key in self.asked}
        return {it.name: self.verdict(it, said) for it in self.edits}

    def verdict(self, edit, said):
        """The verdict of an edit, by what the check says of it and of its right twin."""
        if edit in self.late:
            return SPOILT, "another edit has its place"
        right, why = said.get((edit.file, edit.function.at), (PASSED, ""))
        if right == PASSED or self.asked[edit.name][2]:
            return said[edit.name]
        return (SPOILT, why) if right == SPOILT else (UNTRIED, f"its right twin isn't proved: {why}")

    def put_in_place(self, edit):
        crate, (at, last) = self.crate, (edit.function.at, edit.function.last)
        if any(it[1] == edit.file and it[2] == at for it in self.asked.values()):
            self.late.append(edit)
            return
        self.texts[edit.file][at:last + 1] = edit.lines[at:last + 1]
        self.asked[edit.name] = crate.path(edit.file, edit.function), edit.file, at

    def put_twins(self, room, edit, number):
        """The twin of an edit, and the right one where its function has proof files."""
        crate, function, right = self.crate, edit.function, (edit.file, edit.function.at)
        old = crate.path(edit.file, function)
        bodies = [(edit.name, f"{function.name}_twin{number}", edit.lines)]
        if right not in self.asked and crate.proofs_of(crate.at, old):
            bodies.append((right, f"{function.name}_right{number}", crate.sources[edit.file]))
        for key, name, lines in bodies:
            new = (*old[:-1], name)
            self.copy_proofs(room, old, new)
            head = re.sub(rf"\bfn {function.name}\b", f"fn {name}", lines[function.at], count=1)
            text = [*lines[function.first:function.at], head, *lines[function.at + 1:function.last + 1]]
            self.behind[edit.file, function.last].append((key, text))
            self.asked[key] = new, edit.file, None

    def copy_proofs(self, room, old, new):
        """Copies the proof files of a function to those of its twin, with its path in them."""
        for folder in self.crate.proofs_of(room, old):
            shutil.copytree(folder, to := f"{os.path.dirname(folder)}/{new[-1]}")
            for file in files_below(to):
                text = read(file)
                for mid in ((), ("fn",)):
                    a, b = (".".join([*path[:-1], *mid, path[-1]]) for path in (old, new))
                    within = rf"(?<![\w-])(Rattle\.{self.crate.name}\.(?:proofs|specs\.contracts)\.){re.escape(a)}(?![\w-])"
                    text = re.sub(within, lambda of: of[1] + b, text)
                write(file, text)

    def write_file(self, room, file):
        """Writes a file with the twins behind their functions, and notes where each stands."""
        made, begun, ends = [], {}, {it.at: it for it in self.crate.functions[file]}
        for i, line in enumerate(self.texts[file]):
            made.append(line)
            if i in ends:
                begun[i] = len(made)
            for key, text in self.behind.get((file, i), ()):
                self.spans[key] = len(made) + 2, len(made) + 1 + len(text)
                made += ["", *text]
        for key, (_, of, at) in self.asked.items():
            if of == file and at is not None:
                self.spans[key] = begun[at] + ends[at].first - at, begun[at] + ends[at].last - at
        write(f"{room}/{file}", "\n".join(made))

    def put_holes(self, room):
        """A hole for the proof of each function that isn't checked, but for those of traits and of files with cycles."""
        crate, asked = self.crate, {it[0] for it in self.asked.values()}
        for file, functions in crate.functions.items():
            if any("#[cycle" in it or "#[cfg(test)]" in it for it in crate.sources[file]):
                continue
            for path in (crate.path(file, it) for it in functions if not is_of_trait(it)):
                if path not in asked:
                    folder, name = f"{room}/proofs/{'/'.join(path)}", path[-1]
                    shutil.rmtree(folder, ignore_errors=True)
                    write(f"{folder}/Proof.antt", f"use Rattle.{crate.name}.proofs.{'.'.join(path)}.Statement.{{statement}}\n\n"
                          f"pub {name}_spec : {{M : Type 1}} → statement M\n{name}_spec = ?\n")

    def judge(self, key, out):
        """What the check says of one function: a verdict, and the first open goal or wrong line of its own."""
        (path, file, _), (first, last) = self.asked[key], self.spans[key]
        said = re.search(rf"^fn {re.escape('::'.join([self.crate.name, *path]))}: (.*)$", out, re.M)
        if not said:
            return UNTRIED, "no line tells of it"
        if TAKEN.match(said[1]):
            return PASSED, "the prover takes it"
        if self.is_spoilt(said[1], out):
            return SPOILT, said[1][:160]
        lines = out.splitlines()
        goals = [it for it in lines if (of := OPEN.match(it)) and of[1] == file and first <= int(of[2]) <= last]
        wrong = [it for it in lines if re.match(rf"(\./)?proofs/{re.escape('/'.join(path))}/\S+: error:", it)]
        good = [*goals, *(it for it in wrong if not NAMES_ONLY.search(it))]
        if good and re.match(r"no proof|not proved", said[1]):
            return REFUSED, good[0][:160]
        return UNTRIED, f"refused by names alone: {wrong[0][:160]}" if wrong else said[1][:160]

    def is_spoilt(self, said, out):
        """Whether the check goes no further, since what the function calls, or what that calls, is edited in place. A hole is no reason."""
        calls = re.search(r"it calls (.*), which (?:is|are) not proved", said)
        named = re.findall(r"`([^`]+)`", calls[1]) if calls else []
        told = [re.search(rf"^fn {re.escape(it)}: (.*)$", out, re.M) for it in named]
        return any(at is not None for *_, at in self.asked.values()) and not all(it and TAKEN.match(it[1]) for it in told)


def below(needs, name):
    """The repository's crates below one, each once."""
    own = [it for it in needs[name] if it in needs]
    return list(dict.fromkeys(low for it in own for low in [*below(needs, it), it]))
