#!/usr/bin/env python3
"""Tries shorter proofs for the lemmas of a crate, and keeps those that pass.

usage: bench/shorten.py CRATE [FILE..] [--jobs N] [--rounds N] [--least N]

Run it at the top of the repository, with the crates below CRATE built. For each lemma of crates/CRATE/proofs/*.antt (or of the files named,
as Lists) that takes several lines it writes tries into a copy of the file: one call of `grind`, with the lemmas that the proof cites and
its recursive calls, in place of all equations (cases on options, sums and Booleans put together), of one equation, of the body behind a row
of `let`s, of a field of a record, or of all that in a function of a `where`; and a last equation with `_` in place of all with the same
right side. One `rt check --only` of an empty function that cites the copies says which pass. Of each lemma the try that saves most is
taken; then names are left out of its list while it passes (--rounds, a check each). The sources get what is left, and lemmas that then
stand nowhere else go. A lemma that lemmas of its file alone cite goes into these, where each of them passes with what its proof cites in its
place, or as one call of `grind` (at most four checks). All other files are put back, also after an interrupt.

Then run `rt check CRATE`, which proves the functions too. `rt tidy CRATE` drops imports that nothing uses. Lemmas are found by the layout
of `rt fmt`; a file with no `pub` lemma is passed over.
"""
import argparse
import collections
import glob
import itertools
import os
import re
import shutil
import subprocess

WORD = re.compile(r"[^\s(){}\[\],;]+")
NAME = r"[\w\-≢']+"
PLAIN = set('''refl sym ap subst inl inr ⊎_elim absurd tt omega arith cc rw simp search grind let in where λ record
    elim as true false zero suc unfolding'''.split())
STOPS = set('∙ = ≡ in where ∷ ++ + && || λ ≤ < × → as * - =='.split())
LETTERS = 'h k e m q u v w p r s t x y'.split()


class Lemma:
    def __init__(self, name, start, indent):
        self.name, self.start, self.end, self.indent, self.cuts = name, start, start, indent, []


def indent_of(line):
    return len(line) - len(line.lstrip())


def count(lines):
    return sum(1 for line in lines if line.strip())


def is_balanced(text):
    depths = list(itertools.accumulate((c in '({[') - (c in ')}]') for c in text))
    return not depths or depths[-1] == 0 and min(depths) >= 0


def lemmas_of(lines, base=0):
    """The lemmas that stand at this indent, or in modules at it."""
    found, depth, now = [], base, None
    for i, line in enumerate(lines):
        text, at = line.strip(), indent_of(line)
        if not text or text.startswith('--'):
            continue
        while depth > base and at < depth:
            depth, now = depth - 2, None
        if at == depth and text[0] not in ')]}':
            head = re.match(r'(?:pub )?(\S+) : ', text)
            if re.match(r'(pub )?module\b', text):
                depth, now = depth + 2 * text.endswith('where'), None
            elif re.match(r'(pub )?(use|mod|abbrev|data|record|ruleset|unfoldable|mutual|syntax|infix)\b', text):
                now = None
            elif head:
                now = Lemma(head.group(1), i, at)
                found.append(now)
            elif now and text.split()[0] == now.name:
                now.cuts.append(i)
            elif not text.startswith('unfolding '):
                now = None
        if now:
            now.end = i
    found = [f for f in found if f.cuts]
    for f in found:
        f.head, f.equations = lines[f.start:f.cuts[0]], [lines[a:b] for a, b in zip(f.cuts, f.cuts[1:] + [f.end + 1])]
    return found


def arguments(text):
    """The arguments at the front of a text, up to an operator."""
    out, i = [], 0
    while i < len(text) and text[i] not in ')]},;':
        if text[i] in ' \n':
            i += 1
            continue
        end = i + len(WORD.match(text, i).group(0)) if text[i] not in '({[' else next(
            (k for k in range(i + 1, len(text) + 1) if is_balanced(text[i:k])), len(text))
        end += len(re.match(r'(\.[\w\-.]+)?', text[end:]).group(0)) if text[i] in '({[' else 0
        if text[i:end] in STOPS:
            break
        out.append(text[i:end])
        i = end
    return out


def left_right(lemma, equation):
    """An equation's arguments and its right side."""
    text = '\n'.join(equation)
    at = next((m.start() for m in re.finditer(r'(?<=[ \n])=(?=\s|$)', text) if is_balanced(text[:m.start()])), None)
    return at and (arguments(text[:at].strip()[len(lemma.name):]), text[at + 1:].strip())


def named(args):
    """Letters for arguments that stood as a pattern or _, given as None."""
    used = {w for a in args if a for w in WORD.findall(a)}
    free = iter([c for c in LETTERS if c not in used])
    return [next(free) if a is None else a for a in args]


def is_size(arg):
    inner = arg.strip('()').split()
    return arg == '[]' or arg == 'zero' or '∷' in inner or inner[:1] == ['suc']


class Tries:
    """The tries for the lemmas of one file."""

    def __init__(self, path, everywhere):
        self.path, text = path, open(path).read()
        self.lines = text.rstrip('\n').split('\n')
        self.lemmas = lemmas_of(self.lines)
        self.own = {f.name for f in self.lemmas}
        self.brought = {}
        for module, names in re.findall(r'^use ([\w.]+)\.\{([^}]*)\}', text, re.M):
            for n in names.split(', '):
                source, _, alias = n.partition(' as ')
                while (module, source) in everywhere:
                    module, source = everywhere[module, source]
                self.brought[alias or source] = module

    def text(self):
        """The file's lines, with `arith` in scope."""
        text, common = '\n'.join(self.lines) + '\n', '\nuse Rattle.std.proofs.Common.{'
        old, new = (common, common + 'arith, ') if common in text else ('\nuse ', common + 'arith}\nuse ')
        return text if 'arith' in self.brought else text.replace(old, new, 1)

    def cited(self, text, skip):
        out = []
        for word in WORD.findall(text):
            word = word if word.startswith('Rattle.') else word.split('.')[0]
            module, first = self.brought.get(word, ''), word.split('.')[-1][:1]
            is_lemma = word in self.own or word.startswith('Rattle.') or '.proofs.' in module and module != 'Rattle.std.proofs.Common'
            if is_lemma and first.islower() and '◌' not in word and word not in PLAIN | skip and word not in out:
                out.append(word)
        return out

    def calls_itself(self, lemma, text, args):
        known = {w for a in args for w in WORD.findall(a)}
        smaller = {w for a in args if a.startswith('(') and is_size(a) for w in WORD.findall(a)}
        out = []
        for m in re.finditer(r'(?<![\w\-.])' + re.escape(lemma.name) + r'(?=\s)', text):
            kept = []
            for a in arguments(text[m.end():]):
                words = [w.split('.')[0] for w in WORD.findall(a)]
                if 'λ' in a or any(w and w not in known | PLAIN and w.islower() for w in words):
                    break
                kept.append(a)
            call = lemma.name + ' ' + ' '.join(kept)
            if any(a in smaller for a in kept) and call not in out:
                out.append(call)
        return out[:2]

    def call(self, lemma, text, args, more, skip):
        words = {w for a in args for w in WORD.findall(a)} | skip
        listed = [n for n in self.cited(text, words | {lemma.name}) + [m for m in more if m in WORD.findall(text)]]
        listed = list(dict.fromkeys(listed)) + self.calls_itself(lemma, text, args)
        return 'grind (' + ', '.join(['arith'] + listed) + ')' if listed else 'grind arith'

    def of(self, lemma, more=(), skip=frozenset()):
        """Pairs of the lines saved and the equations of a try."""
        parsed = [left_right(lemma, e) for e in lemma.equations]
        if None in parsed:
            return []
        front, groups, new = ' ' * lemma.indent + lemma.name, {}, []
        for (args, right), lines in zip(parsed, lemma.equations):
            merged = [a if a[0] == '{' or is_size(a) or re.match(r'(?!inl|inr|true|false)[a-z]\S*$', a) else None for a in args]
            key = tuple(re.sub(r'\w+', 'v', a) if is_size(a) else '' for a in args if a[0] != '{')
            groups.setdefault(key, (merged, [], []))
            groups[key][1].append(right)
            groups[key][2].append(lines)
        for merged, rights, lines in groups.values():
            call = ' '.join([front] + named(merged)) + ' = ' + self.call(lemma, '\n'.join(rights), named(merged), more, skip)
            new += lines[0] if len(groups) > 1 and len(lines) == 1 and count(lines[0]) == 1 else [call]
        out = [(sum(map(count, lemma.equations)) - len(new), new), self.with_rest(lemma, parsed)]
        for j, ((args, right), lines) in enumerate(zip(parsed, lemma.equations)):
            others = [sum(lemma.equations[:j], []), sum(lemma.equations[j + 1:], [])]
            for saved, new in self.of_equation(lemma, args, right, lines, more, skip):
                out.append((saved, others[0] + new + others[1]))
        return [(saved, new) for saved, new in out if saved > 0 and is_balanced('\n'.join(new))]

    def with_rest(self, lemma, parsed):
        """The equations with one for all whose right side is the most common one."""
        (right, n), = collections.Counter(right for _, right in parsed).most_common(1)
        kept = [e for (_, r), e in zip(parsed, lemma.equations) if r != right] or lemma.equations[:1]
        last = [a[0] if len(set(a)) == 1 else '_' for a in itertools.zip_longest(*(args for args, r in parsed if r == right))]
        new = sum(kept, []) + [' '.join([' ' * lemma.indent + lemma.name] + last) + ' = ' + right]
        return (sum(map(count, lemma.equations)) - count(new) if n > 1 else 0), new

    def of_equation(self, lemma, args, right, lines, more, skip):
        if count(lines) < 2:
            return
        own = named([None if a == '_' else a for a in args])
        known = skip | {w for a in own for w in WORD.findall(a)}
        yield count(lines) - 1, [' '.join([' ' * lemma.indent + lemma.name] + own) + ' = ' + self.call(lemma, right, own, more, skip)]
        where = next((i for i, x in enumerate(lines) if x.strip() == 'where' and indent_of(x) == lemma.indent + 2), len(lines))
        head, rest = lines[:where], lines[where:]
        lets = [i for i, x in enumerate(head) if re.match(r'\s+let .* in\s*$', x) and indent_of(x) == lemma.indent + 4]
        if lets and count(head[lets[-1] + 1:]) > 1:
            names = {re.match(r'\s+let (\S+)', head[i]).group(1) for i in lets}
            body = '\n'.join(head[lets[-1] + 1:] + rest)
            new = head[:lets[-1] + 1] + [' ' * (lemma.indent + 4) + self.call(lemma, body, [], more, known | names)]
            yield count(lines) - count(new), new
        for i, x in enumerate(head):
            field = re.match(r"(\s+\w+ = )(λ [\w\s']+\. )?", x)
            end = next((k for k in range(i + 1, len(head)) if indent_of(head[k]) <= indent_of(x)), len(head))
            part = '\n'.join(head[i:end])
            if field and i > 0 and end > i + 1 and part.endswith(';') and is_balanced(part):
                bound = set((field.group(2) or '').strip('λ. ').split())
                line = field.group(1) + (field.group(2) or '') + self.call(lemma, part, [], more, known | bound) + ';'
                yield end - i - 1, head[:i] + [line] + head[end:] + rest
        inner = lemmas_of(rest[1:], lemma.indent + 4)
        for f in inner:
            begin = f.start + len(f.head)
            for saved, new in self.of(f, [g.name for g in inner if g is not f], known):
                yield saved, head + rest[:1] + rest[1:][:begin] + new + rest[1:][f.end + 1:]


class Crate:
    def __init__(self, crate, jobs):
        self.crate, self.jobs, self.folder = crate, jobs, 'crates/' + crate
        self.kept = {p: open(p).read() for p in (self.folder + '/proofs/Lib.antt', self.folder + '/src/lib.rt')}

    def check(self, tries):
        """Of tries (file, lemma, equations, ..), the numbers of those that pass."""
        self.put_back()
        lib, cite, spans = self.kept[self.folder + '/proofs/Lib.antt'], [], []
        for file in {t[0].path: t[0] for t in tries}.values():
            public = [f.name for f in file.lemmas if f.head[0].strip().startswith('pub ')]
            module, new, old = 'Try_' + os.path.basename(file.path)[:-5], [], file.text().rstrip('\n').split('\n')
            for i, line in enumerate(old, len(file.lines) - len(old)):
                new.append(line)
                for n, (f, lemma, equations, *_) in enumerate(tries):
                    if public and f is file and lemma.end == i:
                        name = '%s__%d' % (lemma.name, n)
                        spans.append((n, module, len(new) + 2, len(new) + 1 + len(lemma.head + equations)))
                        first = re.sub(r'^(\s*)(pub )?\S+ : ', lambda m: m.group(1) + name + ' : ', lemma.head[0])
                        new += ['', first] + lemma.head[1:] + [x.replace(lemma.name, name, 1) if re.match(
                            ' ' * lemma.indent + re.escape(lemma.name) + r'\s', x) else x for x in equations]
            if public:
                cite.append('use Rattle.%s.proofs.%s.{%s as cited_%d}' % (self.crate, module, public[0], len(cite)))
                lib += 'mod %s\n' % module
                self.write('proofs/%s.antt' % module, '\n'.join(new) + '\n')
        self.write('proofs/Lib.antt', lib)
        cite.append('use Rattle.%s.proofs.tries_top.Goals as goal\n\npub returns : goal.returns\nreturns c = refl\n' % self.crate)
        self.write('proofs/tries_top/Answers.antt', 'use Rattle.std.proofs.Common.{refl}\n' + '\n'.join(cite))
        self.write('src/lib.rt', self.kept[self.folder + '/src/lib.rt'] + '\nghost use Rattle.std.specs.Prelude.{◌≡◌, true};\n\n'
                   'pub fn tries_top()\n    ensures { true ≡ true }\n{}\n')
        run = subprocess.run(['rt', 'check', self.crate, '--only', self.crate + '::tries_top', '--jobs', str(self.jobs)],
                             cwd=self.folder, capture_output=True, text=True)
        if 'only=1' not in run.stdout + run.stderr:
            raise SystemExit('no check:\n' + (run.stdout + run.stderr)[-2000:])
        errors = re.findall(r'^\./proofs/(Try_\w+)\.antt:(\d+):\d+: error: (.*)$', run.stdout + run.stderr, re.M)
        lost = {module: text for module, _, text in errors if not re.match(r'`|\d+ declaration', text)}
        print(*('no verdict on %s: %s\n' % x for x in lost.items()), end='', flush=True)
        return {n for n, module, a, b in spans if module not in lost and not any(m == module and a <= int(i) <= b for m, i, _ in errors)}

    def write(self, name, text):
        os.makedirs(os.path.dirname(self.folder + '/' + name), exist_ok=True)
        open(self.folder + '/' + name, 'w').write(text)

    def put_back(self):
        for path in glob.glob(self.folder + '/proofs/Try_*.antt'):
            os.remove(path)
        shutil.rmtree(self.folder + '/proofs/tries_top', ignore_errors=True)
        for path, text in self.kept.items():
            open(path, 'w').write(text)


def fewer_names(equations):
    """The same try with names left out of one list."""
    for i, line in enumerate(equations):
        m = re.search(r'grind \(((?:[^()]|\([^()]*\))*)\)', line)
        if m:
            listed = re.split(r', (?![^(]*\))', m.group(1))
            for n in listed[1:]:
                left = [x for x in listed if x != n]
                short = 'grind (%s)' % ', '.join(left) if len(left) > 1 else 'grind arith'
                yield equations[:i] + [line[:m.start()] + short + line[m.end():]] + equations[i + 1:]


def all_names():
    """How often each name stands in the repository."""
    seen = collections.Counter()
    for path in glob.glob('crates/*/[ps]*/**/*.antt', recursive=True) + glob.glob('crates/*/src/**/*.rt', recursive=True):
        seen.update(re.findall(NAME, open(path).read()))
    return seen


def times(name, lines):
    return re.findall(NAME, '\n'.join(lines)).count(name)


def put(lines, spans):
    """The lines with others in place of each stretch. Where there are none its comment goes too, the blank line below, and a module left empty."""
    for begin, end, new in sorted(spans, key=lambda s: s[0], reverse=True):
        while not new and lines[begin - 1].strip().startswith('--') and '----' not in lines[begin - 1]:
            begin -= 1
        lines[begin:end + (not new and end < len(lines) and not lines[end].strip())] = new
        if re.match(r'\s*module .* where$', lines[begin - 1]) and (begin == len(lines) or indent_of(lines[begin]) <= indent_of(lines[begin - 1])):
            del lines[begin - 1]


def without_dead(folder):
    """Takes out lemmas whose names stand nowhere else in the repository."""
    dead = True
    while dead:
        dead, seen = [], all_names()
        for path in glob.glob(folder + '/proofs/*.antt'):
            lines = open(path).read().rstrip('\n').split('\n')
            here = [f for f in lemmas_of(lines) if seen[f.name] == times(f.name, lines[f.start:f.end + 1]) > 0]
            put(lines, [(f.start, f.end + 1, []) for f in here])
            dead += [f.name for f in here]
            open(path, 'w').write('\n'.join(lines).rstrip('\n') + '\n')
        print('taken out, since nothing cites them:', ', '.join(dead)) if dead else None


def without_name(file, name, names, user):
    """Tries for a lemma's equations, with these names in place of that one."""
    def listed(m):
        own = [n for x in re.split(r', (?![^(]*\))', m.group(1)) for n in (names if x == name else [x])]
        return 'grind (%s)' % ', '.join(dict.fromkeys(own)) if len(set(own)) > 1 else 'grind ' + own[0]
    kept, called = [], []
    for lines in user.equations:
        parsed = left_right(user, lines)
        kept += [re.sub(r'grind \(((?:[^()]|\([^()]*\))*)\)', listed, x) for x in lines]
        if times(name, lines) and parsed:
            args = named([None if a == '_' else a for a in parsed[0]])
            right = re.sub(r'(?<![\w\-.])' + re.escape(name) + r'(?![\w\-])', '(%s)' % ' '.join(names), parsed[1])
            call = file.call(user, right, args, (), {w for a in args for w in WORD.findall(a)})
            lines = [' '.join([' ' * user.indent + user.name] + args) + ' = ' + call]
        called += lines
    return [t for t in (kept, called) if not times(name, t) and is_balanced('\n'.join(t))]


def proof_files(crate, files):
    """The crate's files of lemmas, or those of these names."""
    named = {os.path.basename(p)[:-5]: p for p in sorted(glob.glob(crate.folder + '/proofs/*.antt'))}
    return [p for name, p in named.items() if name not in ('Lib', 'Words') and (not files or name in files)]


def take_in(crate, files):
    """Takes lemmas into those that cite them, and says whether there were any."""
    handed_on, seen, tries, cases, busy, spans = re_exports(), all_names(), [], [], set(), collections.defaultdict(list)
    for path in proof_files(crate, files):
        file = Tries(path, handed_on)
        for f in file.lemmas:
            parsed, own = [left_right(f, e) for e in f.equations], times(f.name, file.lines[f.start:f.end + 1])
            users = [u for u in file.lemmas if u is not f and times(f.name, sum(u.equations, []))]
            everywhere = seen[f.name] if f.indent or f.head[0].startswith('pub ') else times(f.name, file.lines)
            if users and None not in parsed and own == 1 + len(f.equations) and everywhere == own + sum(
                    times(f.name, sum(u.equations, [])) for u in users):
                names = file.cited(' '.join(right for _, right in parsed), set())
                tries += [(file, u, t, f) for u in users for t in without_name(file, f.name, names, u)]
                cases.append((file, f, users))
    passed = [tries[n] for n in sorted(crate.check(tries))] if tries else []
    crate.put_back()
    for file, f, users in sorted(cases, key=lambda c: -count(sum(c[1].equations, []))):
        best = [min((t[2] for t in passed if t[1] is u and t[3] is f), key=lambda t: (count(t), len(str(t))), default=None) for u in users]
        if None not in best and not busy & {f, *users} and sum(map(count, best)) <= sum(count(sum(u.equations, [])) for u in users):
            busy |= {f, *users}
            spans[file] += [(f.start, f.end + 1, [])] + [(u.start + len(u.head), u.end + 1, t) for u, t in zip(users, best)]
            print(os.path.basename(file.path), f.name, 'goes into', ', '.join(u.name for u in users), flush=True)
    for file in spans:
        put(file.lines, spans[file])
        open(file.path, 'w').write(file.text())
    return bool(spans)


def re_exports():
    """What `pub use` lines hand on: from (module, name) to (module, name)."""
    out = {}
    for path in glob.glob('crates/*/proofs/*.antt'):
        for source, names in re.findall(r'^pub use ([\w.]+)\.\{([^}]*)\}', open(path).read(), re.M):
            for n in names.split(', '):
                out['Rattle.' + path[7:-5].replace('/', '.'), n.split(' as ')[-1]] = source, n.split(' as ')[0]
    return out


def main():
    ask = argparse.ArgumentParser()
    ask.add_argument('crate')
    ask.add_argument('files', nargs='*')
    for flag, default in (('--jobs', 2), ('--rounds', 2), ('--least', 1)):
        ask.add_argument(flag, type=int, default=default)
    asked = ask.parse_args()
    crate, tries, best, handed_on = Crate(asked.crate, asked.jobs), [], {}, re_exports()
    for path in proof_files(crate, asked.files):
        file = Tries(path, handed_on)
        tries += [(file, f, new, saved) for f in file.lemmas for saved, new in file.of(f) if saved >= asked.least]
    print(len(tries), 'tries', flush=True)
    try:
        for n in crate.check(tries):
            file, f, _, saved = tries[n]
            if (file.path, f.start) not in best or saved > best[file.path, f.start][3]:
                best[file.path, f.start] = tries[n]
        again = set(best)
        for _ in range(asked.rounds):
            less = [(*best[k][:2], new, best[k][3], k) for k in again for new in fewer_names(best[k][2])]
            passed = [less[n] for n in sorted(crate.check(less))] if less else []
            best.update((t[4], t[:4]) for t in passed)
            again = {t[4] for t in passed}
    finally:
        crate.put_back()
    for _, (file, f, new, saved) in sorted(best.items(), reverse=True, key=lambda b: b[0]):
        print(os.path.basename(file.path), f.name, saved)
        file.lines[f.start + len(f.head):f.end + 1] = new
        open(file.path, 'w').write(file.text())
    print(len(best), 'lemmas,', sum(b[3] for b in best.values()), 'lines fewer', flush=True)
    without_dead(crate.folder)
    try:
        for _ in range(4):
            if not take_in(crate, asked.files):
                break
    finally:
        crate.put_back()


main()
