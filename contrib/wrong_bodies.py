#!/usr/bin/env python3
"""Tries wrong bodies, many to a check, and tells for what each is refused.

    contrib/wrong_bodies.py [--changed] [--base COMMIT] [--jobs N] [--anew] [--all] [CRATE ..] [CRATE/NAME ..]

A wrong body is an edit that the prover has to refuse. The gate tries those in crates/CRATE/must-fail one by one; only this script
tries those in contrib/wrong_bodies/CRATE.edits. Without names it tries all of both.

    --changed      only those that a change since the base touches: the wrong bodies that are new, and all those of a crate whose
                   sources, specs or proofs changed, or which stands on a library that now says something else
    --base COMMIT  the base: where HEAD left origin/main if nothing is said, and HEAD where there is no such branch
    --jobs N       so many crates side by side (1 if nothing is said; a check takes 1 to 4 GB)
    --anew         what was tried before, too
    --all          the reason of each that is refused, too

It works over the libraries that `rt ci` kept on this machine. What it finds no library for it proves, and says so; such a library
stays in out/wrong_bodies. So do the verdicts, each by the sums of what it stands on: the crate's files, what the libraries below
say, the edit, and the kit.

A check holds one wrong body for each of many functions, and proves only these functions: a function is proved from the contracts of
those that it calls, not from their bodies. Each wrong body is judged by what the check says of its own function. It is tried again
alone where that is only "it calls ..", since another function of the batch is not proved. So is an edit of several functions. One of
a definition, a type or a constant is tried over the functions that name it, and where these are proved, over the whole crate.

Each is told as one of
  refused    a clause, an invariant, a callee's `requires` or totality is not proved of it
  PROVED     the crate is proved with it: the contract is too weak, or the body is right
  NAME       only a name or the shape of a proof file stands against it, so a right body would be refused as well
  BAD        it can't be applied, or what it makes is no program, or the prover gave no verdict

The status is 0 where all are refused.
"""
import argparse
import functools
import hashlib
import importlib.machinery
import importlib.util
import json
import os
import re
import resource
import shutil
import subprocess
import sys
import tempfile
import threading
import time
from collections import Counter
from concurrent.futures import ThreadPoolExecutor

sys.dont_write_bytecode = True
TOP = os.path.dirname(os.path.dirname(os.path.abspath(__file__)))
OUT = os.path.join(TOP, 'out', 'wrong_bodies')
# Verdicts of a script that judged in another way are not taken.
JUDGE = 1
MOST_VERDICTS = 20_000
PARTS = ('src', 'specs', 'proofs')
# The mark of each further line of a text.
MORE = '   |'
# A declaration in code that is no function, and one in specs.
IN_CODE = re.compile(r'^ *(?:pub(?:\([a-z]+\))? )?(?:const|static|struct|enum|trait|type) (\w+)')
IN_SPECS = re.compile(r'(?!use |module |--)(?:(?:pub|abbrev|unfoldable|record|data) )*([^\s:{(}]+)')
HEAD = re.compile(r'^( *)(?:pub(?:\([a-z]+\))? )?(?:const )?(?:unsafe )?fn (\w+)')
IMPL = re.compile(r'^impl\b(?:<(.*?)>)? ?(?:(?:\w+::)*(\w+)(?:<(.*)>)? for )?(?:&(?:mut )?)?(?:\w+::)*(\w+)(?:<(.*)>)?(?: \{.*| where.*)?$')
# What a check says of a goal that is false, of one that was not reached, and of a name that an edit took from a proof file.
STRONG = re.compile(r'allow values at which|may be false: the known facts|and the goal fails, at|types? (?:first )?differ|but this has type')
WEAK = re.compile(r'did not prove `|it is not proved that|does not hold|no proof of `')
NAME = re.compile(r'that can be named from here|has no field|which was not admitted|has no `|is not in scope')
PLACE = re.compile(r'^(?:note: )?(?:\./)?((?:src|specs|proofs)/\S+?):(\d+):\d+: ')


class BadEdit(Exception):
    """Why an edit can't be applied."""


def stop(why):
    print(f'wrong_bodies.py: {why}', file=sys.stderr)
    sys.exit(2)


def read(path):
    with open(path, encoding='utf-8') as file:
        return file.read()


# The wrong bodies


def pairs_of(lines, where):
    """The triples of a file, a text in it and a text in its place, from lines `file:`, `old:` and `new:`; a line after MORE goes on with
    the text above it."""
    pairs, file, old, new = [], None, None, None
    for line in lines:
        word, _, rest = line.partition(':')
        rest, more = rest.removeprefix(' '), '\n' + line[len(MORE) :].removeprefix(' ')
        is_between = old is None or new is not None
        if line.startswith(MORE) and new is not None:
            new += more
            pairs[-1] = (file, old, new)
        elif line.startswith(MORE) and old is not None:
            old += more
        elif word == 'file' and is_between:
            file, old, new = rest.strip(), None, None
        elif word == 'old' and is_between and file:
            old, new = rest, None
        elif word == 'new' and not is_between:
            new = rest
            pairs.append((file, old, new))
        elif line:
            stop(f'{where}: this line is none of `file:`, `old:`, `new:` and `{MORE}`, or it is out of its order: {line}')
    if not pairs or old is not None and new is None:
        stop(f'{where}: an `old:` has no `new:`')
    return pairs


def bodies_in(text, where):
    """The wrong bodies of a CRATE.edits, by name: under a heading a sentence, and the pairs."""
    found = {}
    for part in re.split(r'^## ', text, flags=re.MULTILINE)[1:]:
        name, *lines = part.split('\n')
        if name in found or not re.fullmatch(r'\w+', name):
            stop(f'{where}: `{name}` is no name, or two wrong bodies have it')
        first = next((at for at, line in enumerate(lines) if line.startswith('file: ')), 0)
        if not ''.join(lines[:first]).strip():
            stop(f'{where}: {name}: a sentence says what the wrong body does, and a line `file:` follows it')
        found[name] = pairs_of(lines[first:], f'{where}: {name}')
    return found


def tried_by_gate(text, where):
    """The pairs of a file in must-fail, in the toolchain's form: a text is one line, and other lines are notes."""
    return pairs_of([line for line in text.split('\n') if line.startswith(('file: ', 'old: ', 'new:'))], where)


def files_of(crate, reader):
    """The wrong bodies of a crate by name, and which of them are the gate's; the reader lists and reads the repository's files."""
    list_files, text_of = reader
    own, gate = f'contrib/wrong_bodies/{crate}.edits', f'crates/{crate}/must-fail'
    found = bodies_in(text_of(own), own) if own in list_files(own) else {}
    for path in list_files(gate):
        name = os.path.basename(path).removesuffix('.edit')
        if path.endswith('.edit') and name in found:
            stop(f'{path}: {own} has one of this name, too')
        if path.endswith('.edit'):
            found[name] = tried_by_gate(text_of(path), path)
    return found


def here():
    """A reader of the working tree."""

    def list_files(path):
        top = os.path.join(TOP, path)
        if os.path.isfile(top):
            return [path]
        return sorted(os.path.relpath(os.path.join(at, name), TOP) for at, _, names in os.walk(top) for name in names)

    return list_files, lambda path: read(os.path.join(TOP, path))


def git(*words):
    ran = subprocess.run(['git', *words], cwd=TOP, stdin=subprocess.DEVNULL, capture_output=True, text=True, check=False)
    return ran.stdout if ran.returncode == 0 else None


def at_commit(commit):
    """A reader of a commit."""

    def list_files(path):
        return [each for each in (git('ls-tree', '-r', '--name-only', '-z', commit, '--', path) or '').split('\0') if each]

    return list_files, lambda path: git('show', f'{commit}:{path}') or ''


# Functions, and what a library says


def module_of(file):
    return re.sub(r'(^|/)(mod|lib|main)$', '', file[len('src/'):-len('.rt')]).replace('/', '::')


@functools.cache
def types_of(home):
    """The module in which each type of a crate stands: a check names a method of the type by it, wherever its `impl` stands."""
    found = {}
    for at, _, names in sorted(os.walk(os.path.join(home, 'src'))):
        for path in sorted(os.path.join(at, name) for name in names if name.endswith('.rt')):
            for name in re.findall(r'^(?:pub(?:\([a-z]+\))? )?(?:struct|enum) (\w+)', read(path), re.MULTILINE):
                found.setdefault(name, module_of(os.path.relpath(path, home)))
    return found


class Function:
    """A function of a source file: its lines, and its name in what a check says."""

    def __init__(self, crate, file, module, impl, name, first, last):
        self.file, self.first, self.last = file, first, last
        self.path = '::'.join(part for part in (crate, module, impl, name) if part)
        self.short = '::'.join(part for part in (module, impl, name) if part)
        self.proofs = 'proofs/' + self.short.replace('::', '/') + '/'

    def is_at(self, line):
        """Whether a line of a check is about this function: by its name, or by a place in its body or its proof."""
        if line.startswith(f'fn {self.path}:'):
            return True
        place = PLACE.match(line)
        if not place:
            return False
        file, at = place.group(1), int(place.group(2))
        return file == self.file and self.first <= at <= self.last or file.startswith(self.proofs)


def name_of_impl(own, trait, given, name, of):
    """What a check calls an `impl`: its type, with what that is given where these are not the parameters of the `impl` itself, its trait,
    and what that is given, as `FaultFromIoError` and `SqliteRows+FileStore+D`."""
    words, own = re.findall(r"(?<!')\b\w+", of or ''), re.findall(r'(?:^|, )(\w+)', own or '')
    given = re.sub('<.*', '', given or '')
    return (name + ''.join('+' + word for word in words if not set(words) <= set(own)) + (trait or '')
            + ''.join(part[:1].upper() + part[1:] for part in given.split('::') if re.fullmatch(r'\w+', part)))


def functions_of(crate, file, text, types):
    """The functions of a source file, by rt fmt's layout: each ends at the brace that stands below its head."""
    lines, found, impl, impl_ends, own = text.split('\n'), [], '', -1, module_of(file)
    module = own
    for at, line in enumerate(lines):
        if at > impl_ends:
            impl = ''
        if line.startswith('impl'):
            head = IMPL.match(line)
            impl = name_of_impl(*head.groups()) if head else ''
            module = types.get(impl, own)
            impl_ends = at if line.endswith('{}') else next((end for end in range(at, len(lines)) if lines[end] in ('}', '{}')), at)
        head = HEAD.match(line)
        if head:
            last, is_method = at, bool(head.group(1))
            while last + 1 < len(lines) and lines[last] != head.group(1) + '}' and not HEAD.match(lines[last + 1]) and not (is_method and lines[last + 1] == '}'):
                last += 1
            found.append(Function(crate, file, module if is_method else own, impl if is_method else '', head.group(2), at + 1, last + 1))
    return found


def declared_in(file, text):
    """The declarations of a file that are no functions, by rt fmt's layout: of each the line that it begins at, its name and its text."""
    found, indent = [], ''
    for at, line in enumerate(text.split('\n')):
        if file.endswith('.rt'):
            head = IN_CODE.match(line)
        else:
            indent = ('  ' if line.startswith('module') else '') if re.match('[^ }]', line) else indent
            head = IN_SPECS.match(line.removeprefix(indent)) if line.startswith(indent) else None
        if head:
            found.append([at + 1, head.group(1), ''])
        if found:
            found[-1][2] += line + '\n'
    return found


def words_in(text):
    return set(re.findall(r'\w+', text))


def files_below(folder):
    return [os.path.join(at, name) for at, _, names in sorted(os.walk(folder)) for name in sorted(names)]


class Names:
    """Which names the functions of a crate use, in their proofs too, and the definitions of its specs and of those of some libraries."""

    def __init__(self, crate, home, libraries):
        self.home, self.functions, self.definitions, types = home, [], [], types_of(home)
        for path in files_below(os.path.join(home, 'src')):
            text, file = read(path), os.path.relpath(path, home)
            for each in functions_of(crate, file, text, types):
                proofs = [read(proof) for proof in files_below(os.path.join(home, each.proofs))]
                self.functions.append((each, words_in('\n'.join([*text.split('\n')[each.first - 1 : each.last], *proofs]))))
        for path in [path for folder in (home, *libraries) for path in files_below(os.path.join(folder, 'specs'))]:
            self.definitions += [(name, words_in(text)) for _, name, text in declared_in(path, read(path))]

    def changed(self, file, old):
        """The name of the declaration in which a text of a file stands, if it is in one."""
        text = read(os.path.join(self.home, file))
        line = text.partition(old)[0].count('\n') + 1
        return [name for first, name, _ in declared_in(file, text) if first <= line][-1:]

    def users(self, pairs):
        """The functions nearest to what an edit changes: those that use a name that it changes, or else those that use a definition
        that uses it, and so on."""
        names = set().union(*(self.changed(file, old) for file, old, _ in pairs))
        known = set(names)
        while names:
            found = [each for each, used in self.functions if used & names]
            if found:
                return found
            names = {name for name, used in self.definitions if used & names} - known
            known |= names
        return []


def without_bodies(text):
    """A source file without comments and without what stands in the braces of its functions: what another crate's proof can rest on."""
    lines, left = text.split('\n'), []
    bodies = {each.first - 1: each.last - 1 for each in functions_of('', 'src/lib.rt', text, {})}
    at = 0
    while at < len(lines):
        last, line = bodies.get(at), lines[at]
        indent = line[: len(line) - len(line.lstrip())]
        if last and not re.search(r'\bconst (?:unsafe )?fn\b', line) and lines[last] == indent + '}':
            # The body begins at the first brace at the end of a line that is no deeper than the head.
            begin = next(it for it in range(at, last + 1) if lines[it].endswith('{') and re.match(indent + r'\S', lines[it]) or it == last)
            left, at = left + lines[at : begin + 1], last
            continue
        if not line.lstrip().startswith('//'):
            left.append(line)
        at += 1
    return '\n'.join(left)


def said_by(crate, reader):
    """A sum of what a library says to the crates above it: its specs, and its sources without bodies."""
    list_files, text_of = reader
    said = hashlib.sha256()
    for part in ('src', 'specs'):
        for path in list_files(f'crates/{crate}/{part}'):
            text = text_of(path)
            said.update(repr((path, without_bodies(text) if path.endswith('.rt') else text)).encode())
    return said.hexdigest()


# What a change touches


def lines_of_crates(text):
    """The line of each crate in crates.txt, lowest first."""
    lines = [line for line in text.split('\n') if ':' in line and not line.startswith('#')]
    return {line.split(':')[0].split()[0]: line for line in lines}


def below(lines, name, found):
    for lower in lines[name].split(':')[1].split():
        if lower in lines and lower not in found:
            below(lines, lower, found)
            found.append(lower)
    return found


def base_commit():
    found = git('merge-base', 'HEAD', 'origin/main') or git('rev-parse', 'HEAD')
    return found.strip() if found else stop('--changed needs a git repository')


def changed_since(base, lines):
    """By crate the names of the wrong bodies that a change since the base touches; None stands for all of a crate."""
    said = (git('diff', '--name-only', '--no-renames', '-z', base, '--', 'crates', 'contrib/wrong_bodies', 'crates.txt', 'HANDLES'), git('ls-files', '--others', '--exclude-standard', '-z', 'crates', 'contrib/wrong_bodies'))
    if None in said:
        stop(f'no git diff can be made with {base}')
    paths = [path for text in said for path in text.split('\0') if path]
    of_crate = {name: [path for path in paths if path.startswith(f'crates/{name}/')] for name in lines}
    now, then = here(), at_commit(base)
    lines_then = lines_of_crates(then[1]('crates.txt'))
    code = {name for name in lines if any(path.split('/')[2] in PARTS for path in of_crate[name]) or lines[name] != lines_then.get(name) or 'HANDLES' in paths}
    new_words = {name for name in code if name not in lines_then or said_by(name, now) != said_by(name, then)}
    found = {}
    for name in lines:
        if name in code or new_words & {*below(lines, name, [])}:
            found[name] = None
        elif f'contrib/wrong_bodies/{name}.edits' in paths or any('/must-fail/' in path for path in of_crate[name]):
            old = files_of(name, then)
            found[name] = {each for each, pairs in files_of(name, now).items() if pairs not in old.values()}
    return found


# The kit


def kit():
    """The kit's own command as a module, with Crate, Kept and the words of a check."""
    said = subprocess.run(['rt', 'doc'], stdin=subprocess.DEVNULL, stdout=subprocess.PIPE, text=True, check=True).stdout
    path = os.path.join(os.path.dirname(said.strip()), 'bin', 'rt')
    loader = importlib.machinery.SourceFileLoader('rt_of_kit', path)
    made = importlib.util.module_from_spec(importlib.util.spec_from_loader('rt_of_kit', loader))
    sys.modules['rt_of_kit'] = made
    loader.exec_module(made)
    # As `rt ci` sets them.
    made.rtlib.Crate = made.Crate
    made.Crate.cuts_libraries = True
    made.rtlib.guarded()
    return made


def copied(name, to):
    for part in (*PARTS, 'c'):
        if os.path.isdir(os.path.join(TOP, 'crates', name, part)):
            shutil.copytree(os.path.join(TOP, 'crates', name, part), os.path.join(to, part), dirs_exist_ok=True)


class Libraries:
    """The crates that stand below those that are tried, in a folder of their own, each with its library as `rt ci` makes it."""

    def __init__(self, room, names, lines):
        self.rt = kit()
        wanted = [name for name in lines if any(name == each or name in below(lines, each, []) for each in names)]
        with open(os.path.join(room, 'crates.txt'), 'w', encoding='utf-8') as file:
            file.writelines(lines[name] + '\n' for name in wanted)
        shutil.copy(os.path.join(TOP, 'HANDLES'), room)
        for name in wanted:
            copied(name, os.path.join(room, 'crates', name))
        self.rt.Crate.allowed = self.rt.handles_of(room)
        crates = sorted(self.rt.rtlib.crates_below(room), key=lambda crate: len(crate.below()))
        self.crates = {crate.name: crate for crate in crates}
        self.kept = self.rt.Kept(crates)
        self.of_kit, self.own = self.kept.at, os.path.join(OUT, 'libraries')
        self.needed = {lower.name for name in names for lower in self.crates[name].below()}
        self.keys, self.lacking, self.said, self.one_at_a_time = {}, set(), {}, threading.Lock()

    def given(self, crate):
        """Whether the library now stands in its place, from what `rt ci` kept, or this script."""
        for place in (self.of_kit, self.own):
            self.kept.at = place
            if place and self.kept.give(crate, False, self.keys[crate.name]):
                return True
        return False

    def make(self, name):
        """Has a crate's libraries stand in their places, lowest first; answers the first that is not proved, if any."""
        with self.one_at_a_time:
            for crate in [*self.crates[name].below(), self.crates[name]]:
                if any(lower.name in self.lacking for lower in crate.below()):
                    self.lacking.add(crate.name)
                if crate.name in self.keys or crate.name in self.lacking:
                    continue
                self.keys[crate.name] = self.kept.key(crate)
                if crate.name in self.needed and not self.given(crate):
                    self.prove(crate)
                self.kept.is_built(crate)
            return next((lower.name for lower in self.crates[name].below() if lower.name in self.lacking), None)

    def prove(self, crate):
        print(f'{crate.name}: `rt ci` kept no library of these files, so it is proved here', flush=True)
        os.makedirs(self.own, exist_ok=True)
        os.makedirs(os.path.join(crate.folder, 'out'), exist_ok=True)
        with tempfile.TemporaryFile('w+', errors='replace') as crate.out:
            if crate.ci(['--jobs', '1'], False):
                crate.out.seek(0)
                print(f'{crate.name}: not proved: {crate.out.read()[-600:]}', flush=True)
                self.lacking.add(crate.name)
                return
        self.kept.is_built(crate)
        self.kept.at = self.own
        self.kept.keep(crate, False, self.keys[crate.name])

    def is_proved(self, name):
        """Whether `rt ci`, or this script, proved the crate itself."""
        places = [os.path.join(place, f'proof-{name}-{self.keys[name]}') for place in (self.of_kit, self.own) if place]
        return any(os.path.isdir(place) for place in places)

    def sum_of(self, name):
        """A sum of what a verdict on a wrong body of the crate stands on beside the edit."""
        crate, said = self.crates[name], []
        for lower in crate.below():
            if lower.name not in self.said:
                self.said[lower.name] = said_by(lower.name, here())
            said.append((lower.name, self.said[lower.name]))
        return hashlib.sha256(repr((JUDGE, self.rt.own_sum(crate), said)).encode()).hexdigest()

    def words(self, name, changed, beside):
        """The kit's words for a check of a crate. Libraries that an edit changes, and those that stand on them, are read as sources."""
        crate, rtlib = self.crates[name], self.rt.rtlib
        words = crate.words(['--jobs', '1'], keeps=False)
        sources = [lower for lower in crate.below() if lower.name in changed or any(each.name in changed for each in lower.below())]
        for lower in sources:
            for pair in (['--extern', f'{lower.name}={lower.rlib}'], ['-L', f'dependency={os.path.dirname(lower.rlib)}']):
                at = next((at for at in range(len(words) - 1) if words[at : at + 2] == pair), None)
                words = words if at is None else words[:at] + words[at + 2 :]
            uses = dict.fromkeys(['core', *lower.of_kit, *[each.name for each in lower.deps]])
            folder = os.path.join(beside, lower.name)
            if not os.path.isdir(folder):
                copied(lower.name, folder)
            words += ['--lib', f'{lower.name}:{",".join(uses)}={folder}/src/lib.rt']
        of_kit = dict.fromkeys(each for lower in sources for each in ['core', *lower.of_kit])
        of_ours = dict.fromkeys(each for lower in sources for each in lower.deps if each not in sources)
        named = [f'{each}={rtlib.KIT}/rlibs/{each}.rlib' for each in of_kit] + [f'{each.name}={each.rlib}' for each in of_ours]
        return words + [word for each in named if each not in words for word in ('--extern', each)]


# The trial


class Edit:
    """A wrong body: its pairs of texts, and the functions that it changes, if it changes nothing else."""

    def __init__(self, crate, name, pairs, home):
        self.crate, self.name, self.pairs = crate, f'{crate}/{name}', pairs
        self.functions = self.functions_in(home)
        # Whether a batch may hold it.
        self.alone = len(self.functions) != 1

    def functions_in(self, home):
        found, texts, types = {}, {}, types_of(home)
        for file, old, new in self.pairs:
            if not file.startswith('src/') or not os.path.isfile(os.path.join(home, file)):
                return []
            text = texts.get(file) or read(os.path.join(home, file))
            at = text.partition(old)[0].count('\n') + 1
            own = [each for each in functions_of(self.crate, file, text, types) if each.first <= at <= each.last]
            if not own:
                return []
            found[own[0].path] = file
            texts[file] = text.replace(old, new)
        # They stand where they stand in the file as it is.
        return [each for file in dict.fromkeys(found.values()) for each in functions_of(self.crate, file, read(os.path.join(home, file)), types) if each.path in found]

    def libraries(self):
        """The crates below that it changes."""
        return frozenset(file.split('/')[1] for file, _, _ in self.pairs if file.startswith('../'))

    def applied(self, texts, home):
        """The texts of the files with this edit in them, over those that are changed already."""
        made = dict(texts)
        for file, old, new in self.pairs:
            if old == new:
                raise BadEdit(f'it changes nothing: {old}')
            if file not in made:
                if not os.path.isfile(os.path.join(home, file)):
                    raise BadEdit(f'there is no file {file}')
                made[file] = read(os.path.join(home, file))
            if made[file].count(old) != 1:
                raise BadEdit(f'{made[file].count(old)} places in {file} have: {old}')
            made[file] = made[file].replace(old, new)
        return made


class Trial:
    """A copy of a crate, in which its wrong bodies are tried."""

    def __init__(self, crate, room, libraries):
        self.crate, self.room, self.libraries, self.checks = crate, room, libraries, 0
        self.home, self.work, self.proved, self.names = os.path.join(room, crate), os.path.join(room, 'work'), {}, None
        copied(crate, self.home)
        begin = os.path.join(TOP, 'crates', crate, 'out', 'incremental')
        if os.path.isdir(begin):
            libraries.rt.linked(begin, self.work)

    def check(self, texts, functions=(), work=None, changed=()):
        """What a check of these functions, or else of the whole crate, says with these texts in place of the crate's own."""
        words = self.libraries.words(self.crate, changed, self.room)
        words += [word for each in functions for word in ('--only', each.short)] + ['--incremental', work or self.work]
        before = {file: read(os.path.join(self.home, file)) for file in texts}
        self.write(texts)
        self.checks += 1
        rtlib = self.libraries.rt.rtlib
        run = subprocess.run([*rtlib.guarded(), rtlib.RATTLE, 'check', *words], cwd=self.home, stdin=subprocess.DEVNULL, stdout=subprocess.PIPE,
                             stderr=subprocess.STDOUT, text=True, errors='replace', check=False)
        self.write(before)
        return run.stdout.rstrip('\n').split('\n')

    def write(self, texts):
        for file, text in texts.items():
            with open(os.path.join(self.home, file), 'w', encoding='utf-8') as changed:
                changed.write(text)

    def is_proved(self, changed=frozenset()):
        """Whether the crate as it stands is proved. What this check keeps, each check of a whole crate begins with."""
        if changed not in self.proved:
            self.proved[changed] = ends_proved(self.check({}, changed=changed))
        return self.proved[changed]

    def check_alone(self, edit, texts):
        """What a check says of one wrong body: of its functions, or of those that use what it changes, or else of the crate. It says
        nothing where the crate as it stands is not proved."""
        if edit.functions:
            return self.check(texts, edit.functions)
        changed = edit.libraries()
        if changed and not self.is_proved(changed):
            return []
        users = self.names.users(edit.pairs)
        said = self.check(texts, users, changed=changed) if users else []
        if (judged_lines(said) or [''])[0] == 'refused':
            return said
        if not self.is_proved(changed):
            return []
        over = os.path.join(self.room, 'over')
        shutil.rmtree(over, ignore_errors=True)
        self.libraries.rt.linked(self.work, over)
        return self.check(texts, work=over, changed=changed)

    def tried(self, edits, keep):
        """What is told of each edit, batch by batch: those of functions first. What is told is given to `keep` after each check."""
        told, left = {}, sorted(edits, key=lambda edit: not edit.functions)
        libraries = {name: os.path.join(self.room, name) for edit in edits for name in edit.libraries()}
        for name, folder in libraries.items():
            copied(name, folder)
        self.names = Names(self.crate, self.home, libraries.values())
        while left:
            batch, texts, left = self.batch(left, told)
            if not batch:
                continue
            alone = batch[0] if len(batch) == 1 else None
            said = self.check_alone(alone, texts) if alone else self.check(texts, [edit.functions[0] for edit in batch])
            if not said:
                told[alone] = ('BAD', f'{self.crate} itself is not proved')
                continue
            if not any(line.startswith(('logic=', 'only=')) for line in said):
                left = self.unread(batch, said, told) + left
                continue
            for edit in batch:
                verdict = judged_alone(said) if alone else judged(edit.functions[0], said)
                if verdict:
                    told[edit] = verdict
                else:
                    edit.alone, left = True, left + [edit]
            keep(told)
        return told

    def batch(self, left, told):
        """Edits of functions of their own, as many as there are, or one other; the texts with them; and those left for later."""
        chosen, texts, places, later = [], {}, set(), []
        for edit in left:
            place = None if edit.alone else edit.functions[0].path
            if chosen and (place is None or None in places) or place in places:
                later.append(edit)
                continue
            try:
                texts = edit.applied(texts, self.home)
            except BadEdit as why:
                if texts:
                    later.append(edit)
                else:
                    told[edit] = ('BAD', str(why))
                continue
            chosen.append(edit)
            places.add(place)
        return chosen, texts, later

    def unread(self, batch, said, told):
        """Where a check could not read the texts: those that it names are told, and the others are to be tried again."""
        errors = [line for line in said if re.search(r': error|^error', line)]
        bad = batch if len(batch) == 1 else [edit for edit in batch if any(edit.functions[0].is_at(line) for line in errors)]
        for edit in bad:
            told[edit] = ('BAD', (errors or said or [''])[0])
        rest = [edit for edit in batch if edit not in told]
        if not bad:
            # Nobody is named: each stands alone from here on.
            for edit in rest:
                edit.alone = True
        return rest


def ends_proved(said):
    """Whether what a check was for is proved: the crate, or each function that it was asked for."""
    ends = [line for line in said if line.startswith(('logic=', 'only='))][-1:]
    only = re.match(r'only=(\d+) proved=(\d+)', ends[0]) if ends else None
    return only.group(1) == only.group(2) if only else bool(ends) and ends[0].startswith('logic=proved')


def judged(function, said):
    """What a check says of one function of a batch; nothing where it has to be tried again."""
    own = [line for line in said if function.is_at(line)]
    if f'fn {function.path}: proved' in own:
        return ('PROVED', 'its function is proved')
    return judged_lines(own)


def judged_alone(said):
    """What a check says of one wrong body."""
    if ends_proved(said):
        return ('PROVED', 'it is proved')
    verdict = judged_lines(said)
    if not verdict and any(line.startswith('rattle: no verdict') for line in said):
        verdict = ('BAD', next(line for line in said if line.startswith('rattle: no verdict')))
    return verdict or ('NAME', next((line for line in said if ': error' in line), said[-1]))


def judged_lines(lines):
    strong = [line for line in lines if STRONG.search(line)]
    names = [line for line in lines if NAME.search(line)]
    weak = [line for line in lines if WEAK.search(line)]
    if strong or weak and not names:
        return ('refused', (strong or weak)[0])
    return ('NAME', names[0]) if names else None


# The verdicts


class Verdicts:
    """What was told of each wrong body earlier, by the sum of all that it stands on."""

    def __init__(self, anew):
        self.path, self.known, self.writing = os.path.join(OUT, 'verdicts.json'), {}, threading.Lock()
        if os.path.isfile(self.path):
            self.known = json.loads(read(self.path))
        self.anew = anew

    def key(self, sum_of_crate, edit):
        return hashlib.sha256(repr((sum_of_crate, edit.name, edit.pairs)).encode()).hexdigest()

    def earlier(self, key):
        return None if self.anew or key not in self.known else tuple(self.known[key])

    def keep(self, told):
        """Keeps what the prover said; what could not be tried is tried again the next time."""
        with self.writing:
            self.known.update({key: verdict for key, verdict in told.items() if verdict[0] != 'BAD'})
            self.known = dict([*self.known.items()][-MOST_VERDICTS:])
            os.makedirs(OUT, exist_ok=True)
            with open(self.path + '.new', 'w', encoding='utf-8') as file:
                json.dump(self.known, file, indent=0)
            os.replace(self.path + '.new', self.path)


def lines_in(crate):
    """How many lines of code a crate has."""
    sources = os.walk(os.path.join(TOP, 'crates', crate, 'src'))
    return sum(read(os.path.join(folder, name)).count('\n') for folder, _, names in sources for name in names)


def counted(verdicts):
    """How many there are of each verdict, as a text."""
    return ', '.join(f'{count} {verdict}' for verdict, count in sorted(Counter(verdicts).items())) or 'none'


def tried_in(crate, names, libraries, verdicts, tells_all):
    """What is told of each wrong body of a crate. It is printed when the crate is done, so that a run that is cut off shows what it did."""
    began, home = time.monotonic(), os.path.join(TOP, 'crates', crate)
    edits = [Edit(crate, name, pairs, home) for name, pairs in files_of(crate, here()).items() if names is None or name in names]
    if not edits:
        return []
    lacking = libraries.make(crate)
    sum_of_crate = libraries.sum_of(crate)
    keys = {edit: verdicts.key(sum_of_crate, edit) for edit in edits}
    told = {edit: verdicts.earlier(keys[edit]) for edit in edits}
    new = [edit for edit in edits if not told[edit]]
    checks = 0
    if new:
        with tempfile.TemporaryDirectory(prefix='wrong-bodies-') as room:
            trial = Trial(crate, room, libraries)
            if lacking or not libraries.is_proved(crate) and not trial.is_proved():
                told.update({edit: ('BAD', f'{lacking or crate} itself is not proved') for edit in new})
            else:
                told.update(trial.tried(new, lambda some: verdicts.keep({keys[edit]: verdict for edit, verdict in some.items()})))
            checks = trial.checks
    found = [told[edit][0] for edit in edits]
    lines = [f'{crate}: {len(edits)} wrong bodies, {len(new)} tried now in {checks} checks and {time.monotonic() - began:.0f} s: {counted(found)}']
    lines += [f'{told[edit][0]} {edit.name}: {told[edit][1].strip()[:240]}' for edit in edits if told[edit][0] != 'refused' or tells_all]
    print('\n'.join(lines), flush=True)
    return found


def wanted_of(asked, lines):
    """By crate the names of the wrong bodies that are asked for; None stands for all of a crate."""
    found = {}
    for each in asked or lines:
        crate, _, name = each.partition('/')
        if crate not in lines or name and name not in files_of(crate, here()):
            stop(f'there is no {each}')
        found[crate] = None if not name or found.get(crate, {}) is None else found.get(crate, set()) | {name}
    return {crate: which for crate, which in found.items() if files_of(crate, here())}


def both(these, those):
    """What stands in two sets of names, of which None has all."""
    return those if these is None else these if those is None else these & those


def main():
    parser = argparse.ArgumentParser(description=__doc__, formatter_class=argparse.RawDescriptionHelpFormatter)
    parser.add_argument('--changed', action='store_true')
    parser.add_argument('--base', metavar='COMMIT')
    parser.add_argument('--jobs', type=int, default=1)
    parser.add_argument('--anew', action='store_true')
    parser.add_argument('--all', action='store_true')
    parser.add_argument('names', nargs='*', metavar='CRATE[/NAME]')
    asked, began = parser.parse_args(), time.monotonic()
    lines = lines_of_crates(read(os.path.join(TOP, 'crates.txt')))
    names = wanted_of(asked.names, lines)
    if asked.changed or asked.base:
        touched = changed_since(asked.base or base_commit(), lines)
        names = {name: both(which, touched[name]) for name, which in names.items() if name in touched}
    # The largest first, so that no lane is left with one at the end.
    order = sorted(names, key=lines_in, reverse=True)
    with tempfile.TemporaryDirectory(prefix='wrong-bodies-') as room, ThreadPoolExecutor(asked.jobs) as pool:
        libraries, verdicts = Libraries(room, order, lines) if order else None, Verdicts(asked.anew)
        runs = pool.map(lambda name: tried_in(name, names[name], libraries, verdicts, asked.all), order)
        found = [each for of_crate in runs for each in of_crate]
    used = resource.getrusage(resource.RUSAGE_CHILDREN)
    print(f'{len(found)} wrong bodies of {len(order)} crates: {counted(found)}; {(used.ru_utime + used.ru_stime) / 60:.1f} minutes of processor time, '
          f'{(time.monotonic() - began) / 60:.1f} by the clock')
    return 0 if set(found) <= {'refused'} else 1


sys.exit(main())
