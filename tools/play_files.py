"""Plays that are text files: what the program is given, what it prints and how it ends, line by line.

Each tests/plays/NAME.play is one play. It runs in a folder of its own, which has the files of examples/ and no others. The first word of a line
says what it is; empty lines, and those behind `#`, are for who reads.

    file NAME               a file, whose lines follow behind `|`
    file NAME from OLD      a copy of OLD, changed: lines behind `-`, which stand there once, become those behind `+` that follow
    tape NAME 1 2 3 0*40    a tape of these frames, in decimal; `0*40` is 40 times the frame 0
    bytes NAME 54 4e 00*3   these bytes, in hex
    $ check a.toml b.toml c the program runs on these words, which are split as a shell splits them
    < a line of its standard input
    > a line that it prints
    ! a line of its standard error
    = done                  how it ends: done, input, usage, store, socket or memory. With it each run ends

Behind a doubled mark, as `>>`, `<<`, `!!` or `||`, stands a text that has no line end. Behind a mark and a star, as `>*`, each `[TEXT*40]` is
40 times the text. A run passes where all that it printed, on both streams, and its status are what stands there, letter for letter.
"""
import difflib
import os
import re
import shlex
import shutil
import subprocess

STATUSES = {'done': 0, 'input': 1, 'usage': 2, 'store': 3, 'socket': 4, 'memory': 5}
NAMES = {status: name for name, status in STATUSES.items()}
TIMES = re.compile(r'\[([^\[\]]*)\*(\d+)\]')
# How long one run may take, in seconds: on a busy machine too.
SECONDS = 120


class BadPlay(Exception):
    """A line that is none of a play."""


class Wrong(Exception):
    """A run that went otherwise, and how."""


class Run:
    """One run of the program: its words, what it is given, and what has to come."""

    def __init__(self, line, words):
        self.line, self.words, self.given, self.out, self.err, self.status = line, words, '', '', '', None
        # The lines of the play that say what has to come.
        self.wanted = []


def text_of(line):
    """What stands behind the mark of a line."""
    mark, rest = line[0], line[1:]
    end = '\n'
    if rest.startswith(mark) and mark in '<>!|':
        rest, end = rest[1:], ''
    elif rest.startswith('*'):
        rest = TIMES.sub(lambda found: found.group(1) * int(found.group(2)), rest[1:])
    if rest and not rest.startswith(' '):
        raise BadPlay(f'no space behind the mark: {line}')
    return rest[1:] + end


def repeated(words, base):
    """Bytes, from words that are one number each, or one and how many times it stands there."""
    data = bytearray()
    for word in words:
        text, _, times = word.partition('*')
        one = bytes.fromhex(text) if base == 16 else bytes([int(text)])
        data += one * int(times or 1)
    return bytes(data)


class Play:
    """A play: the files that it makes and the runs, in their order."""

    def __init__(self, text):
        self.lines, self.steps = text.split('\n'), []
        at = 0
        while at < len(self.lines):
            at = self.step(at)

    def step(self, at):
        """Reads what stands at a line, and answers where the next step begins."""
        line = self.lines[at]
        word = line.split(' ', 1)[0]
        if not line or word.startswith('#'):
            return at + 1
        if word == 'file':
            return self.file(at)
        if word in ('tape', 'bytes'):
            _, name, *numbers = line.split()
            self.steps.append((name, None, repeated(numbers, 10 if word == 'tape' else 16)))
            return at + 1
        if word == '$':
            return self.run(at)
        raise BadPlay(f'line {at + 1}: {line}')

    def file(self, at):
        words = self.lines[at].split()
        old = words[3] if len(words) == 4 and words[2] == 'from' else None
        if old is None and len(words) != 2:
            raise BadPlay(f'line {at + 1}: {self.lines[at]}')
        at += 1
        if old is None:
            text = ''
            while at < len(self.lines) and self.lines[at].startswith('|'):
                text += text_of(self.lines[at])
                at += 1
            self.steps.append((words[1], None, text.encode()))
            return at
        changes = []
        while at < len(self.lines) and self.lines[at].startswith(('-', '+')):
            mark, text = self.lines[at][0], text_of(self.lines[at])
            if mark == '-' and (not changes or changes[-1][1] is not None):
                changes.append(['', None])
            if not changes:
                raise BadPlay(f'line {at + 1}: nothing stands in its place')
            if mark == '-':
                changes[-1][0] += text
            else:
                changes[-1][1] = (changes[-1][1] or '') + text
            at += 1
        self.steps.append((words[1], old, changes))
        return at

    def run(self, at):
        run = Run(at + 1, self.lines[at][2:])
        at += 1
        while at < len(self.lines) and self.lines[at][:1] in tuple('<>!='):
            line = self.lines[at]
            if line[0] == '<':
                run.given += text_of(line)
            else:
                run.wanted.append(at)
                if line[0] == '>':
                    run.out += text_of(line)
                elif line[0] == '!':
                    run.err += text_of(line)
                elif line[2:] not in STATUSES:
                    raise BadPlay(f'line {at + 1}: {line}')
                else:
                    run.status = STATUSES[line[2:]]
            at += 1
            if run.status is not None:
                break
        if run.status is None:
            raise BadPlay(f'line {run.line}: it is not told how the run ends')
        self.steps.append(run)
        return at


def changed(text, changes):
    """A text with other lines in the place of some that stand there once."""
    text = '\n' + text
    for old, new in changes:
        if text.count('\n' + old) != 1:
            raise BadPlay(f'{text.count(chr(10) + old)} places have: {old}')
        text = text.replace('\n' + old, '\n' + (new or ''))
    return text[1:]


def put(folder, name, old, content):
    """Makes a file of a play."""
    path = os.path.join(folder, name)
    if old is not None:
        with open(os.path.join(folder, old), encoding='utf-8') as file:
            content = changed(file.read(), content).encode()
    with open(path, 'wb') as file:
        file.write(content)


def went(program, folder, run):
    """What a run printed on both streams, and its status."""
    ran = subprocess.run([program, *shlex.split(run.words)], cwd=folder, input=run.given.encode(), stdout=subprocess.PIPE,
                         stderr=subprocess.PIPE, timeout=SECONDS, check=False)
    return ran.stdout.decode('utf-8', 'replace'), ran.stderr.decode('utf-8', 'replace'), ran.returncode


def marked(text, mark):
    """The lines of a text, as they stand in a play."""
    lines = text.split('\n')
    last = lines.pop()
    return [f'{mark} {line}'.rstrip(' ') if not line else f'{mark} {line}' for line in lines] + ([f'{mark}{mark} {last}'] if last else [])


def as_told(out, err, status):
    """The lines of a play that say so."""
    return [*marked(out, '>'), *marked(err, '!'), f'= {NAMES.get(status, status)}']


def perform(play, program, folder):
    """Runs a play, and gives for each run that went otherwise the run and the lines that would say how it went."""
    for name in os.listdir(os.path.join(TOP, 'examples')):
        if name.endswith(('.toml', '.tape', '.script')):
            shutil.copy(os.path.join(TOP, 'examples', name), folder)
    others = []
    for step in play.steps:
        if not isinstance(step, Run):
            put(folder, *step)
            continue
        got = went(program, folder, step)
        if got != (step.out, step.err, step.status):
            others.append((step, as_told(*got)))
    return others


def difference(play, run, told):
    """How a run went otherwise, as a difference of lines."""
    wanted = [play.lines[at] for at in run.wanted]
    lines = difflib.unified_diff(wanted, told, 'as it stands', 'as it went', lineterm='', n=1)
    return f'line {run.line}: $ {run.words}\n' + '\n'.join('    ' + line[:300] for line in lines)


def check(program, folder, path):
    """Plays a file. Raises Wrong where a run went otherwise."""
    with open(path, encoding='utf-8') as file:
        play = Play(file.read())
    others = perform(play, program, folder)
    if others:
        raise Wrong('\n'.join(difference(play, run, told) for run, told in others))


def put_in(lines, wanted, told):
    """Puts into the lines of a play what was told in the place of what was wanted. What the run is given stays where it stands."""
    matcher = difflib.SequenceMatcher(None, [lines[at] for at in wanted], told, autojunk=False)
    for tag, first, last, begin, end in reversed(matcher.get_opcodes()):
        if tag == 'equal':
            continue
        old, new = wanted[first:last], told[begin:end]
        # A line for a line; the last has all that is left over.
        shares = [new[at:at + 1] for at in range(len(old))]
        if old:
            shares[-1] = new[len(old) - 1:]
        for at, share in zip(reversed(old), reversed(shares)):
            lines[at:at + 1] = share
        if not old:
            place = wanted[first - 1] + 1 if first else wanted[0]
            lines[place:place] = new


def rewrite(program, folder, path):
    """Puts into a file how its runs went, and gives the difference that this makes."""
    with open(path, encoding='utf-8') as file:
        play = Play(file.read())
    lines = list(play.lines)
    for run, told in reversed(perform(play, program, folder)):
        put_in(lines, run.wanted, told)
    shown = list(difflib.unified_diff(play.lines, lines, path, path, lineterm='', n=2))
    if shown:
        with open(path, 'w', encoding='utf-8') as file:
            file.write('\n'.join(lines))
    return shown


TOP = os.path.dirname(os.path.dirname(os.path.abspath(__file__)))
