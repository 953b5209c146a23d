#!/usr/bin/env python3
"""Random tapes and texts there and back, and the time of `punch`, `spell` and `fit` beside a plain Rust program.

    bench/words.py PROGRAM [--there-and-back N [SEED]] [--times]

N random tapes, of frames of every kind, over five random tables are spelled and punched, and have to be the same frames again. N random
texts over the same tables are punched and spelled: the text that comes back has to be punched as the same tape, and by a reader of tapes
of this script's own the tape has to say the words of the text, in order, with no frame between them that is not a case code. A fifth as
many are punched with ligatures: by a reader of texts of this script's own they have to say the same, or their fault has to be told at
its place. Without an option all is done, with 100,000 of each.

The times are of river.txt many times over, the least of fifteen runs in turns, which have to print the same; and of texts up to 1 MB,
whose fault comes where the tape is full. Needs rustc, which builds the peer in bench/peers with -O.
"""
import os
import random
import re
import subprocess
import sys
import tempfile
import time
from concurrent.futures import ThreadPoolExecutor

import proved

HERE = os.path.dirname(os.path.abspath(__file__))
WIRE = os.path.join(HERE, '..', 'examples', 'wire')
FUNCTIONS = [
    '@' + word for word in (
        'shift unshift elevate return spaceband thin en em upper lower quadleft quadcenter quadright ignore'.split())
]
CASES = ('@unshift', '@shift')
PRINTED = [chr(byte) for byte in range(33, 127)]
RUNS = 15


def random_name(dice):
    """A name of a matrix, mostly of one byte."""
    while True:
        name = ''.join(dice.choice(PRINTED) for _ in range(dice.choice((1, 1, 1, 1, 2, 3, 8))))
        if name[0] != '@':
            return name


def random_table(dice):
    """A table: some frames without a meaning, some with the meaning of another, case codes or none."""
    names = [random_name(dice) for _ in range(80)] + FUNCTIONS[2:] * 2
    table = {}
    for frame in range(64):
        if dice.random() < 0.85:
            table[frame] = (dice.choice(names), dice.choice(names))
    for frame in dice.sample(range(64), dice.choice((2, 3, 5))):
        table[frame] = (dice.choice(CASES),) * 2
    return table


def quoted(text):
    """A text of TOML."""
    return '"' + text.replace('\\', '\\\\').replace('"', '\\"') + '"'


def write_table(path, table):
    with open(path, 'w', encoding='ascii') as file:
        file.write('code = [\n')
        for frame, (unshift, shift) in table.items():
            file.write(f'    {{ frame = {frame}, unshift = {quoted(unshift)}, shift = {quoted(shift)} }},\n')
        file.write(']\n')


def marks_of(table, tape):
    """The frames of a tape, each with what it means where it stands, and whether it is a case code."""
    case, marks = 0, []
    for frame in tape:
        meaning = table[frame][case] if frame in table else None
        marks.append((frame, meaning, meaning in CASES))
        if meaning in CASES:
            case = CASES.index(meaning)
    return marks


def says(table, tape, words):
    """Whether a tape says these words: each has a frame, in order, and every other frame is a case code."""
    marks = iter(marks_of(table, tape))
    for word in words:
        for frame, meaning, is_case in marks:
            if meaning == word or frame == word:
                break
            if not is_case:
                return False
        else:
            return False
    return all(is_case for _, _, is_case in marks)


def written(dice, word):
    """A word as it may be written in a text."""
    if isinstance(word, int):
        return f'{{@{word}}}'
    if word in ('@elevate', '@spaceband', '@return') and dice.random() < 0.9:
        return {'@elevate': '\n', '@spaceband': ' ', '@return': '\r'}[word]
    return word if len(word) == 1 and word != '{' else f'{{{word}}}'


def read(text, ligatures):
    """The words of a text, each with the place where it begins: the longest ligature there, a name in braces, or a byte."""
    longest_first = sorted(map(re.escape, ligatures), key=len, reverse=True)
    for found in re.finditer('|'.join(longest_first + [r'\{[!-~][!-|~]*\}', '.']), text, re.DOTALL):
        piece = found.group()
        inner = piece[1:-1] if len(piece) > 2 and piece[0] == '{' and piece not in ligatures else piece
        named = {'\n': '@elevate', '\r': '@return', ' ': '@spaceband'}.get(piece, inner)
        number = re.fullmatch(r'@(0|[1-9]\d?)', inner)
        yield found.start(), int(number[1]) if number and int(number[1]) < 64 else named


def has(table, case, word):
    """Whether some frame means a word in a case."""
    return any(pair[case] == word for pair in table.values())


def first_uncoded(table, words):
    """The place of the first word that no frame means in the case that holds there, nor in the other where a code selects that."""
    case = 0
    for place, word in words:
        means = word
        if isinstance(word, int):
            means = table[word][case] if word in table else None
        elif not has(table, case, word):
            case = 1 - case
            if not has(table, case, word) or not has(table, 0, CASES[case]):
                return place
        case = CASES.index(means) if means in CASES else case
    return None


def random_words(dice, table):
    """Words that have a code in a table: of a case that no code selects none is taken but those of a tape's beginning."""
    turns = [has(table, 0, case) for case in CASES]
    case, words = 0, []
    for _ in range(dice.randrange(1, 200)):
        frame = dice.randrange(64)
        column = dice.randrange(2)
        meaning = table[frame][column] if frame in table else None
        here = meaning is not None and has(table, case, meaning)
        there = meaning is not None and turns[1 - case] and has(table, 1 - case, meaning)
        if (here or there) and '}' not in meaning[1:] and dice.random() < 0.95:
            words.append(meaning)
            case = case if here else 1 - case
        else:
            words.append(meaning := frame)
        means = table[frame][case] if meaning == frame and frame in table else meaning
        if means in CASES:
            case = CASES.index(means)
    return words


def run(program, command, table, given):
    """What the program writes of standard input."""
    ran = subprocess.run([program, command, table, '-'], input=given, capture_output=True, check=False)
    if ran.returncode != 0:
        raise SystemExit(f'{command} {table} ends with {ran.returncode}: {ran.stderr.decode()}{given!r}')
    return ran.stdout


def there_and_back(program, work, many, seed):
    """So many random tapes, and so many random texts."""
    dice = random.Random(seed)
    tables = [random_table(dice) for _ in range(5)]
    paths = [os.path.join(work, f'table{n}.toml') for n in range(5)]
    for path, table in zip(paths, tables):
        write_table(path, table)

    def tape_comes_back(n):
        own = random.Random(seed * 1_000_003 + n)
        tape = bytes(own.randrange(64) for _ in range(own.randrange(1, 200)))
        text = run(program, 'spell', paths[n % 5], tape)
        if run(program, 'punch', paths[n % 5], text) != tape:
            raise SystemExit(f'tape {n} of seed {seed} comes back as another: {tape!r} {text!r}')

    def text_means_the_same(n):
        own = random.Random(seed * 7_000_003 + n)
        words = random_words(own, tables[n % 5])
        text = ''.join(written(own, word) for word in words).encode()
        tape = run(program, 'punch', paths[n % 5], text)
        if not says(tables[n % 5], tape, words):
            raise SystemExit(f'text {n} of seed {seed} is punched as another: {text!r} {tape!r}')
        if run(program, 'punch', paths[n % 5], run(program, 'spell', paths[n % 5], tape)) != tape:
            raise SystemExit(f'text {n} of seed {seed} does not come back: {text!r}')

    def ligatures_are_read(n):
        own = random.Random(seed * 9_000_011 + n)
        table = tables[n % 5]
        words = random_words(own, table)
        names = {word for word in words if isinstance(word, str) and len(word) > 1 and word[0] != '@' and not set(word) & set('{},')}
        names = own.sample(sorted(names), min(len(names), 4)) + ['ab']
        text = ''.join(word if word in names and own.random() < 0.7 else written(own, word) for word in words)
        ran = subprocess.run([program, 'punch', paths[n % 5], '-', '--ligatures', ','.join(names)], input=text.encode(), capture_output=True, check=False)
        wanted = list(read(text, names))
        place = first_uncoded(table, wanted)
        if place is None:
            right = ran.returncode == 0 and says(table, ran.stdout, [word for _, word in wanted])
        else:
            line, column = text.count('\n', 0, place) + 1, place - text.rfind('\n', 0, place)
            right = ran.returncode == 1 and ran.stderr.endswith(f' at line {line} column {column}\n'.encode())
        if not right:
            raise SystemExit(f'text {n} of seed {seed} with {names} is punched otherwise: {text!r} {ran}')
        return place is None

    with ThreadPoolExecutor(os.cpu_count()) as pool:
        for kind, check, tries in (('tapes', tape_comes_back, many), ('texts', text_means_the_same, many), ('texts with ligatures', ligatures_are_read, many // 5)):
            told = []
            for first in range(0, tries, 10_000):
                told += pool.map(check, range(first, min(first + 10_000, tries)))
            faulty = f', {told.count(False)} of them with a fault at its place' if False in told else ''
            print(f'{tries} random {kind} over five random tables: as they have to be{faulty}', flush=True)


def seconds(command):
    began = time.perf_counter()
    subprocess.run(command, stdout=subprocess.DEVNULL, stderr=subprocess.DEVNULL, check=False)
    return time.perf_counter() - began


def printed(command):
    ran = subprocess.run(command, capture_output=True, check=False)
    place = re.search(rb'line \d+ column \d+', ran.stderr)
    return ran.returncode, ran.stdout, place and place.group()


def compare(name, ours, peer):
    """Times both, which have to print the same."""
    if printed(ours) != printed(peer):
        raise SystemExit(f'{name}: the two do not print the same')
    least = [min(times) for times in zip(*[(seconds(ours), seconds(peer)) for _ in range(RUNS)])]
    print(f'{name:44} {least[0] * 1e3:7.2f} ms, plain Rust {least[1] * 1e3:7.2f} ms, {least[0] / least[1]:.2f} times', flush=True)


def times(program, work):
    peer = os.path.join(work, 'peer')
    subprocess.run(['rustc', '--edition', '2024', '-O', '-o', peer, f'{HERE}/peers/words.rs'], check=True)
    table, widths = f'{WIRE}/codes.toml', f'{WIRE}/widths.toml'
    with open(f'{WIRE}/river.txt', 'rb') as file:
        story = file.read()
    for many in (1, 10, 41):
        text, tape = os.path.join(work, 'text'), os.path.join(work, 'tape')
        with open(text, 'wb') as file:
            file.write(story * many)
        with open(tape, 'wb') as file:
            subprocess.run([program, 'punch', table, text], stdout=file, check=True)
        frames = os.path.getsize(tape)
        compare(f'punch {len(story) * many} bytes, {frames} frames', [program, 'punch', table, text], [peer, 'punch', table, text])
        compare(f'spell {frames} frames', [program, 'spell', table, tape], [peer, 'spell', table, tape])
        compare(f'fit {frames} frames', [program, 'fit', table, widths, tape], [peer, 'fit', table, widths, tape])
    for size in (100_000, 1_000_000):
        with open(text, 'wb') as file:
            file.write((story * (size // len(story) + 1))[:size])
        compare(f'punch {size} bytes, too long', [program, 'punch', table, text], [peer, 'punch', table, text])


def main():
    words = sys.argv[1:]
    if not words:
        sys.exit(__doc__)
    program, rest = proved.program(words[0]), words[1:]
    many, seed = 100_000, 1
    if '--there-and-back' in rest:
        numbers = [int(word) for word in rest[rest.index('--there-and-back') + 1:] if word.isdigit()]
        many, seed = (numbers + [seed])[:2] if numbers else (many, seed)
    with tempfile.TemporaryDirectory() as work:
        if '--there-and-back' in rest or not rest:
            there_and_back(program, work, many, seed)
        if '--times' in rest or not rest:
            times(program, work)


main()
