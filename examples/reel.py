#!/usr/bin/env python3
"""A made-up reel of two stories becomes tapes, and its chart is filled from nothing, in five runs of `survey`.

usage: reel.py PROGRAM FOLDER

The reel, its chart and the wiring of its reader are made up here: they are those of no machine. FOLDER gets reel.bin, the folder `tapes`, and
chart1.toml to chart5.toml: the table of each run, with what was read from the survey of the run before. Then `check` casts both tapes.
"""
import os
import shutil
import subprocess
import sys

STORIES = (
    'six the publisher of the Evening\nMail had both linecasters carried\nup two flights of stairs.\t\n',
    'shall print on Saturday; the ink is\ndry, and that is more than I can\nsay of the office.\t\n',
)

# What wrote the reel, which the one who reads it does not know: a frame for each sign, a tab being the quad.
SIGNS = [' ', '\n', '@shift', '@unshift', '\t', *"etaoinshrdlucmfwypvbgkqjxz,.;-'"]
FRAMES = [frame for frame in ((37 * place + 11) % 64 for place in range(64)) if frame not in (0, 63)]
CHART = dict(zip(SIGNS, FRAMES))

# Its reader has level 0 in bit 6, level 1 in bit 5, and so on, clear where there is a hole, and sets its two other bits.
READER = '--mask 0x7e --levels 012345 --invert --split 60 --trim'

# What is read from each survey, and how.
RUNS = (
    ('the blank, of which the leaders were', {0: '@ignore'}),
    ('48 stands last and once a line, 11 between two words, 31 before the last 48 of each story', {48: '@elevate', 11: '@spaceband', 31: '@quadleft'}),
    ('21 and 58 stand around one frame where a name may begin; 41 7 4 is a word three times', {21: '@shift', 58: '@unshift', 41: 't', 7: 'h', 4: 'e'}),
    ('words with few frames left, as th{@14}t and the {@51}{@47}{@47}{@24}{@37}e',
     {14: 'a', 51: 'o', 47: 'f', 61: 'n', 24: 'i', 34: 's', 44: 'r', 37: 'c', 54: 'l', 16: '.'}),
    ('the rest, each in a word of which all else is read',
     {10: 'm', 20: 'w', 30: 'p', 57: 'y', 3: 'v', 40: 'b', 13: 'g', 50: 'k', 33: 'x', 27: 'u', 17: 'd', 43: ',', 53: ';'}),
)


def frames_of(story):
    """The frames of a story, a capital between a shift and an unshift."""
    frames = []
    for letter in story:
        frame = [CHART[letter.lower()]]
        frames += [CHART['@shift'], *frame, CHART['@unshift']] if letter.isupper() else frame
    return frames


def byte_of(frame):
    """A frame as the reader gives it."""
    return 0x81 | sum(0x40 >> level for level in range(6) if not frame >> level & 1)


def reel():
    """Both stories, between leaders."""
    roll = [0] * 90
    for story in STORIES:
        roll += [63] * 4 + frames_of(story) + [63] * 2 + [0] * 90
    return bytes(map(byte_of, roll))


def entry(frame, meaning):
    """A line of a table. A letter has its capital behind a shift."""
    return f'    {{ frame = {frame}, unshift = "{meaning}", shift = "{meaning.upper() if len(meaning) == 1 else meaning}" }},\n'


def printed(program, folder, *words):
    """What the program prints, which has to end well."""
    return subprocess.run([program, *words], cwd=folder, stdout=subprocess.PIPE, encoding='ascii', check=True).stdout


def main():
    program, folder = os.path.abspath(shutil.which(sys.argv[1]) or sys.argv[1]), os.path.abspath(sys.argv[2])
    widths = os.path.join(os.path.dirname(os.path.abspath(__file__)), 'wire', 'widths.toml')
    os.makedirs(os.path.join(folder, 'tapes'))
    with open(os.path.join(folder, 'reel.bin'), 'wb') as file:
        file.write(reel())
    print(printed(program, folder, 'import', 'reel.bin', '--to', 'tapes', *READER.split()), end='')
    lines = ''
    for run, (why, found) in enumerate(RUNS, 1):
        lines += ''.join(entry(frame, found[frame]) for frame in found)
        with open(os.path.join(folder, f'chart{run}.toml'), 'w', encoding='ascii') as file:
            file.write(f'code = [\n{lines}]\n')
        survey = printed(program, folder, 'survey', f'chart{run}.toml', widths, 'tapes/001.tape', 'tapes/002.tape')
        print(f'run {run}, with {why}\n    {survey.splitlines()[-1]}')
    for tape in ('tapes/001.tape', 'tapes/002.tape'):
        print(printed(program, folder, 'check', 'chart5.toml', widths, tape), end='')


if __name__ == '__main__':
    main()
