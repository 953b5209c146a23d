#!/usr/bin/env python3
"""Random tapes, dressed as reels of real tape, come back by `import`, frame for frame.

    bench/reels.py PROGRAM [N [SEED]]

N random tapes (10,000 where nothing is said) are put on rolls, some thirty to a roll: each roll has its levels in six bits of a byte in an
order of its own, set bits or clear ones for holes, anything in the two bits that hold no level, a leader and a trailer of blanks and
rub-outs round each tape, and a gap between two. `import` of a roll has to write each tape as a file, byte for byte, and no other file.

As many rolls of random frames, among which blanks and rub-outs stand often, are imported with random options; what is written has to be what
a plain reading of the options gives: the frames are cut at each run of so many zeros, and stripped.
"""
import os
import random
import re
import shutil
import subprocess
import sys
import tempfile

import proved

BLANK, RUB_OUT = 0, 63
MOST = 1_048_576


class Reader:
    """How a reader of real tape gives a frame: the bit of each level, which way round it has the holes, and what else it sets."""

    def __init__(self, dice):
        self.bits = dice.sample(range(8), 6)
        self.inverted = dice.random() < 0.5
        self.others = [bit for bit in range(8) if bit not in self.bits]
        self.dice = dice

    def byte_of(self, frame):
        """A frame as the reader gives it."""
        byte = sum(1 << bit for level, bit in enumerate(self.bits) if (frame >> level & 1) != self.inverted)
        return byte | sum(self.dice.getrandbits(1) << bit for bit in self.others)

    def reel_of(self, frames):
        """Frames as the reader gives them."""
        return bytes(map(self.byte_of, frames))

    def words(self):
        """The options by which they are read again."""
        mask = sum(1 << bit for bit in self.bits)
        levels = ''.join(str(self.bits.index(bit)) for bit in sorted(self.bits, reverse=True))
        return ['--mask', f'0x{mask:02x}', '--levels', levels] + ['--invert'] * self.inverted


def random_tape(dice, gap):
    """A tape that begins and ends with neither a blank nor a rub-out, and has fewer blanks in succession than a gap."""
    most = dice.choice((1, 5, 50, 1500, 16384 if dice.random() < 0.02 else 1500))
    frames, blanks = [dice.randrange(1, 63)], 0
    for _ in range(dice.randrange(most)):
        frame = dice.choice((BLANK, RUB_OUT, dice.randrange(64), dice.randrange(64)))
        if frame == BLANK and blanks == gap - 1:
            frame = 1
        blanks = blanks + 1 if frame == BLANK else 0
        frames.append(frame)
    if frames[-1] in (BLANK, RUB_OUT):
        frames[-1] = dice.randrange(1, 63)
    return frames


def margin(dice, gap):
    """A leader or a trailer: rub-outs, and blanks that are fewer than a gap."""
    frames = []
    for _ in range(dice.randrange(4)):
        frames += [RUB_OUT] * dice.randrange(30) + [BLANK] * dice.randrange(gap) + [RUB_OUT]
    return frames


def dressed(dice, tapes, gap):
    """A roll with these tapes, in order."""
    roll = [BLANK] * dice.choice((0, gap, gap + 40))
    for number, tape in enumerate(tapes):
        roll += [BLANK] * (gap + dice.randrange(20)) * (number > 0)
        roll += margin(dice, gap) + tape + margin(dice, gap)
    return roll + [BLANK] * dice.choice((0, gap, gap + 40))


def pieces_of(frames, gap, trims):
    """What a plain reading of the options gives."""
    pieces = re.split(b'\0{%d,}' % gap, frames) if gap else [frames]
    if trims:
        pieces = [piece.strip(b'\0\x3f') for piece in pieces]
    return [piece for piece in pieces if piece]


def imported(program, folder, reel, words):
    """What `import` writes of a reel, file by file, in a new folder; and how it ends."""
    tapes = os.path.join(folder, 'tapes')
    shutil.rmtree(tapes, ignore_errors=True)
    os.mkdir(tapes)
    ran = subprocess.run([program, 'import', '-', '--to', tapes, *words], input=reel, capture_output=True, check=False)
    found = []
    for number, name in enumerate(sorted(os.listdir(tapes)), 1):
        assert name == f'{number:03}.tape', name
        with open(os.path.join(tapes, name), 'rb') as file:
            found.append(file.read())
    return found, ran.returncode, ran.stdout.decode(), ran.stderr.decode()


def lines_of(pieces, frames):
    """How the last line of an import reads."""
    return f'tapes: {len(pieces)}, frames in the reel: {len(frames)}\n'


def come_back(program, folder, dice, many):
    """Puts so many tapes on rolls, and imports them. Gives how many came back, and on how many rolls."""
    done = rolls = 0
    while done < many:
        gap = dice.choice((1, 2, 20, 200))
        tapes = [random_tape(dice, gap) for _ in range(min(dice.randrange(1, 60), many - done))]
        reader = Reader(dice)
        roll = dressed(dice, tapes, gap)
        if len(roll) > MOST:
            continue
        words = reader.words() + ['--split', str(gap), '--trim']
        found, status, told, err = imported(program, folder, reader.reel_of(roll), words)
        assert (status, err) == (0, ''), (status, err, words)
        assert found == list(map(bytes, tapes)), f'a roll of {len(tapes)} tapes came back as {len(found)}: {words}'
        assert told.endswith(lines_of(tapes, roll)), told
        done, rolls = done + len(tapes), rolls + 1
    return done, rolls


def as_read(program, folder, dice, many):
    """Imports so many rolls of random frames with random options."""
    for _ in range(many):
        kinds = dice.choice(((BLANK, BLANK, RUB_OUT, 1), (BLANK, 7), (BLANK, BLANK, BLANK, BLANK, 9, RUB_OUT), tuple(range(64))))
        frames = bytes(dice.choice(kinds) for _ in range(dice.randrange(1, dice.choice((8, 300, 3000)))))
        gap, trims, reader = dice.choice((0, 1, 2, 3, 7)), dice.random() < 0.5, Reader(dice)
        words = reader.words() + ['--split', str(gap)] * (gap > 0) + ['--trim'] * trims
        wanted = pieces_of(frames, gap, trims)
        found, status, told, err = imported(program, folder, reader.reel_of(frames), words)
        if len(wanted) > 999:
            assert (found, status, told) == ([], 1, ''), (status, told, err)
        elif not wanted:
            assert (found, status, told, err) == ([], 1, '', 'reel: no tape in it\n'), (status, told, err)
        else:
            assert found == wanted, (frames, words)
            assert (status, err) == (0, '') and told.endswith(lines_of(wanted, frames)), (status, told, err)


def main():
    program = proved.program(sys.argv[1])
    many = int(sys.argv[2]) if len(sys.argv) > 2 else 10_000
    seed = int(sys.argv[3]) if len(sys.argv) > 3 else random.randrange(1 << 32)
    dice = random.Random(seed)
    with tempfile.TemporaryDirectory(prefix='reels-') as folder:
        done, rolls = come_back(program, folder, dice, many)
        print(f'{done} tapes on {rolls} rolls came back, seed {seed}', flush=True)
        as_read(program, folder, dice, many // 10)
        print(f'{many // 10} rolls of random frames are cut and stripped as they read')


if __name__ == '__main__':
    main()
