"""A reel of real tape becomes tapes, and a chart is filled from nothing: `import` and `survey`, with bad inputs of each kind."""
import importlib.util
import os
import random
import subprocess
import sys

import stage

NO_MASK = 'usage: --mask takes a byte of which six bits are set, as 0x3f\n'
NO_LEVELS = 'usage: --levels takes each level from 0 to 5 once, as 543210\n'
HEAD = 'frame  holes     times  lacks    unshift       shift\n'


def the_bench():
    """The bench of reels, which has this module's name."""
    sys.path.append(os.path.join(stage.TOP, 'bench'))
    at = importlib.util.spec_from_file_location('bench_reels', os.path.join(stage.TOP, 'bench', 'reels.py'))
    bench = importlib.util.module_from_spec(at)
    at.loader.exec_module(bench)
    return bench


def folder(at, name='tapes'):
    """Makes a folder."""
    os.makedirs(at.path(name), exist_ok=True)


def held(at, name='tapes'):
    """What lies in a folder, by its name."""
    return {file: at.read(f'{name}/{file}') for file in sorted(os.listdir(at.path(name)))}


def come_back(at):
    """Random tapes come back from reels, and rolls of random frames are cut as they read."""
    bench, dice = the_bench(), random.Random(7)
    bench.come_back(at.program, at.folder, dice, 300)
    bench.as_read(at.program, at.folder, dice, 40)


def a_roll(at):
    """The least that there is: what is written, and what is told."""
    folder(at)
    at.write('roll', bytes([0, 0, 5, 0, 6, 63, 0, 0, 0, 63, 7, 0]))
    at.ends('import roll --to tapes --split 2', 0, '001.tape frames 4 from 2\n002.tape frames 3 from 9\ntapes: 2, frames in the reel: 12\n')
    stage.wants(held(at) == {'001.tape': b'\x05\0\x06\x3f', '002.tape': b'\x3f\x07\0'}, held(at))
    folder(at, 'trimmed')
    at.ends('import roll --to trimmed --split 2 --trim', 0,
            '001.tape frames 3 from 2\n002.tape frames 1 from 10\ntapes: 2, frames in the reel: 12\n')
    stage.wants(held(at, 'trimmed') == {'001.tape': b'\x05\0\x06', '002.tape': b'\x07'}, held(at, 'trimmed'))
    folder(at, 'whole')
    at.ends('import - --to whole', 0, '001.tape frames 12 from 0\ntapes: 1, frames in the reel: 12\n', given=at.read('roll'))
    stage.wants(held(at, 'whole') == {'001.tape': at.read('roll')}, held(at, 'whole'))
    # Three blanks and fewer make no gap of four.
    folder(at, 'uncut')
    at.ends('import roll --to uncut --split 4', 0, '001.tape frames 12 from 0\ntapes: 1, frames in the reel: 12\n')


def levels(at):
    """Which bit is which level, and which way round the holes are."""
    for words, byte, frame in (
        ('', 0b00000001, 1), ('', 0b11100001, 33), ('--invert', 0b00111110, 1),
        ('--levels 012345', 0b00100000, 1), ('--levels 543201', 0b00000001, 2),
        ('--mask 0xfc', 0b00000111, 1), ('--mask 0xFC --levels 012345', 0b10000000, 1), ('--mask 0x9f', 0b10000000, 32),
    ):
        name = f'levels{len(os.listdir(at.folder))}'
        folder(at, name)
        at.ends(f'import - --to {name} {words}', 0, '001.tape frames 1 from 0\ntapes: 1, frames in the reel: 1\n', given=bytes([byte]))
        stage.wants(held(at, name) == {'001.tape': bytes([frame])}, (words, byte, held(at, name)))


def bad_words(at):
    """A mask or levels that are none, before any file is read; and what clap tells."""
    folder(at)
    for mask in ('0x00', '0x1f', '0x7f', '0xff', '3f', '0x3', '0x3g', '0x03f', '63'):
        at.ends(['import', 'none', '--to', 'none', '--mask', mask], 2, '', NO_MASK)
    for word in ('54321', '5432100', '543211', '543216', '54321a', '554321', ''):
        status, out, err = at.run(['import', 'none', '--to', 'none', f'--levels={word}'])
        stage.wants((status, out) == (2, '') and (err == NO_LEVELS or not word), (word, status, out, err))
    for words in ('import none', 'import none --to tapes --split 0', 'import none --to tapes --split x', 'import --to tapes',
                  'import none --to tapes --split 1000001', 'survey codes.toml widths.toml'):
        status, out, _ = at.run(words)
        stage.wants((status, out) == (2, ''), words)
    stage.wants(held(at) == {}, held(at))


def bad_reels(at):
    """No reel, an empty one, one without a tape, one of 1 MB and of a byte more."""
    folder(at)
    at.ends('import none --to tapes', 1, '', 'cannot read none\n')
    at.ends('import - --to tapes', 1, '', 'reel: empty\n')
    for words in ('--split 3', '--trim', '--split 3 --trim'):
        at.ends(f'import - --to tapes {words}', 1, '', 'reel: no tape in it\n', given=bytes(3))
    at.ends('import - --to tapes', 1, '', 'input too long\n', given=bytes(1_048_577))
    stage.wants(held(at) == {}, held(at))
    # 1,000 tapes have no names; 999 have.
    at.ends('import - --to tapes --split 1', 1, '', 'reel: 1000 tapes, and names for 999\n--split with a greater number cuts it at fewer places\n',
            given=b'\x01\0' * 1000)
    stage.wants(held(at) == {}, held(at))
    status, out, err = at.run('import - --to tapes --split 1', given=b'\x01\0' * 999)
    stage.wants((status, err, len(held(at))) == (0, '', 999) and out.endswith('\n999.tape frames 1 from 1996\ntapes: 999, frames in the reel: 1998\n'), out[-200:])


def long_tapes(at):
    """A piece above 16,384 frames is told, and written all the same; a reel of 1 MB."""
    folder(at)
    roll = b'\x01' * 16384 + b'\0' + b'\x02' * 16385
    at.ends('import - --to tapes --split 1', 1,
            '001.tape frames 16384 from 0\n002.tape frames 16385 from 16385, too long: a tape has at most 16384\ntapes: 2, frames in the reel: 32770\n',
            given=roll)
    stage.wants(held(at) == {'001.tape': roll[:16384], '002.tape': roll[16385:]}, 'the two tapes')
    at.ends('check codes.toml widths.toml tapes/002.tape', 1, '', 'tape: too long 16385\n')
    folder(at, 'full')
    at.ends('import - --to full --trim', 0, '001.tape frames 1 from 1048575\ntapes: 1, frames in the reel: 1048576\n', given=bytes(1_048_575) + b'\x09')
    stage.wants(held(at, 'full') == {'001.tape': b'\x09'}, 'the tape of a reel of 1 MB')


def taken_names(at):
    """No file is written over one that is there, and none at all where one of the names is taken, or the folder is none."""
    at.write('roll', b'\x01\0\x02\0\x03')
    folder(at)
    at.write('tapes/002.tape', b'mine')
    at.ends('import roll --to tapes --split 1', 1, '', 'tapes/002.tape is there: nothing was written\n')
    stage.wants(held(at) == {'002.tape': b'mine'}, held(at))
    os.remove(at.path('tapes/002.tape'))
    os.symlink('nowhere', at.path('tapes/003.tape'))
    at.ends('import roll --to tapes --split 1', 1, '', 'tapes/003.tape is there: nothing was written\n')
    os.remove(at.path('tapes/003.tape'))
    os.mkdir(at.path('tapes/001.tape'))
    at.ends('import roll --to tapes --split 1', 1, '', 'tapes/001.tape is there: nothing was written\n')
    os.rmdir(at.path('tapes/001.tape'))
    for name in ('none', 'roll', 'tapes/none'):
        at.ends(f'import roll --to {name}', 1, '', f'no folder {name}\n')
    at.write('tapes/kept', b'other')
    at.ends('import roll --to tapes/ --split 1', 0, None, stdout=subprocess.DEVNULL)
    stage.wants(held(at) == {'001.tape': b'\x01', '002.tape': b'\x02', '003.tape': b'\x03', 'kept': b'other'}, held(at))


def refused_files(at):
    """A folder that takes no file, and an output that takes nothing."""
    at.write('roll', b'\x01\0\x02')
    folder(at)
    os.chmod(at.path('tapes'), 0o555)
    os.chmod(at.folder, 0o755)
    at.ends('import roll --to tapes', 1, '', 'cannot write tapes/001.tape\ntapes before it: 0\n', **stage.as_nobody())
    os.chmod(at.path('tapes'), 0o755)
    if os.path.exists('/dev/full'):
        with open('/dev/full', 'wb') as full:
            at.ends('import roll --to tapes', 1, None, 'cannot write\n', stdout=full)
        with open('/dev/full', 'wb') as full:
            at.ends('survey codes.toml widths.toml flood.tape', 1, None, 'cannot write\n', stdout=full)


def rows_of(text):
    """The rows of a survey: by its frame how often it comes, what it lacks and means, and the lines of its places."""
    rows = {}
    for line in text.splitlines()[1:-1]:
        if line[:5].strip():
            frame = int(line[:5])
            rows[frame] = (line[7:13], int(line[13:22]), line[24:33].strip(), line[33:47].strip(), line[47:], [])
        else:
            rows[frame][5].append(line.strip())
    return rows


def a_survey(at):
    """Counts, holes, meanings and places, of one tape and of two."""
    tape = bytes([1, 2, 3, 20, 3, 2, 4])
    at.write('first.tape', tape)
    at.write('second.tape', b'\x01' * 5 + b'\x04')
    status, text, err = at.run('survey codes.toml widths.toml first.tape second.tape')
    stage.wants((status, err) == (0, '') and text.startswith(HEAD), (status, err, text[:80]))
    rows = rows_of(text)
    stage.wants(sorted(rows) == list(range(64)), 'a row for each frame')
    for frame, (holes, times, *_) in rows.items():
        stage.wants(holes == ''.join('.o'[frame >> level & 1] for level in range(6)), (frame, holes))
        stage.wants(times == tape.count(frame) + (5 if frame == 1 else 1 if frame == 4 else 0), (frame, times))
    stage.wants(rows[20][2:5] == ('meaning', '-', '-'), rows[20])
    stage.wants([line[:16] for line in rows[1][5]] == ['first.tape 0  [a', 'second.tape 0  [', 'second.tape 1  a', 'second.tape 2  a'], rows[1][5])
    stage.wants(rows[20][5] == ['first.tape 3  ab [{@20}] b{@elevate}'], rows[20])
    stage.wants(text.endswith('frames that come and lack something: 1\n'), text[-60:])


def nearly_nothing(at):
    """A table of one entry, and widths of no matrix; a table without a shift."""
    at.write('one.toml', b'code = [ { frame = 0, unshift = "@ignore", shift = "@ignore" } ]')
    at.write('none.toml', b'measure = 30\nband_min = 3\nband_max = 5\nthin = 2\nen = 4\nem = 8\n[matrix]\n')
    status, text, err = at.run('survey one.toml none.toml flood.tape')
    rows = rows_of(text)
    stage.wants((status, err) == (0, '') and rows[0][2:5] == ('', '@ignore', '@ignore'), (status, err, rows[0]))
    stage.wants(all(row[2] == 'meaning' for frame, row in rows.items() if frame), 'no meaning is known yet')
    at.write('no_shift.toml', b'code = [ { frame = 1, unshift = "a", shift = "A" }, { frame = 3, unshift = "@spaceband", shift = "@spaceband" } ]')
    rows = rows_of(at.run('survey no_shift.toml none.toml flood.tape')[1])
    stage.wants(rows[1][2:5] == ('width', 'a', 'A') and rows[3][2] == '', (rows[1], rows[3]))


def bad_surveys(at):
    """Inputs of a survey that are none, each told by its name."""
    at.write('text', b'a b\n')
    at.write('empty', b'')
    at.ends('survey codes.toml widths.toml flood.tape text', 1, '', 'text: tape: bad frame at 0\n')
    at.ends('survey codes.toml widths.toml flood.tape empty', 1, '', 'empty: tape: empty\n')
    at.ends('survey codes.toml widths.toml flood.tape none', 1, '', 'cannot read none\n')
    at.ends('survey text widths.toml flood.tape', 1, '', 'table: not toml\n')
    at.ends('survey codes.toml text flood.tape', 1, '', 'widths: not toml\n')
    at.write('long', b'\x01' * 16385)
    at.ends('survey codes.toml widths.toml long', 1, '', 'long: tape: too long 16385\n')


def a_made_up_reel(at):
    """The worked reel of the examples: two tapes, and a chart that is filled from nothing in five runs."""
    ran = subprocess.run([sys.executable, os.path.join(stage.EXAMPLES, 'reel.py'), at.program, at.path('made')],
                         capture_output=True, encoding='ascii', check=False, timeout=stage.SECONDS)
    stage.wants((ran.returncode, ran.stderr) == (0, ''), ran.stderr)
    lacks = [line.rsplit(' ', 1)[1] for line in ran.stdout.splitlines() if 'come and lack' in line]
    stage.wants(lacks == ['31', '28', '23', '13', '0'], ran.stdout)
    stage.wants(ran.stdout.startswith('001.tape frames 98 from 94\n002.tape frames 93 from 288\ntapes: 2, frames in the reel: 473\n'), ran.stdout)
    stage.wants(len([line for line in ran.stdout.splitlines() if line[:3] == '000']) == 6, ran.stdout)


PLAYS = [come_back, a_roll, levels, bad_words, bad_reels, long_tapes, taken_names, refused_files, a_survey, nearly_nothing, bad_surveys, a_made_up_reel]
