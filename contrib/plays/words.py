"""A text becomes a tape and comes back, and each line is told how it fits: `punch`, `spell` and `fit`, with bad inputs of each kind."""
import os
import shutil

import stage

WIRE = os.path.join(stage.EXAMPLES, 'wire')
REPORT = """line  slug  verdict        least .. most of 288
   1     1  C 22             266 .. 299  RIVER TOWN SAVES PRESSES
   2        nothing
   3        loose 12         243 .. 276   ALTON, Nov. 26 -- The riv
   4     2  J 9+             252 .. 340  rose 3 1/2 feet in the night, and at
   5     3  J 13+            244 .. 299  six the publisher of the Evening
   6     4  J 13+            253 .. 297  Mail had both linecasters carried
   7     5  J 10+            257 .. 323  up two flights of stairs. "We shall
   8     6  J 14             243 .. 298  print tonight," he said, "and we
   9        overset 16       304 .. 381  shall print on Saturday night; the ink is
  10     7  J 11             246 .. 323  dry, and that is more than I can
  11     8  J 12+            245 .. 311  say of the office." The first floor
  12     9  L 58             230 .. 285  stood under two feet of water.
2 of 12 lines do not set
"""
NO_FRAME = 'tape: bad frame at 0\nbyte 97 is no frame: circuitd punch makes a tape of a text\n'


def wire(at):
    """Puts the files of the whole table into the folder, and gives the story."""
    for name in ('codes.toml', 'widths.toml'):
        shutil.copy(os.path.join(WIRE, name), at.path('wire_' + name))
    shutil.copy(os.path.join(WIRE, 'river.txt'), at.path('river.txt'))
    return at.read('river.txt')


def punched(at, table, text):
    """The tape of a text."""
    at.write('text', text)
    with open(at.path('tape'), 'wb') as tape:
        at.ends(f'punch {table} text', 0, None, stdout=tape)
    return at.read('tape')


def a_story(at):
    """A story is punched, spelled and cast."""
    story = wire(at)
    tape = punched(at, 'wire_codes.toml', story)
    stage.wants(len(tape) == 392, f'the story has {len(tape)} frames')
    at.ends('spell wire_codes.toml tape', 0, story.decode())
    status, galley, told = at.run('check wire_codes.toml wire_widths.toml tape')
    stage.wants((status, told, galley.count('\n')) == (0, '', 11), f'the galley of the story: {galley}{told}')
    status, drawing, told = at.run('draw wire_codes.toml wire_widths.toml tape')
    stage.wants((status, told) == (0, '') and drawing.startswith('<svg'), f'the drawing of the story: {told}')
    plain = at.run('spell wire_codes.toml tape --plain')[1]
    stage.wants(plain.startswith('RIVER TOWN SAVES PRESSES\n\n ALTON, Nov. 26 -- The river\n'), plain)


def each_line(at):
    """Two lines that do not set are told in one run, of a text as of its tape, and the first of them by `check`."""
    story = wire(at).replace(b'river\n', b'riv\n').replace(b'Saturday;', b'Saturday night;')
    punched(at, 'wire_codes.toml', story)
    at.ends('fit wire_codes.toml wire_widths.toml text --text', 1, REPORT)
    at.ends('fit wire_codes.toml wire_widths.toml tape', 1, REPORT)
    status, out, told = at.run('check wire_codes.toml wire_widths.toml tape')
    stage.wants((status, out) == (1, '') and told.startswith('fault: loose 12 at ') and told.endswith(' line 3\n'), told)


def standard_input(at):
    """`-` is standard input, for a tape as for a text."""
    tape = punched(at, 'codes.toml', b'a b a b\n')
    at.ends('check codes.toml widths.toml -', 0, '0001 J 0 0 a _3 b _3 a _2 b\n', given=tape)
    at.ends('spell codes.toml -', 0, 'a b a b\n', given=tape)
    at.ends('punch codes.toml -', 0, tape.decode(), given=b'a b a b\n')
    status, out, told = at.run('draw codes.toml widths.toml -', given=tape)
    stage.wants((status, told) == (0, '') and out.startswith('<svg'), f'a drawing of standard input: {told}')
    at.ends('fit codes.toml widths.toml - --text', 0, None, given=b'a b a b\n', stdout=open(os.devnull, 'wb'))
    # A table is a file, and a file of that name has a folder before it.
    at.ends('punch - codes.toml', 1, '', 'cannot read -\n', given=at.read('codes.toml'))
    at.write('-', b'ab\n')
    at.ends('punch codes.toml ./-', 0, '\x01\x02\x04')


def bad_texts(at):
    """What can't be punched is told with its place."""
    for text, told in (
        (b'', 'text: empty'),
        (b'ab\n\n a/\n', 'text: no code for "/" at line 3 column 3'),
        (b'ab\tab\n', 'text: no code for byte 9 at line 1 column 3'),
        (b'ab\r\n', 'text: no code for byte 13 at line 1 column 3'),
        (b'a\xff\n', 'text: no code for byte 255 at line 1 column 2'),
        ('a b\né\n'.encode(), 'text: no code for byte 195 at line 2 column 1'),
        (b'{a\n', 'text: no end of a word at line 1 column 1'),
        (b'a{@em }', 'text: no end of a word at line 1 column 2'),
        (b'a{', 'text: no end of a word at line 1 column 2'),
        (b'a{}\n', 'text: no end of a word at line 1 column 2'),
        (b'a{{}\n', 'text: no code for "{{}" at line 1 column 2'),
        (b'@\n', 'text: no code for "@" at line 1 column 1'),
        (b'{@63}{@64}', 'text: no code for "{@64}" at line 1 column 6'),
        (b'{=5}', 'text: no code for "{=5}" at line 1 column 1'),
        (b'\n' * 811 + b'a' * (16384 - 811) + b'b\n', 'text: too long at line 812 column 15574'),
        (b'a' * 1_048_577, None),
    ):
        at.write('text', text)
        at.ends('punch codes.toml text', 1, '', (told or 'input too long') + '\n')
    at.write('text', b'a' * 4096 + b'\n')
    at.ends('punch codes.toml text --most 4096', 1, '', 'text: too long at line 1 column 4097\n')
    # The last line needs no end.
    at.ends('punch codes.toml -', 0, '\x01\x02', given=b'ab')


def bad_tables(at):
    """A table without a shift, without an elevate code, and one with a matrix of each brace."""
    at.write('no_shift.toml', b'code = [ { frame = 1, unshift = "a", shift = "A" }, { frame = 4, unshift = "@elevate", shift = "@elevate" } ]')
    at.ends('punch no_shift.toml -', 1, '', 'text: no code for "A" at line 1 column 2\n', given=b'aA\n')
    at.ends('punch no_shift.toml -', 0, '\x01\x04', given=b'a\n')
    at.write('no_elevate.toml', b'code = [ { frame = 1, unshift = "a", shift = "A" } ]')
    at.ends('punch no_elevate.toml -', 1, '', 'text: no code for byte 10 at line 1 column 2\n', given=b'a\n')
    at.write('braces.toml', b'code = [ { frame = 1, unshift = "{", shift = "}" }, { frame = 2, unshift = "a}b", shift = "=5" },'
             b' { frame = 3, unshift = "@shift", shift = "@shift" } ]')
    at.ends('punch braces.toml -', 0, '\x01\x03\x01\x02', given=b'{{}}{=5}')
    at.ends('spell braces.toml -', 0, '{{}}{=5}', given=b'\x01\x03\x01\x02')
    # A name that can't be written is written by its frame.
    at.ends('spell braces.toml -', 0, '{@2}', given=b'\x02')
    at.ends('punch widths.toml -', 1, '', 'table: no codes\n', given=b'a')


def ligatures(at):
    """Letters that are one matrix: the longest first, outside braces alone; names that are none are usage, before any file is read."""
    wire(at)
    at.write('text', b'office, {f}ind {fi}\n')
    with open(at.path('tape'), 'wb') as tape:
        at.ends('punch wire_codes.toml text --ligatures fi,ff,ffi', 0, None, stdout=tape)
    at.ends('spell wire_codes.toml tape', 0, 'o{ffi}ce, find {fi}\n')
    at.ends('punch wire_codes.toml text', 0, None, stdout=open(os.devnull, 'wb'))
    at.write('text', b'\n waffles\n')
    at.ends('punch wire_codes.toml text --ligatures fl,fle', 1, '', 'text: no code for "fle" at line 2 column 5\n')
    for names in ('fi,,fl', 'f{', '}', '@em', 'toolongaa'):
        at.ends(['punch', 'none.toml', 'none.txt', '--ligatures', names], 2, '',
                'usage: --ligatures takes names of matrices without a brace, as fi,fl,ffi\n')


def bad_tapes(at):
    """A text in place of a tape is told as such."""
    at.write('text', b'a b a b\n')
    at.ends('spell codes.toml text', 1, '', NO_FRAME)
    at.ends('fit codes.toml widths.toml text', 1, '', NO_FRAME)
    at.ends('check codes.toml widths.toml text', 1, '', 'tape: bad frame at 0\n')
    at.write('text', b'')
    at.ends('spell codes.toml text', 1, '', 'tape: empty\n')
    at.ends('fit codes.toml widths.toml text', 1, '', 'tape: empty\n')


def outputs(at):
    """An output that takes nothing."""
    if not os.path.exists('/dev/full'):
        raise stage.Skipped('there is no /dev/full')
    at.write('text', b'a b a b\n')
    for words in ('punch codes.toml text', 'spell codes.toml flood.tape', 'fit codes.toml widths.toml flood.tape'):
        with open('/dev/full', 'wb') as full:
            at.ends(words, 1, None, 'cannot write\n', stdout=full)


PLAYS = [a_story, each_line, standard_input, bad_texts, bad_tables, ligatures, bad_tapes, outputs]
