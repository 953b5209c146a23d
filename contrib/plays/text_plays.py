"""The plays that are text files can fail: each text is compared whole, and so is how a run ends."""
import os

import play_files
from stage import wants

# What stands in for the program: it prints two lines and a fault, and ends with 1.
PRINTS = "#!/bin/sh\nprintf 'one\\ntwo\\n'\necho wrong >&2\nexit 1\n"
TOLD = '> one\n> two\n! wrong\n= input\n'
# Plays of it that say something else, each in one place.
OTHERS = {
    'a prefix of what is printed': '> one\n! wrong\n= input\n',
    'a line that is cut': '> one\n> tw\n! wrong\n= input\n',
    'no end of the last line': '> one\n>> two\n! wrong\n= input\n',
    'more than is printed': '> one\n> two\n> three\n! wrong\n= input\n',
    'no fault': '> one\n> two\n= input\n',
    'a prefix of the fault': '> one\n> two\n! wron\n= input\n',
    'another end': '> one\n> two\n! wrong\n= done\n',
}
# Texts that are no plays.
UNREAD = {
    'no end': '$ run\n> one\n',
    'an end that is none': '$ run\n= well\n',
    'an output of no run': '> one\n',
    'a copy of which nothing is changed there': 'file a from codes.toml\n- no such line\n+ another\n',
}


def goes(at, text):
    """Whether a play of the stand-in goes as it says."""
    path = at.path('a.play')
    at.write('a.play', text.encode())
    folder = at.path(f'folder{len(os.listdir(at.folder))}')
    os.mkdir(folder)
    try:
        play_files.check(at.path('stand-in'), folder, path)
    except play_files.Wrong:
        return False
    return True


def stand_in(at):
    """Puts the stand-in for the program there."""
    at.write('stand-in', PRINTS.encode())
    os.chmod(at.path('stand-in'), 0o755)


def whole_texts(at):
    """A play passes by the whole output, the whole fault and the status, and by nothing less."""
    stand_in(at)
    wants(goes(at, '$ run\n' + TOLD), 'what is printed passes')
    for what, text in OTHERS.items():
        wants(not goes(at, '$ run\n' + text), f'{what} passes')
    wants(not goes(at, '$ run\n' + TOLD + '$ run\n' + OTHERS['no fault']), 'the second run is looked at too')


def no_plays(at):
    """What is no play is refused, and not passed over."""
    stand_in(at)
    for what, text in UNREAD.items():
        try:
            goes(at, text)
        except play_files.BadPlay:
            continue
        wants(False, f'{what} is read')


def written_anew(at):
    """What comes is put into the file of a play, the difference is shown, and then it passes."""
    stand_in(at)
    at.write('a.play', ('# Why.\n$ run\n' + OTHERS['no fault']).encode())
    for name in ('one', 'two'):
        os.mkdir(at.path(name))
    shown = play_files.rewrite(at.path('stand-in'), at.path('one'), at.path('a.play'))
    wants('+! wrong' in shown and not any(line.startswith('->') for line in shown), f'{shown}')
    wants(at.read('a.play').decode() == '# Why.\n$ run\n' + TOLD, 'the file has what came')
    wants(not play_files.rewrite(at.path('stand-in'), at.path('two'), at.path('a.play')), 'nothing differs then')


PLAYS = [whole_texts, no_plays, written_anew]
