"""Standard streams that are closed, full or broken."""
import os
import subprocess

import stage
from stage import GALLEY

CANNOT_WRITE = 'cannot write\n'
MADE = 'made station1.db: station 1 of 1 circuit 7 layout 2\n'


def closed(*descriptors):
    """How a run is started with these descriptors closed."""
    def close():
        for descriptor in descriptors:
            os.close(descriptor)
    return {'preexec_fn': close}


def no_standard_input(at):
    """What is read from a pipe, where there is none, where it is a folder, and where it is only written to."""
    at.ends('answer 7 2', 1, '', 'cannot read -\n', stdin=subprocess.DEVNULL, **closed(0))
    folder = os.open(at.folder, os.O_RDONLY)
    try:
        at.ends('answer 7 2', 1, '', 'cannot read -\n', stdin=folder)
    finally:
        os.close(folder)
    with open(at.path('written'), 'wb') as written:
        at.ends('answer 7 2', 1, '', 'cannot read -\n', stdin=written)
    # What reads no standard input does without.
    at.ends('check codes.toml widths.toml flood.tape', 0, GALLEY, stdin=subprocess.DEVNULL, **closed(0))


def writers(at):
    """Commands that print something, with the status that they end with where it is printed."""
    at.write('one.script', b'members 3\noffer 1 12 01020301030204\n')
    at.ends('create one.toml', 0, MADE)
    return [
        'check codes.toml widths.toml flood.tape',
        'check codes.toml widths.toml flood.tape --holes',
        'draw codes.toml widths.toml flood.tape',
        'draw codes.toml widths.toml flood.tape --html',
        'rehearse codes.toml widths.toml one.script',
        'rows station1.db',
        'upgrade station1.db',
        '--version',
    ]


def a_full_output(at):
    """A disk without room refuses what is held back at the last moment: that is told, with status 1."""
    if not os.path.exists('/dev/full'):
        raise stage.Skipped('there is no /dev/full')
    for words in writers(at):
        with open('/dev/full', 'wb') as full:
            at.ends(words, 1, None, CANNOT_WRITE, stdout=full)
    with open('/dev/full', 'wb') as full:
        at.ends('answer 7 2', 1, None, CANNOT_WRITE, given=b'544e0101000701020000000c0000000101\n', stdout=full)
    # The row file is made then, and whole.
    at.configure('two.toml', 'two.db')
    with open('/dev/full', 'wb') as full:
        at.ends('create two.toml', 1, None, CANNOT_WRITE, stdout=full)
    at.ends('rows two.db', 0, 'station 1 of 1 circuit 7\n')
    # Neither is a release told, nor the number used up.
    with open('/dev/full', 'wb') as full:
        at.ends('serve two.toml --turns 1 --number 12 --tape flood.tape', 1, None, CANNOT_WRITE, stdout=full)
    at.ends('serve two.toml --turns 1 --seek 12', 0, stage.RELEASE)


def no_output(at):
    """An output that is closed, and a pipe that nobody reads."""
    for words in writers(at):
        at.ends(words, 1, None, CANNOT_WRITE, stdout=subprocess.DEVNULL, **closed(1))
        reader, writer = os.pipe()
        os.close(reader)
        try:
            at.ends(words, 1, None, CANNOT_WRITE, stdout=writer)
        finally:
            os.close(writer)


def no_place_for_faults(at):
    """A fault that can't be told ends a command as it does where it is told."""
    for how in ({}, closed(2)):
        at.ends('rows no.db', 3, '', None, stderr=subprocess.DEVNULL, **how)
        at.ends('check codes.toml widths.toml overset.tape', 1, '', None, stderr=subprocess.DEVNULL, **how)
    if os.path.exists('/dev/full'):
        with open('/dev/full', 'wb') as full:
            at.ends('rows no.db', 3, '', None, stderr=full)


PLAYS = [no_standard_input, a_full_output, no_output, no_place_for_faults]
