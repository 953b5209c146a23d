"""What the test command has passed over: the sums of the sources and of the program, in a record that contrib/package reads.

A record binds sums and nothing more: it does not prove who ran the test command, or that anybody did.
"""
import hashlib
import os
import subprocess

TOP = os.path.dirname(os.path.dirname(os.path.abspath(__file__)))
PROGRAM = os.path.join(TOP, 'crates', 'circuitd', 'out', 'circuitd')
RECORD = os.path.join(TOP, 'out', 'tested.txt')
FIELDS = ('sources', 'program', 'tests')


def sum_of(path):
    """The SHA-256 of a file, or of the path that a link holds."""
    data = os.readlink(path).encode() if os.path.islink(path) else open(path, 'rb').read()
    return hashlib.sha256(data).hexdigest()


def sources():
    """One sum over the names and the bytes of all files that the repository tracks; None where git can't list them, or one is missing."""
    listed = subprocess.run(['git', 'ls-files', '-z'], cwd=TOP, stdout=subprocess.PIPE, stderr=subprocess.DEVNULL, check=False)
    names = sorted(name for name in listed.stdout.decode().split('\0') if name)
    if listed.returncode != 0 or not names or not all(os.path.lexists(os.path.join(TOP, name)) for name in names):
        return None
    whole = hashlib.sha256()
    for name in names:
        whole.update(f'{sum_of(os.path.join(TOP, name))}  {name}\n'.encode())
    return whole.hexdigest()


def write(before, line):
    """Writes the record of a run that ended well with a last line, where the sources are those from before it. Gives whether it did."""
    if before is None or sources() != before or not os.path.isfile(PROGRAM):
        return False
    os.makedirs(os.path.dirname(RECORD), exist_ok=True)
    values = (before, sum_of(PROGRAM), line)
    with open(RECORD, 'w', encoding='utf-8') as file:
        file.writelines(f'{field} {value}\n' for field, value in zip(FIELDS, values))
    return True


def line_for(record, program):
    """The last line of the test command, where a record has just the sums of the sources as they stand and of a program; else None."""
    try:
        with open(record, encoding='utf-8') as file:
            values = dict(line.rstrip('\n').split(' ', 1) for line in file)
    except (OSError, ValueError):
        return None
    own = sources()
    if own is None or values.get('sources') != own or values.get('program') != sum_of(program):
        return None
    return values.get('tests')
