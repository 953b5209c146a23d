#!/usr/bin/env python3
"""Proves and builds a program with all that it stands on.

usage: build.py PROGRAM

What the gate does with a program, but for wrong bodies and crates of tests: `rt ci`, over a copy of the crates that the program
stands on. The program is put where `rt run` in its folder puts it, crates/PROGRAM/out/PROGRAM. What was proved so is proved from
nothing, and where the toolchain keeps what `rt ci` has passed, the gate begins with it. A program whose sources are those of the
last time is left as it is.
"""
import hashlib
import os
import re
import shutil
import subprocess
import sys
import tempfile
import time

TOP = os.path.dirname(os.path.dirname(os.path.abspath(__file__)))
# What of a crate is no source of the program.
LEFT = ('must-fail', 'out')


def read_lines():
    """The line of each crate."""
    with open(os.path.join(TOP, 'crates.txt')) as lines:
        return {line.split(':')[0]: line for line in lines if not line.startswith('#') and ':' in line}


def below(lines, name, found):
    """A crate and those that it stands on, lowest first."""
    for lower in lines[name].split(':')[1].split():
        if lower in lines and lower not in found:
            below(lines, lower, found)
    found.append(name)
    return found


def lay_out(lines, crates, home):
    """Copies the crates, and gives a sum of all that was copied."""
    shutil.copy(os.path.join(TOP, 'HANDLES'), home)
    with open(os.path.join(home, 'crates.txt'), 'w') as wanted:
        wanted.writelines(lines[crate] for crate in crates)
    for crate in crates:
        place = os.path.join('crates', crate)
        shutil.copytree(os.path.join(TOP, place), os.path.join(home, place), ignore=shutil.ignore_patterns(*LEFT))
    version = subprocess.run(['rt', 'version'], stdout=subprocess.PIPE, check=True).stdout
    total = hashlib.sha256(version)
    for folder, folders, names in os.walk(home):
        folders.sort()
        for path in (os.path.join(folder, name) for name in sorted(names)):
            with open(path, 'rb') as file:
                total.update(f'{os.path.relpath(path, home)} '.encode() + hashlib.sha256(file.read()).digest())
    return total.hexdigest()


# What the gate says when it is done with a crate.
DONE = re.compile(r'^rt: (\w+) (?:proved|is kept)', re.M)


def prove(home, log, count):
    """Whether the gate passes there. Each crate that is done is told, with how many are left; where the gate does not pass, the end of what it
    says is told."""
    began, told = time.time(), 0
    with open(log, 'w') as said:
        run = subprocess.Popen(['rt', 'ci'], cwd=home, stdin=subprocess.DEVNULL, stdout=said, stderr=subprocess.STDOUT)
    try:
        while True:
            ended = run.poll() is not None
            with open(log, errors='replace') as said:
                done = DONE.findall(said.read())
            for name in done[told:]:
                told += 1
                print(f'  {name} is proved; {count - told} crates are left, after {(time.time() - began) / 60:.0f} minutes', file=sys.stderr, flush=True)
            if ended:
                break
            time.sleep(1)
    finally:
        # Whoever gives up does not leave it at work.
        run.terminate()
        run.wait()
    if run.returncode:
        with open(log, errors='replace') as said:
            print(''.join(said.readlines()[-30:]), end='', file=sys.stderr)
    return run.returncode == 0


def main():
    if len(sys.argv) != 2:
        sys.exit(__doc__)
    program = sys.argv[1]
    lines = read_lines()
    crates = below(lines, program, [])
    out = os.path.join(TOP, 'crates', program, 'out')
    built, noted = os.path.join(out, program), os.path.join(out, f'{program}.sources')
    with tempfile.TemporaryDirectory() as work:
        home = os.path.join(work, 'repository')
        os.mkdir(home)
        sources = lay_out(lines, crates, home)
        if os.path.isfile(built) and os.path.isfile(noted) and open(noted).read() == sources:
            return
        if not prove(home, os.path.join(work, 'told'), len(crates)):
            sys.exit(f'{program} is not built')
        os.makedirs(out, exist_ok=True)
        shutil.copy(os.path.join(home, 'crates', program, 'out', program), built)
        with open(noted, 'w') as note:
            note.write(sources)


main()
