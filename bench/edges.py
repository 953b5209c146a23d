#!/usr/bin/env python3
"""Two plays of contrib/plays/edges.py that take too long for the test command.

    bench/edges.py PROGRAM [TRIES]

Links between a look and its use: half as many stories as TRIES, 10,000 where no other count is given, are moved at a plant, and before each of
their moves the passage and the place `sent` are replaced by links to another folder; before one in four opens of these, too (contrib/plays/links.c).
Nothing may come into that folder, and each story has to go out and to lie in `sent`.
A station that stands still: `stop` has to tell, after its 30 seconds, which process has not ended.
A line is printed for each, and the status is 1 where one fails. It needs a C compiler.
"""
import os
import shutil
import sys
import tempfile
import time

import proved

HERE = os.path.dirname(os.path.abspath(__file__))
sys.path.insert(0, os.path.join(HERE, '..', 'contrib', 'plays'))
sys.dont_write_bytecode = True
import edges
import stage

TRIES = 10_000


def is_played(program, what, play):
    """Plays it in a folder of its own; whether it went well."""
    began = time.monotonic()
    with tempfile.TemporaryDirectory(prefix='circuitd-edges-') as folder:
        scene = stage.Stage(program, folder)
        try:
            found, how = play(scene), 'passed'
        except (stage.Wrong, stage.Skipped) as wrong:
            found, how = wrong, 'FAILED'
        finally:
            scene.close()
    print(f'{how} {what} ({time.monotonic() - began:.0f} s){"" if found is None else f": {found}"}', flush=True)
    return how == 'passed'


def main():
    if not 2 <= len(sys.argv) <= 3:
        sys.exit(__doc__)
    tries = int(sys.argv[2]) if len(sys.argv) > 2 else TRIES
    stories = (tries + 1) // 2

    def links(at):
        found = edges.links_laid(at, stories)
        stage.wants(found >= tries, f'{found} tries')
        return f'{stories} stories, {found} tries'

    with tempfile.TemporaryDirectory(prefix='circuitd-edges-') as folder:
        os.chmod(folder, 0o755)
        program = shutil.copy(proved.program(sys.argv[1]), folder)
        played = [is_played(program, 'links between a look and its use', links), is_played(program, 'a station that stands still', edges.a_station_that_hangs)]
    sys.exit(0 if all(played) else 1)


if __name__ == '__main__':
    main()
