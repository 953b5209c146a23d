#!/usr/bin/env python3
"""A plant whose offers are crowded: what a look costs beside a plain lister, and how long a story and `stop` wait.

    bench/crowded.py [--count N] [--rest MS] [--turns] PROGRAM [CASE ..]

For each case three plants `run` on 127.0.0.1. So many files are laid among the offers of the first before it starts, 50,000 where no
count is given, and a line is printed:

    look       the processor time of a whole look: the plant's share of a processor while nothing but looks happens, where the next look
               begins --rest milliseconds after the end of the last (500 where nothing is said)
    lister     the processor time of a C program that lists the same folder and stats each file, the median of nine; and how many times
               that the look takes
    story      from the rename of a story laid beside them to its galley among the releases of the first plant, the longest of five
    stop       from the laying of `stop` to the end of the first plant

With --turns the first plant is watched by a library that is loaded before the C library (turns.c). It tells when the plant asks its socket,
as it does once in each turn:

    turn       the longest time between two such calls, in ten seconds in which nothing but looks happens; the longest of those in which
               the disk was not asked to sync; the most processor time of one; and the median

Cases (all where none is named):
    left       names that are left alone: nothing is done with them, so that the look alone is seen
    half       half are searches that find nothing, half ask for nothing
    searches   8,000 searches that find nothing
    seeks      25,000 searches that find nothing
    changing   20,000 tapes that are written anew all the time
    unread     names that can't be read: a half is not UTF-8, a half are fifos
    swarm      names that are laid and taken away all the time
"""
import argparse
import contextlib
import os
import resource
import shutil
import statistics
import subprocess
import sys
import tempfile
import threading
import time

import proved

HERE = os.path.dirname(os.path.abspath(__file__))
EXAMPLES = os.path.join(HERE, '..', 'examples')
STORY = bytes.fromhex('01020301030204')
PORT = 47_310
MEMBERS = (1, 2, 3)
SETTLES = 6
WATCHED = 10
STORIES = 5
FIRST = 900_001

LISTER = r'''
#include <dirent.h>
#include <fcntl.h>
#include <stdio.h>
#include <sys/stat.h>
int main(int count, char **words) {
    DIR *folder = opendir(words[1]);
    struct dirent *entry;
    struct stat stat;
    unsigned long found = 0;
    while ((entry = readdir(folder)) != NULL)
        if (fstatat(dirfd(folder), entry->d_name, &stat, AT_SYMLINK_NOFOLLOW) == 0) found += stat.st_size >= 0;
    printf("%lu\n", found);
    return count != 2;
}
'''


class Plants:
    """Three plants in a folder, the first with a crowd."""

    def __init__(self, program):
        self.program, self.folder = program, tempfile.mkdtemp()
        self.processes = {}
        for member in MEMBERS:
            os.makedirs(self.path(member, 'offers'))
            os.makedirs(self.path(member, 'releases'))
            for name in ('codes.toml', 'widths.toml'):
                shutil.copy(os.path.join(EXAMPLES, name), self.path(member))
            stations = ''.join(f'[[station]]\nmember = {other}\nip = "127.0.0.1"\nport = {PORT + other}\n' for other in MEMBERS)
            with open(self.path(member, 'station.toml'), 'w') as config:
                config.write(f'circuit = 7\nmember = {member}\ntable = "codes.toml"\nwidths = "widths.toml"\nrows = "station.db"\n'
                             f'[folders]\noffers = "offers"\nreleases = "releases"\n{stations}')

    def path(self, member, *names):
        return os.path.join(self.folder, f'plant{member}', *names)

    def start(self, watcher=None):
        """Starts all; a watcher is loaded before the C library of the first, and tells of its turns."""
        for member in MEMBERS:
            err = open(self.path(member, 'err'), 'w')
            watched = {'LD_PRELOAD': watcher, 'TURNS': self.path(1, 'turns')} if watcher and member == 1 else {}
            self.processes[member] = subprocess.Popen([self.program, 'run', 'station.toml', '--create', '--layout', '2'], cwd=self.path(member),
                                                      stdout=subprocess.DEVNULL, stderr=err, env={**os.environ, **watched})

    def turns(self):
        """Of each turn since SETTLES seconds after the first: how long it took by the clock and in processor time, and whether the disk was
        asked to sync."""
        with open(self.path(1, 'turns'), encoding='utf-8') as told:
            lines = [tuple(map(float, line.split())) for line in told]
        return [(took, worked, synced > 0) for ended, took, worked, synced in lines if ended - took > lines[0][0] + SETTLES]

    def took(self):
        """The processor time of the first plant so far."""
        with open(f'/proc/{self.processes[1].pid}/schedstat') as stat:
            return int(stat.read().split()[0]) / 1e9

    def share(self):
        """Its share of a processor."""
        begun, before = time.monotonic(), self.took()
        time.sleep(WATCHED)
        return (self.took() - before) / (time.monotonic() - begun)

    def lay(self, name, held):
        part = self.path(1, 'offers', f'.{name}')
        with open(part, 'wb') as file:
            file.write(held)
        os.rename(part, self.path(1, 'offers', name))

    def story(self, number):
        """How long a story takes to the first plant's galley."""
        begun = time.monotonic()
        self.lay(f'{number}.tape', STORY)
        while not os.path.exists(self.path(1, 'releases', f'{number}.galley')):
            if time.monotonic() - begun > 120:
                return float('inf')
            time.sleep(0.002)
        return time.monotonic() - begun

    def stop(self):
        begun = time.monotonic()
        with open(self.path(1, 'offers', 'stop'), 'w'):
            pass
        try:
            self.processes[1].wait(120)
        except subprocess.TimeoutExpired:
            return float('inf')
        return time.monotonic() - begun

    def end(self):
        for process in self.processes.values():
            if process.poll() is None:
                process.kill()
                process.wait()
        shutil.rmtree(self.folder)


def put(path, held=b''):
    with open(path, 'wb') as file:
        file.write(held)


def left(offers, count):
    for index in range(count):
        put(os.path.join(offers, f'{index + 1}.tape.part'), STORY)


def half(offers, count):
    for index in range(count // 2):
        put(os.path.join(offers, f'{index + 1}.seek'))
        put(os.path.join(offers, f'story {index}'), STORY)


def searches(offers, count):
    for index in range(min(count, 8_000)):
        put(os.path.join(offers, f'{index + 1}.seek'))


def seeks(offers, count):
    for index in range(min(count, 25_000)):
        put(os.path.join(offers, f'{index + 1}.seek'))


def changing(offers, count):
    for index in range(min(count, 20_000)):
        put(os.path.join(offers, f'{index + 1}.tape'), STORY)


def unread(offers, count):
    for index in range(count // 2):
        put(os.path.join(os.fsencode(offers), b'\xff%d' % index))
        os.mkfifo(os.path.join(offers, f'fifo {index}'))


def change_all(offers, over):
    """Writes all tapes anew, again and again."""
    names = os.listdir(offers)
    while not over.is_set():
        for name in names:
            if over.is_set():
                return
            if name.endswith('.tape'):
                try:
                    os.utime(os.path.join(offers, name))
                except FileNotFoundError:
                    pass


def swarm_all(offers, over):
    """Lays and takes away names, again and again."""
    while not over.is_set():
        for index in range(1, 2_000):
            path = os.path.join(offers, f'.{index}.swarm')
            put(path)
            os.rename(path, os.path.join(offers, f'{index}.swarm.part'))
        for index in range(1, 2_000):
            with contextlib.suppress(FileNotFoundError):
                os.remove(os.path.join(offers, f'{index}.swarm.part'))


CASES = {
    'left': (left, None),
    'half': (half, None),
    'searches': (searches, None),
    'seeks': (seeks, None),
    'changing': (changing, change_all),
    'unread': (unread, None),
    'swarm': (left, swarm_all),
}


def lister(folder):
    """The processor time of a plain lister of a folder."""
    with tempfile.TemporaryDirectory() as place:
        source, program = os.path.join(place, 'lister.c'), os.path.join(place, 'lister')
        with open(source, 'w') as file:
            file.write(LISTER)
        subprocess.run(['cc', '-O2', '-o', program, source], check=True)
        times = []
        for _ in range(9):
            before = resource.getrusage(resource.RUSAGE_CHILDREN)
            subprocess.run([program, folder], check=True, stdout=subprocess.DEVNULL)
            after = resource.getrusage(resource.RUSAGE_CHILDREN)
            times.append(after.ru_utime - before.ru_utime + after.ru_stime - before.ru_stime)
        return statistics.median(times)


def made_watcher(place):
    """The library that tells of turns."""
    library = os.path.join(place, 'turns.so')
    subprocess.run(['cc', '-O2', '-shared', '-fPIC', '-o', library, os.path.join(HERE, 'turns.c'), '-ldl'], check=True)
    return library


def watch(program, name, count):
    """How long the turns of a look are."""
    plants = Plants(program)
    try:
        CASES[name][0](plants.path(1, 'offers'), count)
        plants.start(made_watcher(plants.folder))
        time.sleep(SETTLES + WATCHED)
        plants.stop()
        turns = plants.turns()
        longest, plain = max(took for took, _, _ in turns), max(took for took, _, synced in turns if not synced)
        median, worked = statistics.median(took for took, _, _ in turns), max(worked for _, worked, _ in turns)
        print(f'{name:10} turn {1000 * longest:6.1f} ms at most, {1000 * plain:6.1f} ms without a sync, {1000 * worked:6.1f} ms of a processor; '
              f'median {1000 * median:6.2f} ms, of {len(turns)}', flush=True)
    finally:
        plants.end()


def run(program, name, count, rest):
    crowd, trouble = CASES[name]
    plants = Plants(program)
    over, troubling = threading.Event(), None
    try:
        offers = plants.path(1, 'offers')
        crowd(offers, count)
        plain = lister(offers)
        if trouble:
            troubling = threading.Thread(target=trouble, args=(offers, over), daemon=True)
            troubling.start()
        plants.start()
        time.sleep(SETTLES)
        share = plants.share()
        stories = [plants.story(FIRST + index) for index in range(STORIES)]
        stop = plants.stop()
        look = rest * share / (1 - share) / 1000 if share < 0.99 else float('inf')
        print(f'{name:10} look {look * 1000:7.1f} ms, lister {plain * 1000:6.1f} ms, {look / max(plain, 0.001):5.2f} times; '
              f'story {max(stories):6.2f} s; stop {stop:5.2f} s', flush=True)
    finally:
        over.set()
        if troubling:
            troubling.join()
        plants.end()


def main():
    parser = argparse.ArgumentParser(description=__doc__, formatter_class=argparse.RawDescriptionHelpFormatter)
    parser.add_argument('--count', type=int, default=50_000)
    parser.add_argument('--rest', type=float, default=500)
    parser.add_argument('--turns', action='store_true')
    parser.add_argument('program')
    parser.add_argument('cases', nargs='*', choices=[[], *CASES], metavar='CASE')
    words = parser.parse_args()
    for name in words.cases or CASES:
        if words.turns:
            watch(proved.program(words.program), name, words.count)
        else:
            run(proved.program(words.program), name, words.count, words.rest)
    return 0


if __name__ == '__main__':
    sys.exit(main())
