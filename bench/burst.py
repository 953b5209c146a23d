#!/usr/bin/env python3
"""Bursts of stories: how many plants hear of each, with how many ballots, and how long it takes beside the work alone.

    bench/burst.py [--runs N] [--loss P] [--rows] [--all] [--etcd] PROGRAM [CASE ..]

For each case plants `run` on 127.0.0.1, stories are laid among their offers all at once, and it is waited until each offer has left
and each story stands in all folders `releases`, or 10 s after the last offer left. A line is printed for each run:

    ballots    ballots that were begun, for each number (a probe counts as a number), and how many numbers were given up
    dropped    datagrams that a plant's own receive buffer had no room for, of all that the plants' sockets were handed (the column
               `drops` of the host's table of UDP sockets)
    lacks      how many stories each plant lacks at the end
    untrue     of how many plants a line about what they missed is not so: a number that is told as missed has no story there in the end, or
               more numbers are told as caught up with than as missed; only where there are such
    rows       with --rows: of how many numbers each plant has a saved row and no story, and the first of them
    took       from the first `N began B` to the last galley anywhere
    alone      the work alone, on the same disk right after the run: the same row saves, and the same files written and synced, by
               as many processes at once as there are plants, the median of three; and how many times that the burst took
    elsewhere  a story that is laid at another plant in the middle of the burst: from its own `N began B` to its last galley, at the
               plants that do not stand still (a line that this bench reads late makes it some milliseconds too short)
    processor  time of all plants together

Cases (all where none is named):
    200, 1000, 5000      so many stories of 7 frames at one of three plants
    1000-spread          1,000 over all three
    100-long             100 of 4,095 frames at one of three
    15x100, 15x100-spread   100 of 7 frames among fifteen plants, at one or spread
    15x1-longest         one of 16,380 frames among fifteen
    15x20-longest        20 of 16,380 frames, spread over fifteen
    slow                 1,000 at one of three, the third plant's syncs five times slower
    halt                 1,000 at one of three, the third stands still for 2 s (SIGSTOP)
    rivals               two plants offer the same 1,000 numbers with other stories
    against              two plants offer the same numbers with other stories, 40 numbers a second for a minute
    old-layout           16 tapes of 5,005 frames, which layout 1 can't carry, and 200 stories behind them, at plants of layout 1
    flood                200 at one of three while a stranger sends to all as fast as it can
    member-flood         200 at one of two while the third member's address sends nonsense, short and long, as fast as it can

With --loss the plants stand in namespaces, over the switch of net.py, and each datagram is lost with that chance (root is needed).
With --rows `circuitd rows` lists the rows of each plant once it was killed, and the status is 1 where a number has a row at a plant whose
story is not there 10 s after the last offer left. With --all it is 1 too where a plant lacks any story then, or told what is not so.
With --etcd, where etcd and etcdctl are installed: how long 1,000 puts take that are watched on three nodes on the same disk.
"""
import argparse
import contextlib
import multiprocessing
import os
import re
import resource
import shutil
import signal
import socket
import statistics
import subprocess
import sys
import tempfile
import threading
import time

import proved
from net import Net

HERE = os.path.dirname(os.path.abspath(__file__))
# What a plant tells of the numbers that it missed, and of those that it caught up with.
MISSED = re.compile(r'([0-9, .-]+) missed, asked for')
CAUGHT = re.compile(r'caught up: (\d+) released, (\d+) nothing')
EXAMPLES = os.path.join(HERE, '..', 'examples')
LINES = (bytes.fromhex('01020301030204'), bytes.fromhex('01010101010104'))
SETTLES = 10
LAST = 400
PAGE = 4096 + 24
PROBE = 900_000
# How many tapes stand at the head that the plants' layout can't carry.
TOO_LONG = 16


class Case:
    """What is laid where."""

    def __init__(self, members, count, lines=1, spread=False, probes=4, trouble=None):
        self.members, self.count, self.lines, self.spread, self.probes, self.trouble = members, count, lines, spread, probes, trouble
        self.layout = '1' if trouble == 'old-layout' else '2'
        # What stands in each configuration behind the table of the folders.
        self.tables = ''
        # How many numbers are laid a second; all at once where nothing is said.
        self.pace = 40 if trouble == 'against' else None
        # The plants that are up: one whose address floods is none.
        self.up = members - 1 if trouble == 'member-flood' else members

    def offers(self):
        """Each story as its plant, its number and its frames."""
        if self.trouble in ('rivals', 'against'):
            return [(member, number, LINES[member - 1]) for number in range(1, self.count + 1) for member in (1, 2)]
        if self.trouble == 'old-layout':
            return [(1, number, LINES[0]) for number in range(1 + TOO_LONG, self.count + TOO_LONG + 1)]
        plants = range(1, self.members + 1) if self.spread else (1,)
        return [(plants[number % len(plants)], number, LINES[0] * self.lines) for number in range(1, self.count + 1)]


CASES = {
    '200': Case(3, 200),
    '1000': Case(3, 1000),
    '5000': Case(3, 5000),
    '1000-spread': Case(3, 1000, spread=True),
    '100-long': Case(3, 100, lines=585),
    '15x100': Case(15, 100),
    '15x100-spread': Case(15, 100, spread=True),
    '15x1-longest': Case(15, 1, lines=2340, probes=0),
    '15x20-longest': Case(15, 20, lines=2340, spread=True, probes=0),
    'slow': Case(3, 1000, trouble='slow'),
    'halt': Case(3, 1000, trouble='halt'),
    'rivals': Case(3, 1000, probes=0, trouble='rivals'),
    'against': Case(3, 2400, probes=0, trouble='against'),
    'old-layout': Case(3, 200, trouble='old-layout'),
    'flood': Case(3, 200, trouble='flood'),
    'member-flood': Case(3, 200, trouble='member-flood'),
}
SLOW = """
#define _GNU_SOURCE
#include <dlfcn.h>
#include <time.h>
#include <unistd.h>
static int slowed(const char *name, int file) {
    int (*real)(int) = (int (*)(int))dlsym(RTLD_NEXT, name);
    struct timespec before, after, rest;
    clock_gettime(CLOCK_MONOTONIC, &before);
    int status = real(file);
    clock_gettime(CLOCK_MONOTONIC, &after);
    long long took = 4 * ((after.tv_sec - before.tv_sec) * 1000000000LL + after.tv_nsec - before.tv_nsec);
    rest.tv_sec = took / 1000000000LL; rest.tv_nsec = took % 1000000000LL;
    nanosleep(&rest, 0);
    return status;
}
int fsync(int file) { return slowed("fsync", file); }
int fdatasync(int file) { return slowed("fdatasync", file); }
"""
FLOOD = """
#define _GNU_SOURCE
#include <arpa/inet.h>
#include <stdlib.h>
#include <string.h>
#include <sys/socket.h>
#include <unistd.h>
/* Sends from one port of 127.0.0.1 to others, as fast as it can: flood SECONDS FROM LENGTH TO.. Prints how many it sent. */
#include <stdio.h>
#include <time.h>
int main(int count, char **words) {
    static char bytes[12000];
    struct mmsghdr batch[64];
    struct sockaddr_in own = {.sin_family = AF_INET, .sin_port = htons(atoi(words[2])), .sin_addr = {htonl(0x7f000001)}};
    struct sockaddr_in to[64];
    struct iovec piece = {bytes, atoi(words[3])};
    int file = socket(AF_INET, SOCK_DGRAM, 0), each, sent;
    long long all = 0;
    time_t end = time(0) + atoi(words[1]);
    if (bind(file, (struct sockaddr *)&own, sizeof own)) return 1;
    memset(bytes, 'n', sizeof bytes);
    memset(batch, 0, sizeof batch);
    for (each = 0; each < 64; each++) {
        to[each] = own;
        to[each].sin_port = htons(atoi(words[4 + each % (count - 4)]));
        batch[each].msg_hdr.msg_name = &to[each];
        batch[each].msg_hdr.msg_namelen = sizeof own;
        batch[each].msg_hdr.msg_iov = &piece;
        batch[each].msg_hdr.msg_iovlen = 1;
    }
    while (time(0) < end && getppid() != 1) {
        sent = sendmmsg(file, batch, 64, 0);
        all += sent > 0 ? sent : 0;
    }
    printf("%lld\\n", all);
    return 0;
}
"""
# How long a flood lasts.
FLOODS = 20


def free_ports(count):
    held = [socket.socket(socket.AF_INET, socket.SOCK_DGRAM) for _ in range(count)]
    for own in held:
        own.bind(('127.0.0.1', 0))
    ports = [own.getsockname()[1] for own in held]
    for own in held:
        own.close()
    return ports


def numbers_of(ranges):
    """The numbers of `41-60, 97`, as far as they are named."""
    found = set()
    for part in ranges.replace('..', '').split(','):
        first, _, last = part.strip().partition('-')
        if first:
            found |= set(range(int(first), int(last or first) + 1))
    return found


class Plant:
    """A plant in a folder of its own, with the moments of what it tells."""

    def __init__(self, program, folder, member, addresses, preload, words, layout, tables=''):
        self.member, self.port, self.home = member, addresses[member - 1][1], os.path.join(folder, f'plant{member}')
        self.offers, self.releases = os.path.join(self.home, 'offers'), os.path.join(self.home, 'releases')
        for each in (self.offers, self.releases):
            os.makedirs(each)
        for name in ('codes.toml', 'widths.toml'):
            shutil.copy(os.path.join(EXAMPLES, name), self.home)
        stations = ''.join(f'[[station]]\nmember = {other}\nip = "{ip}"\nport = {port}\n' for other, (ip, port) in enumerate(addresses, 1))
        with open(os.path.join(self.home, 'station.toml'), 'w') as config:
            config.write(f'circuit = 7\nmember = {member}\ntable = "codes.toml"\nwidths = "widths.toml"\nrows = "station.db"\n'
                         f'[folders]\noffers = "offers"\nreleases = "releases"\n{tables}{stations}')
        self.env = dict(os.environ, LD_PRELOAD=preload) if preload else None
        self.words = [*words, program, 'run', 'station.toml', '--verbose']
        self.ballots, self.given_up, self.began, self.other = 0, set(), {}, []
        self.start('--create', '--layout', layout)

    def start(self, *making):
        self.process = subprocess.Popen([*self.words, *making], cwd=self.home, env=self.env, stdout=subprocess.DEVNULL, stderr=subprocess.PIPE)
        self.reader = threading.Thread(target=self.read, args=(self.process.stderr,), daemon=True)
        self.reader.start()

    def read(self, lines):
        for line in lines:
            now = time.time()
            words = line.split()
            if len(words) == 3 and words[1] == b'began':
                self.ballots += 1
                self.began.setdefault(int(words[0]), now)
            elif len(words) == 3 and words[1] == b'gave-up':
                self.given_up.add(int(words[0]))
            elif len(words) != 2 and not line.startswith(b'station '):
                self.other.append(line)

    def is_untrue(self):
        """Whether it told a number as missed whose story is not there, or that it caught up with more than it told as missed."""
        told = [line.decode().rstrip('\n') for line in self.other]
        missed = [found[1] for line in told if (found := MISSED.fullmatch(line))]
        asked = set().union(*map(numbers_of, missed))
        caught = sum(int(found[1]) for line in told if (found := CAUGHT.fullmatch(line)))
        return bool(asked - self.released()) or caught > len(asked) and not any('..' in line for line in missed)

    def lay(self, number, frames):
        part = os.path.join(self.offers, f'.{number}.tape')
        with open(part, 'wb') as file:
            file.write(frames)
        os.rename(part, os.path.join(self.offers, f'{number}.tape'))

    def waiting(self, first=1):
        """How many tapes wait among the offers, of those from a number on."""
        names = (name for name in os.listdir(self.offers) if name.endswith('.tape') and not name.startswith('.'))
        return sum(int(name[:-len('.tape')]) >= first for name in names)

    def released(self):
        return {int(name[:-len('.galley')]) for name in os.listdir(self.releases) if name.endswith('.galley')}

    def galley_at(self, number):
        """When a galley was given its name."""
        try:
            return os.stat(os.path.join(self.releases, f'{number}.galley')).st_ctime
        except FileNotFoundError:
            return None

    def processor(self):
        with open(f'/proc/{self.process.pid}/stat') as stat:
            words = stat.read().rpartition(')')[2].split()
        return (int(words[11]) + int(words[12])) / os.sysconf('SC_CLK_TCK')


def dropped(plants):
    """How many datagrams the plants' receive buffers had no room for."""
    count = 0
    for plant in plants:
        with open(f'/proc/{plant.process.pid}/net/udp') as table:
            rows = [line.split() for line in table][1:]
        count += sum(int(row[-1]) for row in rows if row[1].endswith(f':{plant.port:04X}'))
    return count


def handed(plants):
    """How many datagrams were handed to sockets, or dropped for want of room, where the plants stand."""
    networks = {os.readlink(f'/proc/{plant.process.pid}/ns/net'): plant.process.pid for plant in plants}
    count = 0
    for pid in networks.values():
        with open(f'/proc/{pid}/net/snmp') as table:
            names, values = [line.split() for line in table if line.startswith('Udp:')][:2]
        told = dict(zip(names[1:], map(int, values[1:])))
        count += told['InDatagrams'] + told['RcvbufErrors']
    return count


def write_files(home, number, frames):
    """The files of a release, written, synced and named as a plant does it."""
    for kind, text in (('tape', frames), ('galley', b'0001 J 0 0 a b _4 a _4 b\n' * (len(frames) // 7))):
        part = os.path.join(home, f'.{kind}')
        file = os.open(part, os.O_CREAT | os.O_WRONLY | os.O_TRUNC)
        os.write(file, text)
        os.fsync(file)
        os.close(file)
        os.rename(part, os.path.join(home, f'{number}.{kind}'))


def save_alone(folder, place, count, frames, moves):
    """The saves and the files of so many stories at one plant, one after the other."""
    home = os.path.join(folder, f'alone{place}')
    os.makedirs(home)
    pages = 1 + (6 * len(frames) // 8) // 4096
    log = os.open(os.path.join(home, 'rows.log'), os.O_CREAT | os.O_RDWR)
    os.pwrite(log, bytes(4 * 1024 * 1024), 0)
    os.fsync(log)
    room, at = os.open(home, os.O_RDONLY), 0
    for number in range(count):
        for size in (1, pages):
            if at + size * PAGE + 1 > 4 * 1024 * 1024:
                at = 0
            os.pwrite(log, bytes(size * PAGE), at)
            os.fdatasync(log)
            os.pwrite(log, b'\1', at + size * PAGE)
            os.fdatasync(log)
            at += size * PAGE
        write_files(home, number, frames)
        if number % moves == 0:
            os.fsync(room)
    os.close(log)
    os.close(room)


def alone_once(folder, case):
    """How long the work alone takes: each plant's saves and files, all plants at once; the names are synced where offers leave."""
    moves = case.members if case.spread else 1
    runs = [multiprocessing.Process(target=save_alone, args=(folder, place, case.count, LINES[0] * case.lines, moves if place == 0 or case.spread else 10 ** 9))
            for place in range(case.members)]
    begun = time.monotonic()
    for run in runs:
        run.start()
    for run in runs:
        run.join()
    return time.monotonic() - begun


def alone(folder, case):
    """The median of three times, since one alone swings by a factor of two."""
    return statistics.median(alone_once(tempfile.mkdtemp(dir=folder), case) for _ in range(3))


class Flood:
    """Nonsense that is sent to plants as fast as one process can, for some seconds: short datagrams, or short and long ones by turns."""

    def __init__(self, folder, plants, port):
        flood = os.path.join(folder, 'flood')
        subprocess.run(['cc', '-O2', '-x', 'c', '-', '-o', flood], input=FLOOD.encode(), check=True)
        words = [flood, str(FLOODS), str(port), '8' if port == 0 else '600', *(str(plant.port) for plant in plants)]
        self.process, self.begun = subprocess.Popen(words, stdout=subprocess.PIPE, text=True), time.monotonic()

    def end(self):
        """How many were sent a second."""
        sent = int(self.process.communicate()[0])
        return sent // FLOODS


def trouble(case, plants):
    """What happens in the middle of a burst."""
    if case.trouble == 'halt':
        plants[2].process.send_signal(signal.SIGSTOP)
        time.sleep(2)
        plants[2].process.send_signal(signal.SIGCONT)


def probe(case, plants, laid):
    """Lays stories at the second plant while the burst is on."""
    for place in range(case.probes):
        while not any(plant.began for plant in plants):
            time.sleep(0.01)
        number = PROBE + place
        plants[1].lay(number, LINES[1])
        laid.append(number)
        if place == 0:
            trouble(case, plants)
        time.sleep(0.3 + case.count / 4000)


def run(program, case, folder, preload, net, lists_rows):
    """One burst; what became of it."""
    addresses = [('127.0.0.1', port) for port in free_ports(case.members)]
    if net:
        addresses = [(net.address(member), 7000) for member in range(1, case.members + 1)]
    plants = [Plant(program, folder, member, addresses, preload if case.trouble == 'slow' and member == 3 else None,
                    net.words(member) if net else [], case.layout, case.tables)
              for member in range(1, case.up + 1)]
    try:
        time.sleep(1.5)
        offers, probes = case.offers(), []
        before = handed(plants)
        flood = None
        if case.trouble in ('flood', 'member-flood'):
            flood = Flood(folder, plants, addresses[2][1] if case.trouble == 'member-flood' else 0)
        if case.trouble == 'old-layout':
            for number in range(1, TOO_LONG + 1):
                plants[0].lay(number, LINES[0] * 715)
        begun = time.monotonic()
        for place, (member, number, frames) in enumerate(offers):
            plants[member - 1].lay(number, frames)
            if case.pace and place % (2 * case.pace) == 0:
                time.sleep(max(0, begun + place / (2 * case.pace) - time.monotonic()))
        prober = threading.Thread(target=probe, args=(case, plants, probes))
        prober.start()
        left = None
        wanted = {number for _, number, _ in offers}
        least = min(wanted)
        while time.monotonic() - begun < LAST:
            time.sleep(0.1 if case.count < 2000 else 0.5)
            if any(plant.process.poll() is not None for plant in plants):
                sys.exit(f'a plant ended: {[plant.other for plant in plants]}')
            if prober.is_alive() or any(plant.waiting(least) for plant in plants):
                continue
            left = left or time.monotonic()
            if all(plant.released() >= wanted | set(probes) for plant in plants) or time.monotonic() - left > SETTLES:
                break
        prober.join()
        sent = flood.end() if flood else 0
        wanted |= set(probes)
        first = min((min(plant.began.values()) for plant in plants if plant.began), default=None)
        # Of the burst itself; each probe has a moment of its own.
        galleys = [plant.galley_at(number) for plant in plants for number in wanted - set(probes)]
        elsewhere = []
        for number in probes:
            # A plant that stands still is not asked when it has the story.
            ends = [plant.galley_at(number) for plant in plants if case.trouble != 'halt' or plant.member < 3]
            if all(ends) and number in plants[1].began:
                elsewhere.append(1000 * (max(ends) - plants[1].began[number]))
        told = {
            'ballots': sum(plant.ballots for plant in plants) / len(wanted),
            'gave up': len(set().union(*(plant.given_up for plant in plants))),
            'dropped': dropped(plants),
            'handed': handed(plants) - before,
            'lacks': [len(wanted - plant.released()) for plant in plants],
            'stay': sum(plant.waiting(least) for plant in plants),
            'took': max(each for each in galleys if each) - first if first and any(galleys) else float('nan'),
            'elsewhere': elsewhere,
            'processor': sum(plant.processor() for plant in plants),
            'strangers': sent,
            'differ': differing(plants, wanted),
            'said': [line for plant in plants for line in plant.other],
            'untrue': sum(plant.is_untrue() for plant in plants),
        }
    finally:
        for plant in plants:
            plant.process.kill()
            plant.process.wait()
    told['rows'] = [sorted(rows_of(program, plant.home) - plant.released()) for plant in plants] if lists_rows else []
    return told


def rows_of(program, home):
    """The numbers that a plant that has ended has a saved row of."""
    listed = subprocess.run([program, 'rows', 'station.db'], cwd=home, capture_output=True, text=True, check=True)
    return {int(line.split()[0]) for line in listed.stdout.splitlines()[1:]}


def differing(plants, wanted):
    """How many numbers have files that differ between plants."""
    count = 0
    for number in wanted:
        held = set()
        for plant in plants:
            try:
                with open(os.path.join(plant.releases, f'{number}.tape'), 'rb') as file:
                    held.add(file.read())
            except FileNotFoundError:
                pass
        count += len(held) > 1
    return count


def etcd(folder):
    """How long 1,000 puts of 64 clients take that are watched on three nodes."""
    if not shutil.which('etcd') or not shutil.which('etcdctl'):
        return print('etcd: not installed')
    ports = free_ports(6)
    cluster = ','.join(f'n{place}=http://127.0.0.1:{ports[place]}' for place in range(3))
    nodes, watches = [], []
    for place in range(3):
        nodes.append(subprocess.Popen(['etcd', '--name', f'n{place}', '--data-dir', os.path.join(folder, f'etcd{place}'), '--initial-cluster', cluster,
                                       '--listen-peer-urls', f'http://127.0.0.1:{ports[place]}', '--initial-advertise-peer-urls', f'http://127.0.0.1:{ports[place]}',
                                       '--listen-client-urls', f'http://127.0.0.1:{ports[3 + place]}', '--advertise-client-urls', f'http://127.0.0.1:{ports[3 + place]}'],
                                      stdout=subprocess.DEVNULL, stderr=subprocess.DEVNULL))
    try:
        time.sleep(4)
        ends = [f'http://127.0.0.1:{ports[3 + place]}' for place in range(3)]
        seen = [os.path.join(folder, f'seen{place}') for place in range(3)]
        for place in range(3):
            watches.append(subprocess.Popen(['etcdctl', '--endpoints', ends[place], 'watch', '--prefix', 'k'], env=dict(os.environ, ETCDCTL_API='3'),
                                            stdout=open(seen[place], 'wb'), stderr=subprocess.DEVNULL))
        time.sleep(1)
        begun = time.monotonic()
        subprocess.run(['etcdctl', '--endpoints', ends[0], 'check', 'perf'], env=dict(os.environ, ETCDCTL_API='3'), stdout=subprocess.DEVNULL, check=False)
        print(f'etcd: its own check of performance took {time.monotonic() - begun:.1f} s')
    finally:
        for each in watches + nodes:
            each.kill()
            each.wait()


def measured(program, case, folder, loss, lists_rows):
    """One burst in a folder, and how long the work alone takes there."""
    preload = None
    if case.trouble == 'slow':
        preload = os.path.join(folder, 'slow.so')
        subprocess.run(['cc', '-shared', '-fPIC', '-O2', '-x', 'c', '-', '-o', preload, '-ldl'], input=SLOW.encode(), check=True)
    with Net(case.members, loss) if loss else contextlib.nullcontext() as net:
        told = run(program, case, folder, preload, net, lists_rows)
    return told, alone(folder, case)


def line_of(name, told, floor):
    elsewhere = told['elsewhere']
    parts = [f'{name:14}', f'ballots {told["ballots"]:5.2f} given up {told["gave up"]}', f'dropped {told["dropped"]} of {told["handed"]}',
             f'lacks {told["lacks"]}', f'took {told["took"]:.2f} s, alone {floor:.2f}: {told["took"] / floor:.2f}',
             f'elsewhere {statistics.median(elsewhere):.0f}, at most {max(elsewhere):.0f} ms of {len(elsewhere)}' if elsewhere else 'elsewhere none',
             f'processor {told["processor"]:.2f} s']
    parts += [f'{what} {told[what]}' for what in ('stay', 'differ', 'strangers', 'untrue') if told[what]]
    parts += [f'rows without a story {[len(each) for each in told["rows"]]}, {[each[:9] for each in told["rows"]]}'] if any(told['rows']) else []
    parts += [f'said {told["said"][:2]}'] if told['said'] else []
    return ' | '.join(parts)


def main():
    parser = argparse.ArgumentParser(description=__doc__, formatter_class=argparse.RawDescriptionHelpFormatter)
    parser.add_argument('--runs', type=int, default=1)
    parser.add_argument('--loss', type=float, default=0.0)
    parser.add_argument('--rows', action='store_true')
    parser.add_argument('--all', action='store_true')
    parser.add_argument('--etcd', action='store_true')
    parser.add_argument('program')
    parser.add_argument('cases', nargs='*', metavar='CASE')
    asked = parser.parse_intermixed_args()
    unknown = [name for name in asked.cases if name not in CASES]
    if unknown:
        sys.exit(f'no such case: {", ".join(unknown)}\n{__doc__}')
    program = proved.program(asked.program)
    # Fifteen plants and their watches hold some hundred files.
    resource.setrlimit(resource.RLIMIT_NOFILE, (4096, resource.getrlimit(resource.RLIMIT_NOFILE)[1]))
    all_elsewhere, runs, lacking = {}, 0, 0
    # All is removed at the end: a file system that has just removed files takes longer to make new ones.
    with tempfile.TemporaryDirectory(dir=os.getcwd()) as room:
        for name in asked.cases or CASES:
            for _ in range(asked.runs):
                told, floor = measured(program, CASES[name], tempfile.mkdtemp(dir=room), asked.loss, asked.rows)
                print(line_of(name, told, floor), flush=True)
                runs, lacking = runs + 1, lacking + bool(any(told['rows']) or asked.all and (any(told['lacks']) or told['untrue']))
                all_elsewhere.setdefault(name, []).extend(told['elsewhere'])
            if asked.runs > 1 and all_elsewhere[name]:
                print(f'{name:14} | elsewhere, median of {len(all_elsewhere[name])}: {statistics.median(all_elsewhere[name]):.0f} ms', flush=True)
    if asked.rows:
        print(f'in {runs - lacking} of {runs} runs each number that has a row at a plant has its story there')
    if asked.etcd:
        with tempfile.TemporaryDirectory(dir=os.getcwd()) as folder:
            etcd(folder)
    return 1 if lacking else 0


if __name__ == '__main__':
    sys.exit(main())
