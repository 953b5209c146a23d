#!/usr/bin/env python3
"""A network between namespaces of this machine, which loses, repeats and delays what it is told to.

    bench/net.py [--loss P] [--repeat P] [--delay LEAST MOST] [--mtu N] [--seed N] MEMBERS COMMAND [WORD ..]

Each member has a namespace of its own with one device, `wire0`, at 10.77.0.MEMBER. The devices are TUN devices, and this program is the
switch between them: each packet is lost with chance P, else it goes on once, or twice with the chance of a repeat, each time after a
delay of its own, in milliseconds, so that packets overtake each other. COMMAND is run once in each namespace, with MEMBER in its
environment, until all have ended. Other benches use the class `Net`.

It needs root, `ip` and /dev/net/tun. No rule of the host's own network is touched, and all that was made goes at the end.
"""
import argparse
import ctypes
import fcntl
import heapq
import os
import random
import select
import struct
import subprocess
import sys
import threading
import time

TUNSETIFF = 0x400454ca
IFF_TUN, IFF_NO_PI = 0x0001, 0x1000
DEVICE = b'wire0'
LARGEST = 65536
LIBC = ctypes.CDLL(None, use_errno=True)


def ip(*words):
    subprocess.run(['ip', *words], check=True, stdout=subprocess.DEVNULL, stderr=subprocess.PIPE)


def device_in(namespace):
    """A TUN device that was made within a namespace, as the file of its other end."""
    own = os.open('/proc/self/ns/net', os.O_RDONLY)
    other = os.open(f'/run/netns/{namespace}', os.O_RDONLY)
    try:
        enter(other)
        device = os.open('/dev/net/tun', os.O_RDWR | os.O_NONBLOCK | os.O_CLOEXEC)
        fcntl.ioctl(device, TUNSETIFF, struct.pack('16sH', DEVICE, IFF_TUN | IFF_NO_PI))
        return device
    finally:
        enter(own)
        os.close(own)
        os.close(other)


def enter(namespace):
    if LIBC.setns(namespace, 0) < 0:
        raise OSError(ctypes.get_errno(), 'setns')


class Net:
    """Members 1 to `count`, each in a namespace, and the switch between them, which runs in a thread of its own."""

    def __init__(self, count, loss=0.0, repeat=0.0, delay=(0.0, 0.0), mtu=16384, seed=1):
        self.loss, self.repeat, self.delay, self.random = loss, repeat, delay, random.Random(seed)
        self.passed = self.lost = self.repeated = self.refused = 0
        self.names, self.files, self.waiting, self.order, self.over = [], {}, [], 0, False
        try:
            for member in range(1, count + 1):
                self.add(member, f'wire{os.getpid()}-{member}', mtu)
        except BaseException:
            self.remove()
            raise
        self.thread = threading.Thread(target=self.switch, daemon=True)
        self.thread.start()

    def add(self, member, name, mtu):
        ip('netns', 'add', name)
        self.names.append(name)
        self.files[member] = device_in(name)
        for words in (['link', 'set', 'lo', 'up'], ['addr', 'add', f'{self.address(member)}/24', 'dev', 'wire0'],
                      ['link', 'set', 'wire0', 'mtu', str(mtu), 'txqueuelen', '10000', 'up']):
            ip('-n', name, *words)

    @staticmethod
    def address(member):
        return f'10.77.0.{member}'

    def words(self, member):
        """What stands in front of a command that is to run at a member."""
        return ['ip', 'netns', 'exec', self.names[member - 1]]

    def switch(self):
        members = {file: member for member, file in self.files.items()}
        while not self.over:
            now = time.monotonic()
            wait = min(self.waiting[0][0] - now, 0.1) if self.waiting else 0.1
            ready, _, _ = select.select(list(members), [], [], max(wait, 0))
            for file in ready:
                self.take(file)
            self.hand_on(time.monotonic())

    def take(self, file):
        """Takes what a member sent, as much as there is."""
        for _ in range(256):
            try:
                packet = os.read(file, LARGEST)
            except (BlockingIOError, OSError):
                return
            # The last byte of the address of an IPv4 packet is the member; all else stays in its namespace.
            if len(packet) < 20 or packet[0] >> 4 != 4 or packet[16:19] != b'\x0a\x4d\x00' or packet[19] not in self.files:
                continue
            if self.random.random() < self.loss:
                self.lost += 1
                continue
            if not (packet := self.passing(packet)):
                continue
            times = 2 if self.random.random() < self.repeat else 1
            self.repeated += times - 1
            for _ in range(times):
                self.order += 1
                when = time.monotonic() + self.random.uniform(*self.delay) / 1000
                heapq.heappush(self.waiting, (when, self.order, packet[19], packet))

    def passing(self, packet):
        """What goes on of a packet that is not lost."""
        return packet

    def hand_on(self, now):
        while self.waiting and self.waiting[0][0] <= now:
            _, _, member, packet = heapq.heappop(self.waiting)
            try:
                os.write(self.files[member], packet)
                self.passed += 1
            except OSError:
                self.refused += 1

    def remove(self):
        for file in self.files.values():
            os.close(file)
        for name in self.names:
            subprocess.run(['ip', 'netns', 'del', name], check=False)

    def close(self):
        """Ends the switch and takes all away; what ran in the namespaces has to have ended."""
        self.over = True
        self.thread.join()
        self.remove()

    def __enter__(self):
        return self

    def __exit__(self, *_):
        self.close()


def main():
    parser = argparse.ArgumentParser(description=__doc__, formatter_class=argparse.RawDescriptionHelpFormatter)
    parser.add_argument('--loss', type=float, default=0.0)
    parser.add_argument('--repeat', type=float, default=0.0)
    parser.add_argument('--delay', type=float, nargs=2, default=(0.0, 0.0), metavar=('LEAST', 'MOST'))
    parser.add_argument('--mtu', type=int, default=16384)
    parser.add_argument('--seed', type=int, default=1)
    parser.add_argument('members', type=int)
    parser.add_argument('command', nargs=argparse.REMAINDER)
    asked = parser.parse_args()
    if not asked.command or not 1 <= asked.members <= 200:
        sys.exit(__doc__)
    with Net(asked.members, asked.loss, asked.repeat, asked.delay, asked.mtu, asked.seed) as net:
        runs = [subprocess.Popen([*net.words(member), *asked.command], env=dict(os.environ, MEMBER=str(member))) for member in range(1, asked.members + 1)]
        statuses = [run.wait() for run in runs]
        print(f'passed {net.passed}, lost {net.lost}, repeated {net.repeated}, refused {net.refused}', file=sys.stderr)
    return max(statuses)


if __name__ == '__main__':
    sys.exit(main())
