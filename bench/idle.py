#!/usr/bin/env python3
"""What plants cost in which nothing happens: processor time, and bytes on the network.

    bench/idle.py [--seconds N] [--stories N] PROGRAM

Three plants `run` on 127.0.0.1. So many stories are laid at the first, 30 where nothing is said; once all plants have them and 15 s have gone by,
nothing happens for so many seconds, 60 where nothing is said: for plants that catch up, and for the same where catching up is off. A line is printed for
each:

    processor  the processor time of each plant, as a share of one core
    bytes      what went over the loopback device meanwhile, with the heads of its packets, for each second and pair of plants

Nothing else may use the loopback device meanwhile.
"""
import argparse
import os
import sys
import tempfile
import time

import proved

from burst import Plant, free_ports

LINE = bytes.fromhex('01020301030204')
MEMBERS, PAIRS = 3, 3


def loopback():
    """How many bytes the loopback device has received."""
    with open('/proc/net/dev') as table:
        return next(int(line.split()[1]) for line in table if line.split()[0] == 'lo:')


def wait(holds, seconds):
    until = time.monotonic() + seconds
    while not holds():
        if time.monotonic() > until:
            sys.exit(f'not within {seconds} s')
        time.sleep(0.05)


def run(program, folder, words, is_off):
    """One run; its line."""
    addresses = [('127.0.0.1', port) for port in free_ports(MEMBERS)]
    plants = [Plant(program, folder, member, addresses, None, [], '2') for member in range(1, MEMBERS + 1)]
    try:
        if is_off:
            for plant in plants:
                wait(lambda made=os.path.join(plant.home, 'station.db'): os.path.exists(made), 10)
                plant.process.kill()
                plant.process.wait()
                with open(os.path.join(plant.home, 'station.toml')) as config:
                    text = config.read()
                with open(os.path.join(plant.home, 'station.toml'), 'w') as config:
                    config.write(text.replace('[folders]', '[catch_up]\noff = true\n[folders]'))
                plant.start()
        wanted = set(range(1, words.stories + 1))
        for number in wanted:
            plants[0].lay(number, LINE)
        wait(lambda: all(plant.released() >= wanted for plant in plants), 60)
        time.sleep(15)
        spent, sent = [plant.processor() for plant in plants], loopback()
        time.sleep(words.seconds)
        spent = [plant.processor() - before for plant, before in zip(plants, spent)]
        sent = loopback() - sent
    finally:
        for plant in plants:
            plant.process.kill()
            plant.process.wait()
    shares = ' '.join(f'{100 * each / words.seconds:.2f} %' for each in spent)
    print(f'catching up {"off" if is_off else "on"} | processor {shares} | bytes {sent / words.seconds / PAIRS:.0f} a second and pair', flush=True)


def main():
    parser = argparse.ArgumentParser(description=__doc__, formatter_class=argparse.RawDescriptionHelpFormatter)
    parser.add_argument('--seconds', type=int, default=60)
    parser.add_argument('--stories', type=int, default=30)
    parser.add_argument('program')
    words = parser.parse_args()
    for is_off in (False, True):
        with tempfile.TemporaryDirectory(prefix='idle-') as folder:
            run(proved.program(words.program), folder, words, is_off)


if __name__ == '__main__':
    main()
