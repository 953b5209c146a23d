"""What a plant tells on standard error: as ever, with all, with times."""
import calendar
import os
import re
import time

import plants
import stage
from folders import RUN, is_released, lay, lies, told, up

BURST = 20

# longer than it takes until a plant that is alone has begun several ballots, in seconds
ALONE = 8

# of so many seconds is a moment of the log that is told now
NEAR = 60

# what a plant tells where it was so slow that it asked the others for stories that it had not heard of yet
CAUGHT_UP = re.compile(r'.* missed, asked for|caught up: .*')


def a_burst(at):
    """Of many stories at once each plant tells one line a story, and one where a second ballot of it was begun."""
    ports = plants.configure(at)
    plants.bring_up(at, ports, (1, 2, 3), '')
    for number in range(1, BURST + 1):
        plants.lay(at, 1, f'{number}.tape', at.read('flood.tape'))
    wanted = {f'{number}.galley' for number in range(1, BURST + 1)}
    released = {f'{number} released' for number in range(1, BURST + 1)}
    for member in (1, 2, 3):
        stage.within(lambda: wanted <= set(os.listdir(at.path(f'releases{member}'))), f'plant {member} has each story')
        stage.within(lambda: released <= set(told(at, f'log{member}')), lambda: f'{told(at, f"log{member}")}')
        lines = told(at, f'log{member}')
        stage.wants(len([line for line in lines if line.endswith(' released')]) == BURST, f'{lines}')
        others = [line.split() for line in lines if line not in released and not CAUGHT_UP.fullmatch(line)]
        stage.wants(all(words[1] == 'began' for words in others), f'{lines}')
        stage.wants(len({words[0] for words in others}) == len(others), f'one second ballot a number: {lines}')


def an_offer_that_waits(at):
    """Of an offer that nobody answers the second ballot is told, and nothing more until it is given up."""
    ports = plants.configure(at)
    plants.bring_up(at, ports, (1,), '')
    plants.lay(at, 1, '12.tape', at.read('flood.tape'))
    stage.within(lambda: told(at, 'log1') == ['12 began 2.1'], lambda: f'{told(at, "log1")}')
    time.sleep(ALONE)
    lines = told(at, 'log1')
    stage.wants(lines in (['12 began 2.1'], ['12 began 2.1', '12 gave-up 32.1']), f'{lines}')


def times(at):
    """The moment stands before each line, once, where that is asked for."""
    at.plant('plant.toml', 'plant.db')
    up(at, f'{RUN} --verbose --times')
    lay(at, '12.tape', at.read('flood.tape'))
    lies(at, 'offers/sent/12.tape')
    lay(at, 'no number', b'')
    lies(at, 'offers/refused/no number')
    is_released(at, 12)
    stage.within(lambda: len(told(at)) == 3, lambda: f'{told(at)}')
    found = [re.fullmatch(r'(\d{4}-\d\d-\d\dT\d\d:\d\d:\d\dZ) (.*)', line) for line in told(at)]
    stage.wants(all(found), f'{told(at)}')
    stage.wants([line[2] for line in found] == ['12 released', '12 sent', 'refused no number: no number'], f'{told(at)}')
    for line in found:
        moment = calendar.timegm(time.strptime(line[1], '%Y-%m-%dT%H:%M:%SZ'))
        stage.wants(abs(time.time() - moment) < NEAR, f'{line[0]} at {time.time()}')


def little_and_much(at):
    """Little and much are not asked for at once."""
    at.plant('plant.toml', 'plant.db')
    for words in ('--quiet --verbose', '--verbose --quiet'):
        ran = at.run(f'{RUN} {words}')
        stage.wants(ran[0] == 2 and 'cannot be used with' in ran[2], f'{ran}')


PLAYS = [a_burst, an_offer_that_waits, times, little_and_much]
