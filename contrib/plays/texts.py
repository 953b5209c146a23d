"""Texts among the offers of a plant: punched by its own table as they are read."""
import os
import random
import time

import plants
import stage
from folders import ALL, ends_by_stop, holds, is_released, lay, lies, told, up

TEXT = b'ab a b\n'
KILLS = 30


def turn(at, old, new):
    """Changes the table: what these frames stand for."""
    at.write('codes.toml', at.read('codes.toml').decode().replace(old, new).encode())


def sent(at):
    """A text is cast as the tape that it becomes, and leaves under its own name; the same text and the same tape are sent again."""
    at.plant('plant.toml', 'plant.db')
    up(at, ALL)
    lay(at, '12.text', TEXT)
    lies(at, 'offers/sent/12.text')
    holds(at, 'offers/sent/12.text', TEXT)
    is_released(at, 12)
    lay(at, '12.tape', at.read('flood.tape'))
    lay(at, '12.text', b'ab{@spaceband}a b{@elevate}')
    lies(at, 'offers/sent/12.tape', 'offers/sent/12.text.2')
    stage.within(lambda: told(at) == ['12 released', '12 sent', '12 sent', '12 sent'], lambda: f'{told(at)}')


def refused(at):
    """What becomes no tape goes to `refused` with its line; the number is free for the text that was mended."""
    at.plant('plant.toml', 'plant.db')
    up(at)
    for number, (text, why) in enumerate((
        (b'ab a b\nab a b\nab?\n', b'text: no code at line 3 column 3\n'),
        (b'ab\na{fi\n', b'text: no end of a word at line 2 column 2\n'),
        (b'', b'text: empty\n'),
        (b'a' * 16385, b'text: too long at line 1 column 16385\n'),
        (b'\n' * (1 << 20), b'text: too long at line 16385 column 1\n'),
        (b'a' * ((1 << 20) + 1), b'input too long\n'),
        (b'aaaaaaa\n', b'tape-faulty overset 5 at 7 line 1\n'),
    ), 12):
        lay(at, f'{number}.text', text)
        lies(at, f'offers/refused/{number}.text', f'offers/refused/{number}.text.txt')
        holds(at, f'offers/refused/{number}.text.txt', why)
        holds(at, f'offers/refused/{number}.text', text)
    lay(at, '12.text', TEXT)
    lies(at, 'offers/sent/12.text')
    is_released(at, 12)
    stage.wants('refused 12.text: text: no code at line 3 column 3' in told(at), f'{told(at)}')


def off(at):
    """Where the configuration says that no text may be offered, its name asks for nothing; what else it says of that is told."""
    at.plant('plant.toml', 'plant.db')
    plain = at.read('plant.toml').decode()
    at.write('plant.toml', plain.replace('[folders]\n', '[folders]\ntext = 1\n').encode())
    at.ends('check-config plant.toml', 1, 'fault: config: wrong type text\n')
    at.ends('run plant.toml', 1, '', 'config: wrong type text\n')
    at.write('plant.toml', plain.replace('[folders]\n', '[folders]\ntext = false\n').encode())
    up(at)
    lay(at, '12.text', TEXT)
    lies(at, 'offers/refused/12.text.txt')
    holds(at, 'offers/refused/12.text.txt', b'no number\n')
    lay(at, '12.tape', at.read('flood.tape'))
    lies(at, 'offers/sent/12.tape')


def of_layout_1(at):
    """A text of 4,096 frames is offered over layout 1, and set; one of a frame more is what that layout has no room for."""
    at.plant('plant.toml', 'unmade.db')
    os.remove(at.path('unmade.db'))
    at.run('create --layout 1 plant.toml')
    up(at)
    lay(at, '12.text', b'{@ignore}' + TEXT * 585)
    lies(at, 'offers/sent/12.text')
    lay(at, '13.text', b'{@ignore}{@ignore}' + TEXT * 585)
    lies(at, 'offers/refused/13.text.txt')
    holds(at, 'offers/refused/13.text.txt', b'wire-too-old\n')


def another_table(at):
    """After a restart with another table a text is another tape: lost where the old one stands, and cast under another number."""
    at.plant('plant.toml', 'plant.db')
    plant = up(at)
    lay(at, '12.text', TEXT)
    lies(at, 'offers/sent/12.text')
    ends_by_stop(at, plant)
    turn(at, '"a"', '"x"')
    turn(at, '"b"', '"a"')
    turn(at, '"x"', '"b"')
    up(at)
    lay(at, '12.text', TEXT)
    lies(at, 'offers/lost/12.text')
    holds(at, 'offers/lost/12.text.txt', b'release 12 01020301030204\n')
    lay(at, '13.text', TEXT)
    lies(at, 'offers/sent/13.text')
    holds(at, 'releases/13.tape', bytes.fromhex('02010302030104'))


def at_one_of_three(at):
    """A text that is offered at one plant of three is cast at all, each with the same galley."""
    plants.three(at)
    plants.lay(at, 2, '12.text', TEXT)
    for member in (1, 2, 3):
        stage.within(lambda: at.read(f'releases{member}/12.galley') == stage.GALLEY.encode(), f'plant {member} has the story')
        holds(at, f'releases{member}/12.tape', at.read('flood.tape'))
    stage.within(lambda: os.path.exists(at.path('offers2/sent/12.text')), 'the text was sent')


def kills(at):
    """A plant that is killed again and again while texts are read and offered loses none of them, and releases no number twice otherwise."""
    at.plant('plant.toml', 'plant.db')
    chance = random.Random(61)
    for number in range(1, KILLS + 1):
        plant = up(at)
        lay(at, f'{number}.text', TEXT)
        time.sleep(chance.uniform(0.9, 2.2))
        plant.kill()
        plant.wait()
        # A kill may come while it is on its way from one to another.
        where = [name for name in ('offers', 'offers/.circuitd', 'offers/sent') if os.path.exists(at.path(f'{name}/{number}.text'))]
        stage.wants(len(where) == 1, f'{number}.text lies in {where}')
    up(at)
    lies(at, *(f'offers/sent/{number}.text' for number in range(1, KILLS + 1)))
    for number in range(1, KILLS + 1):
        holds(at, f'releases/{number}.tape', at.read('flood.tape'))
        holds(at, f'releases/{number}.galley', stage.GALLEY.encode())


PLAYS = [sent, refused, off, of_layout_1, another_table, at_one_of_three, kills]
