"""Packets, recalls, rolls and the file `.released`: spelled and read as docs/FORMATS.md says, apart from the program."""
import struct
from typing import NamedTuple

PACKET, RECALL, RELEASED = b'TN', b'TR', b'GONE'
PREPARE, PROMISE, ACCEPT, ACCEPTED, NACK = range(1, 6)
# what a length of a tape says of a withdrawal
VOID = b''
MOST_RECALLED = 64
HASH = 2_654_435_761
# of a recall, and of the rolls
RECALLS, COUNTS_ASKED, COUNTS, PAGE_ASKED, PAGE = range(1, 6)
PAGES, NUMBERS_OF_A_PAGE = 123, 8192
# the bytes of an ask behind its header: what is asked for, and zeros
ASK = 5


class Packet(NamedTuple):
    """A packet of version 2: its entry stands in an Accept and an Accepted alone, its flag or ballot in a Promise and a Nack."""
    kind: int
    circuit: int
    sender: int
    to: int
    number: int
    ballot: tuple
    rest: bytes = b''

    @property
    def frames(self):
        """The tape of an Accept or an Accepted."""
        return unpacked(self.rest)


class Recall(NamedTuple):
    """What one member asks another to tell again."""
    circuit: int
    sender: int
    to: int
    nonce: int
    numbers: tuple


class Roll(NamedTuple):
    """What one member asks another about its votes, or tells it: counts of all pages, or the numbers of a page."""
    kind: int
    circuit: int
    sender: int
    to: int
    nonce: int
    page: int = 0
    told: tuple = ()


class NotSpelled(Exception):
    """Bytes that spell nothing."""


def packed(frames):
    """A tape behind its length: the six bits of each frame, the highest first, and zero bits as far as the end of a byte."""
    bits = ''.join(f'{frame:06b}' for frame in frames)
    bits += '0' * (-len(bits) % 8)
    return struct.pack('>H', len(frames)) + bytes(int(bits[at:at + 8], 2) for at in range(0, len(bits), 8))


def unpacked(data):
    """The frames of a tape behind its length, which end the bytes."""
    if len(data) < 2:
        raise NotSpelled(f'no tape: {data.hex()}')
    count, = struct.unpack_from('>H', data)
    bits = ''.join(f'{byte:08b}' for byte in data[2:])
    if len(data) != 2 + (3 * count + 3) // 4 or '1' in bits[6 * count:]:
        raise NotSpelled(f'no tape: {data.hex()}')
    return bytes(int(bits[6 * place:6 * place + 6], 2) for place in range(count))


def spell(packet, version=2):
    """The bytes of a packet."""
    head = struct.pack('>2sBBHBBIIB', PACKET, version, packet.kind, packet.circuit, packet.sender, packet.to, packet.number, *packet.ballot)
    return head + packet.rest


def spell_recall(recall):
    """The bytes of a recall, also of one that may not be: of any members, any count, any numbers in any order."""
    head = struct.pack('>2sBBHBBIB', RECALL, 1, 1, recall.circuit, recall.sender, recall.to, recall.nonce, len(recall.numbers))
    return head + b''.join(struct.pack('>I', number) for number in recall.numbers)


def spell_roll(roll):
    """The bytes of a roll, also of one that may not be: of any members, any page, any counts."""
    head = struct.pack('>2sBBHBBI', RECALL, 1, roll.kind, roll.circuit, roll.sender, roll.to, roll.nonce)
    if roll.kind == COUNTS:
        return head + b''.join(struct.pack('>H', count) for count in roll.told)
    if roll.kind == PAGE_ASKED:
        return head + bytes((roll.page,)) + bytes(ASK - 1)
    if roll.kind == PAGE:
        bits = bytearray(NUMBERS_OF_A_PAGE // 8)
        for number in roll.told:
            bits[number % NUMBERS_OF_A_PAGE // 8] |= 1 << number % 8
        return head + bytes((roll.page,)) + bits
    return head + bytes(ASK)


def read(data):
    """The packet of version 2, the recall, or the roll that the bytes spell."""
    if data[:2] == RECALL:
        return read_recall(data) if data[3:4] in (b'\0', b'\1') else read_roll(data)
    if data[:3] != PACKET + b'\2' or len(data) < 17:
        raise NotSpelled(data.hex())
    kind, circuit, sender, to, number, round_, owner = struct.unpack_from('>BHBBIIB', data, 3)
    packet = Packet(kind, circuit, sender, to, number, (round_, owner), data[17:])
    if kind not in range(1, 6):
        raise NotSpelled(data.hex())
    if kind in (ACCEPT, ACCEPTED):
        unpacked(packet.rest)
    return packet


def read_recall(data):
    """The recall that the bytes spell."""
    if len(data) < 17 or data[:4] != RECALL + b'\1\1':
        raise NotSpelled(data.hex())
    circuit, sender, to, nonce, count = struct.unpack_from('>HBBIB', data, 4)
    numbers = struct.unpack_from(f'>{count}I', data, 13) if len(data) == 13 + 4 * count else ()
    is_well = 1 <= count <= MOST_RECALLED and numbers and all(1 <= each <= 999_999 for each in numbers)
    if not is_well or list(numbers) != sorted(set(numbers)) or sender == to or not {sender, to} <= set(range(1, 16)):
        raise NotSpelled(data.hex())
    return Recall(circuit, sender, to, nonce, numbers)


def read_roll(data):
    """The roll that the bytes spell."""
    if len(data) < 12 or data[:3] != RECALL + b'\1':
        raise NotSpelled(data.hex())
    kind, circuit, sender, to, nonce = struct.unpack_from('>BHBBI', data, 3)
    lengths = {COUNTS_ASKED: ASK, COUNTS: 2 * PAGES, PAGE_ASKED: ASK, PAGE: 1 + NUMBERS_OF_A_PAGE // 8}
    if lengths.get(kind) != len(data) - 12 or sender == to or not {sender, to} <= set(range(1, 16)):
        raise NotSpelled(data.hex())
    page, told = data[12] if kind in (PAGE_ASKED, PAGE) else 0, ()
    if kind == COUNTS:
        told = struct.unpack_from(f'>{PAGES}H', data, 12)
    elif kind == PAGE:
        bits = data[13:]
        told = tuple(page * NUMBERS_OF_A_PAGE + place for place in range(NUMBERS_OF_A_PAGE) if bits[place // 8] >> place % 8 & 1)
    pad = {COUNTS_ASKED: data[12:], PAGE_ASKED: data[13:]}.get(kind, b'')
    is_well = page < PAGES and not any(pad) and (kind != PAGE or all(1 <= number <= 999_999 for number in told))
    if not is_well:
        raise NotSpelled(data.hex())
    return Roll(kind, circuit, sender, to, nonce, page, told)


def check_of(whose, number):
    """The check of a number in the file of a station, whose four bytes these are."""
    return HASH * (int.from_bytes(whose, 'big') + number) % (1 << 32)


def whose_of(circuit, member, count):
    """The four bytes of a station."""
    return struct.pack('>HBB', circuit, member, count)


def spell_released(circuit, member, count, numbers):
    """The file `.released` of a station after these numbers went out."""
    whose = whose_of(circuit, member, count)
    head = RELEASED + struct.pack('>I4sI', 1, whose, check_of(whose, 0))
    return head + b''.join(struct.pack('>II', number, check_of(whose, number)) for number in numbers)


def read_released(data):
    """Whose file it is, as its circuit, its member and the count of members, and the numbers of its good records in their order."""
    whose = data[8:12]
    if len(data) < 16 or data[:16] != RELEASED + struct.pack('>I4sI', 1, whose, check_of(whose, 0)):
        raise NotSpelled(f'no head: {data[:16].hex()}')
    records = (struct.unpack_from('>II', data, at) for at in range(16, len(data) - 7, 8))
    return struct.unpack('>HBB', whose), [number for number, check in records if check == check_of(whose, number)]
