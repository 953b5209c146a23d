"""Sealed datagrams: made and opened as docs/FORMATS.md says, apart from the program."""
import hmac
import os
import struct
from typing import NamedTuple

MARK, VERSION = b'TS', 1
HEAD, TAG, ROOM = 24, 16, 1192
# the most bytes of a packet, and of a datagram
MOST_PACKET, MOST_DATAGRAM = 12_313, HEAD + ROOM + TAG
# what a circuit's key, and what the id of a packet is for
NAME, WHOLE = b'circuitd sealed1', b'TW'
MEMBERS = range(1, 16)


class Part(NamedTuple):
    """A part of a packet: who sends it, to whom, which part it is, of how many bytes, the id of the packet, and the bytes of the part."""
    sender: int
    to: int
    index: int
    length: int
    whole: bytes
    data: bytes


class NotOpened(Exception):
    """A datagram that is not opened, and why."""


def new_key():
    """The text of a key file."""
    return os.urandom(32).hex() + '\n'


def tag(key, message):
    """HMAC-SHA-256."""
    return hmac.digest(key, message, 'sha256')


def circuit_key(text, circuit, count):
    """The key of a circuit of so many members, of a line of a key file."""
    return tag(bytes.fromhex(text), NAME + struct.pack('>HB', circuit, count))


def id_of(key, sender, to, packet):
    """The id of a packet."""
    return tag(key, WHOLE + bytes((sender, to)) + packet)[:TAG]


def seal(key, sender, to, packet):
    """The datagrams of a packet, in their order."""
    whole, made = id_of(key, sender, to, packet), []
    for index, at in enumerate(range(0, len(packet), ROOM)):
        body = struct.pack('>2s4BH', MARK, VERSION, sender, to, index, len(packet)) + whole + packet[at:at + ROOM]
        made.append(body + tag(key, body)[:TAG])
    return made


def read_head(own, data):
    """The part that a datagram is where its tag is good."""
    if len(data) < HEAD + 1 + TAG:
        raise NotOpened('short')
    mark, version, sender, to, index, length = struct.unpack_from('>2s4BH', data)
    room = min(ROOM, length - ROOM * index)
    for fault, holds in (
        ('bad-mark', mark != MARK),
        ('bad-version', version != VERSION),
        ('bad-member', sender not in MEMBERS or to not in MEMBERS or sender == to),
        ('not-for-me', to != own),
        ('bad-length', not 1 <= length <= MOST_PACKET or room < 1 or len(data) != HEAD + room + TAG),
    ):
        if holds:
            raise NotOpened(fault)
    return Part(sender, to, index, length, data[8:HEAD], data[HEAD:-TAG])


def open_part(keys, own, data):
    """The part of a packet that a datagram is to this member under one of the keys."""
    part = read_head(own, data)
    if not any(hmac.compare_digest(tag(key, data[:-TAG])[:TAG], data[-TAG:]) for key in keys):
        raise NotOpened('bad-tag')
    return part


class Gathering:
    """Packets of which parts are there."""

    def __init__(self, keys, own):
        self.keys, self.own, self.unfinished = keys, own, {}

    def take(self, data):
        """The packet that a datagram is, or is the last part of, and None where parts lack."""
        part = open_part(self.keys, self.own, data)
        label = part.sender, part.length, part.whole
        parts = self.unfinished.setdefault(label, {})
        parts[part.index] = part.data
        if len(parts) * ROOM < part.length:
            return None
        packet = b''.join(parts[index] for index in sorted(parts))
        del self.unfinished[label]
        if not any(id_of(key, part.sender, self.own, packet) == part.whole for key in self.keys):
            raise NotOpened('bad-id')
        return packet
