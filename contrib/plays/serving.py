"""What `serve` asks, prints and sends: of a station alone, and on the wire, where this process plays the others."""
import re
import struct
import time

import datagrams
import stage
from datagrams import ACCEPT, ACCEPTED, PREPARE, PROMISE, VOID, Packet
from recalls import CIRCUIT, Voice, of_two
from stage import RELEASE

CONFIG = """circuit = 7
member = {member}
table = "codes.toml"
widths = "widths.toml"
rows = "station.db"
{stations}"""

STORY = '--number 12 --tape flood.tape'
# so many turns take longer than a play
ON = 'serve one.toml --turns 1000000'
NEWER = 'bad-version from member 2: its rows are of layout 2, these of layout 1\n'
# how many frames the longest tape has
LONGEST = 16_384


def station_of(at, member, count, layout):
    """The station of a member of so many, whose row file is made at a layout; the ports of all."""
    ports = [stage.free_port() for _ in range(count)]
    stations = ''.join(f'[[station]]\nmember = {number}\nip = "127.0.0.1"\nport = {port}\n' for number, port in enumerate(ports, 1))
    at.write('one.toml', CONFIG.format(member=member, stations=stations).encode())
    at.ends(f'create one.toml --layout {layout}', 0, f'made station.db: station {member} of {count} circuit 7 layout {layout}\n')
    at.port = ports[member - 1]
    return ports


def on(at, words=''):
    """The station serves, with what it prints in files."""
    with open(at.path('out'), 'wb') as out, open(at.path('err'), 'wb') as err:
        process = at.start(f'{ON} {words}', stdout=out, stderr=err)
    stage.within(at.serves, lambda: f'it serves: {at.read("err")}')
    return process


def off(process):
    """The station serves no longer."""
    process.kill()
    process.wait()


def prints(at, out='', err=''):
    """All that the station printed comes to be this."""
    wanted = (out.encode(), err.encode())
    stage.within(lambda: (at.read('out'), at.read('err')) == wanted, lambda: f'{at.read("out")} {at.read("err")} and not {wanted}')


def answers(voice, to, asked, answer):
    """The station answers a datagram by another, both in hexadecimal digits, and has sent nothing before; what it sent of its own accord, which
    are the requests of the ballots that it began, is passed over."""
    voice.say(to, bytes.fromhex(asked))
    voice.socket.settimeout(stage.SECONDS)
    said = voice.heard()
    while said[3] == PREPARE:
        said = voice.heard()
    stage.wants(said.hex() == answer, f'{said.hex()} and not {answer}')


def refused_to_one(at):
    """A number that is none, a tape that sets no line, and a search of what was just released: each ends it, and the release of before
    stands."""
    at.write('start.tape', b'\1')
    at.ends('create one.toml', 0, 'made station1.db: station 1 of 1 circuit 7 layout 2\n')
    at.ends('serve one.toml --turns 1 --number 0 --tape flood.tape', 1, '', 'refused bad-number\n')
    at.ends('serve one.toml --turns 1 --seek 1000000', 1, '', 'refused bad-number\n')
    at.ends('serve one.toml --turns 1 --withdraw 1000000', 1, '', 'refused bad-number\n')
    at.ends('serve one.toml --turns 1 --number 12 --tape start.tape', 1, '', 'refused tape-faulty unfinished at 1 line 1\n')
    at.ends(f'serve one.toml --turns 1 {STORY} --seek 12', 1, RELEASE, 'refused already-released\n')


def refused_in_a_circuit(at):
    """A number that is open is neither offered nor searched; one whose ballots are spent is not offered, also after a restart."""
    ports = station_of(at, 1, 3, 2)
    with Voice(2, ports) as second:
        at.ends(f'serve one.toml --turns 1 {STORY} --withdraw 12', 1, '', 'refused already-open\n')
        at.ends(f'serve one.toml --turns 1 {STORY} --seek 12', 1, '', 'refused already-open\n')
        for _ in range(2):
            second.hears(1, PREPARE, 12)
        process = on(at)
        second.speak(1, PREPARE, 12, (4_294_967_295, 2))
        second.hears(1, PROMISE, 12)
        off(process)
    at.ends(f'serve one.toml --turns 1 {STORY}', 1, '', 'refused rounds-spent\n')


def withdrawn_by_one(at):
    """A member alone releases what it withdraws, behind what it offers and before what it seeks: without a galley, and not once the story is
    out."""
    at.ends('create one.toml', 0, 'made station1.db: station 1 of 1 circuit 7 layout 2\n')
    at.ends('serve one.toml --turns 1 --withdraw 14', 0, 'release 14 void\n')
    at.ends('serve one.toml --turns 1 --withdraw 13 --seek 13', 1, 'release 13 void\n', 'refused already-released\n')
    at.ends(f'serve one.toml --turns 1 {STORY} --withdraw 12', 1, RELEASE, 'refused already-released\n')


def withdrawn_over_layout_1(at):
    """Rows of layout 1 know of no withdrawal, of no number."""
    at.ends('create one.toml --layout 1', 0, 'made station1.db: station 1 of 1 circuit 7 layout 1\n')
    at.ends('serve one.toml --turns 1 --withdraw 12', 1, '', 'refused wire-too-old\n')
    at.ends('serve one.toml --turns 1 --withdraw 0', 1, '', 'refused bad-number\n')


def packet(voice):
    """The next packet that comes to a member."""
    said = voice.next(time.monotonic() + stage.SECONDS)
    stage.wants(isinstance(said, Packet), f'member {voice.member} hears {said}')
    return said


def with_quorum(voice, number, promise):
    """This member promises each ballot that member 1 begins of a number, until it is asked for its vote by one of them: what it is asked for
    then. How it promises is a function of the ballot that gives the bytes."""
    while True:
        said = packet(voice)
        if said.number == number and said.kind == PREPARE:
            voice.say(1, promise(said.ballot))
        if said.number == number and said.kind == ACCEPT:
            return said


def withdrawn_by_a_circuit(at):
    """A member of three withdraws a number. A promise comes in version 1, which rows of layout 2 read too. The others are asked for their votes
    of no frame, and told that of the first."""
    ports = station_of(at, 1, 3, 2)
    second, third = of_two(ports, 2, 3)
    with second, third:
        process = on(at, '--withdraw 12')
        begun = third.hears(1, PREPARE, 12)
        stage.wants(begun == Packet(PREPARE, CIRCUIT, 1, 3, 12, (1, 1)), f'{begun}')
        accept = with_quorum(second, 12, lambda ballot: datagrams.spell(Packet(PROMISE, CIRCUIT, 2, 1, 12, ballot, b'\0'), version=1))
        ballot = accept.ballot
        stage.wants(accept == Packet(ACCEPT, CIRCUIT, 1, 2, 12, ballot, datagrams.packed(VOID)), f'{accept}')
        for voice in (second, third):
            told = voice.hears(1, ACCEPTED, 12)
            stage.wants(told == Packet(ACCEPTED, CIRCUIT, 1, voice.member, 12, ballot, datagrams.packed(VOID)), f'{told}')
        prints(at)
        second.votes(1, 12, ballot, VOID)
        prints(at, 'release 12 void\n')
        off(process)


def a_newer_promise(at):
    """Rows of layout 1 pass over a promise in version 2, and say so: nobody is asked for a vote."""
    ports = station_of(at, 1, 3, 1)
    with Voice(2, ports) as second:
        process = on(at, STORY)
        second.say(1, bytes.fromhex('544e0202000702010000000c000000010100'))
        prints(at, err=NEWER)
        # It has taken in what came before by then.
        answers(second, 1, '544e0101000702010000000d0000000102', '544e0102000701020000000d000000010200')
        prints(at, err=NEWER)
        off(process)


def of_layout_1(at):
    """Of datagrams of layout 2 that come to rows of layout 1 within a minute the first is told. What is no packet of either is passed over
    without a word, and one of layout 1 is answered."""
    ports = station_of(at, 1, 3, 1)
    second, third = of_two(ports, 2, 3)
    prepare, promise = '544e0101000702010000000c0000000102', '544e0102000701020000000c000000010200'
    with second, third:
        process = on(at)
        # A version that there is none of, and a packet that is cut off.
        for digits in ('544e0301000702010000000c0000000102', '544e0201000702010000000c00000001'):
            second.say(1, bytes.fromhex(digits))
        answers(second, 1, prepare, promise)
        prints(at)
        second.say(1, bytes.fromhex('544e0201000702010000000c0000000102'))
        prints(at, err=NEWER)
        third.say(1, bytes.fromhex('544e0201000703010000000c0000000103'))
        second.say(1, bytes.fromhex('544e0201000702010000000c0000000102'))
        answers(third, 1, '544e0101000703010000000c0000000103', '544e0102000701030000000c000000010300')
        answers(second, 1, '544e0101000702010000000d0000000102', '544e0102000701020000000d000000010200')
        prints(at, err=NEWER)
        off(process)


def of_both_layouts(at):
    """Rows of layout 2 read both, and answer in version 2."""
    ports = station_of(at, 1, 3, 2)
    second, third = of_two(ports, 2, 3)
    with second, third:
        process = on(at)
        answers(second, 1, '544e0101000702010000000c0000000102', '544e0202000701020000000c000000010200')
        answers(third, 1, '544e0201000703010000000c0000000103', '544e0202000701030000000c000000010300')
        prints(at)
        off(process)


def from_the_wire(at):
    """What is no packet is passed over, also one of no byte. A tape whose line is loose is voted for; it is released without a galley once the
    other voted for it too, with its fault."""
    ports = station_of(at, 2, 2, 1)
    with Voice(1, ports) as first:
        process = on(at)
        for data in (b'no packet', b''):
            first.say(2, data)
        story = '000701020000000c00000001010006010203010204'
        answers(first, 2, '544e0103' + story, '544e0104000702010000000c00000001010006010203010204')
        prints(at)
        first.say(2, bytes.fromhex('544e0104' + story))
        prints(at, 'release 12 010203010204 faulty loose 2 at 5 line 1\n')
        off(process)


def the_longest_packet(at):
    """A promise that reports a vote for a tape of 16,384 frames comes whole: these are proposed, frame for frame, and not the story that was
    offered. With a byte more it is none, and is passed over."""
    ports, longest = station_of(at, 1, 2, 2), bytes((1, 2, 3, 4)) * (LONGEST // 4)
    reports = b'\1' + struct.pack('>IB', 1, 2) + datagrams.packed(longest)
    with Voice(2, ports) as second:
        process = on(at)
        second.has_promised(1, 12)
        off(process)
        process = on(at, STORY)
        begun = second.hears(1, PREPARE, 12)
        stage.wants(begun.ballot == (2, 1), f'{begun}')
        promise = lambda ballot: datagrams.spell(Packet(PROMISE, CIRCUIT, 2, 1, 12, ballot, reports))
        stage.wants(len(promise(begun.ballot)) == 12_313, 'it is the longest')
        second.say(1, promise(begun.ballot) + b'\0')
        second.speak(1, PREPARE, 13, (1, 2))
        while (said := packet(second)).number == 12:
            stage.wants(said.kind == PREPARE, f'{said}')
        stage.wants(said.kind == PROMISE, f'{said}')
        accept = with_quorum(second, 12, promise)
        told = second.hears(1, ACCEPTED, 12)
        for said in (accept, told):
            stage.wants(said.ballot == accept.ballot and said.frames == longest, f'{said}'[:300])
        prints(at)
        off(process)


def strangers(at):
    """Who sends from an address of no station is told, with how many came; nothing else comes of it."""
    ports = station_of(at, 1, 3, 2)
    with stage.udp() as stranger, Voice(2, ports) as second:
        process = on(at)
        line = re.compile(r'socket: (\d+) datagrams of strangers, last from 127\.0\.0\.1:%d\n' % bound(stranger))
        for _ in range(3):
            stranger.sendto(bytes.fromhex('544e0201000702010000000c0000000102'), ('127.0.0.1', ports[0]))
        counts = lambda: [int(found) for found in line.findall(at.read('err').decode())]
        stage.within(lambda: sum(counts()) == 3, lambda: f'{at.read("err")}')
        stage.wants(line.sub('', at.read('err').decode()) == '', f'{at.read("err")}')
        second.has_promised(1, 12)
        off(process)
    at.ends('rows station.db', 0, 'station 1 of 3 circuit 7\n12 1.2 - -\n')


def bound(socket):
    """The port of a socket at any that is free."""
    socket.bind(('127.0.0.1', 0))
    return socket.getsockname()[1]


PLAYS = [
    refused_to_one, refused_in_a_circuit, withdrawn_by_one, withdrawn_over_layout_1, withdrawn_by_a_circuit, a_newer_promise, of_layout_1,
    of_both_layouts, from_the_wire, the_longest_packet, strangers,
]
