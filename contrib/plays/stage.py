"""What the plays of the built program stand on: a folder with the files of the examples, runs of the program, and how a play ends."""
import importlib
import os
import random
import shutil
import signal
import socket
import subprocess
import sys
import time

TOP = os.path.dirname(os.path.dirname(os.path.dirname(os.path.abspath(__file__))))
EXAMPLES = os.path.join(TOP, 'examples')
FILES = ('codes.toml', 'widths.toml', 'flood.tape', 'harvest.tape', 'overset.tape', 'story.script')
# What opens a page.
BROWSERS = ('chromium', 'chromium-browser', 'google-chrome')
# How long it is waited for what has to come, in seconds: on a machine that is busy with other work too.
SECONDS = 300

# a circuit of one station
STATION = """circuit = 7
member = 1
table = "codes.toml"
widths = "widths.toml"
rows = "{rows}"
[[station]]
member = 1
ip = "127.0.0.1"
port = {port}
"""

FOLDERS = """[folders]
offers = "{offers}"
releases = "{releases}"
[[station]]"""

GALLEY = '0001 J 0 0 a b _4 a _4 b\n'
RELEASE = 'release 12 01020301030204\n' + GALLEY
HEAD = 'station 1 of 1 circuit 7\n'

# the second lines of a refused row file
REFUSED = 'store: refused\n'
MISSING = REFUSED + 'no such file: look for it and its log; only a station that never ran is made, by circuitd create\n'
LOG_ALONE = REFUSED + 'its log is here and the file is not: find the file, and put the two together\n'
WITHOUT_LOG = REFUSED + 'its log is missing: find it, and put the two together\n'
OTHER_LOG = REFUSED + 'its log is of another time: find the one that lay beside it, and put the two together\n'
BEING_MADE = REFUSED + 'another process is making it\n'
UNMADE = REFUSED + 'no station is in it: find its log, and put the two together; if the station never ran, move it away\n'
MADE = REFUSED + 'it was made already: start without --create\n'
NO_DATABASE = REFUSED + 'it is no database, or damaged, or without its log\n'
NOT_OPENED = REFUSED + "it can't be opened\n"
IN_USE = REFUSED + 'another process has it open\n'


# what holds the ports of a play
PORTS = []


class Wrong(Exception):
    """Something went otherwise than it has to."""


class Skipped(Exception):
    """This machine can't play it, and why."""


class Stage:
    """A folder of a play, and the processes that it has started."""

    def __init__(self, program, folder):
        self.program, self.folder, self.started = program, folder, []
        for name in FILES:
            shutil.copy(os.path.join(EXAMPLES, name), folder)
        self.port = free_port()
        self.configure('one.toml', 'station1.db')

    def bare_folder(self):
        """A folder in this one with nothing in it."""
        os.mkdir(self.path('bare'))
        return self.path('bare')

    def path(self, name):
        """Where a file of the folder stands."""
        return os.path.join(self.folder, name)

    def configure(self, name, rows):
        """Puts the configuration of a station alone there, over this row file."""
        self.write(name, STATION.format(rows=rows, port=self.port).encode())

    def plant(self, name, rows, offers='offers', releases='releases'):
        """The same with folders, which are made, and with its row file, which is made at layout 2."""
        for folder in (offers, releases):
            os.makedirs(self.path(folder), exist_ok=True)
        text = STATION.format(rows=rows, port=self.port)
        folders = FOLDERS.format(offers=offers, releases=releases)
        self.write(name, text.replace('[[station]]', folders).encode())
        if not os.path.exists(self.path(rows)):
            self.run(f'create {name}')

    def write(self, name, data):
        """Puts a file there."""
        with open(self.path(name), 'wb') as file:
            file.write(data)

    def read(self, name):
        """What a file has, or None where there is none."""
        try:
            with open(self.path(name), 'rb') as file:
                return file.read()
        except FileNotFoundError:
            return None

    def seen(self):
        """What stands in the folder: by its name its kind, its length, the moment of its last change, and what it has."""
        found = {}
        for name in sorted(os.listdir(self.folder)):
            state = os.lstat(self.path(name))
            held = self.read(name) if os.path.isfile(self.path(name)) else None
            found[name] = (state.st_mode, state.st_size, state.st_mtime_ns, held)
        return found

    def run(self, words, given=b'', **how):
        """How the program ends on these words: its status, what it printed, and the faults that it told."""
        if 'stdin' not in how:
            how['input'] = given
        how.setdefault('stdout', subprocess.PIPE)
        how.setdefault('stderr', subprocess.PIPE)
        words = words.split() if isinstance(words, str) else words
        ran = subprocess.run([self.program, *words], cwd=self.folder, timeout=SECONDS, check=False, **how)
        return ran.returncode, decoded(ran.stdout), decoded(ran.stderr)

    def ends(self, words, status, out='', err='', given=b'', **how):
        """The program ends so. What goes elsewhere than to this process is not looked at."""
        ran = self.run(words, given, **how)
        wanted = (status, None if ran[1] is None else out, None if ran[2] is None else err)
        if ran != wanted:
            raise Wrong(f'circuitd {words}\n  ended with {ran}\n  and not {wanted}')

    def stop(self, config):
        """The command `stop` ends a station well, at last where that takes more than the 30 seconds for which it waits."""
        ran = self.run(f'stop {config}')
        while ran[0] == 1 and ran[2].startswith('stop: the station has not ended within 30 seconds') and any(process.poll() is None for process in self.started):
            ran = self.run(f'stop {config}')
        if ran != (0, '', ''):
            raise Wrong(f'circuitd stop {config} ended with {ran}')

    def start(self, words, **how):
        """Starts the program, to be ended by the play, or with it."""
        how.setdefault('stdout', subprocess.DEVNULL)
        how.setdefault('stderr', subprocess.DEVNULL)
        process = subprocess.Popen([self.program, *words.split()], cwd=self.folder, stdin=subprocess.DEVNULL, **how)
        self.started.append(process)
        return process

    def serves(self):
        """Whether a process has bound the port of the configuration. A station opens its row file first, so that it has the file by then."""
        with open('/proc/net/udp', encoding='ascii') as sockets:
            return any(line.split()[1].endswith(f':{self.port:04X}') for line in list(sockets)[1:])

    def close(self):
        """Ends what the play has started and left, and lets go of its ports."""
        for process in self.started:
            if process.poll() is None:
                process.send_signal(signal.SIGKILL)
            process.wait()
        while PORTS:
            PORTS.pop().close()


def decoded(data):
    """Bytes as text, if there are any."""
    return None if data is None else data.decode('utf-8', 'replace')


def udp():
    """A socket for datagrams."""
    return socket.socket(socket.AF_INET, socket.SOCK_DGRAM)


def free_port():
    """A port that nobody has: one below those that a system hands out by itself. No other play gets it until this one ends, whoever listens
    there meanwhile: its namesake for streams is held."""
    while True:
        port, held = random.randrange(10_000, 32_000), socket.socket(socket.AF_INET, socket.SOCK_STREAM)
        with udp() as probe:
            try:
                held.bind(('127.0.0.1', port))
                probe.bind(('127.0.0.1', port))
                PORTS.append(held)
                return port
            except OSError:
                held.close()


def within(holds, what, seconds=SECONDS):
    """Waits until something holds. Where the time is over it is looked at once more, since this process may have been kept waiting too. What is
    told then may be a function, whose text shows how things stand by then."""
    until, is_over = time.monotonic() + seconds, False
    while not holds():
        if is_over:
            raise Wrong(f'not within {seconds} seconds: {what() if callable(what) else what}')
        is_over = time.monotonic() > until
        time.sleep(0.01)


def wants(holds, what):
    """Something holds."""
    if not holds:
        raise Wrong(what)


def html5lib():
    """The library that reads HTML as browsers do, of this Python or of the one that Debian's packages are for; None where there is none."""
    for place in ([], ['/usr/lib/python3/dist-packages']):
        sys.path.extend(place)
        try:
            return importlib.import_module('html5lib')
        except ImportError:
            continue
    return None


def has_html5lib():
    return html5lib() is not None


def as_nobody():
    """How a run is started by a user without rights. Where this process is no root's, it has none itself."""
    if os.geteuid() != 0:
        return {}
    import pwd
    try:
        nobody = pwd.getpwnam('nobody')
    except KeyError:
        raise Skipped('there is no user nobody') from None
    return {'user': nobody.pw_uid, 'group': nobody.pw_gid, 'extra_groups': []}
