"""Tapes and tables are drawn: as documents and pages that are well formed, each frame and each line once, and opened in a browser where there is one."""
import os
import re
import shutil
import subprocess
import xml.etree.ElementTree as trees

import stage

WIRE = os.path.join(stage.EXAMPLES, 'wire')
SVG = '{http://www.w3.org/2000/svg}'
# a line that is loose, one with a frame that means nothing, and one that is never cut
FAULTS = bytes([1, 3, 1, 4, 1, 3, 50, 1, 4, 2, 3])
TOLD = 'fault: loose 14 at 3 line 1\n'
# the boxes of a slug lie side by side between these edges
LEFT, RIGHT = 60, 780


def drawn(at, words, status, told=''):
    """What `draw` writes."""
    with open(at.path('drawing'), 'wb') as out:
        at.ends(words, status, None, told, stdout=out)
    return at.read('drawing').decode()


def positions(text):
    """The positions of the frames, as the titles say."""
    return [int(at) for at in re.findall(r'<g><title>(\d+) ', text)]


def river(at):
    """The tape of the river story, with the table and the widths that it is set by."""
    for name in ('codes.toml', 'widths.toml'):
        shutil.copy(os.path.join(WIRE, name), at.path('wire_' + name))
    shutil.copy(os.path.join(WIRE, 'river.txt'), at.path('river.txt'))
    with open(at.path('river.tape'), 'wb') as tape:
        at.ends('punch wire_codes.toml river.txt', 0, None, stdout=tape)
    return at.read('river.tape')


def a_story(at):
    """A story that sets: each frame once, each line a group, boxes over the whole measure, and no more than 2,000 units high."""
    tape = river(at)
    text = drawn(at, 'draw wire_codes.toml wire_widths.toml river.tape', 0)
    root = trees.fromstring(text)
    stage.wants(positions(text) == list(range(len(tape))), 'each frame is drawn once and in its order')
    stage.wants(int(root.get('height')) <= 2000, 'it is no more than 2,000 units high')
    lines = [group for group in root.iter(f'{SVG}g') if (group.get('id') or '').startswith('line')]
    stage.wants(len(lines) == tape.count(4), 'each line is a group')
    stage.wants('fault' not in [element.get('id') for element in root.iter()], 'no line is faulty')
    for line in lines:
        boxes = [box for box in line.iter(f'{SVG}rect') if box.get('class') in ('m', 'b', 's', 'q')]
        edge = LEFT
        for box in boxes:
            stage.wants(int(box.get('x')) == edge, 'the boxes lie side by side')
            edge += int(box.get('width'))
        stage.wants(edge == (RIGHT if boxes else LEFT), 'the boxes add up to the measure')


def faults(at):
    """A tape that does not set is drawn whole, and its first fault has an anchor."""
    at.write('faults.tape', FAULTS)
    text = drawn(at, 'draw codes.toml widths.toml faults.tape', 1, TOLD)
    root = trees.fromstring(text)
    stage.wants(positions(text) == list(range(len(FAULTS))), 'each frame is drawn once and in its order')
    marked = [element.text for element in root.iter() if element.get('id') == 'fault']
    stage.wants(marked == ['1'], 'the first faulty line has the anchor')
    for words in ('loose 14 at 3', 'unknown-code at 6', 'unfinished at 11'):
        stage.wants(f'>{words}</text>' in text, words)


def the_longest_tape(at):
    """A tape of 16,384 frames, the flood story again and again with ignored frames behind it, is set and drawn: each line, each frame."""
    tape = at.read('flood.tape') * 2340 + bytes([63] * 4)
    at.write('longest.tape', tape)
    at.ends('check codes.toml widths.toml longest.tape', 0, ''.join(f'{number:04} {stage.GALLEY[5:]}' for number in range(1, 2341)))
    text = drawn(at, 'draw codes.toml widths.toml longest.tape', 0)
    trees.fromstring(text)
    stage.wants(positions(text) == list(range(16384)), 'each frame is drawn once and in its order')


def names(at):
    """The names of a tape, a table and widths are told, and none reads as markup."""
    for name in ('codes', 'widths'):
        shutil.copy(at.path(f'{name}.toml'), at.path(f'<{name}>&.toml'))
    shutil.copy(at.path('flood.tape'), at.path("it's.tape"))
    for page in ([], ['--html']):
        text = drawn(at, ['draw', '<codes>&.toml', '<widths>&.toml', "it's.tape", *page], 0)
        stage.wants('<title>it&#39;s.tape, set by &lt;codes&gt;&amp;.toml and &lt;widths&gt;&amp;.toml</title>' in text, 'the names are escaped')


def a_page(at):
    """A page is HTML without a mistake, where there is what tells that, and has the drawings of the document."""
    tape = river(at)
    text = drawn(at, 'draw --html wire_codes.toml wire_widths.toml river.tape', 0)
    stage.wants(positions(text) == list(range(len(tape))), 'each frame is drawn once and in its order')
    for drawing in re.findall(r'<svg id=.*?</svg>', text, re.DOTALL):
        trees.fromstring(drawing)
    html5lib = stage.html5lib()
    if html5lib is None:
        raise stage.Skipped('there is no html5lib')
    html5lib.HTMLParser(strict=True).parse(text)


def a_browser(at):
    """A browser opens the page, and finds its lines."""
    browser = next((found for name in stage.BROWSERS if (found := shutil.which(name))), None)
    if browser is None:
        raise stage.Skipped('there is no browser')
    at.write('faults.tape', FAULTS)
    text = drawn(at, 'draw --html codes.toml widths.toml faults.tape', 1, TOLD)
    at.write('faults.html', text.encode())
    asked = [browser, '--headless', '--no-sandbox', '--disable-gpu', f'--user-data-dir={at.path("profile")}']
    page = 'file://' + at.path('faults.html')
    ran = subprocess.run([*asked, '--dump-dom', page], capture_output=True, timeout=stage.SECONDS, check=False)
    found = ran.stdout.decode('utf-8', 'replace')
    for mark in ('id="line1"', 'id="line2"', 'id="line3"', 'id="fault"', 'href="#fault"'):
        stage.wants(mark in found, f'the browser finds {mark}')
    stage.wants(found.count('<title>') == 1 + len(FAULTS), 'the browser finds a title of the page and of each frame')


def a_chart(at):
    """A chart has each combination once and in order, as a document and as a page, and marks what lacks something or is shared."""
    for page in ([], ['--html']):
        text = drawn(at, ['chart', 'codes.toml', 'widths.toml', *page], 0)
        found = [int(frame) for frame in re.findall(r"id='frame(\d+)'", text)]
        stage.wants(found == list(range(64)), 'each combination stands there once and in order')
        stage.wants(text.count("class='v'") == 51, 'the 51 combinations without a meaning are red')
        stage.wants(text.count("'>= 63<") == 2 and text.count("'>= 0<") == 2, 'what 0 and 63 share is marked')
        for cell in re.findall(r"<svg id='frame.*?</svg>", text, re.DOTALL) if page else [text]:
            trees.fromstring(cell)
    at.write('few.toml', b'measure = 9\nband_min = 2\nband_max = 6\nthin = 2\nen = 5\nem = 10\n[matrix]\na = 5\n')
    text = drawn(at, 'chart codes.toml few.toml', 0)
    stage.wants(text.count('no width') == 4, 'the matrices A, b, B and fi have no width')
    at.ends('chart few.toml widths.toml', 1, '', 'table: no codes\n')
    at.ends('chart codes.toml codes.toml', 1, '', 'widths: missing measure\n')


PLAYS = [a_story, faults, the_longest_tape, names, a_page, a_browser, a_chart]
