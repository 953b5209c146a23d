"""The commits of a row file's log, SQLite's write-ahead log: how many rows each has changed."""
import struct

HEAD, FRAME_HEAD, LEAF = 32, 24, 13
# How many frames a log has at most that was surely not copied into its file yet.
MOST = 1000
# The head of the record in the table `station` has one byte for each of its five columns, and one for itself; that of a row has more.
STATION = 6
# As much of a row as has its promise and the ballot of its vote.
START = 40


def commits_of(log):
    """Of each commit the pages that it wrote, and whether another one was begun. Frames of an earlier round have other salts, and the first byte of
    the salts of a commit's first frame is written last, once the rest is on the disk."""
    commits, pages, at = [], [], HEAD
    size = FRAME_HEAD + int.from_bytes(log[8:12], 'big')
    while at + size <= len(log) and log[at + 8:at + 16] == log[16:24]:
        pages.append(log[at + FRAME_HEAD:at + size])
        if any(log[at + 4:at + 8]):
            commits.append(pages)
            pages = []
        at += size
    return commits, bool(pages) or len(log) > at and log[at + 9:at + 16] == log[17:24]


def end_of(log, count):
    """Where so many commits of a log end."""
    frames = sum(len(pages) for pages in commits_of(log)[0][:count])
    return HEAD + frames * (FRAME_HEAD + int.from_bytes(log[8:12], 'big'))


def rows_on(page):
    """How each row of a leaf begins, by its number."""
    rows = {}
    if page[0] != LEAF:
        return rows
    count, = struct.unpack_from('>H', page, 3)
    for at in struct.unpack_from(f'>{min(count, len(page) // 2 - 4)}H', page, 8):
        length, at = varint(page, at)
        number, at = varint(page, at)
        if page[at:at + 1] > bytes((STATION,)):
            rows[number] = page[at:at + min(length, START)]
    return rows


def varint(page, at):
    """A number of SQLite's, and the place behind it."""
    value = 0
    for place, byte in enumerate(page[at:at + 8], at + 1):
        value = value << 7 | byte & 127
        if byte < 128:
            return value, place
    return value, at + 9


def sizes(file, log):
    """How many rows each commit of the log has changed, which is not told of a log that may have been copied; and whether another one was begun."""
    commits, begun = commits_of(log)
    if not commits or sum(map(len, commits)) >= MOST - 1:
        return [], begun
    size, known, changed = int.from_bytes(log[8:12], 'big'), {}, []
    for at in range(size, len(file), size):
        known |= rows_on(file[at:at + size])
    for pages in commits:
        rows = {}
        for page in pages:
            rows |= rows_on(page)
        changed.append(sum(known.get(number) != row for number, row in rows.items()))
        known |= rows
    return changed, begun
