#!/usr/bin/env python3
"""Times saves of rows in a file beside the same statement through the stock SQLite library, in one run.

usage: puts.py FOLDER

FOLDER is on the disk to be measured and outside the repository. Needs `rt` on the path, a C compiler and SQLite's
header and library (`apt-get install libsqlite3-dev`), and `strace` where the syncs are to be counted. The first run
copies the crates to FOLDER/puts, and proves and builds the program puts/puts.rt.txt over them, in some minutes;
remove FOLDER/puts after a change of those crates.

Both programs make the two tables in a new file and save 2,000 rows of 500 numbers, with a vote for 64 frames each,
by one statement a row outside a transaction; both copy the log into the file as they close it. The peer has a log
beside the file, synced once at each commit (WAL, synchronous FULL), and holds the file alone. Ours does the same,
supposing as SQLite does that a write which power cuts off leaves each byte old or new; and a second time, as `wary`,
it supposes nothing of such a write and syncs twice.

It is seen that the files have equal rows and pass SQLite's integrity check. Then the programs run in turn, in 15
rounds, with all saves and with none. Printed are for each the least and the median time, the ratio of the least to
the peer's, and the median of the rounds' ratios, which tells most where the disk has other work; and the syncs of
one run.
"""
import contextlib
import os
import re
import shutil
import sqlite3
import statistics
import subprocess
import sys
import tempfile
import time

HERE = os.path.dirname(os.path.abspath(__file__))
CRATES = os.path.join(HERE, "..", "crates")
BELOW = ("protocol", "tape_frames", "ballots", "rows_table", "rows_saved", "acceptor_store")
PARTS = ("src", "specs", "proofs", "out/rlib")
SAVES, ROUNDS = 2000, 15


def copy_crate(name, work):
    """Copies a crate of the repository, and the library that was built of it, if one was."""
    for part in PARTS:
        if os.path.isdir(f"{CRATES}/{name}/{part}"):
            shutil.copytree(f"{CRATES}/{name}/{part}", f"{work}/crates/{name}/{part}", dirs_exist_ok=True)


def build_ours(work):
    """Returns the program over the store. It is built apart from the repository, whose gate knows nothing of it."""
    folder = f"{work}/crates/puts"
    if os.path.isfile(f"{folder}/out/puts"):
        return f"{folder}/out/puts"
    for name in BELOW:
        copy_crate(name, work)
    os.makedirs(f"{folder}/src", exist_ok=True)
    shutil.copy(f"{HERE}/puts/puts.rt.txt", f"{folder}/src/main.rt")
    with open(f"{HERE}/../crates.txt") as crates:
        lines = [line for line in crates if line.split(":")[0] in BELOW]
    with open(f"{work}/crates.txt", "w") as crates:
        crates.writelines([*lines, "puts: tape_frames ballots rows_saved acceptor_store sqlite anyhow\n"])
    with tempfile.TemporaryDirectory(dir=work) as made:
        subprocess.run(["rt", "run", "--", f"{made}/rows.db", "1"], cwd=folder, check=True)
    return f"{folder}/out/puts"


def build_peer(work):
    command = ["cc", "-O2", "-o", f"{work}/peer", f"{HERE}/puts/peer.c", "-lsqlite3"]
    if subprocess.run(command).returncode != 0:
        sys.exit("puts.py: no peer: apt-get install gcc libsqlite3-dev")
    return f"{work}/peer"


def run(words, work, saves, by=()):
    """Saves so many rows in a new file; returns how long it takes, the rows, and what it writes on standard error."""
    with tempfile.TemporaryDirectory(dir=work) as made:
        path = f"{made}/rows.db"
        begun = time.perf_counter()
        told = subprocess.run([*by, words[0], path, str(saves), *words[1:]], check=True, capture_output=True, text=True)
        taken = time.perf_counter() - begun
        with contextlib.closing(sqlite3.connect(path)) as base:
            if base.execute("PRAGMA integrity_check").fetchall() != [("ok",)]:
                sys.exit(f"puts.py: {words}: the file is damaged")
            return taken, base.execute("SELECT * FROM acceptor_row ORDER BY number").fetchall(), told.stderr


def see_equal_rows(programs, work):
    rows = {name: run(words, work, SAVES)[1] for name, words in programs.items()}
    for name, found in rows.items():
        if found != rows["SQLite"]:
            sys.exit(f"puts.py: {name}: other rows than the peer's")
    print(f"equal rows in each file: {len(rows['SQLite'])}")


def compare(programs, work, saves):
    taken = {name: [] for name in programs}
    for _ in range(ROUNDS):
        for name, words in programs.items():
            taken[name].append(run(words, work, saves)[0])
    peer = taken["SQLite"]
    for name, of in taken.items():
        least, median = min(of), statistics.median(of)
        beside = statistics.median(one / other for one, other in zip(of, peer))
        print(
            f"{saves} saves, {name}: least {least * 1000:.1f} ms, median {median * 1000:.1f} ms;"
            f" ratio of the least {least / min(peer):.2f}, median ratio {beside:.2f}"
        )


def count_syncs(programs, work):
    if not shutil.which("strace"):
        print("syncs not counted: apt-get install strace")
        return
    for name, words in programs.items():
        told = run(words, work, SAVES, ["strace", "-f", "-c", "-e", "trace=fsync,fdatasync"])[2]
        syncs = [f"{count} {call}" for count, call in re.findall(r"(\d+)\s+(fsync|fdatasync)\s*$", told, re.MULTILINE)]
        print(f"{SAVES} saves, {name}: {', '.join(syncs) or 'no sync'}")


def main():
    if len(sys.argv) != 2:
        sys.exit("usage: puts.py FOLDER")
    work = f"{os.path.abspath(sys.argv[1])}/puts"
    os.makedirs(work, exist_ok=True)
    peer, ours = build_peer(work), build_ours(work)
    programs = {"SQLite": [peer], "ours": [ours], "ours, wary": [ours, "wary"]}
    see_equal_rows(programs, work)
    for saves in (SAVES, 0):
        compare(programs, work, saves)
    count_syncs(programs, work)


main()
