#!/usr/bin/env python3
"""Runs each example of the program's own help, which has to print what stands there, byte for byte.

    examples/helps.py PROGRAM
"""

import os
import shutil
import sqlite3
import subprocess
import sys
import tempfile
import time

EXAMPLES = os.path.dirname(os.path.abspath(__file__))
COMMANDS = ["answer", "check", "draw", "chart", "punch", "spell", "fit", "rows", "upgrade", "check-config", "serve", "run", "rehearse", "import", "survey"]
# the rows that the help of `rows` lists, as the stock library saves them
TABLES = """
CREATE TABLE station (one INTEGER PRIMARY KEY CHECK (one = 1),
  layout INTEGER NOT NULL, circuit INTEGER NOT NULL,
  member INTEGER NOT NULL, members INTEGER NOT NULL) STRICT;
CREATE TABLE acceptor_row (number INTEGER PRIMARY KEY,
  promised_round INTEGER NOT NULL, promised_owner INTEGER NOT NULL,
  vote_round INTEGER, vote_owner INTEGER, tape BLOB) STRICT;
INSERT INTO station VALUES (1, 1, 7, 2, 3);
INSERT INTO acceptor_row VALUES (3, 1, 1, NULL, NULL, NULL);
INSERT INTO acceptor_row VALUES (12, 1, 3, 1, 1, x'010204');
"""
FOLDERS = '[folders]\noffers = "offers"\nreleases = "releases"\n\n'
LONGEST = 30


def examples_of(help_text):
    """The examples of a help: what is set in before the first, and each command with what it prints."""
    before, examples = "", []
    for line in help_text.splitlines(keepends=True)[usage_end(help_text):]:
        if line.startswith("  $ "):
            examples.append((line[4:].strip(), ""))
        elif line.startswith("  ") and examples:
            command, told = examples[-1]
            examples[-1] = (command, told + line[2:])
        elif line.startswith("  "):
            before += line[2:]
    return before, examples


def usage_end(help_text):
    """The place of the line behind the options, which are set in too."""
    lines = help_text.splitlines()
    blank = [at for at, line in enumerate(lines) if not line and at > lines.index("Options:")]
    return blank[0] if blank else len(lines)


def configure(work):
    """The configurations of three plants, each with folders, and these."""
    for member in 1, 2, 3:
        with open(f"{EXAMPLES}/station{member}.toml", encoding="utf-8") as file:
            head, stations = file.read().split("# where each member listens", 1)
        with open(f"{work}/station{member}.toml", "w", encoding="utf-8") as file:
            file.write(head + FOLDERS + "# where each member listens" + stations)
    os.mkdir(f"{work}/offers")
    os.mkdir(f"{work}/releases")


def prepare(work, name, script):
    """The files that the examples of a command are given."""
    for file in os.listdir(EXAMPLES):
        if file.endswith((".toml", ".tape")):
            shutil.copy(f"{EXAMPLES}/{file}", work)
    shutil.copy(f"{work}/flood.tape", f"{work}/story.tape")
    with open(f"{work}/story.script", "w", encoding="utf-8") as file:
        file.write(script)
    if name in ("rows", "upgrade"):
        made = sqlite3.connect(f"{work}/station2.db")
        made.executescript(TABLES)
        made.close()
    if name in ("check-config", "serve", "run"):
        configure(work)


def started(work, command):
    return subprocess.Popen(["bash", "-c", f"exec {command}"], cwd=work, stdout=subprocess.PIPE, text=True)


def first_of(process, told):
    """As much of what a station prints as stands in its help, or what it printed in half a minute."""
    source = process.stdout.fileno()
    os.set_blocking(source, False)
    printed, end = b"", time.monotonic() + LONGEST
    while len(printed) < len(told.encode()) and time.monotonic() < end:
        try:
            printed += os.read(source, 65536)
        except BlockingIOError:
            pass
        time.sleep(0.05)
    return printed.decode()


def serve(work, command, told, others):
    """What a station prints while others of its circuit serve; each is ended then."""
    processes = [started(work, other) for other in others]
    time.sleep(1)
    processes.append(started(work, command))
    printed = first_of(processes[-1], told)
    for process in processes:
        process.kill()
        process.wait()
    return printed


def stopped(work, command):
    """How a station that works with folders ends, once a file says so."""
    process = started(work, command)
    time.sleep(1)
    with open(f"{work}/offers/stop", "w", encoding="utf-8"):
        pass
    status = process.wait(timeout=LONGEST)
    return process.stdout.read() + ("" if status == 0 else f"status {status}\n")


def printed_by(work, name, command, told):
    if name == "serve":
        # of a search the help says only that it is made: it finds the story of the example before
        wanted = told or "release 12 01020301030204\n0001 J 0 0 a b _4 a _4 b\n"
        create = " --create" if "--create" in command else ""
        others = [f"circuitd serve station{member}.toml --turns 1200{create}" for member in (1, 2, 3)]
        others = [other for other in others if other.split()[2] not in command]
        printed = serve(work, command, wanted, others)
        return told if printed == wanted else printed
    if name == "run":
        return stopped(work, command)
    run = subprocess.run(["bash", "-c", command], cwd=work, stdout=subprocess.PIPE, stderr=subprocess.STDOUT, text=True, check=False)
    return run.stdout


def differing_in(name):
    """The examples of a command's help that print otherwise, in their order, in a folder of their own."""
    help_text = subprocess.run(["circuitd", name, "--help"], capture_output=True, text=True, check=False).stdout
    before, examples = examples_of(help_text)
    with tempfile.TemporaryDirectory() as work:
        prepare(work, name, before)
        runs = [(command, told, printed_by(work, name, command, told)) for command, told in examples]
    if not runs:
        return [f"the help of {name} has no example\n"]
    return [f"the help of {name} says otherwise than the program. This\n{command}\nprints\n{was}" for command, told, was in runs if was != told]


def main():
    os.environ["PATH"] = os.path.dirname(os.path.abspath(sys.argv[1])) + os.pathsep + os.environ["PATH"]
    differing = [text for name in COMMANDS for text in differing_in(name)]
    if differing:
        sys.exit("".join(differing))
    print("The program prints what its own help says.")


main()
