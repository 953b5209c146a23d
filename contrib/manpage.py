#!/usr/bin/env python3
"""Writes the manual pages of circuitd into a folder, from the texts of its own help: circuitd.1, and circuitd-COMMAND.1 for each command.

    contrib/manpage.py [PROGRAM [FOLDER]]

PROGRAM is the built program, `circuitd` on the path where none is named. FOLDER, contrib/man where none is named, is made where it is missing.
What the help does not tell, how a command ends and which files it works with, stands below.
"""
import os
import re
import subprocess
import sys

MAN = os.path.join(os.path.dirname(os.path.abspath(__file__)), "man")

# How a command ends. Each ends with 2 by a mistake of the line and by help, and with 5 where memory is refused.
DONE = "All was done."
FAULT = "An input has a fault, or an output can't be written: a line on standard error tells it."
LINE = "The command line has a mistake, or asks for help."
ROWS = "The row file is refused or can't be read, or a save failed: a second line tells why."
SOCKET = "The socket failed: the address is none of this host's or is taken, or the network took nothing."
MEMORY = "Out of memory."
BUSY = "Another process works with a folder of the plant: try again later."
PLAIN = {0: DONE, 1: FAULT, 2: LINE, 5: MEMORY}
OVER_ROWS = PLAIN | {3: ROWS}
STATIONS = OVER_ROWS | {4: SOCKET}
ENDS = {
    "answer": PLAIN | {1: "The input or the output failed."},
    "check": PLAIN | {1: "The tape does not set, or an input has a fault."},
    "draw": PLAIN | {1: "The tape does not set, and was drawn; or an input has a fault."},
    "chart": PLAIN,
    "punch": PLAIN,
    "spell": PLAIN,
    "fit": PLAIN | {1: "A line does not set, or an input has a fault."},
    "rows": OVER_ROWS,
    "upgrade": OVER_ROWS,
    "init": PLAIN | {0: "All stands there: it was made, or was there already."},
    "create": OVER_ROWS,
    "check-config": PLAIN | {0: "No fault was found.", 1: "A fault was found."},
    "serve": STATIONS,
    "run": STATIONS | {0: "The station was ended by a file stop.", 6: BUSY},
    "stop": PLAIN | {0: "The station has ended, or none runs.", 1: "The configuration or a folder has a fault, or the station has not ended in 30 seconds."},
    "status": PLAIN | {0: "The station is well.", 1: "It is not well.", 3: "Nothing can be told of it."},
    "rehearse": PLAIN,
    "import": PLAIN | {1: "An input has a fault, a file can't be made, or a tape is too long."},
    "survey": PLAIN,
}

# The files that a command works with. Paths in a configuration begin in the folder that the command is started in.
TABLES = [("codes.toml, widths.toml", "the code table and the widths")]
CONFIG = [("station.toml", "the configuration of the station, CONFIG")]
STORE = [
    ("station.db, station.db-wal", "the row file and its log, which the configuration names: never remove, copy or put back one of them"),
    ("station.db.kept, station.db.kept-wal", "what the two held, if they were replaced while a station was up: no command opens or makes the row file beside them"),
]
KEY = [("circuit.key", "the key of the circuit, where the configuration names it; nobody but its owner may read it")]
FOLDERS = [
    ("offers/", "what is handed over; offers/sent, offers/lost, offers/refused and offers/done are made in it"),
    ("releases/", "what the circuit has agreed on; releases/.released keeps which numbers went out"),
    ("status.txt", "how the station stands, where the configuration names it"),
]
FILES = {
    "check": TABLES, "draw": TABLES, "chart": TABLES, "fit": TABLES, "survey": TABLES, "rehearse": TABLES,
    "punch": TABLES[:1], "spell": TABLES[:1],
    "rows": STORE, "upgrade": STORE,
    "init": [
        ("FOLDER/station.toml", "the configuration"),
        ("FOLDER/codes.toml, FOLDER/widths.toml", "copies of the code table and of the widths"),
        ("FOLDER/circuit.key", "the key, with mode 600"),
        ("FOLDER/offers/, FOLDER/releases/", "folders, which are empty"),
        ("FOLDER/before.txt", "with --from, the numbers that went out at the old plant"),
        ("FOLDER/plant1/, FOLDER/plant2/, ..", "with --all, the plants in which these lie"),
    ],
    "create": CONFIG + STORE,
    "check-config": CONFIG + TABLES + KEY + FOLDERS + STORE,
    "serve": CONFIG + TABLES + KEY + STORE,
    "run": CONFIG + TABLES + KEY + FOLDERS + STORE,
    "stop": CONFIG + [("offers/stop", "the file that is laid")],
    "status": CONFIG + FOLDERS[2:],
    "import": [("DIR/001.tape, DIR/002.tape, ..", "the tapes")],
}
ALL_FILES = [("/var/lib/circuitd/NAME/", "the folder of a plant under systemd, where circuitd@NAME.service runs its station")] + CONFIG + TABLES + KEY + FOLDERS + STORE


def printed(program, *words):
    """What the program prints on these words."""
    ran = subprocess.run([program, *words], stdout=subprocess.PIPE, stderr=subprocess.DEVNULL, encoding="utf-8", check=False)
    return ran.stdout


def escaped(text):
    """A text as troff takes it: its backslashes, hyphens and quotes as they stand."""
    text = text.replace("\\", "\\e").replace("-", "\\-").replace("'", "\\(aq").replace("`", "\\(ga")
    return "\n".join("\\&" + line if line.startswith(".") else line for line in text.split("\n"))


def parts_of(help_text):
    """The sentence of a help, its usage, its lists by their headings, and the lines behind them."""
    blocks = help_text.rstrip("\n").split("\n\n")
    about, usage, lists, rest = blocks[0], "", [], []
    for block in blocks[1:]:
        head, _, body = block.partition("\n")
        if head.startswith("Usage: "):
            usage = head[len("Usage: "):]
        elif not rest and head in ("Arguments:", "Options:", "Commands:"):
            lists.append((head[:-1], [line for line in body.split("\n") if line]))
        else:
            rest.append(block)
    return about, usage, lists, rest


def commands_of(program):
    """The names of the commands, each with its sentence, in the order of the help."""
    lines = dict(parts_of(printed(program, "--help"))[2])["Commands"]
    listed = [re.sub(r"^ +", "", line).partition("  ") for line in lines]
    return [(name, text.strip()) for name, _, text in listed if name != "help"]


def entry(name, text):
    """An argument, an option or a file, and what is said of it."""
    return f".TP\n.B {escaped(name)}\n{escaped(text)}"


def option(line):
    """The same of a line of the help: they stand apart by two spaces at least."""
    name, _, text = re.sub(r"^ +", "", line).partition("  ")
    return entry(name, text.strip())


def examples(blocks):
    """What stands behind the lists: sentences as they stand, and lines that are set in as they are typed."""
    out = []
    for block in blocks:
        lines = block.split("\n")
        while lines:
            typed = lines[0].startswith("  ")
            same = [i for i, line in enumerate(lines) if line.startswith("  ") != typed]
            end = same[0] if same else len(lines)
            text = escaped("\n".join(lines[:end]))
            out.append(f".PP\n.RS\n.nf\n{text}\n.fi\n.RE" if typed else f".PP\n{text}")
            lines = lines[end:]
    return out


def sentence(text):
    """A sentence of the help as it stands behind the name."""
    return escaped(text[0].lower() + text[1:])


def statuses(ends):
    """The section of how a command ends."""
    return [".SH EXIT STATUS"] + [entry(str(status), ends[status]) for status in sorted(ends)]


def files(named):
    """The section of the files that a command works with, if there are such."""
    return [".SH FILES"] + [entry(name, text) for name, text in named] if named else []


def page_of(program, version, name):
    """The page of a command."""
    about, usage, lists, rest = parts_of(printed(program, name, "--help"))
    title = f"CIRCUITD\\-{escaped(name.upper())}"
    out = [
        f'.TH {title} 1 "" "{version}" "User Commands"',
        f".SH NAME\ncircuitd\\-{escaped(name)} \\- {sentence(about)}",
        f".SH SYNOPSIS\n.B {escaped(usage)}",
        f".SH DESCRIPTION\n{escaped(about)}.",
    ]
    lines = [line for _, listed in lists for line in listed if not line.lstrip().startswith("-h, ")]
    if lines:
        out.append(".SH OPTIONS")
        out += [option(line) for line in lines]
    if rest:
        out.append(".SH EXAMPLES")
        out += examples(rest)
    out += statuses(ENDS[name]) + files(FILES.get(name))
    return "\n".join([*out, ".SH SEE ALSO\n.BR circuitd (1)"]) + "\n"


def page_of_all(program, version):
    """The page of the program, which names those of its commands."""
    about, usage, lists, _ = parts_of(printed(program, "--help"))
    out = [
        f'.TH CIRCUITD 1 "" "{version}" "User Commands"',
        f".SH NAME\ncircuitd \\- {sentence(about)}",
        f".SH SYNOPSIS\n.B {escaped(usage)}",
        f".SH DESCRIPTION\n{escaped(about)}. Each command has a page of its own, as circuitd\\-run(1).",
        ".SH OPTIONS",
        *[option(line) for line in dict(lists)["Options"]],
        ".SH COMMANDS",
    ]
    out += [f".TP\n.BR circuitd\\-{escaped(name)} (1)\n{escaped(text)}" for name, text in commands_of(program)]
    out += statuses(STATIONS | {6: BUSY})
    out.append(".PP\nThe commands status, stop and check\\-config have meanings of their own.")
    out += files(ALL_FILES)
    pages = ", ".join(f"circuitd\\-{escaped(name)}(1)" for name, _ in commands_of(program))
    return "\n".join([*out, f".SH SEE ALSO\n{pages}"]) + "\n"


def pages(program):
    """All pages, by the names of their files."""
    version = printed(program, "--version").strip()
    made = {"circuitd.1": page_of_all(program, version)}
    made.update((f"circuitd-{name}.1", page_of(program, version, name)) for name, _ in commands_of(program))
    return made


def main():
    program = sys.argv[1] if len(sys.argv) > 1 else "circuitd"
    folder = sys.argv[2] if len(sys.argv) > 2 else MAN
    os.makedirs(folder, exist_ok=True)
    for name, text in pages(program).items():
        with open(os.path.join(folder, name), "w", encoding="utf-8") as file:
            file.write(text)


if __name__ == "__main__":
    main()
