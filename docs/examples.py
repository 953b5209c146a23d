#!/usr/bin/env python3
"""Runs the examples of README.md and docs/*.md, and compares what they print with the page, letter for letter.

usage: examples.py [--write] [--theorem | --quick] [PROGRAM]

An example is a block between ``` lines whose first line begins with `$ `. Each such line is a command; after a backslash it goes on in the next
line. Below it stands what it prints, on either stream. `...` stands for what differs each time, as a moment, a port or a path: letters, digits
and `_.:/+-`. It is no such mark beside a letter, a digit or a dot, as in the holes `o.o...`. A line `[...]` stands for any lines.

The examples of a page run in order, in one `sh` with LC_ALL=C. They begin in a new folder that has a copy of examples/ and of the drawings of
docs/. PROGRAM is `circuitd` on the path; if none is named, it is crates/circuitd/out/circuitd. A page that differs runs again, five times at
most, each time with pauses (`sleep 1`) and turns (`--turns 80`) twice as long: on a busy machine a station may need more time, or a second ballot.

An example that begins with ```sources builds from the sources: those of a page run once, in order, in one `sh` at the top of the repository,
with the toolchain. So does one that begins with ```theorem, with --theorem alone: it proves, and is for each version. Without `rt` on the path
both are skipped, and with --quick, too.

A block whose first line is `# needs ..`, as `# needs root`, is skipped. A block with a line `circuitd ..` is skipped so, or an example.

It prints a diff of each example that differs, what each skipped block needs, and in the last line how many there are. The status is 1 if one
differs. With --write the pages get what was printed; a line with `...` that fits stays as it is, and so do lines with `[...]` that fit.
"""
import difflib
import glob
import os
import re
import shutil
import signal
import subprocess
import sys
import tempfile

TOP = os.path.dirname(os.path.dirname(os.path.abspath(__file__)))
BUILT = os.path.join(TOP, "crates", "circuitd", "out", "circuitd")
# how long the examples of one page may take, how often they run, and how many times longer their pauses are each time
SECONDS = 120
TRIES = 5
SLOWER = 2
# how long those of one page that build from the sources may take
BUILD_SECONDS = 3600

BLOCK = re.compile(r"^```(\w*)\n(.*?)^```$", re.DOTALL | re.MULTILINE)
THEOREM = "theorem"
BUILDS = ("sources", THEOREM)
PAUSE = re.compile(r"((?:\bsleep|--turns) )(\d+)\b")
MARK = re.compile(r"(?<![\w.])\.\.\.(?![\w.])")
MARKED = r"[\w.:/+-]+"
GAP = "[...]\n"
PROMPT = "$ "
FLAGS = ("--write", "--theorem", "--quick")
NEEDS = "# needs "
# left out of the copy of examples/: what a run there leaves
LEFT = shutil.ignore_patterns("*.db*", "printed*", "__pycache__")
# printed after each command, to tell apart what each prints
END = "\x1e"
UNDONE = "(it did not end)\n"


def pages():
    return ["README.md"] + sorted(os.path.relpath(path, TOP) for path in glob.glob(os.path.join(TOP, "docs/*.md")))


def read(page):
    with open(os.path.join(TOP, page), encoding="utf-8") as file:
        return file.read()


def line_of(found):
    """The number of the first line of a block that was found in a page."""
    return found.string.count("\n", 0, found.start(2)) + 1


def blocks_of(page):
    """The blocks of a page, each with the number of its first line and the word that it begins with."""
    return [(line_of(found), *found.groups()) for found in BLOCK.finditer(read(page))]


def steps_of(example):
    """The commands of an example, each with the lines below it."""
    steps = []
    for line in example.splitlines(keepends=True):
        command, told = steps[-1] if steps else ("", "")
        if command.endswith("\\\n") and not told:
            steps[-1] = command + line, told
        elif line.startswith(PROMPT):
            steps.append((line, ""))
        else:
            steps[-1] = command, told + line
    return steps


# The run


def prepare(folder, program):
    """Puts what the examples need into a folder, and gives the folder of the program."""
    shutil.copytree(os.path.join(TOP, "examples"), os.path.join(folder, "examples"), ignore=LEFT)
    os.makedirs(os.path.join(folder, "docs"))
    for drawing in glob.glob(os.path.join(TOP, "docs/*.svg")):
        shutil.copy(drawing, os.path.join(folder, "docs"))
    out = os.path.join(folder, os.path.dirname(os.path.relpath(BUILT, TOP)))
    os.makedirs(out)
    shutil.copy(program, os.path.join(out, "circuitd"))
    return out


def end_all(shell):
    """Ends the shell and all that it started."""
    try:
        os.killpg(shell.pid, signal.SIGKILL)
    except ProcessLookupError:
        pass
    shell.wait()


def run_in(folder, environment, commands, seconds):
    """What each command prints, one after the other in one shell in a folder, for so many seconds at most."""
    script = "".join(f"{command}printf '{END}'\n" for command in commands)
    how = {"cwd": folder, "env": environment, "start_new_session": True}
    with tempfile.TemporaryFile() as output:
        shell = subprocess.Popen(["sh", "-c", script], stdin=subprocess.DEVNULL, stdout=output, stderr=output, **how)
        try:
            shell.wait(seconds)
        except subprocess.TimeoutExpired:
            pass
        finally:
            end_all(shell)
        output.seek(0)
        *printed, rest = output.read().decode(errors="replace").split(END)
    undone = [UNDONE] * (len(commands) - len(printed))
    return printed + [rest + UNDONE, *undone[1:]] if undone else printed


def run(commands, program, slower):
    """What each command prints in a new folder with what the examples need, with pauses and turns so many times as long."""
    slowed = [PAUSE.sub(lambda found: f"{found[1]}{slower * int(found[2])}", command) for command in commands]
    with tempfile.TemporaryDirectory() as folder:
        path = prepare(folder, program) + os.pathsep + os.environ["PATH"]
        return run_in(folder, {"PATH": path, "LC_ALL": "C", "HOME": folder}, slowed, SECONDS * slower)


def run_sources(commands):
    """What each command prints at the top of the repository."""
    return run_in(TOP, {**os.environ, "LC_ALL": "C"}, commands, BUILD_SECONDS)


# The comparison


def pattern_of(told):
    return MARKED.join(map(re.escape, MARK.split(told)))


def fits(line, printed):
    """Whether a line of a page is what was printed."""
    return re.fullmatch(pattern_of(line), printed) is not None


def fits_with_gaps(told, printed):
    """Whether lines of a page are what was printed, where a line `[...]` stands for any lines."""
    first, *later = map(pattern_of, told.split(GAP))
    if not later:
        return fits(told, printed)
    found = re.match(first, printed)
    for part in later:
        end = r"\Z" if part is later[-1] else ""
        found = found and re.compile(f"^{part}{end}", re.MULTILINE).search(printed, found.end())
    return found is not None


def with_marks(printed, told):
    """What was printed, but each line of the page that fits as it stands there."""
    if fits_with_gaps(told, printed):
        return told
    lines = told.split("\n")
    return "\n".join(next((line for line in lines[at:] + lines if fits(line, new)), new) for at, new in enumerate(printed.split("\n")))


def as_printed(examples, runs):
    """Examples that run so, each with what is printed in place of what stands there."""
    steps = [steps_of(example) for example in examples]
    printed = iter(runs([command.removeprefix(PROMPT) for step in steps for command, _ in step]))
    return ["".join(command + with_marks(next(printed), told) for command, told in step) for step in steps]


def as_printed_at_last(page, examples, program):
    """The examples of a page as they are printed in the first run in which nothing differs, or in the last one."""
    for count in range(TRIES):
        made = as_printed(examples, lambda commands: run(commands, program, SLOWER**count))
        if made == examples:
            break
        print(f"{page}: run {count + 1} differs", flush=True)
    return made


def diff(name, old, new):
    return "\n".join(difflib.unified_diff(old.split("\n"), new.split("\n"), name, "as it is printed", lineterm=""))


def write(page, made):
    """Puts what was made into a page, each block at its line."""

    def block(found):
        return found.group().replace(found.group(2), made.get(line_of(found), found.group(2)))

    text = BLOCK.sub(block, read(page))
    with open(os.path.join(TOP, page), "w", encoding="utf-8") as file:
        file.write(text)


def need_of(word, block, flags):
    """What a block needs for which it is skipped; None of one that runs."""
    if block.startswith(NEEDS):
        return block.splitlines()[0].removeprefix("# ")
    if word in BUILDS and "--quick" in flags:
        return "needs some minutes"
    if word == THEOREM and "--theorem" not in flags:
        return "needs --theorem"
    if word in BUILDS and shutil.which("rt") is None:
        return "needs rt"
    return None


def check(page, program, flags):
    """Tells what is wrong on a page and what is skipped. It counts the examples, the faults and the skipped blocks."""
    blocks = [(line, word, block, need_of(word, block, flags)) for line, word, block in blocks_of(page)]
    skipped = [f"skipped {page}:{line}: {need}" for line, _, _, need in blocks if need]
    runs = [(line, word, block) for line, word, block, need in blocks if not need]
    bare = [line for line, _, block in runs if not block.startswith(PROMPT) and re.search("^circuitd ", block, re.MULTILINE)]
    faults = [f"{page}:{line}: a block with a command begins with `{PROMPT}` or with `{NEEDS}..`" for line in bare]
    built = {line: block for line, word, block in runs if block.startswith(PROMPT) and word in BUILDS}
    played = {line: block for line, word, block in runs if block.startswith(PROMPT) and word not in BUILDS}
    made = dict(zip(built, as_printed(built.values(), run_sources))) if built else {}
    made |= dict(zip(played, as_printed_at_last(page, [*played.values()], program))) if played else {}
    old = built | played
    faults += [diff(f"{page}:{line}", old[line], made[line]) for line in sorted(old) if old[line] != made[line]]
    for told in faults + skipped:
        print(told, flush=True)
    if "--write" in flags and made != old:
        write(page, made)
    return len(old), len(faults), len(skipped)


def main():
    flags = [word for word in sys.argv[1:] if word in FLAGS]
    named = [word for word in sys.argv[1:] if word not in FLAGS]
    if len(named) > 1 or any(word.startswith("-") for word in named):
        sys.exit(__doc__)
    program = named[0] if named else BUILT
    if not os.path.exists(program):
        sys.exit(f"There is no program {program}: tools/build proves and builds it.")
    examples, faults, skipped = map(sum, zip(*(check(page, program, flags) for page in pages())))
    print(f"{examples} examples, {faults} faults, {skipped} skipped")
    sys.exit(1 if faults else 0)


main()
