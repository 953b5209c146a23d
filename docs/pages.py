#!/usr/bin/env python3
"""Makes what the pages take from the sources, and checks what they link.

usage: pages.py [--check | --words | --crates]

It makes
  README.md        the sizes, between two comments
  docs/MAP.md and docs/PROVED.md   the line of each link into crates/: [`step`, `agreed`](../crates/..#L35) is the clause `agreed` of the
                   function `step`, and [wire/src/door.rt#admit](../crates/wire/src/door.rt#L43) the function `admit` of that file.

With --check nothing is written. It ends with 1, and a line for each fault, where one of these is not as the sources have it, where a link of
a page names no file, no heading or no function, or where the rooms of MAP.md are not the crates, each on none of a room above its own. That
their examples are as printed is checked by examples.py beside it. It prints the words of all pages, and how many of their lines hold a
sentence of more than 40 words; with --words it prints these figures of each page. They bound nothing.
With --crates it prints each crate of crates.txt, what it is by its own first sentence, and the crates that it stands on, without those that
it stands on through another one.
"""
import glob
import os
import re
import sys

TOP = os.path.dirname(os.path.dirname(os.path.abspath(__file__)))
MOST_WORDS = 40

# a function, a type or a word of specs/, and then its clauses or fields
BEGINS = r"^\s*(?:pub(?:\(crate\))? )?(?:abbrev pub|fn|pub data|pub record|data|record|struct|enum|trait) {}\b"
WITHIN = r"^\s*(?:ensures\*?|requires|pub) {}\b"
CLAUSE = re.compile(r"\[((?:`\w+`)(?:, `\w+`)*)\]\((\.\./crates/[^)#]+)#L\d+\)")
PLACE = re.compile(r"\[([\w/]+\.(?:rt|antt))#(\w+)\]\((\.\./crates/[^)#]+)(?:#L\d+)?\)")
LINK = re.compile(r"\]\(([^)\s]+)\)")
SIZES = re.compile(r"(<!-- sizes[^>]*-->\n)(.*?)(<!-- end of sizes -->)", re.DOTALL)

faults = []


def read(path):
    with open(os.path.join(TOP, path), encoding="utf-8") as file:
        return file.read()


def exists(path):
    return os.path.exists(os.path.join(TOP, path))


def pages():
    """README.md, CONTRIBUTING.md, CHANGELOG.md and docs/*.md."""
    return ["README.md", "CONTRIBUTING.md", "CHANGELOG.md"] + sorted(
        os.path.relpath(path, TOP) for path in glob.glob(os.path.join(TOP, "docs/*.md"))
    )


# Lines of links


def line_of(page, path, words):
    """The line, from 1, at which these words stand, the later ones within the first; 0 where they do not."""
    lines = read(path).splitlines() if exists(path) else []
    place, pattern = 0, BEGINS
    for word in words:
        found = next((i for i in range(place, len(lines)) if re.match(pattern.format(word), lines[i])), None)
        if found is None:
            faults.append(f"{page}: {path} has no {' '.join(words)}")
            return 0
        place, pattern = found + 1, WITHIN
    return place


def with_lines(page):
    """The text of a page, each link into crates/ at the line of what it names."""

    def clause(match):
        words = re.findall(r"\w+", match.group(1))
        return f"[{match.group(1)}]({match.group(2)}#L{line_of(page, match.group(2).removeprefix('../'), words)})"

    def place(match):
        named, word, path = match.groups()
        if path != f"../crates/{named}":
            faults.append(f"{page}: {named}#{word} links {path}")
        return f"[{named}#{word}](../crates/{named}#L{line_of(page, f'crates/{named}', [word])})"

    return PLACE.sub(place, CLAUSE.sub(clause, read(page)))


# The crates


def read_crates():
    """Each crate, those of tests, too, and those of the repository that it stands on."""
    named = {}
    for line in (read("crates.txt") + read("tests/crates/libraries.txt")).splitlines():
        if not line.startswith("#") and ":" in line:
            name, names = line.split(":")
            named[name] = names.split()
    return {name: [n for n in names if n in named] for name, names in named.items()}


def is_of_tests(name):
    return exists(f"tests/crates/{name}")


def folder_of(name):
    return f"tests/crates/{name}" if is_of_tests(name) else f"crates/{name}"


def reaches(below, name):
    return set(below[name]).union(*(reaches(below, n) for n in below[name]))


def nearest(below, name):
    """Those that a crate stands on and that none of the others stands on."""
    far = set().union(*(reaches(below, n) for n in below[name]))
    return sorted(n for n in below[name] if n not in far)


def sentence_of(name):
    """What a crate says of itself, in the first sentence of its first file; of a long one what stands before its colon."""
    root = next(root for root in ("lib.rt", "main.rt", "lib.rt.txt") if exists(f"{folder_of(name)}/src/{root}"))
    told = [line.removeprefix("//! ") for line in read(f"{folder_of(name)}/src/{root}").splitlines() if line.startswith("//!")]
    sentence = " ".join(told).partition(". ")[0].rstrip(".")
    return (sentence.partition(":")[0] if len(sentence.split()) > MOST_WORDS else sentence) + "."


def print_crates():
    below = read_crates()
    for name in below:
        print(f"{name}: {sentence_of(name)} Stands on: {', '.join(nearest(below, name)) or 'none'}.")


def check_rooms(below):
    """The drawing of MAP.md: each crate stands in one room, and what a room is `ON` is what its crates name, which is drawn below it."""
    drawing = re.search(r"^```\n(.*?)^```", read("docs/MAP.md"), re.DOTALL | re.MULTILINE).group(1)
    faults.extend(f"docs/MAP.md: more than 100 columns: {line}" for line in drawing.splitlines() if len(line) > 100)
    rooms = re.split(r"^\+-.*\n", drawing, flags=re.MULTILINE)
    drawn = [name for room in rooms for name in re.findall(r"[a-z_]+", room)]
    faults.extend(f"docs/MAP.md: {n} is drawn {drawn.count(n)} times" for n in sorted({*below, *drawn}) if drawn.count(n) != 1 or n not in below)
    number_of = {n: number for room in rooms for number in re.findall(r"^\| (\d) ", room) for n in re.findall(r"[a-z_]+", room)}
    for room in rooms:
        number, on = re.findall(r"^\| (\d) ", room), re.findall(r" ON ([\d ]+)\|", room)
        names = {number_of.get(u, "") for n in below if number_of.get(n) in number for u in below[n]} - {*number}
        if number and (names != {*"".join(on).split()} or max(names, default="0") > number[0]):
            faults.append(f"docs/MAP.md: room {number[0]} is on {' '.join(sorted(names))}")


# The sizes


def lines_below(crates, folder):
    """The lines of the sources in a folder of crates, to the next thousand."""
    found = (path for name in crates for path in glob.glob(os.path.join(TOP, f"{folder_of(name)}/{folder}/**/*.*t"), recursive=True))
    return f"{round(sum(read(path).count(chr(10)) for path in found), -3):,}"


def sizes(below):
    program, tests = [n for n in below if not is_of_tests(n)], [n for n in below if is_of_tests(n)]
    of_gate = glob.glob(os.path.join(TOP, "crates/*/must-fail/*.edit"))
    files = glob.glob(os.path.join(TOP, "contrib/wrong_bodies/*.edits"))
    others = [heading for path in files for heading in re.findall(r"^## ", read(path), re.MULTILINE)]
    return (
        f"In {len(program)} crates: {lines_below(program, 'src')} lines of code with contracts and comments, {lines_below(program, 'specs')} of definitions, "
        f"{lines_below(program, 'proofs')} of proofs. In {len(tests)} more, which are not proved: {lines_below(tests, 'src')} lines of tests.\n"
        f"Wrong bodies, which the prover has to refuse: {len(of_gate)} in the gate, {len(others):,} beside it.\n"
    )


# The links


def without_code(text):
    return re.sub(r"^```.*?^```", "", text, flags=re.DOTALL | re.MULTILINE)


def anchors_of(page):
    """The anchors of a page's headings, as GitHub makes them."""
    found = {}
    for heading in re.findall(r"^#+ (.*)$", without_code(read(page)), re.MULTILINE):
        text = re.sub(r"\[([^\]]*)\]\([^)]*\)", r"\1", heading).strip().lower()
        anchor = re.sub(r"[^\w\- ]", "", text).replace(" ", "-")
        count = found.get(anchor, 0)
        found[anchor] = count + 1
        yield f"{anchor}-{count}" if count else anchor


def check_links(page, anchors):
    for target in LINK.findall(without_code(read(page))):
        path, _, anchor = target.partition("#")
        if re.match(r"[a-z]+:", target):
            continue
        path = os.path.normpath(os.path.join(os.path.dirname(page), path)) if path else page
        if not exists(path):
            faults.append(f"{page}: no file {target}")
        elif anchor and path in anchors and anchor not in anchors[path]:
            faults.append(f"{page}: no heading {target}")


# The words


def sentences_of(text):
    """The sentences of each line of a page; the lines of one paragraph are one."""
    joined = re.sub(r"(?<=\S)\n(?=[^\s|#>*\-\d])", " ", without_code(text))
    for line in LINK.sub("]", joined).splitlines():
        yield [sentence for cell in line.split("|") for sentence in re.split(r"(?<=[.!?])[*)]* ", cell)]


def words_of_pages():
    """How many words each page has, and how many of its lines hold a sentence that is too long; then the same of all."""
    counts = []
    for page in pages():
        lines = [line for line in sentences_of(read(page)) if any(len(s.split()) > MOST_WORDS for s in line)]
        counts.append((len(read(page).split()), len(lines), page))
    return [*counts, (sum(words for words, _, _ in counts), sum(long for _, long, _ in counts), "in all")]


def print_words():
    counts = words_of_pages()
    print(f"  words  lines with a sentence above {MOST_WORDS}")
    print("\n".join(f"{words:7} {long:4}  {page}" for words, long, page in counts))


def main():
    if sys.argv[1:] not in ([], ["--check"], ["--words"], ["--crates"]):
        sys.exit(__doc__)
    if sys.argv[1:] == ["--words"]:
        return print_words()
    if sys.argv[1:] == ["--crates"]:
        return print_crates()
    below = read_crates()
    made = {page: with_lines(page) for page in ("docs/MAP.md", "docs/PROVED.md")}
    made["README.md"] = SIZES.sub(lambda match: match.group(1) + sizes(below) + match.group(3), read("README.md"))
    stale = [path for path, text in made.items() if not exists(path) or read(path) != text]
    if not sys.argv[1:] and not faults:
        for path in stale:
            with open(os.path.join(TOP, path), "w", encoding="utf-8") as file:
                file.write(made[path])
        stale = []
    faults.extend(f"{path}: not as the sources have it; run docs/pages.py" for path in stale)
    check_rooms(below)
    anchors = {page: set(anchors_of(page)) for page in pages()}
    for page in pages():
        check_links(page, anchors)
    words, long, _ = words_of_pages()[-1]
    print(f"{words:,} words; {long} lines hold a sentence of more than {MOST_WORDS}")
    if faults:
        sys.exit("\n".join(faults))


main()
