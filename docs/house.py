#!/usr/bin/env python3
"""Counts from the sources how far the house is in order, a line for each figure.

usage: house.py [--list | --check]

Functions and types are counted in all crates, clauses and the walk in all but those of tests.
  clauses   Each `ensures` and `requires` of a function, on however many lines. It is repeated where one of the same word, name and text
            stands before it in another place; white space does not count. So of three that are alike two are repeated. It is long where
            its text, which is what stands between its braces, has more than 160 characters.
  functions of more than four parameters. `self` is not counted.
  types     Names of structs, enums, traits and types, private ones too, that several have.
  the walk  What a reader passes from the call `take_datagram`, by which an Accept is taken in, to the file of its galley. LEGS are the calls
            that the loop makes for it, each with the calls in which it ends. A function lies on the way where a leg begins with it, or calls
            it, be it through others, and it is an end of that leg, or calls one in the same manner. The walk are the functions on the way,
            and those that they call. Functions of a file `laws.rt`, which do nothing, are not counted.

Who calls whom is told from names, without a type checker. A call goes to the methods of the types that its value has, as parameters, fields,
answers and patterns tell; where they can't be told, to those of all types that the function has in hand. In place of a trait stands the type
that a station under `run` has. Left out are the ways of a `match` or an `if` that an Accept does not come by or that refuse, and what a `let`
does else. Operators, conversions and what a macro writes are no calls.

  what it gives                                    0.2.0          before             now
  clauses                                          2,698           6,022           4,201
  repeated                                           791           1,626             259
  long                                                22              78               0
  functions                                          157             128               0
  types                                               51             118               0
  functions, files and crates of the walk    143, 49, 21     178, 68, 27     130, 48, 16

0.2.0 is 504be7e1, and before is c260e571, before contracts were said once. 0.2.0 had no groups of steps: its legs were `take_datagram`
of `serve_command`, which ended in `put_entry` too, `hand_on` of `run_command`, which ended in `galley` and `send`, and then `prepare` and `put`
of the folders of the host, which ended in `fill` and `finish`. The Accept is the first vote for a number that was not released, under `run`, in layout 2,
without a key.

With --list the items behind each figure are printed as well. With --check it ends with 1 where more clauses are repeated, more are long or
more functions have many parameters than may be. The other figures are printed and bound nothing.
"""
import collections
import functools
import glob
import os
import re
import sys

TOP = os.path.dirname(os.path.dirname(os.path.abspath(__file__)))

# What the figures of clauses and parameters may be at most: they may go down, and never up. The others have no bound, since a page or a
# shape may be worth more than a count.
MOST_REPEATED, MOST_LONG, MOST_FUNCTIONS = 259, 0, 0
MOST_CHARACTERS, MOST_PARAMETERS = 160, 4
# names that several types may have
ALLOWED = set()

# where the walk goes: a crate's function, and those of its calls in which the leg ends
LEGS = [
    (
        "driver/take_datagram",
        ["wire/receive", "packets/body_of", "acceptor/accept", "learner/hear", "line_check/check", "packets/put_body", "rows_saved/put"],
    ),
    ("driver/hold", ["line_check/galley"]),
    ("driver/settle_group", ["rows_table/stage_entry", "wire/send", "host_folders/put_all"]),
    ("host_folders/put_all", ["host_folders/fill", "host_folders/name_as"]),
]
# what stands in place of a trait there
IN_PLACE_OF = {
    ("rows_saved", "Rows"): ("rows_saved", "Grouped"),
    ("rows_saved", "Settles"): ("rows_saved", "Grouped"),
    ("rows_saved", "SavesAll"): ("acceptor_store", "SqliteRows"),
    ("wire", "Wire"): ("wire", "GuardedWire"),
    ("wire", "Door"): ("wire", "PlainDoor"),
    ("wire", "Socket"): ("wire", "UdpSocket"),
    ("folders", "Folders"): ("host_folders", "HostFolders"),
    ("driver", "Sink"): ("run_command", "PlantDesk"),
    ("driver", "Desk"): ("run_command", "PlantDesk"),
}
# the ways that are not walked: other packets, other events, no tape, one that was set as it was offered, layout 1, and what is refused
ASIDE = set("Prepare Promise Accepted Nack Offer Seek Due Recall Void checked One Err Failed Nothing Refused Silent Again".split())
# and those behind a question: of a number that was released
ASKED = {"released"}

UNREAD = re.compile(r"""//[^\n]*|b?"(?:\\.|[^"\\])*"|b?'(?:\\(?:x\w\w|u\{\w+\}|.)|[^'\\\n])'""", re.DOTALL)
CLAUSE = re.compile(r"\b(ensures\*?|requires) *(\w*) *(?=\{)")
ANGLES = r"<(?:[^<>]|<(?:[^<>]|<[^<>]*>)*>)*>"
FUNCTION = re.compile(rf"\bfn (\w+)({ANGLES})?(?=\()")
BLOCK = re.compile(rf"^(?:pub(?:\(crate\))? )?(impl|trait)({ANGLES})? ([^{{;]*)(?=\{{)", re.MULTILINE)
TYPE = re.compile(rf"^(?:pub(?:\(crate\))? )?(struct|enum|trait|type) (\w+)({ANGLES})?", re.MULTILINE)
ARM = re.compile(r"^ *(\S[^\n]*?) =>\s*", re.MULTILINE)
CALL = re.compile(r"(\.\s*|(?:\w+(?:::<[^()]*?>)?::)+)?\b([a-z_]\w*)(?:::<[^()]*?>)?\(")
HEAD = re.compile(r"((?:\w+(?:::<[^()]*?>)?::)+)?(\w+)(?:::<[^()]*?>)?(?![\w!])")
STEP = re.compile(r"\s*(?:\.\s*(\w+)(?:::<[^()]*?>)?\(?|\?|\[)")
SHAPE = re.compile(r"(?:\w+::)*(\w*)\s*[({]")
BIND = re.compile(r"\b(?:(let) (?:mut )?|(for) |(match) )")


# A text


def blank(text):
    return re.sub(r"[^\n]", " ", text)


def without(text, begin, end):
    """The text, with blanks in place of what stands between these places."""
    return text[:begin] + blank(text[begin:end]) + text[end:]


def outside(text, place, ends):
    """The first place from this one at which one of the ends stands, outside of brackets that are opened on the way."""
    depth = 0
    for at in range(place, len(text)):
        if depth == 0 and text[at] in ends:
            return at
        depth += (text[at] in "([{") - (text[at] in ")]}")
    return len(text)


def behind(text, place):
    """The place behind the bracket that closes the one at this place."""
    return outside(text, place + 1, ")]}") + 1


def parts(text, sign=","):
    """What stands between the commas of a text, or between another sign, outside of brackets."""
    plain, depth, found = text.replace("->", "  "), 0, [""]
    for at, character in enumerate(plain):
        depth += (character in "([{<") - (character in ")]}>")
        if character == sign and depth == 0:
            found.append("")
        else:
            found[-1] += text[at]
    return [part.strip() for part in found if part.strip()]


def words_of(text):
    return set(re.findall(r"\w+", text))


def began(text):
    """Where the value begins that a text ends with: a name, its fields, calls and places."""
    depth = 0
    at = len(text) - 1
    while at >= 0:
        if text[at] in ")]":
            depth += 1
        elif text[at] in "([":
            if depth == 0:
                break
            depth -= 1
        elif depth == 0 and text[at].isspace():
            rest, front = text[at + 1 :].lstrip(), text[:at].rstrip()
            if not (rest.startswith(".") or front.endswith(".") or not rest):
                break
        elif depth == 0 and not (text[at].isalnum() or text[at] in "_.:?"):
            break
        at -= 1
    return at + 1


def bound_in(body):
    """The names that a body binds, in order: from which place on, the pattern, the type that is told, and the value."""
    for match in BIND.finditer(body):
        begin = match.end()
        if match.group(1):
            sign = outside(body, begin, "=;")
            pattern, _, told = body[begin:sign].partition(":") if "::" not in body[begin:sign] else (body[begin:sign], "", "")
            end = outside(body, sign + 1, ";{")
            yield end, pattern.strip(), told, re.sub(r"\selse\s*$", "", body[sign + 1 : end])
        elif match.group(2):
            brace = outside(body, begin, "{")
            pattern, _, value = body[begin:brace].partition(" in ")
            yield brace, pattern.strip(), "", value
        else:
            brace = outside(body, begin, "{")
            value, end = body[begin:brace], behind(body, brace)
            for arm in re.finditer(r"^ *(\S[^\n]*?) =>", body[brace:end], re.MULTILINE):
                yield brace + arm.start(), arm.group(1).partition(" if ")[0], "", value


# A file


Clause = collections.namedtuple("Clause", "place keyword name text")


class Function:
    """A function: where it stands, of which trait and type it is, its parameters as texts, what it answers, and its body."""

    def __init__(self, source, match):
        text, (self.name, generics) = source.text, match.groups()
        close = behind(text, match.end())
        begin = outside(text, close, "{;")
        self.source, self.place = source, source.place_of(match.start())
        outer, self.trait, self.type = source.block_at(match.start())
        self.bounds = {**bounds_of(outer), **bounds_of(generics)}
        self.parameters, self.answer = parts(text[match.end() + 1 : close - 1]), text[close:begin]
        self.body = walked(text[begin : behind(text, begin)]) if text[begin] == "{" else ""
        self.owner, self.is_law = None, source.path.endswith("/laws.rt")

    def __str__(self):
        return f"{self.place}: {self.type + '::' if self.type else ''}{self.name}"


class Type:
    """A type: where it stands, its kind, and what stands in its brackets."""

    def __init__(self, source, match):
        text, (self.kind, name, generics) = source.text, match.groups()
        begin = outside(text, match.end(), "{(=;")
        end = outside(text, begin + 1, "})") if text[begin] in "{(" else outside(text, begin, ";")
        self.source, self.place, self.key = source, source.place_of(match.start()), (source.crate, name)
        self.bounds, self.body = bounds_of(generics), text[begin + 1 : end]

    def members(self):
        """The fields of a struct, or the variants of an enum, each with a text that has its types."""
        for number, part in enumerate(parts(self.body) if self.kind in ("struct", "enum") else []):
            part = re.sub(r"\bpub(\([^)]*\))? ?", "", part)
            name = re.match(r"\w+(?=:)" if self.kind == "struct" else r"\w+", part)
            yield (name.group(0) if name else str(number)), part


def bounds_of(generics):
    """The words that bound each type of a list of generics, if there is one."""
    pairs = [part.partition(":") for part in parts((generics or "<>")[1:-1])]
    return {name.strip(): words_of(text) for name, _, text in pairs if text}


def is_aside(way):
    """Whether a way of a `match` is one that is not walked: each of its patterns has a word for that."""
    return all(words_of(pattern) & ASIDE for pattern in way.partition(" if ")[0].strip("| ").split("|"))


def walked(body):
    """A body without the ways that are not walked: of a `match`, of an `if`, and what a `let` does else."""
    for arm in ARM.finditer(body):
        if is_aside(arm.group(1)):
            begin, guard = arm.end(), arm.start(1) + len(arm.group(1).partition(" if ")[0])
            body = without(body, begin, behind(body, begin) if body[begin] == "{" else outside(body, begin, ",}"))
            body = without(body, guard, arm.end(1))
    for test in re.finditer(r"\bif (?:let (.*?) = |matches!\([^,]*, (.*)\) )?", body):
        begin = outside(body, test.end(), "{")
        end = behind(body, begin) if begin < len(body) else begin
        refuses = re.search(r"\breturn Err\([^;]*\);\s*\}$", body[begin:end])
        asked = words_of(body[test.end() : begin]) & ASKED
        if refuses or asked or is_aside(test.group(1) or test.group(2) or ""):
            body = without(body, begin, end)
    for other in re.finditer(r"(?<=[^}\s])\s+else (?=\{)", body):
        body = without(body, other.end(), behind(body, other.end()))
    return body


class Source:
    """A file of a crate: what it declares, and what it uses of other files."""

    def __init__(self, path):
        self.path, self.crate = path, re.search(r"crates/(\w+)/", path).group(1)
        with open(os.path.join(TOP, path), encoding="utf-8") as file:
            written = file.read()
        self.text = UNREAD.sub(lambda match: blank(match.group(0)), written)
        self.clauses = [self.clause_at(match, written) for match in CLAUSE.finditer(self.text)]
        for match in CLAUSE.finditer(self.text):
            self.text = without(self.text, match.start(), behind(self.text, match.end()))
        for match in re.finditer(r"\bghost\b", self.text):
            self.text = without(self.text, match.start(), outside(self.text, match.start(), ";") + 1)
        self.text = re.sub(r"#!?\[[^\]]*\]", lambda match: blank(match.group(0)), self.text)
        self.uses = {}
        for match in re.finditer(r"\buse ([^;]+);", self.text):
            self.use("", match.group(1))
        self.blocks = [self.block_of(match) for match in BLOCK.finditer(self.text)]
        self.types = [Type(self, match) for match in TYPE.finditer(self.text)]
        self.functions = [Function(self, match) for match in FUNCTION.finditer(self.text)]

    def clause_at(self, match, written):
        text = written[match.end() + 1 : behind(self.text, match.end()) - 1]
        return Clause(self.place_of(match.start()), match.group(1), match.group(2), " ".join(text.split()))

    def place_of(self, at):
        return f"{self.path}:{self.text.count(chr(10), 0, at) + 1}"

    def use(self, before, used):
        """Notes what is used: for each name the crate and its path."""
        path, brace, _ = used.strip().partition("{")
        if brace:
            for part in parts(used[used.index("{") + 1 : used.rindex("}")]):
                self.use(before + path.strip(), part)
        else:
            path, _, name = (before + path).partition(" as ")
            names = path.removesuffix("::self").split("::")
            crate = names[0] if os.path.isdir(os.path.join(TOP, "crates", names[0])) else self.crate
            self.uses[name or names[-1]] = (crate, names)

    def block_of(self, match):
        """Where the block of a type or a trait begins and ends, and then its generics, its trait, and the type that has it."""
        trait, _, name = re.sub(ANGLES, "", f" for {match.group(3)}").rpartition(" for ")
        last = [re.match(r"\W*(?:\w+::)*(\w*)", path.removeprefix(" for ")).group(1) for path in (trait, name)]
        return match.start(), behind(self.text, match.end()), match.group(2), *last

    def block_at(self, at):
        return next((block[2:] for block in self.blocks if block[0] < at < block[1]), (None, "", ""))


def is_of_tests(crate):
    return crate.endswith("_tests") or crate == "fixtures"


def read_sources():
    """Those that are proved, and those of the tests, which are not."""
    paths = [path for pattern in ("crates/*/src/**/*.rt", "tests/crates/*/src/**/*.rt.txt") for path in glob.glob(pattern, root_dir=TOP, recursive=True)]
    return [Source(path) for path in sorted(paths)]


# Who calls whom


class Calls:
    """Which functions each function calls."""

    def __init__(self, sources):
        self.types = {declared.key: declared for source in sources for declared in source.types}
        self.handed_on = {source.crate: source.uses for source in sources if source.path.endswith("/src/lib.rt")}
        self.free, self.methods, self.traits = (collections.defaultdict(list) for _ in range(3))
        for source in sources:
            for function in source.functions:
                self.note(source, function)

    def note(self, source, function):
        if not function.type:
            self.free[source.crate, function.name].append(function)
            return
        function.owner = next(iter(self.types_in(function.type, source, {})), (source.crate, function.type))
        self.methods[function.owner, function.name].append(function)
        self.traits[function.owner].extend(self.types_in(function.trait, source, {}))

    def home_of(self, source, name):
        """The crate from which a file has a name, and its name there; a crate may hand on what is of another."""
        crate, names = source.uses.get(name, (source.crate, [name]))
        while crate != (further := self.handed_on.get(crate, {}).get(names[-1], (crate, names)))[0]:
            crate, names = further
        return crate, names[-1]

    def types_in(self, text, source, bounds, owner=None):
        """The types that a text of a file names: of a generic one its bounds, of another name what it stands for."""
        found = set()
        for word in words_of(text):
            declared = self.types.get(self.home_of(source, word))
            if word == "Self" and owner:
                found.add(owner)
            elif word in bounds:
                found |= self.types_in(" ".join(bounds[word]), source, {})
            elif declared and declared.kind == "type":
                found |= self.types_in(declared.body, declared.source, {})
            elif declared:
                found.add(declared.key)
        return found

    @functools.cache
    def members(self, key):
        """The types of each field or variant of a type."""
        declared = self.types.get(key)
        return {name: self.types_in(text, declared.source, declared.bounds, key) for name, text in declared.members()} if declared else {}

    def methods_of(self, keys, name):
        found = []
        for key in {IN_PLACE_OF.get(key, key) for key in keys}:
            found += self.methods[key, name] or [method for trait in set(self.traits[key]) for method in self.methods[trait, name]]
        return [function for function in found if function.body]

    def within(self, keys, names):
        """The types of a value's field, of the field of that one, and so on."""
        for name in names:
            keys = set().union(*(self.members(IN_PLACE_OF.get(key, key)).get(name, set()) for key in keys))
        return keys

    def plain(self, function, name):
        """The functions of this name that a file declares, or uses."""
        source = function.source
        if name not in source.uses:
            return [other for other in self.free[source.crate, name] if other.source is source]
        return self.in_module(*self.home_of(source, name), source.uses[name][1][-2])

    def in_module(self, crate, name, module):
        found = self.free[crate, name]
        return [other for other in found if module in re.split(r"[/.]", other.source.path)] or found

    def by_path(self, function, path, name):
        """What a call by the path of a type, of a module or of a crate goes to."""
        names = [part for part in re.sub(ANGLES, "", path).split("::") if part]
        keys = self.types_in(names[-1], function.source, function.bounds, function.owner) or {tuple(names[-2:])} & self.types.keys()
        if keys:
            return self.methods_of(keys, name)
        source = function.source
        crate, _ = source.uses.get(names[-1], (names[0], names))
        return self.in_module(source.crate if crate in ("crate", "super", "self") else crate, name, names[-1])

    def value(self, function, text, known):
        """The types of a value: of a name, of its fields, and of what its methods answer; `None` where they can't be told."""
        text = text.strip().lstrip("&*").removeprefix("mut ").strip()
        head = HEAD.match(text)
        if not head:
            return None
        path, name = head.groups()
        at = head.end()
        if text[at : at + 1] == "(":
            found = self.by_path(function, path, name) if path else self.plain(function, name)
            keys = self.answers_of(found) if found else path and self.types_in(path, function.source, function.bounds, function.owner)
            keys = keys or self.value(function, text[at + 1 : behind(text, at) - 1], known)
            at = behind(text, at)
        else:
            keys = self.types_in(path, function.source, function.bounds, function.owner) if path else known.get(name)
        while keys is not None and at < len(text):
            step = STEP.match(text, at)
            if not step:
                return None
            at, name = step.end(), step.group(1)
            if text[at - 1] in "([":
                found, at = self.methods_of(keys, name) if name else [], behind(text, at - 1)
                keys = self.answers_of(found) if found else keys
            elif name:
                keys = self.within(keys, [name])
        return keys

    def answers_of(self, functions):
        return set().union(*(self.types_in(other.answer, other.source, other.bounds, other.owner) for other in functions))

    def bind(self, function, pattern, keys, known):
        """Notes the types of the names that a pattern binds, where these are the types of the value."""
        pattern = pattern.strip().lstrip("&|").removeprefix("mut ").removeprefix("ref ").strip()
        ways, shape = parts(pattern, "|"), SHAPE.match(pattern)
        if len(ways) > 1:
            for way in ways:
                self.bind(function, way, keys, known)
        elif re.fullmatch(r"[a-z_]\w*", pattern):
            known[pattern] = keys
        elif shape:
            name, begin = shape.group(1), shape.end() - 1
            for part in parts(pattern[begin + 1 : behind(pattern, begin) - 1]):
                field, colon, inner = part.partition(":") if pattern[begin] == "{" and "::" not in part.partition("(")[0] else (part, "", "")
                one = self.types_in(name, function.source, function.bounds, function.owner) & (keys or set())
                within = keys and (self.within(one, [field.strip()]) if one else self.within(keys, [name]) or keys)
                self.bind(function, inner if colon else part, within, known)

    def bind_value(self, function, pattern, value, known):
        several = [text.strip()[1:-1] for text in (pattern, value) if re.fullmatch(r"\(.*\)", text.strip(), re.DOTALL)]
        if len(several) == 2:
            for part, of in zip(*map(parts, several)):
                self.bind_value(function, part, of, known)
        else:
            self.bind(function, pattern, self.value(function, value, known), known)

    def with_locals(self, function, known):
        """What is known of parameters, and of the names that a body binds, from which place on: the last first."""
        found = [(0, known)]
        for place, pattern, told, value in sorted(bound_in(function.body), key=lambda bound: bound[0]):
            known = dict(known)
            if told:
                known[pattern] = self.types_in(told, function.source, function.bounds, function.owner)
            else:
                self.bind_value(function, pattern, value, known)
            found.insert(0, (place, known))
        return found

    def on_value(self, function, before, name, known, in_hand):
        keys = self.value(function, before[began(before) :], known)
        return self.methods_of(in_hand if keys is None else keys, name)

    def callees(self, function, known, in_hand):
        for call in CALL.finditer(function.body):
            path, name = call.groups()
            if not path:
                yield from self.plain(function, name)
            elif path.startswith("."):
                there = next(names for place, names in known if place <= call.start())
                yield from self.on_value(function, function.body[: call.start()], name, there, in_hand)
            else:
                yield from self.by_path(function, path, name)

    def parameters_of(self, function):
        """The types of each parameter."""
        pairs = [part.partition(":") for part in function.parameters]
        known = {name.split()[-1]: self.types_in(text, function.source, function.bounds, function.owner) for name, _, text in pairs if text}
        return {**known, "self": {function.owner}} if len(known) < len(pairs) else known

    @functools.cache
    def of(self, function):
        """The functions that a function calls."""
        known = self.with_locals(function, self.parameters_of(function))
        named = self.types_in(function.answer + function.body, function.source, function.bounds, function.owner)
        in_hand = named.union(*(keys for _, names in known for keys in names.values() if keys))
        words, found, count = words_of(function.body), set(), -1
        while count < len(in_hand):
            count = len(in_hand)
            for key in list(in_hand):
                in_hand.update(*(keys for name, keys in self.members(key).items() if name in words))
            found.update(self.callees(function, known, in_hand))
            for other in found:
                in_hand |= self.types_in(other.answer, other.source, other.bounds, other.owner)
        return found

    def named(self, place):
        """The functions of a crate's function's name."""
        crate, name = place.split("/")
        lists = [self.free[crate, name], *(found for (key, word), found in list(self.methods.items()) if key[0] == crate and word == name)]
        found = [function for functions in lists for function in functions if function.body]
        return found or sys.exit(f"house.py: no function {place}")


def reached(starts, step):
    found, todo = set(starts), list(starts)
    while todo:
        new = set(step(todo.pop())) - found
        found |= new
        todo += new
    return found


def way_of(calls, start, ends):
    """The functions on the way of a leg."""
    below = reached(calls.named(start), calls.of)
    above = collections.defaultdict(set)
    for function in below:
        for other in calls.of(function):
            above[other].add(function)
    goals = [[function for function in calls.named(end) if function in below] or sys.exit(f"house.py: {start} calls no {end}") for end in ends]
    return reached([function for functions in goals for function in functions], above.__getitem__)


def walk_of(sources):
    calls = Calls(sources)
    way = set().union(*(way_of(calls, start, ends) for start, ends in LEGS))
    walk = way.union(*(calls.of(function) for function in way))
    return sorted((function for function in walk if not function.is_law), key=str)


# The figures


def repeated_clauses(clauses):
    """The places of all clauses that stand in several places, by their texts, most of them first."""
    places = collections.defaultdict(list)
    for clause in clauses:
        places[f"{clause.keyword} {clause.name} {{ {clause.text} }}"].append(clause.place)
    several = [(text, found) for text, found in places.items() if len(found) > 1]
    return sorted(several, key=lambda pair: -len(pair[1]))


def wide_functions(sources):
    for source in sources:
        for function in source.functions:
            count = len([part for part in function.parameters if not re.search(r"\bself$", part)])
            if count > MOST_PARAMETERS:
                yield f"{function}: {count}"


def shared_types(sources):
    """The places of each name that several types have."""
    places = collections.defaultdict(list)
    for source in sources:
        for declared in source.types:
            places[declared.key[1]].append(f"{declared.place}: {declared.kind} {declared.key[1]}")
    return {name: found for name, found in sorted(places.items()) if len(found) > 1 and name not in ALLOWED}


def figures_of(sources):
    """Each figure: what it is, how many there are, how many there may be, and the items behind it."""
    of_product = [source for source in sources if not is_of_tests(source.crate)]
    clauses = [clause for source in of_product for clause in source.clauses]
    repeated = repeated_clauses(clauses)
    long = [f"{clause.place}: {clause.keyword} {clause.name}: {len(clause.text)}" for clause in clauses if len(clause.text) > MOST_CHARACTERS]
    wide, shared, walk = list(wide_functions(sources)), shared_types(sources), walk_of(of_product)
    told = [f"{len(places)} times {text}\n    " + "\n    ".join(places) for text, places in repeated]
    files = sorted({function.source.path for function in walk})
    crates = sorted({function.source.crate for function in walk})
    return [
        ("clauses", len(clauses), None, []),
        ("repeated clauses", sum(len(places) - 1 for _, places in repeated), MOST_REPEATED, told),
        (f"clauses of more than {MOST_CHARACTERS} characters", len(long), MOST_LONG, long),
        (f"functions of more than {MOST_PARAMETERS} parameters", len(wide), MOST_FUNCTIONS, wide),
        ("names that several types have", len(shared), None, ["\n    ".join([name, *places]) for name, places in shared.items()]),
        ("functions on the walk", len(walk), None, walk),
        ("files on the walk", len(files), None, files),
        ("crates on the walk", len(crates), None, crates),
    ]


def main():
    if sys.argv[1:] not in ([], ["--list"], ["--check"]):
        sys.exit(__doc__)
    figures = figures_of(read_sources())
    for text, count, most, items in figures:
        print(f"{text:45}{count:7,}" + (f"  at most {most}" if most is not None else ""))
        if sys.argv[1:] == ["--list"]:
            print("".join(f"  {item}\n" for item in items), end="")
    if sys.argv[1:] == ["--check"] and any(most is not None and count > most for _, count, most, _ in figures):
        sys.exit(1)


main()
