"""Finds the expressions that make want of memory, in the crates that the two programs stand on.

Want of memory is a variant `Memory` or `OutOfMemory`, `AllocError`, or a type of the repository that has nothing else. It passes
where it stands
  - in an `impl From<E>` for an E that is nothing but want of memory, or
  - behind a pattern of which each alternative names want of memory: in the arm of a `match`, in the block of an `if let`, or in
    that of an `if` which asks a function that does nothing but match such a pattern.
Each other place is printed with its line. Patterns, types, clauses and tests make none.

One answer of a library counts as want of memory though it is none: `ParseError::Overflow` of `url`, for a URL that came to 4 GB. The
contract of `url` says neither of it nor of `OutOfMemory` when it comes, so no other answer to it could be proved.
"""
import os, re, sys

TOP = os.path.dirname(os.path.dirname(os.path.abspath(__file__)))
PROGRAMS = ["clickstore", "clickhost"]
VARIANTS = {"Memory", "OutOfMemory"}
# What std answers for want of memory alone.
REFUSED = {"AllocError", "AllocFailed"}
# What a library may answer at any input, as it may answer that it found no memory: a type, and its variant.
AS_REFUSED = {("ParseError", "Overflow")}
OPEN, CLOSE = {"(": ")", "[": "]", "{": "}"}, {")", "]", "}"}
TOKEN = re.compile(
    r"//[^\n]*|/\*.*?\*/"
    r"|b?r#*\".*?\"#*|b?\"(?:\\.|[^\"\\])*\"|b?'(?:\\[^']+|[^'\\])'|'\w+"
    r"|=>|->|::|==|!=|<=|>=|&&|\|\||\.\.=?|\w+|\S", re.S)


def tokens_of(text):
    """The words and signs of a source with their lines, without comments."""
    line, place, made = 1, 0, []
    for found in TOKEN.finditer(text):
        line += text.count("\n", place, found.start())
        place = found.start()
        if not found[0].startswith(("//", "/*")):
            made.append((found[0], line))
    return made


class Source:
    """One file: its tokens, for each bracket the place of its other end, and what is no expression."""

    def __init__(self, path):
        self.path = path
        with open(f"{TOP}/{path}", encoding="utf-8") as file:
            self.lines = file.read().split("\n")
        self.tokens = tokens_of("\n".join(self.lines))
        self.words = [word for word, _ in self.tokens]
        self.ends = self.pairs()
        self.silent = [False] * len(self.words)
        self.handed = [None] * len(self.words)

    def pairs(self):
        ends, left = {}, []
        for place, word in enumerate(self.words):
            if word in OPEN:
                left.append(place)
            elif word in CLOSE:
                ends[left.pop()] = place
        return ends

    def at(self, place):
        return self.words[place] if 0 <= place < len(self.words) else ""

    def after(self, place):
        """The place behind a token, or behind the bracket that it opens."""
        return self.ends.get(place, place) + 1

    def find(self, place, *wanted, end=None):
        """The first of these words from a place on, at its depth."""
        end = len(self.words) if end is None else end
        while place < end and self.at(place) not in wanted:
            if self.at(place) in CLOSE:
                return end
            place = self.after(place)
        return place

    def hush(self, begin, end):
        for place in range(begin, min(end, len(self.words))):
            self.silent[place] = True


def hush_what_is_no_code(source):
    """Imports, attributes, clauses, ghost items, tests, and the variants of enums make nothing."""
    place = 0
    while place < len(source.words):
        word, end = source.at(place), None
        if word == "#" and source.at(place + 1) == "[":
            end = source.after(place + 1)
            inside = source.words[place + 2:end - 1]
            if inside in (["test"], ["cfg", "(", "test", ")"]):
                end = source.after(source.find(end, "{", ";"))
        elif word == "use":
            end = source.find(place, ";")
            # By a name of its own a variant would be hard to find.
            if VARIANTS & set(source.words[place:end]):
                end = None
        elif word == "ghost":
            end = source.find(place, ";", ",")
        elif word in ("requires", "ensures") and source.at(place - 1) != ".":
            end = source.after(source.find(place, "{"))
        elif word == "enum":
            end = source.after(source.find(place, "{"))
        if end is None:
            place += 1
        else:
            source.hush(place, end)
            place = end


def names_memory(source, begin, end):
    """Whether each alternative of the pattern names want of memory."""
    parts = [[]]
    for word in source.words[begin:end]:
        if word == "|":
            parts.append([])
        else:
            parts[-1].append(word)
    return all(names_want(part) for part in parts if part)


def names_want(pattern):
    """Whether a pattern without alternatives names want of memory."""
    if set(pattern) & (VARIANTS | REFUSED):
        return True
    return any(tuple(pattern[place:place + 3:2]) in AS_REFUSED for place in range(len(pattern) - 2))


def cover(source, begin, end, is_handed):
    for place in range(begin, min(end, len(source.words))):
        source.handed[place] = is_handed


def read_arms(source, begin, end):
    """The arms of a `match`: the pattern makes nothing, and what stands behind it hands on what it names."""
    place = begin
    while place < end:
        arrow = source.find(place, "=>", end=end)
        if arrow >= end:
            return
        pattern = source.find(place, "if", end=arrow)
        source.hush(place, pattern)
        if source.at(arrow + 1) == "{":
            close = source.after(arrow + 1)
        else:
            close = source.find(arrow + 1, ",", end=end)
        cover(source, arrow + 1, close, names_memory(source, place, pattern))
        place = close + 1 if source.at(close) == "," else close


def wants(source):
    """The functions that do nothing but match a value with a pattern of want of memory."""
    found = set()
    for place, word in enumerate(source.words):
        if word != "fn":
            continue
        body = source.find(place, "{", ";")
        while source.at(body) == "{" and source.silent[body]:
            body = source.find(source.after(body), "{", ";")
        if source.words[body + 1:body + 4] != ["matches", "!", "("] or source.after(body + 3) != source.after(body) - 1:
            continue
        comma = source.find(body + 4, ",")
        if names_memory(source, comma + 1, source.ends[body + 3]):
            found.add(source.at(place + 1))
    return found


def read_patterns(source):
    """Patterns from the outside in, so that the innermost says of a place what is handed on there."""
    told = wants(source)
    for place, word in enumerate(source.words):
        if source.silent[place]:
            continue
        if word == "if" and source.at(place + 1) in told and source.at(place + 2) == "(":
            block = source.after(place + 2)
            if source.at(block) == "{":
                cover(source, block, source.after(block), True)
        elif word == "match":
            block = source.find(place + 1, "{")
            read_arms(source, block + 1, source.ends[block])
        elif word == "let":
            equals = source.find(place + 1, "=", ";")
            source.hush(place + 1, equals)
            if source.at(place - 1) in ("if", "while", "&&"):
                block = source.find(equals, "{")
                cover(source, block, source.after(block), names_memory(source, place + 1, equals))
        elif word == "matches" and source.at(place + 1) == "!":
            source.hush(source.find(place + 3, ","), source.after(place + 2))


def read_conversions(source, only):
    """In an `impl From<E>` of want of memory alone all is a conversion, and in each other one only what its arms say."""
    for place, word in enumerate(source.words):
        if word != "impl" or source.silent[place]:
            continue
        block = source.find(place, "{")
        head = source.words[place:block]
        if "From" not in head:
            continue
        of = head[head.index("From") + 2]
        # Paths and types in the head make nothing.
        source.hush(place, block)
        if of in only:
            cover(source, block, source.after(block), True)


def is_made(source, place, only):
    """Whether the word at the place is a value of want of memory. One that a value is compared with is none."""
    if source.silent[place]:
        return False
    word, after, begin = source.at(place), source.at(place + 1), place
    while source.at(begin - 1) == "::":
        begin -= 2
    before = source.at(begin - 1)
    if {before, after} & {"==", "!="}:
        return False
    if word in VARIANTS:
        return begin < place or before in ("(", "=>", "return", ",", "=", "{")
    return word in only and before in ("(", "=>", "return", ",", "=", "{") and after in (")", ";", ",", "}", "(")


def crates_below():
    """The programs and all crates that they stand on, in the order of crates.txt."""
    needs = {}
    with open(f"{TOP}/crates.txt", encoding="utf-8") as file:
        for line in file:
            name, _, rest = line.partition("#")[0].partition(":")
            if name.strip():
                needs[name.strip()] = rest.split()
    wanted, left = set(), list(PROGRAMS)
    while left:
        name = left.pop()
        if name in needs and name not in wanted:
            wanted.add(name)
            left += needs[name]
    return [name for name in needs if name in wanted]


def sources_of(name):
    for folder, _, files in sorted(os.walk(f"{TOP}/crates/{name}/src")):
        for file in sorted(files):
            if file.endswith(".rt") and file != "tests.rt":
                yield os.path.relpath(f"{folder}/{file}", TOP)


def nothing_else(sources):
    """The types that are want of memory and nothing else: those of std, and enums and structs of the repository."""
    only = set(REFUSED)
    for source in sources:
        text = "\n".join(source.lines)
        for found in re.finditer(r"\benum (\w+)(?:<[^>]*>)? \{((?:[^{}]|\{[^}]*\})*)\}", text):
            variants = re.findall(r"^    (\w+)", re.sub(r"//[^\n]*|#\[[^\]]*\]", "", found[2]), re.M)
            if variants == ["Memory"]:
                only.add(found[1])
        only.update(re.findall(r"\bstruct (NoMemory);", text))
    return only


def main():
    sources = [Source(path) for name in crates_below() for path in sources_of(name)]
    only = nothing_else(sources)
    passed, places = 0, []
    for source in sources:
        hush_what_is_no_code(source)
        read_patterns(source)
        read_conversions(source, only)
        for place, (_, line) in enumerate(source.tokens):
            if is_made(source, place, only):
                if source.handed[place]:
                    passed += 1
                else:
                    places.append(f"{source.path}:{line}: {source.lines[line - 1].strip()}")
    print("\n".join(places))
    print(f"{passed} passed, {len(places)} failed")
    return 1 if places else 0


sys.exit(main())
