#!/usr/bin/env python3
"""Makes type books, which are bytes, from readable text.

    books/make.py                  write NAME.book for every NAME.txt beside this script
    books/make.py --check          write nothing; compare every NAME.book with what NAME.txt gives
    books/make.py --numbers NAME   print the numbers of a book's roles, entries and names

A text has one record to a line; '#' starts a comment, and empty lines do not count.

    role partOf transitive         a role; without the last word it is a plain one
    fixedTo below partOf           a pair: the lower role, the upper role
    Bell = name                    an entry: a label of the text's own, and what it stands for
    all Bell are InFrame           a rule: every individual in the first entry is in the second
    note printed for Ferry Lane    a maker's note: the rest of the line, as UTF-8 bytes

An entry is of one of nine kinds. ROLE is a role above; A and B are labels of entries above.

    nothing     everything     name     not A     A and B     A or B     some ROLE A     only ROLE A     none ROLE A

Roles, entries and names are numbered from 0 in the order of the text; labels and role names have no spaces and do not
go into the book. Roles stand first, then pairs, entries and rules; notes stand before, between and after these four.
docs/book-format.md has the bytes.
"""
import pathlib
import struct
import sys

FOLDER = pathlib.Path(__file__).resolve().parent
ROLES, PAIRS, ENTRIES, RULES, END = range(5)
SECTIONS = ("roles", "pairs", "entries", "rules")
RECORD_BYTES = (1, 2, 4, 2)
LIMITS = ((0, 64), (0, 256), (1, 60), (0, 32))
NAME_LIMIT = 64
LONGEST_BOOK = 8192

NOTHING, EVERYTHING, NAME, NOT, AND, OR, SOME, ONLY, NONE = range(9)
CONSTANTS = {"nothing": NOTHING, "everything": EVERYTHING}
JUNCTIONS = {"and": AND, "or": OR}
RESTRICTIONS = {"some": SOME, "only": ONLY, "none": NONE}


class Mistake(Exception):
    """Something in a text that no book can be made from."""


class Text:
    """A book's text, taken in line by line."""

    def __init__(self):
        self.roles = {}  # name of a role: its number
        self.entries = {}  # label of an entry: its number
        self.names = 0
        self.numbers = []  # what --numbers prints
        self.sections = [b"", b"", b"", b""]
        self.notes = [b"", b"", b"", b"", b""]  # before each section, and before the trailer
        self.at = ROLES  # the earliest section that may still take a record

    def take(self, line):
        words = line.split()
        if words[0] == "note":
            self.note(line[len("note"):].strip())
        elif words[0] == "role" and len(words) > 1 and words[2:] in ([], ["transitive"]):
            self.define(self.roles, words[1], "role", line[len("role"):].strip())
            self.record(ROLES, len(words) - 2)
        elif len(words) == 3 and words[1] == "below":
            self.record(PAIRS, self.role(words[0]), self.role(words[2]))
        elif len(words) > 2 and words[1] == "=":
            kind, first, second = self.concept(words[2:])
            self.define(self.entries, words[0], "entry", f"{line} {first}" if kind == NAME else line)
            self.record(ENTRIES, kind, first, second, 0)
        elif len(words) == 4 and words[0] == "all" and words[2] == "are":
            self.record(RULES, self.entry(words[1]), self.entry(words[3]))
        else:
            raise Mistake("neither role, pair, entry, rule nor note")

    def concept(self, words):
        """The kind of an entry and its two operands, 0 where it has none."""
        if len(words) == 1 and words[0] in CONSTANTS:
            return CONSTANTS[words[0]], 0, 0
        if words == ["name"]:
            self.names += 1
            if self.names > NAME_LIMIT:
                raise Mistake(f"more than {NAME_LIMIT} names")
            return NAME, self.names - 1, 0
        if len(words) == 2 and words[0] == "not":
            return NOT, self.entry(words[1]), 0
        if len(words) == 3 and words[1] in JUNCTIONS:
            return JUNCTIONS[words[1]], self.entry(words[0]), self.entry(words[2])
        if len(words) == 3 and words[0] in RESTRICTIONS:
            return RESTRICTIONS[words[0]], self.role(words[1]), self.entry(words[2])
        raise Mistake("an entry of no kind")

    def define(self, table, word, what, line):
        if word in table:
            raise Mistake(f"a second {word}")
        self.numbers.append(f"{what} {len(table)} {line}")
        table[word] = len(table)

    def role(self, word):
        if word not in self.roles:
            raise Mistake(f"no role {word} above")
        return self.roles[word]

    def entry(self, word):
        if word not in self.entries:
            raise Mistake(f"no entry {word} above")
        return self.entries[word]

    def record(self, section, *numbers):
        if section < self.at:
            raise Mistake(f"the {SECTIONS[section]} are over")
        self.at = section
        if len(self.sections[section]) == LIMITS[section][1] * RECORD_BYTES[section]:
            raise Mistake(f"more than {LIMITS[section][1]} {SECTIONS[section]}")
        self.sections[section] += bytes(numbers)

    def note(self, words):
        """A note ends the section before it."""
        if self.at < END and self.sections[self.at]:
            self.at += 1
        self.notes[self.at] += words.encode()

    def assembled(self):
        """Notes and sections in order, then the trailer: place and count of each section."""
        book, fields = b"", []
        for section in (ROLES, PAIRS, ENTRIES, RULES):
            count = len(self.sections[section]) // RECORD_BYTES[section]
            if count < LIMITS[section][0]:
                raise Mistake(f"fewer than {LIMITS[section][0]} {SECTIONS[section]}")
            book += self.notes[section]
            fields += [len(book), count]
            book += self.sections[section]
        book += self.notes[END]
        if len(book) + 16 > LONGEST_BOOK:
            raise Mistake(f"{len(book) + 16} bytes, more than {LONGEST_BOOK}")
        return book + struct.pack("<8H", *fields)


def parsed(path):
    text = Text()
    for number, line in enumerate(path.read_text(encoding="utf-8").splitlines(), 1):
        line = line.split("#")[0].strip()
        try:
            if line:
                text.take(line)
        except Mistake as mistake:
            raise Mistake(f"line {number}: {mistake}")
    return text


def write_all():
    for path in sorted(FOLDER.glob("*.txt")):
        try:
            path.with_suffix(".book").write_bytes(parsed(path).assembled())
        except Mistake as mistake:
            print(f"{path.name}: {mistake}")
            return 1
    return 0


def fault(text, book):
    """What is wrong with a book and its text, or nothing."""
    if not text.exists():
        return "has no text"
    if not book.exists():
        return "has no book"
    try:
        return "" if parsed(text).assembled() == book.read_bytes() else "is not what the text gives"
    except Mistake as mistake:
        return str(mistake)


def check_all():
    names = sorted({path.stem for pattern in ("*.txt", "*.book") for path in FOLDER.glob(pattern)})
    faults = {name: fault(FOLDER / f"{name}.txt", FOLDER / f"{name}.book") for name in names}
    for name in names:
        if faults[name]:
            print(f"{name}: {faults[name]}")
    agree = sum(not faults[name] for name in names)
    print(f"{agree} of {len(names)} books agree")
    return 0 if agree == len(names) else 1


def main(words):
    if not words:
        return write_all()
    if words == ["--check"]:
        return check_all()
    if len(words) == 2 and words[0] == "--numbers":
        print("\n".join(parsed(FOLDER / f"{words[1]}.txt").numbers))
        return 0
    print(__doc__)
    return 2


if __name__ == "__main__":
    sys.exit(main(sys.argv[1:]))
