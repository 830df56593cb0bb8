"""Books as records: read from bytes, written as text that books/make.py takes, and measured.

docs/book-format.md has the bytes. `Book` itself is that of bench/books.py.
"""
import pathlib
import struct
import sys

TOP = pathlib.Path(__file__).resolve().parent.parent.parent
for folder in ("bench", "books"):
    sys.path.insert(0, str(TOP / folder))

import books as benchmark  # bench/books.py
import make  # books/make.py: bytes from readable text
from books import AND, EVERYTHING, NAME, NONE, NOT, NOTHING, ONLY, OR, SOME, Book

CONSTANTS = (NOTHING, EVERYTHING)
JUNCTIONS = (AND, OR)
RESTRICTIONS = (SOME, ONLY, NONE)
WORDS = ["nothing", "everything", "name", "not", "and", "or", "some", "only", "none"]


def read(data):
    """The book of these bytes, which are a good one."""
    fields = struct.unpack("<8H", data[-16:])
    book = Book()
    sections = []
    for k, size in enumerate((1, 2, 4, 2)):
        place, count = fields[2 * k], fields[2 * k + 1]
        sections.append([tuple(data[place + i * size:place + (i + 1) * size]) for i in range(count)])
    book.roles = [role for (role,) in sections[0]]
    book.pairs, book.entries, book.rules = sections[1:]
    book.names = 1 + max([e[1] for e in book.entries if e[0] == NAME], default=-1)
    return book


def from_text(path):
    """The book of a text in the format of books/make.py."""
    return read(make.parsed(pathlib.Path(path)).assembled())


def text(book, note=""):
    """The text of a book, in the format of books/make.py: roles R0, R1, .., entries E0, E1, .."""
    lines = [f"# {line}" for line in note.splitlines()]
    lines += [f"role R{r}" + (" transitive" if t else "") for r, t in enumerate(book.roles)]
    lines += [f"R{lower} below R{upper}" for lower, upper in book.pairs]
    for i, (kind, a, b, _) in enumerate(book.entries):
        if kind in CONSTANTS or kind == NAME:
            says = WORDS[kind]
        elif kind == NOT:
            says = f"not E{a}"
        elif kind in JUNCTIONS:
            says = f"E{a} {WORDS[kind]} E{b}"
        else:
            says = f"{WORDS[kind]} R{a} E{b}"
        lines.append(f"E{i} = {says}")
    lines += [f"all E{c} are E{d}" for c, d in book.rules]
    return "\n".join(lines) + "\n"


def parts(entry):
    kind, a, b, _ = entry
    if kind == NOT:
        return (a,)
    if kind in JUNCTIONS:
        return (a, b)
    return (b,) if kind in RESTRICTIONS else ()


def below(book):
    """For each role the set of the roles that it is below, itself included."""
    up = [{r} for r in range(len(book.roles))]
    for lower, upper in book.pairs:
        up[lower].add(upper)
    changed = True
    while changed:
        changed = False
        for r in range(len(up)):
            more = set().union(*(up[s] for s in up[r]))
            changed |= more != up[r]
            up[r] = more
    return up


def width(book):
    """The number of working entries of the search: entries, propagated restrictions, rules, and two more."""
    up = below(book)
    w = len(book.entries) + len(book.rules) + 2
    for kind, role, _, _ in book.entries:
        if kind in RESTRICTIONS and not book.roles[role]:
            w += sum(1 for p, t in enumerate(book.roles) if t and role in up[p])
    return w
