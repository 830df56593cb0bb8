#!/usr/bin/env python3
"""Makes the books of the benchmark, and the seeds to start from.

    bench/books.py FOLDER

writes FOLDER/NAME.book for each book below, and FOLDER/cases, which has a line for each thing to be timed:

    labels NAME PLUS MINUS LIMIT   the expansions of a seed, no more than LIMIT of them
    dead NAME PLUS MINUS COUNT     a seed without an expansion, which COUNT ends are tried for
    seeds NAME PLUS MINUS          the seeds of the obligations of the first expansion of a seed
    search NAME PLUS MINUS         a search that stands
    failing NAME PLUS MINUS COUNT  a search in two nodes that fails, after COUNT choices that failed
    pairs NAME COUNT               a search for "a not b" for every two of the first COUNT entries

PLUS and MINUS are the words of a seed, in hex. docs/book-format.md has the bytes of a book, docs/search.md what a seed is.
"""
import pathlib
import struct
import sys

NOTHING, EVERYTHING, NAME, NOT, AND, OR, SOME, ONLY, NONE = range(9)
SAMPLES = pathlib.Path(__file__).resolve().parent.parent / "books"

# The two stages of a shift register of so many stages that are fed back, so that it runs through all states but one.
TAPS = {3: (2, 1), 4: (3, 2), 5: (4, 2), 6: (5, 4), 7: (6, 5), 9: (8, 4), 10: (9, 6)}


class Book:
    """A book that grows: each call of `role`, `entry` and `name` gives the number of what it adds."""

    def __init__(self):
        self.roles = []
        self.pairs = []
        self.entries = []
        self.rules = []
        self.names = 0
        self.propagated = 0  # how many restrictions the search adds: the maker of the book has to say

    def role(self, transitive=False):
        self.roles.append(int(transitive))
        return len(self.roles) - 1

    def below(self, lower, upper):
        self.pairs.append((lower, upper))

    def entry(self, kind, first=0, second=0):
        self.entries.append((kind, first, second, 0))
        return len(self.entries) - 1

    def name(self):
        self.names += 1
        return self.entry(NAME, self.names - 1)

    def rule(self, premise, conclusion):
        self.rules.append((premise, conclusion))

    def width(self):
        """The number of working entries: the last two are `book` and `everywhere`."""
        return len(self.entries) + self.propagated + len(self.rules) + 2

    def root(self, plus=(), minus=()):
        """The words of a seed with these entries, and + book and + everywhere."""
        w = self.width()
        return sum(1 << i for i in {*plus, w - 2, w - 1}), sum(1 << i for i in set(minus))

    def bytes(self):
        sections = [bytes(self.roles)]
        sections += [b"".join(map(bytes, records)) for records in (self.pairs, self.entries, self.rules)]
        counts = [len(self.roles), len(self.pairs), len(self.entries), len(self.rules)]
        trailer, place = b"", 0
        for section, count in zip(sections, counts):
            trailer += struct.pack("<HH", place, count)
            place += len(section)
        return b"".join(sections) + trailer


def either(n):
    """n entries `a or b` over names of their own: 2^n expansions, none of which clashes."""
    book = Book()
    ors = [book.entry(OR, book.name(), book.name()) for _ in range(n)]
    return book, book.root(ors)


def alike(n):
    """n pairs of names with a rule each way, so that both hold or neither, and two of the rules once more: 2^n expansions,
    and each has every working entry. With 15 pairs there are 64."""
    book = Book()
    pairs = [(book.name(), book.name()) for _ in range(n)]
    for a, b in pairs:
        book.rule(a, b)
        book.rule(b, a)
    for a, b in pairs[:2]:
        book.rule(a, b)
    return book, book.root()


def dead(n):
    """n entries `a or b`, and an entry below them all that no label can keep: its clash is foreseen."""
    book = Book()
    a = book.name()
    never = book.entry(AND, a, book.entry(NOT, a))
    ors = [book.entry(OR, book.name(), book.name()) for _ in range(n)]
    return book, book.root([never, *ors])


def doomed(n):
    """The same, but both alternatives of the entry below clash, which is not foreseen: 2^(n + 1) ends are tried in vain."""
    book = Book()
    a = book.name()
    both = book.entry(AND, a, book.entry(NOT, a))
    never = book.entry(OR, both, both)
    ors = [book.entry(OR, book.name(), book.name()) for _ in range(n)]
    return book, book.root([never, *ors])


def told(n, m):
    """One transitive role; m obligations, and n value restrictions that each of them is told."""
    book = Book()
    r = book.role(transitive=True)
    a = book.name()
    values = [book.entry(ONLY, r, a) for _ in range(n)]
    obligations = [book.entry(SOME, r, a) for _ in range(m)]
    return book, book.root(values + obligations)


def propagated(n, m, k):
    """k transitive roles in a row below a plain one; n value restrictions by the plain one, each of them propagated to all
    k; m obligations by the lowest of the row, which are told all of that. The seed has the propagated ones too."""
    book = Book()
    plain = book.role()
    row = [book.role(transitive=True) for _ in range(k)]
    for upper, lower in zip([plain, *row], row):
        book.below(lower, upper)
    a = book.name()
    values = [book.entry(ONLY, plain, a) for _ in range(n)]
    obligations = [book.entry(SOME, row[-1], a) for _ in range(m)]
    book.propagated = n * k
    return book, book.root(range(values[0], len(book.entries) + book.propagated))


def register(n):
    """A shift register of n stages: every individual has a successor with its stages moved on by one, and the first of them
    set where one of two stages was set but not both. So 2^n - 1 nodes stand, each the successor of the one before."""
    book = Book()
    r = book.role()
    stage = [book.name() for _ in range(n)]
    one, other = (stage[t] for t in TAPS[n])
    on = [book.entry(ONLY, r, s) for s in stage]  # the successors have the stage
    some = [book.entry(SOME, r, s) for s in stage[1:]]  # with -, the successors do not have the stage
    off = book.entry(NONE, r, stage[0])
    both = book.entry(AND, one, other)
    either_one = book.entry(OR, one, other)
    feeds = book.entry(OR, both, on[0])
    rests = book.entry(OR, either_one, off)
    everything = book.entry(EVERYTHING)
    goes_on = book.entry(SOME, r, everything)
    for i in range(n - 1):
        book.rule(stage[i], on[i + 1])
        book.rule(some[i], stage[i])
    book.rule(both, off)
    book.rule(either_one, feeds)
    book.rule(everything, rests)
    book.rule(everything, goes_on)
    return book, book.root([stage[0], everything], stage[1:])


def blocked(n):
    """n entries `a or b` over names of their own, and an obligation that no individual can meet: each of the 2^n expansions
    stands as node 0 until its successor finds no expansion. So a search for it fails in two nodes, after 2^n choices."""
    book = Book()
    r = book.role()
    never = book.entry(SOME, r, book.entry(NOTHING))
    ors = [book.entry(OR, book.name(), book.name()) for _ in range(n)]
    return book, book.root([never, *ors])


def sample(name):
    """A sample book, as bytes, with the number of its entries."""
    book = (SAMPLES / f"{name}.book").read_bytes()
    return book, struct.unpack("<H", book[-6:-4])[0]


def write(folder):
    cases = []

    def put(what, name, made, *rest):
        book, (plus, minus) = made
        (folder / f"{name}.book").write_bytes(book.bytes())
        cases.append(" ".join([what, name, f"{plus:x}", f"{minus:x}", *map(str, rest)]))

    for n in (5, 10, 20):
        put("labels", f"either-{n}", either(n), 4096)
    for n in (5, 10, 15):
        put("labels", f"alike-{n}", alike(n), 4096)
    for n in (4, 8, 12):
        put("dead", f"dead-{n}", dead(n), 1)
        put("dead", f"doomed-{n}", doomed(n), 2 ** (n + 1))
    for n, m in ((8, 4), (16, 8), (39, 20), (53, 6), (58, 1)):
        put("seeds", f"told-{n}-{m}", told(n, m))
    for n, m, k in ((4, 4, 4), (8, 5, 6)):
        put("seeds", f"propagated-{n}-{m}-{k}", propagated(n, m, k))
    for n in TAPS:
        put("search", f"register-{n}", register(n))
    for n in (4, 8, 12):
        put("failing", f"blocked-{n}", blocked(n), 2 ** n)
    for name in ("a", "b", "fitter"):
        book, count = sample(name)
        (folder / f"{name}.book").write_bytes(book)
        cases.append(f"pairs {name} {count}")
    (folder / "cases").write_text("".join(line + "\n" for line in cases))


def main():
    if len(sys.argv) != 2:
        sys.exit(__doc__)
    folder = pathlib.Path(sys.argv[1])
    folder.mkdir(parents=True, exist_ok=True)
    write(folder)


if __name__ == "__main__":
    main()
