"""The books of the comparison, the same on every machine: `books()` yields (name, book).

A name tells the family and the number within it. All random choices come from a generator seeded with the name.
"""
import random

from book import benchmark
from book import AND, EVERYTHING, NAME, NONE, NOT, NOTHING, ONLY, OR, RESTRICTIONS, SOME, TOP, Book, read, width

MOST_ENTRIES, MOST_RULES, MOST_WIDTH = 60, 32, 64


class Maker:
    """A book that grows by random choices."""

    def __init__(self, seed):
        self.rng = random.Random(seed)
        self.book = Book()

    def below(self, n):
        return int(self.rng.random() * n)

    def pick(self, things):
        return things[self.below(len(things))]

    def chance(self, p):
        return self.rng.random() < p

    def roles(self, count, transitive, pairs, circle=0):
        """Some roles, a share of them transitive, told inclusions between any two, and a circle through some of them."""
        book = self.book
        for _ in range(count):
            book.role(self.chance(transitive))
        for _ in range(pairs if count else 0):
            book.below(self.below(count), self.below(count))
        ring = [self.below(count) for _ in range(circle)] if count else []
        for lower, upper in zip(ring, ring[1:] + ring[:1]):
            book.below(lower, upper)

    def recent(self):
        """An entry, more often one of the latest, so that concepts grow deep."""
        n = len(self.book.entries)
        return n - 1 - self.below(min(n, 6)) if self.chance(0.5) else self.below(n)

    def grow(self, kinds):
        kind = self.pick(kinds)
        book = self.book
        if kind in RESTRICTIONS and not book.roles:
            kind = AND
        if kind in (NOTHING, EVERYTHING):
            return book.entry(kind)
        if kind == NAME:
            return book.name()
        if kind == NOT:
            return book.entry(NOT, self.recent())
        if kind in (AND, OR):
            return book.entry(kind, self.recent(), self.recent())
        return book.entry(kind, self.below(len(book.roles)), self.recent())

    def room(self, more=1):
        """May the book grow by so many entries? Propagated restrictions count."""
        return len(self.book.entries) + more <= MOST_ENTRIES and width(self.book) + more <= MOST_WIDTH

    def retell(self):
        """Says an entry once more in other words, so that it has a twin."""
        book = self.book
        i = self.recent()
        kind, a, b, _ = book.entries[i]
        entry = book.entry
        if kind in (AND, OR):
            if self.chance(0.4):
                return entry(kind, b, a)
            other = OR if kind == AND else AND
            return entry(NOT, entry(other, entry(NOT, a), entry(NOT, b)))
        if kind == SOME:
            return entry(NOT, entry(NONE, a, b)) if self.chance(0.5) else entry(NOT, entry(ONLY, a, entry(NOT, b)))
        if kind == ONLY:
            return entry(NONE, a, entry(NOT, b))
        if kind == NONE:
            return entry(NOT, entry(SOME, a, b)) if self.chance(0.5) else entry(ONLY, a, entry(NOT, b))
        return entry(NOT, entry(NOT, i))

    def rule(self):
        self.book.rule(self.recent(), self.recent())

    def fits(self):
        """Takes rules and then entries off until the register can open the book."""
        book = self.book
        while len(book.rules) > MOST_RULES or (width(book) > MOST_WIDTH and book.rules):
            book.rules.pop()
        while width(book) > MOST_WIDTH or len(book.entries) > MOST_ENTRIES:
            last = len(book.entries) - 1
            book.entries.pop()
            book.rules = [(c, d) for c, d in book.rules if last not in (c, d)]
        return book


ALL = (NAME, NOT, AND, OR, SOME, SOME, ONLY, NONE)


def any_book(seed, names, roles, entries, rules, transitive=0.4, pairs=None, circle=0, twins=0.2, kinds=ALL):
    made = Maker(seed)
    made.roles(roles, transitive, roles if pairs is None else pairs, circle)
    for _ in range(names):
        made.book.name()
    if made.chance(0.3):
        made.book.entry(made.pick((NOTHING, EVERYTHING)))
    while len(made.book.entries) < entries and made.room(5):
        if made.chance(twins):
            made.retell()
        else:
            made.grow(kinds)
    for _ in range(rules):
        if made.room():
            made.rule()
    return made.fits()


def chains(seed):
    """Rules that call for a successor each time, with transitive roles above and below them."""
    made = Maker(seed)
    book = made.book
    made.roles(2 + made.below(3), 0.5, 3, 2 if made.chance(0.4) else 0)
    names = [book.name() for _ in range(2 + made.below(3))]
    for n in names:
        some = book.entry(SOME, made.below(len(book.roles)), made.pick(names))
        book.rule(n, some)
        if made.chance(0.5):
            book.rule(some, book.entry(made.pick((ONLY, NONE)), made.below(len(book.roles)), made.recent()))
    for _ in range(4 + made.below(10)):
        if made.room(5):
            made.retell() if made.chance(0.3) else made.grow(ALL)
    for _ in range(made.below(3)):
        made.rule()
    return made.fits()


def ladder(seed):
    """Restrictions within restrictions by a few roles of a hierarchy with circles and transitive roles."""
    made = Maker(seed)
    book = made.book
    made.roles(3 + made.below(4), 0.5, 4 + made.below(4), made.below(4))
    book.name()
    book.name()
    kinds = (SOME, ONLY, NONE, SOME, ONLY, AND)
    goal = 10 + made.below(25)
    while len(book.entries) < goal and made.room(5):
        made.retell() if made.chance(0.15) else made.grow(kinds)
    for _ in range(made.below(4)):
        made.rule()
    return made.fits()


def empty(seed):
    """Many entries that no world fills, each for a reason of its own; in some books no world is left at all."""
    made = Maker(seed)
    book = made.book
    made.roles(1 + made.below(3), 0.6, 2, 0)
    for _ in range(2 + made.below(2)):
        book.name()
    for _ in range(2 + made.below(4)):
        i = made.recent()
        r = made.below(len(book.roles))
        how = made.below(5)
        if how == 0:
            book.entry(AND, i, book.entry(NOT, i))
        elif how == 1:
            book.entry(AND, book.entry(SOME, r, i), book.entry(NONE, r, i))
        elif how == 2:
            book.entry(AND, book.entry(SOME, r, book.entry(SOME, r, i)), book.entry(NONE, made.below(len(book.roles)), i))
        elif how == 3:
            book.entry(SOME, r, book.entry(NOTHING))
        else:
            made.grow(ALL)
    for _ in range(made.below(8)):
        made.retell() if made.chance(0.4) else made.grow(ALL)
    for _ in range(1 + made.below(5)):
        made.rule()
    return made.fits()


def fitters(seed):
    """The fitter's book with some of its rules and pairs left out or turned, or an entry said in other words."""
    made = Maker(seed)
    book = made.book = read((TOP / "books" / "fitter.book").read_bytes())
    for _ in range(1 + made.below(4)):
        how = made.below(4)
        if how == 0 and book.rules:
            book.rules.pop(made.below(len(book.rules)))
        elif how == 1 and book.pairs:
            lower, upper = book.pairs.pop(made.below(len(book.pairs)))
            if made.chance(0.5):
                book.pairs.append((upper, lower))
        elif how == 2 and book.rules:
            c, d = book.rules.pop(made.below(len(book.rules)))
            book.rules.append((d, c))
        elif made.room(4):
            made.retell()
    return made.fits()


FAMILIES = (
    ("tiny", 120, lambda s, m: any_book(s, 1 + m.below(3), m.below(3), 4 + m.below(7), m.below(4))),
    ("twins", 60, lambda s, m: any_book(s, 2 + m.below(2), 1 + m.below(3), 10 + m.below(10), m.below(3), twins=0.7)),
    ("chains", 60, lambda s, m: chains(s)),
    ("ladder", 60, lambda s, m: ladder(s)),
    ("circles", 50, lambda s, m: any_book(s, 2, 3 + m.below(4), 8 + m.below(10), m.below(4), 0.5, 3 + m.below(5), 2 + m.below(4))),
    ("empty", 50, lambda s, m: empty(s)),
    ("rules", 50, lambda s, m: any_book(s, 3 + m.below(3), 1 + m.below(3), 10 + m.below(8), 4 + m.below(8), 0.4)),
    ("medium", 50, lambda s, m: any_book(s, 4 + m.below(4), 2 + m.below(4), 20 + m.below(14), 3 + m.below(6), 0.35)),
    ("full", 40, lambda s, m: any_book(s, 5 + m.below(6), 2 + m.below(4), 44 + m.below(16), 3 + m.below(8), 0.25)),
    ("fitters", 30, lambda s, m: fitters(s)),
)


def books():
    for name in ("a", "b", "fitter"):
        yield name, read((TOP / "books" / f"{name}.book").read_bytes())
    for n in (5, 10, 20):
        yield f"either-{n}", benchmark.either(n)[0]
    for n in (5, 10, 15):
        yield f"alike-{n}", benchmark.alike(n)[0]
    for n in (4, 8, 12):
        yield f"dead-{n}", benchmark.dead(n)[0]
    for n, m in ((8, 4), (39, 20)):
        yield f"told-{n}-{m}", benchmark.told(n, m)[0]
    yield "propagated-4-4-4", benchmark.propagated(4, 4, 4)[0]
    for n in (3, 4, 5, 6, 7):
        yield f"register-{n}", benchmark.register(n)[0]
    for family, count, made in FAMILIES:
        for k in range(count):
            name = f"{family}-{k:02d}"
            yield name, made(name, Maker("size " + name))


if __name__ == "__main__":
    for name, book in books():
        print(f"{name}: {len(book.roles)} roles, {len(book.entries)} entries, {len(book.rules)} rules, w {width(book)}")
