"""Worlds by the definitions of docs/worlds.md, written apart from the register: does a world keep a book, and who is in an entry?

`Shown` is a world as `calls` shows it. `small` goes through all worlds of a few individuals at once.
"""
import re

from book import AND, EVERYTHING, NAME, NONE, NOT, NOTHING, ONLY, OR, SOME, below


class Shown:
    """A world on a sheet: `shown M SIDE I:HEX ..`, laid out as docs/sheets.md says."""

    def __init__(self, book, line):
        words = line.split()
        self.size, self.side = int(words[1]), int(words[2])
        sheet = {int(i): int(h, 16) for i, h in (w.split(":") for w in words[3:])}
        m = self.size
        assert 1 <= m <= 64 and sheet.get(0) == m and all(0 < v < 1 << m for i, v in sheet.items() if i), line
        assert max(sheet) < 65 + len(book.roles) * m, line
        self.bears = [[x for x in range(m) if sheet.get(1 + n, 0) >> x & 1] for n in range(64)]
        self.joins = [
            [{y for y in range(m) if sheet.get(65 + r * m + x, 0) >> y & 1} for x in range(m)] for r in range(len(book.roles))
        ]

    def entries(self, book):
        """For each entry the set of its individuals."""
        everyone = set(range(self.size))
        found = []
        for kind, a, b, _ in book.entries:
            if kind == NOTHING:
                got = set()
            elif kind == EVERYTHING:
                got = everyone
            elif kind == NAME:
                got = set(self.bears[a])
            elif kind == NOT:
                got = everyone - found[a]
            elif kind == AND:
                got = found[a] & found[b]
            elif kind == OR:
                got = found[a] | found[b]
            elif kind == SOME:
                got = {x for x in everyone if self.joins[a][x] & found[b]}
            elif kind == ONLY:
                got = {x for x in everyone if self.joins[a][x] <= found[b]}
            elif kind == NONE:
                got = {x for x in everyone if not self.joins[a][x] & found[b]}
            found.append(got)
        return found

    def fault(self, book, found):
        """What keeps the world from keeping the book, or nothing."""
        everyone = range(self.size)
        for lower, upper in book.pairs:
            if any(not self.joins[lower][x] <= self.joins[upper][x] for x in everyone):
                return f"role {lower} is not below role {upper}"
        for r, transitive in enumerate(book.roles):
            if transitive and any(not self.joins[r][y] <= self.joins[r][x] for x in everyone for y in self.joins[r][x]):
                return f"role {r} is not transitive"
        for c, d in book.rules:
            if not found[c] <= found[d]:
                return f"rule {c} {d} is broken"
        return ""


def variable(j, count):
    """The table of variable j over all 2^count assignments, as one number."""
    table, length = ((1 << (1 << j)) - 1) << (1 << j), 2 << j
    while length < 1 << count:
        table |= table << length
        length *= 2
    return table


def small(book, most_bits=22):
    """For m = 1, 2, 3, as far as all worlds of m individuals are at most 2^most_bits: m, and a function that says whether one of
    them keeps the book and has individual 0 in entry a and outside entry b (b may be None)."""
    names = sorted(e[1] for e in book.entries if e[0] == NAME)
    up = below(book)
    for m in (1, 2, 3):
        count = m * len(names) + m * m * len(book.roles)
        if count > most_bits:
            return
        every = (1 << (1 << count)) - 1
        bears = {n: [variable(k * m + x, count) for x in range(m)] for k, n in enumerate(names)}
        start = m * len(names)
        joins = [
            [[variable(start + (r * m + x) * m + y, count) for y in range(m)] for x in range(m)] for r in range(len(book.roles))
        ]
        keep = every
        for r in range(len(book.roles)):
            for x in range(m):
                for y in range(m):
                    for s in up[r] - {r}:
                        keep &= ~joins[r][x][y] | joins[s][x][y]
                    if book.roles[r]:
                        for z in range(m):
                            keep &= ~(joins[r][x][y] & joins[r][y][z]) | joins[r][x][z]
        found = []
        for kind, a, b, _ in book.entries:
            row = []
            for x in range(m):
                if kind == NOTHING:
                    t = 0
                elif kind == EVERYTHING:
                    t = every
                elif kind == NAME:
                    t = bears[a][x]
                elif kind == NOT:
                    t = every ^ found[a][x]
                elif kind == AND:
                    t = found[a][x] & found[b][x]
                elif kind == OR:
                    t = found[a][x] | found[b][x]
                else:
                    t = 0
                    for y in range(m):
                        t |= joins[a][x][y] & (every ^ found[b][y] if kind == ONLY else found[b][y])
                    if kind in (ONLY, NONE):
                        t ^= every
                row.append(t)
            found.append(row)
        for c, d in book.rules:
            for x in range(m):
                keep &= (every ^ found[c][x]) | found[d][x]
        yield m, lambda a, b, keep=keep, found=found, every=every: bool(
            keep & found[a][0] & (every if b is None else every ^ found[b][0]))
