"""A third judge, which searches for nothing: it lists all types of individuals and strikes out those that cannot be.

A type says of each name, and of each "only role part" that matters, whether an individual has it; all else follows. A type
that breaks a rule is struck out. So is one that lacks an "only", where no type that is left can be the successor that this
asks for. What is left when nothing more is struck out are the types of the individuals of worlds that keep the book: they
themselves, joined wherever the restrictions allow it, are such a world. It works for books of few names and restrictions.
"""
from book import AND, EVERYTHING, NAME, NOT, NOTHING, ONLY, OR, RESTRICTIONS, SOME, below
from worlds import variable


class TooLarge(Exception):
    pass


class Types:
    def __init__(self, book, most_atoms=14, most_restrictions=11):
        self.book = book
        up = below(book)
        roles = range(len(book.roles))
        # An "only" is (role, entry, sign): all that the role leads to is in the entry, or with False outside it.
        onlys, of_entry = [], {}
        for i, (kind, a, b, _) in enumerate(book.entries):
            if kind in RESTRICTIONS:
                of_entry[i] = only = (a, b, kind == ONLY)
                for role in [a] + [p for p in roles if book.roles[p] and a in up[p]]:
                    onlys.append((role, b, only[2]))
        onlys = sorted(set(onlys))
        names = sorted({e[1] for e in book.entries if e[0] == NAME})
        count = len(onlys) + len(names)
        if count > most_atoms or len(onlys) > most_restrictions:
            raise TooLarge(f"{len(names)} names and {len(onlys)} restrictions")
        every = (1 << (1 << count)) - 1
        table = {only: variable(k, count) for k, only in enumerate(onlys)}
        named = {n: variable(len(onlys) + k, count) for k, n in enumerate(names)}
        found = []
        for i, (kind, a, b, _) in enumerate(book.entries):
            if kind == NOTHING:
                t = 0
            elif kind == EVERYTHING:
                t = every
            elif kind == NAME:
                t = named[a]
            elif kind == NOT:
                t = every ^ found[a]
            elif kind == AND:
                t = found[a] & found[b]
            elif kind == OR:
                t = found[a] | found[b]
            else:  # "some r a" is not "only r outside a", "none r a" is "only r outside a"
                t = table[of_entry[i]] ^ (every if kind == SOME else 0)
            found.append(t)
        alive = every
        for c, d in book.rules:
            alive &= (every ^ found[c]) | found[d]

        def inside(entry, sign):
            return found[entry] if sign else every ^ found[entry]

        told = {}  # told[role][only]: the successors by the role of an individual that has the only
        for role in roles:
            told[role] = {}
            for only in onlys:
                upper, entry, sign = only
                if upper in up[role]:
                    t = inside(entry, sign)
                    for p in roles:
                        if book.roles[p] and p in up[role] and upper in up[p]:
                            t &= table[(p, entry, sign)]
                    told[role][only] = t
        while True:
            known, struck = {}, 0
            for choice in range(1 << len(onlys)):
                group = None
                have = [k for k in range(len(onlys)) if choice >> k & 1]
                for k, (role, entry, sign) in enumerate(onlys):
                    if choice >> k & 1:
                        continue
                    key = (role, entry, sign, tuple(h for h in have if onlys[h] in told[role]))
                    if key not in known:
                        t = alive & inside(entry, not sign)
                        for h in key[3]:
                            t &= told[role][onlys[h]]
                        known[key] = bool(t)
                    if not known[key]:
                        if group is None:
                            group = self.group(choice, len(onlys), count)
                        struck |= group
                        break
            if not alive & struck:
                break
            alive &= every ^ struck
        self.alive, self.found, self.every = alive, found, every

    @staticmethod
    def group(choice, onlys, count):
        """The types with this choice of restrictions."""
        t, length = 1 << choice, 1 << onlys
        while length < 1 << count:
            t |= t << length
            length *= 2
        return t

    def within(self, a, b):
        return not self.alive & self.found[a] & (self.every ^ self.found[b])

    def empty(self, a):
        return not self.alive & self.found[a]
