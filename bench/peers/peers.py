"""The two peers: a book in their input formats, runs of them, and what they answer.

FaCT++ reads lists of its own, Konclude OWL 2 in functional syntax. Each entry of a book is a class of theirs, defined as
equivalent to what the entry says of the classes of its parts; a name is a class of its own, nothing and everything are the
bottom and top class, and "none r a" is "not some r a".
"""
import os
import re
import shutil
import signal
import subprocess
import sys
import tempfile
import time

from book import AND, EVERYTHING, NAME, NONE, NOT, NOTHING, ONLY, OR, SOME

FACT = os.environ.get("FACT", "FaCT++")
KONCLUDE = os.environ.get("KONCLUDE", "Konclude")
WORKERS = os.environ.get("KONCLUDE_WORKERS", "2")
PREFIX = "http://book#"


def installed():
    """Ends where a peer is not installed."""
    for command, package in ((FACT, "fact++"), (KONCLUDE, "konclude")):
        if shutil.which(command) is None:
            sys.exit(f"{command} is wanted (Debian: {package})")


class Failed(Exception):
    """A run without an answer: `kind` is one word for counting, the rest says what was seen."""

    def __init__(self, kind, seen):
        super().__init__(f"{kind}: {seen}")
        self.kind = kind


def lisp(book):
    """The book for FaCT++."""
    lines = []
    lines += [f"(defprimrole R{r})" for r in range(len(book.roles))]
    lines += [f"(transitive R{r})" for r, t in enumerate(book.roles) if t]
    lines += [f"(implies_r R{lower} R{upper})" for lower, upper in book.pairs]
    lines += [f"(defprimconcept N{a})" for kind, a, _, _ in book.entries if kind == NAME]
    says = {
        NOTHING: "*BOTTOM*", EVERYTHING: "*TOP*", NAME: "N{a}", NOT: "(not E{a})", AND: "(and E{a} E{b})",
        OR: "(or E{a} E{b})", SOME: "(some R{a} E{b})", ONLY: "(all R{a} E{b})", NONE: "(not (some R{a} E{b}))",
    }
    for i, (kind, a, b, _) in enumerate(book.entries):
        lines.append(f"(equal_c E{i} {says[kind].format(a=a, b=b)})")
    lines += [f"(implies_c E{c} E{d})" for c, d in book.rules]
    return "\n".join(lines) + "\n"


def functional(book):
    """The book for Konclude."""
    lines = [f"Prefix(:=<{PREFIX}>)", "Prefix(owl:=<http://www.w3.org/2002/07/owl#>)", "Ontology(<http://book>"]
    lines += [f"Declaration(ObjectProperty(:R{r}))" for r in range(len(book.roles))]
    lines += [f"Declaration(Class(:N{a}))" for kind, a, _, _ in book.entries if kind == NAME]
    lines += [f"Declaration(Class(:E{i}))" for i in range(len(book.entries))]
    lines += [f"TransitiveObjectProperty(:R{r})" for r, t in enumerate(book.roles) if t]
    lines += [f"SubObjectPropertyOf(:R{lower} :R{upper})" for lower, upper in book.pairs]
    says = {
        NOTHING: "owl:Nothing", EVERYTHING: "owl:Thing", NAME: ":N{a}", NOT: "ObjectComplementOf(:E{a})",
        AND: "ObjectIntersectionOf(:E{a} :E{b})", OR: "ObjectUnionOf(:E{a} :E{b})",
        SOME: "ObjectSomeValuesFrom(:R{a} :E{b})", ONLY: "ObjectAllValuesFrom(:R{a} :E{b})",
        NONE: "ObjectComplementOf(ObjectSomeValuesFrom(:R{a} :E{b}))",
    }
    for i, (kind, a, b, _) in enumerate(book.entries):
        same = kind in (AND, OR) and a == b  # a list of two equal members is not good form: a and a is a
        lines.append(f"EquivalentClasses(:E{i} {':E%d' % a if same else says[kind].format(a=a, b=b)})")
    lines += [f"SubClassOf(:E{c} :E{d})" for c, d in book.rules]
    return "\n".join(lines + [")"]) + "\n"


CONF = "[LeveLogger]\n file = reasoning.log\n allowedLevel = 0\n[Tuning]\n[Query]\n TBox = book.tbox\n"


def lay_fact(book, folder):
    """Writes the input of FaCT++ into a folder and gives the command to be run there."""
    (folder / "book.tbox").write_text(lisp(book))
    (folder / "book.conf").write_text(CONF)
    return [FACT, "book.conf"]


def lay_konclude(book, folder):
    (folder / "book.ofn").write_text(functional(book))
    return [KONCLUDE, "classification", "-w", WORKERS, "-i", "book.ofn", "-o", "answer.xml"]


def watched(command, folder, limit, stdin=os.devnull):
    """Runs a command in a folder, with a file as its standard input, and gives its exit status and what it wrote. It is killed and fails
    when it has used `limit` seconds of processor, or 30 times as long by the clock, or when it does nothing for `limit` seconds."""
    with tempfile.TemporaryFile() as out, open(stdin, "rb") as given:
        process = subprocess.Popen(command, cwd=folder, stdin=given, stdout=out, stderr=subprocess.STDOUT)
        end, pause = time.monotonic() + 30 * limit, 0.002
        moved, at = time.monotonic(), 0.0  # when it was last seen to have used more, and how much
        while process.poll() is None:
            used, now = cpu(process.pid), time.monotonic()
            if used > at:
                moved, at = now, used
            if used > limit or now > end or now > moved + limit:
                process.kill()
                process.wait()
                raise Failed("hang" if now > moved + limit else "timeout", f"killed after {used:.1f} s of processor")
            time.sleep(pause)
            pause = min(0.1, pause * 1.2)
        status = process.wait()
        out.seek(0)
        said = out.read().decode(errors="replace")
    if status < 0:
        raise Failed("crash", signal.Signals(-status).name)
    return status, said


def cpu(pid):
    """Seconds of processor that a running process has used."""
    try:
        with open(f"/proc/{pid}/stat") as stat:
            fields = stat.read().rsplit(")", 1)[1].split()
        return (int(fields[11]) + int(fields[12])) / os.sysconf("SC_CLK_TCK")
    except OSError:
        return 0.0


class Answer:
    """What a peer says of a book: for each entry the set of the entries that it is within. Where the peer says that no world
    keeps the book, each is within each."""

    def __init__(self, count, above, empty, consistent=True):
        self.count = count
        everything = set(range(count))
        self.up = [everything if i in empty or not consistent else above[i] for i in range(count)]
        self.empty = everything if not consistent else empty
        self.consistent = consistent

    def within(self, i, j):
        return j in self.up[i]


def reached(edges, start):
    """The nodes that edges lead to from one node, itself included; they may go in circles."""
    found, ahead = {start}, [start]
    while ahead:
        more = set(edges[ahead.pop()]) - found
        found |= more
        ahead.extend(more)
    return found


def ordered(count, nodes, edges, top, bottom):
    """The answer from the nodes of a taxonomy (a list of sets of class names) and its edges (node to upper node). The classes of
    a circle are within each other; so is the top class within what is above it, and all within all that is below the bottom class."""
    place = {name: k for k, names in enumerate(nodes) for name in names}
    lost = [i for i in range(count) if f"E{i}" not in place]
    if lost:
        raise Failed("missing", f"entries {lost} are not in the answer")
    up = [reached(edges, k) for k in range(len(nodes))]
    everywhere = set() if top is None else up[top]
    above, empty = [], set()
    for i in range(count):
        reach = up[place[f"E{i}"]]
        above.append({j for j in range(count) if place[f"E{j}"] in reach | everywhere})
        if bottom in reach:
            empty.add(i)
    return Answer(count, above, empty)


def ask_fact(book, folder, limit):
    for old in folder.glob("Taxonomy.*"):
        old.unlink()
    status, said = watched(lay_fact(book, folder), folder, limit)
    count = len(book.entries)
    if "inconsistent" in said:
        return Answer(count, [], set(), consistent=False)
    log = folder / "Taxonomy.log"
    if status != 0 or not log.exists():
        raise Failed("refused" if status else "no-answer", " ".join(said.split())[-200:])
    nodes, parents = [], []
    for line in log.read_text().splitlines():
        vertex = re.match(r'(\(?(?:"[^"]*"=?)+\)?) \{\d+:(.*?)\}', line)
        if vertex:
            head, up = vertex.groups()
            nodes.append(set(re.findall(r'"([^"]*)"', head)))
            parents.append(re.findall(r'"([^"]*)"', up))
    place = {name: k for k, names in enumerate(nodes) for name in names}
    edges = [[place[p] for p in up] for up in parents]
    return ordered(count, nodes, edges, place.get("TOP"), place.get("BOTTOM"))


def ask_konclude(book, folder, limit):
    (folder / "answer.xml").unlink(missing_ok=True)
    status, said = watched(lay_konclude(book, folder), folder, limit)
    answer = folder / "answer.xml"
    if "is inconsistent." in said:
        return Answer(len(book.entries), [], set(), consistent=False)
    if status != 0 or not answer.exists() or "{error}" in said:
        raise Failed("refused", f"status {status}: " + " ".join(said.split())[-200:])
    return konclude_answer(len(book.entries), answer.read_text())


def konclude_answer(count, xml):
    same, below = [], []
    for kind, body in re.findall(r"<(EquivalentClasses|SubClassOf)>(.*?)</\1>", xml, re.S):
        names = [re.sub(r".*#", "", iri) for iri in re.findall(r'IRI="([^"]*)"', body)]
        if kind == "EquivalentClasses":
            same.append(set(names))
        else:
            below.append((names[0], names[1]))
    declared = {re.sub(r".*#", "", iri) for iri in re.findall(r'<Declaration>\s*<Class IRI="([^"]*)"', xml)}
    nodes = []
    for names in same + [{n} for n in declared] + [{n} for pair in below for n in pair]:
        touching = [n for n in nodes if n & names]
        nodes = [n for n in nodes if not n & names] + [set(names).union(*touching)]
    place = {name: k for k, names in enumerate(nodes) for name in names}
    if "Thing" in place and place["Thing"] == place.get("Nothing"):
        return Answer(count, [], set(), consistent=False)
    edges = [set() for _ in nodes]
    for lower, upper in below:
        if place[lower] != place[upper]:
            edges[place[lower]].add(place[upper])
    return ordered(count, nodes, edges, place.get("Thing"), place.get("Nothing"))


ASK = {"fact++": ask_fact, "konclude": ask_konclude}


def asked(name, book, folder, limit, tries=3):
    """The answer of a peer, or None, and the failures that were seen: where it hung, crashed or left entries out, it is asked again."""
    seen = []
    for _ in range(tries):
        try:
            return ASK[name](book, folder, limit), seen
        except Failed as failed:
            seen.append(failed)
            if failed.kind not in ("hang", "crash", "missing"):
                break
    return None, seen
