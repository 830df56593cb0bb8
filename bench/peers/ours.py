"""The register, by the program `calls` of this repository, in one process for a book that is spoken to line by line."""
import contextlib
import functools
import re
import select
import subprocess

from book import TOP
from peers import cpu

NODES = (64, 1024, 16384, 262144)
WORDS = 65 + 64 * 64
MOST_CLASSES = 24


class OverTime(Exception):
    pass


@functools.cache
def program(crate):
    """The compiled program of a crate, built anew, which is quick where nothing has changed."""
    subprocess.run([TOP / "bench" / "build", crate], check=True)
    return str(TOP / "target" / "programs" / crate)


class Session:
    """A run of `calls`. It may use `limit` seconds of processor in all; when they are over, the process is killed."""

    def __init__(self, command, book, limit):
        self.process = subprocess.Popen([command], stdin=subprocess.PIPE, stdout=subprocess.PIPE, stderr=subprocess.DEVNULL)
        self.limit = limit
        self.rest = b""
        self.say("book " + book.bytes().hex())

    def say(self, line):
        self.process.stdin.write(line.encode() + b"\n")
        self.process.stdin.flush()

    def call(self, line):
        self.say(line)
        while b"\n" not in self.rest:
            if not select.select([self.process.stdout], [], [], 0.5)[0]:
                if cpu(self.process.pid) > self.limit:
                    raise OverTime(line)
                continue
            more = self.process.stdout.read1(65536)
            if not more:
                raise RuntimeError(f"calls ended at: {line}")
            self.rest += more
        answer, self.rest = self.rest.split(b"\n", 1)
        return answer.decode()

    def roomy(self, line, rest=""):
        """A call with 64 nodes, and with more where these do not suffice."""
        for nodes in NODES:
            answer = self.call(f"{line} {nodes}{rest}")
            if not answer.startswith("denied 15 "):
                break
        return answer, nodes

    def end(self):
        """Nothing may be said after the last answer, and the status has to be 0."""
        self.process.stdin.close()
        more = self.rest + self.process.stdout.read()
        if more or self.process.wait(60):
            raise RuntimeError(f"calls ended with status {self.process.returncode} and {more!r}")

    def close(self):
        self.process.kill()
        self.process.wait()
        with contextlib.suppress(OSError):
            self.process.stdin.close()
        self.process.stdout.close()


# The refusals that may come: 14, the 25th class; 15, no room; 17, a world of more than 64 individuals.
MAY_COME = {"file": (14, 15), "ask": (15,), "show": (15, 17)}


class Register:
    """All answers for a book: `classes[i]` is the class of entry i or None where it was refused; `yes[a][b]` is whether class a
    is within class b; `shown[(a, b)]` is the line of a world for "a not b", where the answer was no. Where the time was over,
    `over` is the call that it ended in, and what was not answered is None. An answer that cannot come there is an error."""

    def __init__(self, command, book, limit):
        self.session = Session(command, book, limit)
        self.refused, self.roomy, self.over = {}, 0, ""
        self.classes, self.stands = [None] * len(book.entries), {}
        self.yes = [[None] * (MOST_CLASSES + 1) for _ in range(MOST_CLASSES + 1)]
        self.shown = {}
        try:
            opened = self.session.call("open closed")
            if not re.fullmatch(r"open \d+", opened):
                raise RuntimeError(f"open: {opened}")
            self.file(len(book.entries))
            self.ask()
            self.session.end()
        except OverTime as over:
            self.over = str(over)
        finally:
            self.session.close()

    def call(self, line, wanted, rest=""):
        """The match of an answer of the form that is wanted, or None where the call was refused."""
        answer, nodes = self.session.roomy(line, rest)
        self.roomy += nodes > NODES[0]
        found, refusal = re.fullmatch(wanted, answer), re.fullmatch(r"denied (\d+) \d+ register", answer)
        if refusal and int(refusal[1]) in MAY_COME[line.split()[0]]:
            number = int(refusal[1])
            self.refused[number] = self.refused.get(number, 0) + 1
        elif not found:
            raise RuntimeError(f"{line}: {answer}")
        return found

    def file(self, count):
        for i in range(count):
            found = self.call(f"file {i}", r"class (\d+)")
            if found:
                self.classes[i] = int(found[1])
                self.stands.setdefault(self.classes[i], i)

    def ask(self):
        given = sorted({0, *self.stands})
        for a in given:
            for b in given:
                found = self.call(f"ask {a} {b}", "yes|no")
                if found:
                    self.yes[a][b] = found[0] == "yes"
                if self.yes[a][b] is False:
                    shown = self.call(f"show {a} {b}", "shown .*", f" {WORDS}")
                    if shown:
                        self.shown[a, b] = shown[0]

    def within(self, i, j):
        """Is entry i within entry j? None where the register did not say."""
        a, b = self.classes[i], self.classes[j]
        if a is None or b is None:
            return None
        return True if a in (0, b) and self.yes[a][b] is None else self.yes[a][b]
