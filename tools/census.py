#!/usr/bin/env python3
"""Counts, in crates/*/src of a commit or of the work tree, the places of the older forms that docs/DESIGN-PASS.md speaks of.

usage: python3 tools/census.py [COMMIT] [--list]     with no commit: the work tree; --list prints each place

It goes by the text: what it finds has to be read. `#[cfg(test)]` code counts too. Lines of comment do not count.
"""
import collections
import re
import subprocess
import sys


def git(*words):
    return subprocess.run(["git", *words], capture_output=True, text=True, check=True).stdout


def sources(commit):
    names = git("ls-tree", "-r", "--name-only", commit, "crates") if commit else git("ls-files", "crates")
    for name in names.split("\n"):
        if re.fullmatch(r"crates/[a-z_]+/src/.*\.rt", name):
            text = git("show", commit + ":" + name) if commit else open(name).read()
            yield name[len("crates/"):], text


def lines_of(text):
    for k, line in enumerate(text.split("\n"), 1):
        if not line.lstrip().startswith("//"):
            yield k, line


# A point of the page, what to look for, and the pattern of a line.
PATTERNS = [
    ("1 enums", r"^(pub |pub\(crate\) )?enum "),
    ("1 flags", r"^\s*(pub )?[a-z_]+: bool,$|Result<\([^()]*bool\)|Option<bool>"),
    ("1 numbers", r"\bkind: u8|\bnumber: u8|\bnumber\(self\) -> u32|\) -> u32|== 1 *[;{&]|roles\[[a-z]+\] [=>]"),
    ("3 index loops", r"\bfor [a-z_0-9]+ in \(?[^ ]*\.\.|\bwhile (let )?"),
    ("4 by hand", r"fn (report|number|parse|layer_name|base|digit|word_of|bytes_of|item_of|decoded|two_digits|part_line|shown_line)\b|impl.*\b(From|TryFrom|Display|FromStr|PartialEq|Ord|Clone|Default|Debug)\b.* for "),
    ("6 fixed buffers", r"^\s*(pub )?[a-z_]+: \[[A-Za-z0-9_]+; *[A-Za-z0-9_]+\],$|\[[A-Za-z0-9_:({) ]+; *[A-Za-z0-9_]+\];$"),
    ("7 steps", r"enum (Task|Step|Stage|Source|Base|Call|Run)\b|fn (advance|step_[a-z]+|descend)\b|match (task|self\.stage|source|call)\b"),
]


def functions(text):
    """Each function's name, its parameters and its clauses."""
    for m in re.finditer(r"^( *)(?:pub |pub\(crate\) |extern \"C\" |unsafe )*fn ([a-z_0-9]+)(?:<[^()]*?>)?\(([^)]*)\)", text, re.M):
        rest = text[m.end():]
        end = re.search(r"^" + m.group(1) + r"\{|[^}]\{$|;$", rest, re.M)
        head = rest[: end.start() + 1] if end else ""
        params = [" ".join(p.split()) for p in re.split(r",(?![^<]*>)", m.group(3)) if p.strip()]
        clauses = re.findall(r"requires(?: [a-z_]+)? \{(.*)\}$", head, re.M)
        yield m.group(2), params, [c.strip() for c in clauses]


def facts_of(clause):
    """The facts that a clause joins, with variables' names kept."""
    parts = re.split(r" × ", clause.strip("() "))
    return [p.strip("() ") for p in parts]


def main():
    words = [w for w in sys.argv[1:] if not w.startswith("--")]
    listing = "--list" in sys.argv
    files = list(sources(words[0] if words else None))
    for name, pattern in PATTERNS:
        found = [(f, k, l.strip()) for f, t in files for k, l in lines_of(t) if re.search(pattern, l)]
        print(f"{name}: {len(found)}")
        if listing:
            for f, k, l in found:
                print(f"    {f}:{k}: {l[:110]}")
    bodies = collections.defaultdict(list)
    facts = collections.defaultdict(set)
    pairs = collections.defaultdict(set)
    for f, t in files:
        crate = f.split("/")[0]
        for fn, params, clauses in functions(t):
            bodies[fn].append(f)
            for c in clauses:
                for fact in facts_of(c):
                    facts[(crate, fact)].add(f + ":" + fn)
            for a in params:
                for b in params:
                    if a == "&self" or b == "&self":
                        continue
                    if a < b:
                        pairs[(crate, a, b)].add(f + ":" + fn)
    twins = {n: fs for n, fs in bodies.items() if len({x.split("/")[0] for x in fs}) > 1 and n not in ("main", "new")}
    print(f"2 function names in more than one crate: {len(twins)}")
    if listing:
        for n, fs in sorted(twins.items()):
            print("    " + n + ": " + ", ".join(fs))
    often = {k: v for k, v in facts.items() if len(v) > 2}
    print(f"5 facts asked by three functions of a crate or more: {len(often)}")
    if listing:
        for (c, fact), v in sorted(often.items()):
            print(f"    {c}: {fact}  ({len(v)})")
    travel = {k: v for k, v in pairs.items() if len(v) > 2}
    print(f"5 pairs of parameters in three functions of a crate or more: {len(travel)}")
    if listing:
        for (c, a, b), v in sorted(travel.items()):
            print(f"    {c}: {a}, {b}  ({len(v)})")
    joined = [(f, c) for f, t in files for _, _, cs in functions(t) for c in cs if " × " in c]
    print(f"5 clauses that join facts: {len(joined)}")
    if listing:
        for f, c in joined:
            print(f"    {f}: {c[:110]}")
    stays = [(f, k, l.strip()) for f, t in files for k, l in enumerate(t.split("\n"), 1) if "// Stays:" in l]
    print(f"places that stay, with their line: {len(stays)}")
    if listing:
        for f, k, l in stays:
            print(f"    {f}:{k}: {l[:150]}")


main()
