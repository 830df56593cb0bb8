#!/usr/bin/env python3
"""Brings the definitions and lemmas of crates/ to one spelling: words in snake case, types and modules in camel case.

usage: python3 tools/respell.py            at the top of the repository: rewrites the files in place
       python3 tools/respell.py --list     only prints each old name and its new one, and those that would fall together

It takes names that are declared in crates/*/specs, in the lemma files crates/*/proofs/*.antt, or as ghost members in
crates/*/src; what the toolchain generates and what its library declares keep their names. It rewrites the names in .rt
and .antt files (outside strings), in must-fail edits, and in backticks in pages and comments.
"""
import collections
import glob
import os
import re
import sys

# names whose plain new spelling is taken already, and what they are called
CHOSEN = {
    "atBook": "placed_book", "atConcept": "placed_concept", "atEverywhere": "placed_everywhere", "atPast": "placed_past",
    "atPropagated": "placed_propagated", "atRule": "placed_rule", "bySecond": "by_second_outcome", "byFirst": "by_first_outcome",
    "firstFor": "first_entry_for", "lowerTest": "is_lower", "onSheet": "answer_on_sheet", "roleIn": "listed_role", "role-of": "role_small",
    "roles-A": "roles_of_a", "roles-B": "roles_of_b", "rolesIn": "plan_roles", "seedNot": "seed_of_not", "seedOne": "seed_of_one", "rule-at": "rule_entry_at",
    "seed-not": "seed_not_fits", "seed-one": "seed_one_fits", "bookLine": "line_of_book", "classLine": "line_of_class",
    "deniedLine": "line_of_denial", "deniedEntryLine": "line_of_denied_entry", "layerName": "name_of_layer", "twoDigits": "both_digits",
    "bothBelow": "both_within", "byWay": "by_way_of", "entryIn": "listed_entry", "firstBadConcept": "lowest_bad_concept",
    "firstBadRole": "lowest_bad_role", "firstUnfit": "lowest_unfit", "firstStray": "lowest_stray", "obligationAt": "obliged_at",
    "propagatedOf": "propagated_list", "sectionAt": "section_from", "seedApart": "seed_of_apart", "tellEntry": "told_by_entry",
    "tellOn": "told_further", "tellSigns": "told_by_signs", "tellPropagated": "told_propagated", "withRole": "with_other_role",
}
# declared several to a line, or by a name that begins like a word of the language
MORE = ["ofPairs", "ofConcepts", "ofRules", "ofNote", "ofTrailer", "in-book", "in-branch", "in-calm", "search-same"]
# not ours: the toolchain's words that a lemma file declares by the same name
KEPT = set()
WORD = r"[^\W\d][\w']*(?:-[\w']+)*"
TOKEN = re.compile(r"(?<![\w'«\u00b7-])(" + WORD + r")(?![\w'-])")


def files():
    for pattern in ("crates/*/src/**/*.rt", "crates/*/specs/**/*.antt", "crates/*/proofs/**/*.antt"):
        for p in sorted(glob.glob(pattern, recursive=True)):
            yield p


def is_lemma_file(p):
    parts = p.split("/")
    return parts[2] == "specs" or parts[2] == "proofs" and len(parts) == 4


def bare(line, antt):
    """The line without its comment."""
    at = re.search(r"(^|\s)--(\s|$)" if antt else r"//", line)
    return line[: at.start()] if at else line


def new_name(w):
    if w in CHOSEN:
        return CHOSEN[w]
    if w[0].isupper():
        return "".join(p[:1].upper() + p[1:] for p in w.split("-"))
    w = w.replace("-", "_")
    return re.sub(r"(?<=[a-z0-9])([A-Z])", r"_\1", w).lower() if re.search(r"[a-z0-9][A-Z]", w) or re.search(r"_[A-Z]", w) else w


def declared():
    names = collections.defaultdict(set)
    for p in files():
        antt = p.endswith(".antt")
        with open(p, encoding="utf-8") as f:
            text = f.read()
        if antt and not is_lemma_file(p):
            continue
        for line in text.split("\n"):
            line = bare(line, antt)
            if antt:
                m = re.match(r"\s*(?:(?:pub|abbrev|unfoldable|opaque|data|record|irreducible)\s+)*(" + WORD + r")(?:\s*[:({]|\s)", line)
                if m and not re.match(r"\s*(use|mod|module|pub mod|in|let|where|unfolding|rw|omega|search|elim|case|subst)\b", line) and re.search(r"(?<![=:]):(?![=:])|\b(data|record)\b", line):
                    names[m.group(1)].add(p)
            else:
                for m in re.finditer(r"\bghost\s+(" + WORD + r")\s*[:=]", line):
                    names[m.group(1)].add(p)
    return names


def tokens():
    seen = collections.defaultdict(set)
    for p in files():
        antt = p.endswith(".antt")
        with open(p, encoding="utf-8") as f:
            for line in f:
                for m in TOKEN.finditer(bare(line, antt)):
                    seen[m.group(1)].add(p)
    return seen


def renames():
    names, seen = declared(), tokens()
    for w in MORE:
        names[w].add("")
    table = {}
    for w in sorted(names):
        n = new_name(w)
        if n != w and w not in KEPT:
            table[w] = n
    clashes = []
    back = collections.defaultdict(list)
    for w, n in table.items():
        back[n].append(w)
    for n, ws in sorted(back.items()):
        if len(ws) > 1:
            clashes.append((n, ws, set()))
        elif n in seen:
            clashes.append((n, ws, seen[n] & seen[ws[0]]))
    return table, clashes


def main(argv):
    table, clashes = renames()
    if argv == ["--list"]:
        for w, n in sorted(table.items()):
            print(w, n)
        for n, ws, both in clashes:
            print("clash:", n, ws, sorted(both)[:3])
        return 0

    def turn(m):
        return table.get(m.group(1), m.group(1))

    for p in files():
        antt = p.endswith(".antt")
        with open(p, encoding="utf-8") as f:
            text = f.read()
        out = []
        for line in text.split("\n"):
            code = bare(line, antt)
            rest = line[len(code):]
            pieces = re.split(r'("(?:[^"\\]|\\.)*")', code)
            code = "".join(x if i % 2 else TOKEN.sub(turn, x) for i, x in enumerate(pieces))
            rest = re.sub(r"`[^`]*`", lambda m: TOKEN.sub(turn, m.group()), rest)
            out.append(code + rest)
        if "\n".join(out) != text:
            with open(p, "w", encoding="utf-8") as f:
                f.write("\n".join(out))
    for p in sorted(glob.glob("crates/*/must-fail/*.edit")) + sorted(glob.glob("docs/*.md")) + ["README.md"]:
        with open(p, encoding="utf-8") as f:
            text = f.read()
        if p.endswith(".edit"):
            new = re.sub(r"(?m)^((?:old|new): )(.*)$", lambda m: m.group(1) + TOKEN.sub(turn, m.group(2)), text)
        else:
            new = re.sub(r"`[^`\n]*`", lambda m: TOKEN.sub(turn, m.group()), text)
        if new != text:
            with open(p, "w", encoding="utf-8") as f:
                f.write(new)
    return 0


if __name__ == "__main__":
    raise SystemExit(main(sys.argv[1:]))
