#!/usr/bin/env python3
"""Brings the names of the repository's own definitions and lemmas to Rattle's spelling: once, after port.py, at the top of the repository.

usage: python3 tools/spelling.py links      before port.py: a link below crates/ becomes a copy, as port.py and `rt ci` want it
       python3 tools/spelling.py            after port.py: definitions, lemmas, fields and constructors of antt in snake case
       python3 tools/spelling.py --list     prints old and new name, and writes nothing

A definition in camel case becomes snake case: orderList, order_list. A dash stays where it joins two names, each that of a definition,
a field or a word of the library; else the parts are plain words, and it becomes an underscore: sums-most, sums_most. What would fall
together with another name gets _lem. Types, modules, operators, numerals (0·5) and symbols (A₀C, μ₀) stay, and so do Rattle functions,
exported names, strings, and the names that Rattle makes for proofs. It rewrites .rt and .antt below crates/ and the must-fail edits.
"""

import os
import re
import shutil
import sys

TOKEN = re.compile(r'"(?:[^"\\]|\\.)*"|«[^»]*»|[^\s(){}.;,@"«»\[\]\\]+')
PLAIN = re.compile(r"^[A-Za-z0-9_₀-₉αεθλμπφψ'-]+$")
# words of the library that lemmas are named after
LIBRARY = set(
    "length append take drop set get_or map filter fold reverse add sub mul div rem pow neg min max lt le eq gt ge and or not"
    " zero suc nil cons round num nan inf sum any all concat replicate insert remove swap".split()
)
KEPT = re.compile(r"^(invariant|decreases|returns|overflow\w*|loop|Need|After|At|In|Then|Else)-|^[0-9]|-spec$|^\+")
# spelled by hand: the library's word for getD is get_or; three fields and four definitions that another name would meet
BY_HAND = {"getD-range": "get_or-range", "in-float": "in_float_lem", "of-int": "of_int_lem", "far-sums": "sums_far", "in-limits": "is_in_limits", "well-formed": "is_well_formed", "matesAt": "mates_standing", "nextRow": "next_row_of", "sheetLength": "sheet_size", "ruleAnswer": "answer_of_rule"}


def files(suffixes):
    for folder, dirs, names in os.walk("crates"):
        dirs[:] = sorted(d for d in dirs if d != "out")
        for n in sorted(names):
            if n.endswith(suffixes):
                yield os.path.join(folder, n)


def read(path):
    with open(path, encoding="utf-8", newline="") as f:
        return f.read()


def links():
    for folder, dirs, names in os.walk("crates"):
        for n in dirs + names:
            p = os.path.join(folder, n)
            if os.path.islink(p):
                to = os.path.realpath(p)
                os.remove(p)
                (shutil.copytree if os.path.isdir(to) else shutil.copyfile)(to, p)
                print("copied", p)


def declared(nested):
    """The names of antt that the repository declares: what is defined, the fields, and all. At first those that stand at the margin, then,
    nested, those in modules within a file and in files of specs/ called Answers."""
    defined, fields, names = set(), set(), set()
    for path in files((".antt",)):
        if os.path.basename(path) in ("Proof.antt", "Invariants.antt", "Answers.antt") and not (nested and "/specs/" in path):
            continue
        inside = None
        for line in read(path).splitlines():
            indent = len(line) - len(line.lstrip(" "))
            m = re.match(r"^( *)(?:pub )?(record|data) (\S+)", line)
            if m and (nested or not m[1]):
                defined.add(m[3])
                inside = indent
                continue
            m = re.match(r"^( *)(abbrev |unfoldable |)(?:pub |)([^\s:(){}]+) :(?: |$)", line)
            if not m:
                continue
            if inside is not None and indent > inside and not m[2] and (nested or indent == 2):
                fields.add(m[3])
            elif nested or not m[1]:
                inside = None
                names.add(m[3])
                if m[2]:
                    defined.add(m[3])
    return defined, fields, names | defined | fields


def snake(word):
    """orderList -> order_list; a symbol's letter after a digit stays with it"""
    return re.sub(r"(?<=[a-z0-9₀-₉])([A-Z])", lambda m: "_" + m[1].lower(), word)


def spelled(name, known):
    if name in BY_HAND:
        return BY_HAND[name]
    if not PLAIN.match(name) or not re.match(r"^[a-zα-ω]", name) or KEPT.search(name):
        return name
    parts = [p if re.match(r"^[A-Z]$", p) else snake(p) for p in name.split("-")]
    out, i = [], 0
    while i < len(parts):
        n = next((k for k in range(len(parts) - i, 0, -1) if "_".join(parts[i : i + k]) in known and k < len(parts)), 0)
        out.append(("_".join(parts[i : i + max(n, 1)]), n > 0))
        i += max(n, 1)
    text = out[0][0]
    for (_, a), (word, b) in zip(out, out[1:]):
        text += ("-" if a and b else "_") + word
    return text


def table():
    out = {}
    for nested in (False, True):
        defined, fields, names = declared(nested)
        known = LIBRARY | {snake(d) for d in defined | fields if "-" not in d and re.match(r"^[a-z]", d) and len(d) > 1}
        new = {n: spelled(n, known) for n in sorted(names - set(out))}
        taken = set(out.values()) | {n for n in names if new.get(n) == n}
        # a definition keeps the plain name before a lemma does
        first = lambda n: (n not in defined | fields, n) if not nested else (n not in defined, n in fields, n)
        for n in sorted((n for n in new if new[n] != n), key=first):
            while new[n] in taken:
                new[n] += "_lem"
            taken.add(new[n])
        out.update({a: b for a, b in new.items() if a != b})
    return out


def turned(text, names):
    return TOKEN.sub(lambda m: names.get(m[0], m[0]) if m[0][0] not in '"«' else m[0], text)


def main(argv):
    if argv == ["links"]:
        return links()
    names = table()
    if argv == ["--list"]:
        for a, b in sorted(names.items()):
            print(a, b)
        return None
    if argv:
        return __doc__
    for path in files((".rt", ".antt", ".edit")):
        old = read(path)
        new = turned(old, names)
        if new != old:
            with open(path, "w", encoding="utf-8", newline="") as f:
                f.write(new)
    print(len(names), "names")
    return None


if __name__ == "__main__":
    sys.exit(main(sys.argv[1:]))
