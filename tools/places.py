#!/usr/bin/env python3
"""Lists the places in src/ that docs/DESIGN-PASS.md counts: python3 tools/places.py [POINT], at the root; the last line of each point is its count.
It reads text, so it is a list to be judged by a reader, and not a judgement: what stays has its reason on the page."""

import collections
import glob
import re
import sys

NUMBER = re.compile(r"\b(0x[0-9a-f_]+|\d[\d_]*(\.\d+)?(e-?\d+)?|[A-Z][A-Z0-9_]{2,})\b")
TYPE = re.compile(r"\b(u8|u16|u32|u64|usize|f64|i32)\b")


def listed():
    with open("crates.txt", encoding="utf-8") as f:
        return [line.split(":")[0].split()[0] for line in f if ":" in line and not line.startswith("#")]


def files():
    for name in listed():
        for path in sorted(glob.glob(f"crates/{name}/src/**/*.rt", recursive=True)):
            with open(path, encoding="utf-8") as f:
                yield path, f.read()


def functions(text):
    """Each function: name, line, signature without clauses, clauses, body."""
    for m in re.finditer(r"(?m)^( *)(?:pub(?:\(crate\))? )?(?:extern \"C\" )?fn (\w+)", text):
        indent, name = m.group(1), m.group(2)
        end = re.compile(rf"(?m)^{indent}\}}").search(text, m.start())
        if not end:
            continue
        whole = text[m.start():end.end()]
        start = re.search(rf"(?m)(^{indent}\{{\n|\) (?:-> [^\n]*)?\{{\n|\) -> [^\n{{]* \{{\n)", whole)
        cut = start.start() if start else len(whole)
        head, body = whole[:cut], whole[cut:]
        clauses = re.search(r"(?m)^\s*(requires|ensures)", head)
        signature = head[:clauses.start()] if clauses else whole[:(start.end() if start else len(whole))]
        yield name, text.count("\n", 0, m.start()) + 1, signature, head[clauses.start():] if clauses else "", body


def enums_and_flags():
    """1: enums with a case for a refusal, a failure or nothing; structs that carry a flag or a cause; a bool beside a lent array; kinds by number; sentinels."""
    for path, text in files():
        for m in re.finditer(r"(?ms)^pub enum (\w+) \{(.*?)^\}", text):
            if re.search(r"\b(Refused|Failed|None)\b", m.group(2)):
                yield path, text.count("\n", 0, m.start()) + 1, f"enum {m.group(1)}"
        for m in re.finditer(r"(?ms)^pub struct (\w+) \{(.*?)^\}", text):
            if re.search(r"\b(cause|clear|ok|good|valid): ", m.group(2)):
                yield path, text.count("\n", 0, m.start()) + 1, f"struct {m.group(1)}"
        for m in re.finditer(r"(?m)^const NONE\b", text):
            yield path, text.count("\n", 0, m.start()) + 1, "a number for a missing value"
        for name, line, signature, clauses, body in functions(text):
            if "-> bool" in signature and re.search(r": &mut (\[f64|Vectors|SeenFaces)", signature):
                yield path, line, f"{name}: a flag beside a lent array"
            if re.search(r"\bkind: u32\b", signature) and "extern" not in signature:
                yield path, line, f"{name}: a kind by its number"
            for test in re.finditer(r"if let \w+::Refused\((\w+)\) = \w+ \{\s*return \w*(?:::Refused|refused_by)\(\1\)|\w*::?Refused\((\w+)\) => \w+::Refused\(\2\)", body):
                yield path, line, f"{name}: a refusal passed on by hand"


def twins():
    """2: functions whose text is the same but for numbers, sizes, types and digits in names."""
    seen = collections.defaultdict(list)
    for path, text in files():
        for name, line, signature, clauses, body in functions(text):
            whole = re.sub(r"//[^\n]*", "", signature + clauses + body)
            if "match call" in whole or len(whole) < 60:
                continue
            key = re.sub(r"\bfn \w+", "fn", whole)
            key = NUMBER.sub("N", TYPE.sub("T", key))
            key = re.sub(r"(\w*?)_?(8|24|small|medium|large|40|160|640|2560|10240|all|f64s?|u32s?|u64s?)\b", r"\1", key)
            seen[re.sub(r"\s+", " ", key)].append((path, line, name))
    for places in seen.values():
        if len(places) > 1:
            for path, line, name in places:
                yield path, line, f"{name}: as " + ", ".join(n for p, l, n in places if (p, l) != (path, line))


def loops():
    """3: `while` loops that count, and `for` loops over numbers."""
    for path, text in files():
        for m in re.finditer(r"(?m)^\s*(while [^\n]*|for \w+ in [^\n]*(?<!\[)\.\.[^\n]*) \{$", text):
            yield path, text.count("\n", 0, m.start() + 1) + 1, m.group(1)


def conversions():
    """4: functions that only put a value's numbers in another order of fields, or print by hand."""
    for path, text in files():
        for name, line, signature, clauses, body in functions(text):
            inner = re.sub(r"\s+", " ", body)
            if re.match(r"^[^{]*\{ ?(\[ ?(\w+\.[\w.]+,? ?){3,}\]|\w+ \{( ?[\w]+: (\w+\[\d+\]|\w+ \{( ?\w+: \w+\[\d+\],?)+ ?\}),?)+ ?\}) ?\}$", inner):
                yield path, line, f"{name}: a conversion"
            if re.search(r"write_all\(b\"|% 10\b", body):
                yield path, line, f"{name}: printing by hand"
            if re.search(r"(?s)match self \{.*=> \d+,.*=> \d+,|match r \{.*=> \d+,.*=> \d+,", body):
                yield path, line, f"{name}: a table by cases"


def facts():
    """5: a `requires` that stands in three functions or more; three parameters that stand together in three functions or more."""
    where, groups = collections.defaultdict(list), collections.defaultdict(list)
    for path, text in files():
        for name, line, signature, clauses, body in functions(text):
            for m in re.finditer(r"requires \w* ?\{(.*?)\}\n", clauses + "\n", re.S):
                for part in re.split(r" × ", m.group(1)):
                    part = re.sub(r"\s+", " ", part).strip(" ()")
                    if len(part) > 8:
                        where[part].append((path, line, name))
            names = re.findall(r"(\w+): (?:&(?:mut )?)?[\w\[]", signature.split("->")[0])
            for i in range(len(names) - 2):
                groups[tuple(names[i:i + 3])].append((path, line, name))
    for part, places in sorted(where.items()):
        if len({p[2] for p in places}) >= 3:
            yield places[0][0], places[0][1], f"{len(places)} functions require {part}"
    for names, places in sorted(groups.items()):
        if len(places) >= 3:
            yield places[0][0], places[0][1], f"{len(places)} functions take {', '.join(names)}"


def buffers():
    """6: arrays with a count beside them, arrays in step, a search by hand."""
    for path, text in files():
        for name, line, signature, clauses, body in functions(text):
            head = signature.split("->")[0]
            if re.search(r": (?:&(?:mut )?)?\[[^\]]*;[^\]]*\]", head) and re.search(r"\b(n|count|len): usize", head):
                yield path, line, f"{name}: an array and a count"
            if len(re.findall(r": &(?:mut )?\[f64; ?\w+\]", head)) >= 3:
                yield path, line, f"{name}: arrays in step"
            if re.search(r"\bmid\b", body):
                yield path, line, f"{name}: a search by hand"


def switches():
    """7: a bool that chooses the step to run, and functions chosen by a number."""
    for path, text in files():
        for name, line, signature, clauses, body in functions(text):
            for flag in re.findall(r"\b(\w+): bool\b", signature.split("->")[0]):
                if re.search(rf"if !?{flag}\b", body):
                    yield path, line, f"{name}: {flag}"
            if re.search(r"match (call|n|kind) \{", body):
                yield path, line, f"{name}: chosen by a number"


def answers():
    """8: answer files, and those of them that only open definitions and say refl or search."""
    for name in listed():
        for path in sorted(glob.glob(f"crates/{name}/proofs/**/Answers.antt", recursive=True)):
            with open(path, encoding="utf-8") as f:
                text = f.read()
            terms = re.findall(r"(?m)^[\w'\-]+ (?:g )?c = (.*)$", text)
            if terms and all(t in ("refl", "search rules") for t in terms) and "\n\n\n" not in text:
                yield path, 1, "opens a definition"


POINTS = [enums_and_flags, twins, loops, conversions, facts, buffers, switches, answers]


def main(argv):
    for k, point in enumerate(POINTS, 1):
        if argv and str(k) not in argv:
            continue
        found = list(point())
        for path, line, what in found:
            print(f"{k} {path}:{line}: {what}")
        print(f"{k}: {len(found)}\n")


if __name__ == "__main__":
    main(sys.argv[1:])
