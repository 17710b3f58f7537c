#!/usr/bin/env python3
"""Lists places in crates/*/src where an older form of Rattle may stand, by point (docs/DESIGN-PASS.md).

usage: tools/places.py [DIR]      DIR: the top of a checkout; the one of this script without it

It finds candidates by their text; a reader judges each. Points: 1 own Option or Result, flags, numbers for kinds; 2 twins;
3 loops that count; 4 equality, conversion, printing by hand; 5 facts and parameters that travel together; 6 buffers, searches;
7 functions chosen by tables; 8 proof files.
"""
import os
import re
import sys
from collections import defaultdict

KEYWORDS = set("fn pub let mut if else match for in while loop return self Self impl struct enum use mod as ref crate super const type trait move true false".split())


def sources(top):
    for folder, dirs, names in os.walk(os.path.join(top, "crates")):
        dirs[:] = sorted(d for d in dirs if d != "out")
        if "/src" in folder + "/":
            for name in sorted(names):
                if name.endswith(".rt"):
                    path = os.path.join(folder, name)
                    with open(path, encoding="utf-8") as f:
                        yield os.path.relpath(path, top), f.read()


def functions(text):
    """(name, line, parameters, clauses, body) of each function."""
    for m in re.finditer(r"^( *)(?:pub(?:\(crate\))? )?(?:final )?fn (\w+)", text, re.M):
        indent, start = m.group(1), m.start()
        end = text.find(f"\n{indent}}}", start)
        whole = text[start:end if end >= 0 else len(text)]
        head = re.split(r"\n%s\{|\) -> [^\n]*\{\n|\) \{\n" % indent, whole, maxsplit=1)
        clauses = re.findall(r"(?:requires|ensures)(?: \w+)? \{ (.*) \}$", whole, re.M)
        body = head[1] if len(head) > 1 else ""
        yield m.group(2), text.count("\n", 0, start) + 1, re.findall(r"(\w+): ", whole.split("->")[0].split("{")[0]), clauses, body


def shape(body):
    """The body with each name and number replaced by the order of its first appearance."""
    body = re.sub(r"//.*", "", body)
    seen, out = {}, []
    for token in re.findall(r"[A-Za-z_]\w*|\d\w*|\S", body):
        out.append(token if token in KEYWORDS or not token[0].isalnum() and token[0] != "_" else seen.setdefault(token, f"${len(seen)}"))
    return " ".join(out)


def show(title, rows):
    print(f"{title}: {len(rows)}")
    for row in rows:
        print("   ", row)


def grep(files, pattern):
    return [f"{path}:{n}: {line.strip()}" for path, text in files for n, line in enumerate(text.split("\n"), 1) if re.search(pattern, line) and not line.lstrip().startswith("//")]


def main():
    top = sys.argv[1] if len(sys.argv) > 1 else os.path.dirname(os.path.dirname(os.path.abspath(__file__)))
    files = list(sources(top))
    show("1 own enums", grep(files, r"^\s*(pub(\(crate\))? )?enum \w+"))
    show("1 flags beside a value", grep(files, r"^\s*(pub )?\w+: bool,|Result<bool|Option<bool|\(\w+, bool\)"))
    show("1 numbers for kinds or refusals", grep(files, r"Result<\w*(<.*>)?, u\d+>|Result<u8,|\b(kind|violation): u\d+|^(pub )?const (?!.*(MOST|FEWEST|BUDGET|LENGTH))\w+: u\d+ ="))
    bodies, clauses, travels = defaultdict(list), defaultdict(list), defaultdict(list)
    for path, text in files:
        for name, line, parameters, facts, body in functions(text):
            place = f"{path}:{line} {name}"
            if len(shape(body).split()) >= 4:
                bodies[shape(body)].append(place)
            for fact in set(facts):
                clauses[re.sub(r"\s+", " ", fact)].append(place)
            names = sorted(set(parameters) - {"self", "heap", "rt"})
            for i, a in enumerate(names):
                for b in names[i + 1:]:
                    travels[a, b].append(place)
    show("2 functions of one shape", ["; ".join(places) for places in bodies.values() if len(places) > 1])
    show("3 loops that count", grep(files, r"for \w+ in \S+\.\.|\bwhile\b|\.enumerate\(\)|^\s*\*?\w+ \+= 1;"))
    show("3 loops in all", grep(files, r"^\s*(for|while|loop)\b"))
    show("4 traits by hand", grep(files, r"^impl.*\b(PartialEq|Eq|PartialOrd|Ord|Clone|Copy|Default|Hash|Debug)(<.*>)? for "))
    show("4 conversions by hand", grep(files, r"fn (number|of|from_number|to_\w+|as_\w+|group)\("))
    show("4 printing by hand", grep(files, r"fn \w+_lines?\(|fn \w*text\("))
    show("5 facts in three contracts or more", [f"{len(p)} times: {fact}" for fact, p in clauses.items() if len(p) > 2])
    show("5 parameters together in four functions or more", [f"{', '.join(pair)}: {len(p)}" for pair, p in travels.items() if len(p) > 3])
    show("6 a length beside a buffer", grep(files, r"^\s*(pub )?(used|count|len|length): usize,"))
    show("6 searches by hand", [f"{path}: {m.group(0).split(chr(10))[0].strip()}" for path, text in files for m in re.finditer(r"for \w+ in [^\n]*\{\n\s*if [^\n]*\{\n\s*return Some", text)])
    show("7 functions as values", grep(files, r"\bdyn \w|: fn\(|\[fn\("))
    proofs = [os.path.join(f, n) for f, _, names in os.walk(os.path.join(top, "crates")) if "/proofs" in f and "/out" not in f for n in names if n.endswith(".antt")]
    lines = sum(open(p, encoding="utf-8").read().count("\n") for p in proofs)
    answers = [p for p in proofs if p.endswith("/Answers.antt")]
    print(f"8 proof files: {len(proofs)}, of {lines} lines; answers: {len(answers)} files; invariants: {sum(p.endswith('/Invariants.antt') for p in proofs)} files")


if __name__ == "__main__":
    main()
