#!/usr/bin/env python3
"""Brings this repository's own definitions and lemmas to snake case, once, after the kit's port.py.

usage: tools/respell.py [DIR]      DIR: the top of a checkout; the one of this script without it
       tools/respell.py --list [DIR]      only prints what would be renamed

A definition, a lemma, a field, a constructor, a parameter or an alias of specs/, proofs/ and `ghost use` lines that is spelled with
dashes gets underscores in their place (`next-place` becomes `next_place`), one in camel case gets snake case. Names that
Rattle makes (goals, invariants, measures) and the library's names stay. It stops where two names would fall together.
"""
import os
import re
import sys

WORD = r"[A-Za-z0-9_'◌·-]"
TOKEN = re.compile(rf"(?<!{WORD})[A-Za-z_][A-Za-z0-9_'-]*(?!{WORD})")


def files(root):
    for folder, dirs, names in os.walk(os.path.join(root, "crates")):
        dirs[:] = sorted(d for d in dirs if d != "out")
        for name in sorted(names):
            if name.endswith((".antt", ".rt")):
                yield os.path.join(folder, name)


def read(path):
    with open(path, encoding="utf-8") as f:
        return f.read()


def snake(name):
    return re.sub(r"(?<=[a-z0-9])([A-Z])", lambda m: "_" + m.group(1).lower(), name).replace("-", "_")


def aliases(use_lines):
    return re.findall(rf"\bas ({WORD}+)", use_lines)


def declared(path, text):
    """The names that a file declares, and those that Rattle made for its goals."""
    uses = "\n".join(re.findall(r"^(?:ghost |pub )?use\b[^;\n]*", text, re.M))
    names = set(aliases(uses))
    made = set()
    if path.endswith(".antt"):
        code = re.sub(r"--.*", "", text)
        made |= set(re.findall(rf"^(?:abbrev )?pub ({WORD}+) : goal\.", code, re.M))
        names |= set(re.findall(rf"^ *(?:abbrev |unfoldable |pub )*({WORD}+)\s+:", code, re.M))
        for group in re.findall(rf"[({{]((?:{WORD}+ )+):", code):
            names |= set(group.split())
        names |= set(re.findall(rf"^ *let ({WORD}+)(?= (?:[({{][^)}}]*[)}}] )*[:=])", code, re.M))
    return names - made, made


def renamed(root):
    names, made, library = set(), set(), set()
    for path in files(root):
        text = read(path)
        own, goals = declared(path, text)
        names |= own
        made |= goals
        for listed in re.findall(r"^(?:ghost |pub )?use Rattle\.std\.[\w.]+\.\{([^}]*)\}", text, re.M):
            library |= {word.split(" as ")[0].strip() for word in listed.split(",")}
    chosen = {}
    for name in sorted(names - made - library):
        if name[:1].islower() and snake(name) != name:
            chosen[name] = snake(name)
    spelled = {}
    for name in sorted((names | made | library) - set(chosen)):
        spelled[name] = name
    for old, new in chosen.items():
        if new in spelled:
            sys.exit(f"respell: {old} and {spelled[new]} would fall together as {new}")
        spelled[new] = old
    return chosen, sorted(name for name in names & library if "-" in name)


def turned(text, chosen, source):
    """The text with its names turned; comments, and in a source strings too, stay as they are."""
    kept = r'//[^\n]*|b?"(?:\\.|[^"\\])*"' if source else r"--[^\n]*"
    done, at = [], 0
    for m in re.finditer(kept, text):
        done.append(TOKEN.sub(lambda t: chosen.get(t.group(0), t.group(0)), text[at:m.start()]))
        done.append(m.group(0))
        at = m.end()
    done.append(TOKEN.sub(lambda t: chosen.get(t.group(0), t.group(0)), text[at:]))
    return "".join(done)


def main():
    words = sys.argv[1:]
    only = "--list" in words
    words = [w for w in words if w != "--list"]
    root = words[0] if words else os.path.dirname(os.path.dirname(os.path.realpath(__file__)))
    chosen, shared = renamed(root)
    if shared:
        print("respell: the library has these names too, left as they are: " + ", ".join(shared))
    if only:
        for old, new in chosen.items():
            print(old, new)
        return
    count = 0
    for path in files(root):
        text = read(path)
        new = turned(text, chosen, path.endswith(".rt"))
        if new != text:
            count += 1
            with open(path, "w", encoding="utf-8") as f:
                f.write(new)
    print(f"respell: {len(chosen)} names in {count} files")


main()
