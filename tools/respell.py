#!/usr/bin/env python3
"""Respells the repository's own definitions and lemmas: words in snake case, types and facts in camel case.

usage: python3 tools/respell.py [FOLDER]     the top of the repository (default: this folder)

Of each name with a dash or a question mark that a file of specs/ or proofs/ defines (a signature, a record's field, a
constructor), a name with a capital becomes camel case (Never-misses: NeverMisses; Goes_on: GoesOn), any other snake case
(has-cpu: has_cpu), and a question mark at the end becomes a word (right?: right_test). Names that Rattle makes of the code (goals, steps) stay,
and so do names that a file takes from a library, functions of src/, strings and comments.
It says which names fall together, and then changes nothing.
"""

import glob
import os
import re
import sys

WORD = re.compile(r"[^\s(){}\[\];,.«»]+")
SIGNATURE = re.compile(
    r"^(?P<indent>\s*)(?:(?:abbrev|unfoldable|pub|record|data) )*(?P<name>[^\s(){}:;,.]+)(?:\s+[({].*?[)}])*\s*:\s+(?P<type>.*)$"
)
GOAL = re.compile(r"^(\(.*?\) → )*goal\.")
IMPORT = re.compile(r"^(?:ghost |pub )*use ([\w.]+)\.\{(.*)\};?\s*$")
CLAUSE = re.compile(r"^\s*(ghost |requires|ensures|pub ghost )")
BY_HAND = {"config?": "config_computed", "Load-fault": "IsLoadFault", "Heavy-first": "HeavyFirstOver"}


def respelled(name):
    if name in BY_HAND:
        return BY_HAND[name]
    if name.endswith("?"):
        name = name[:-1] + "-test"
    if name[0].isupper():
        return "".join(part[0].upper() + part[1:] for part in re.split("[-_]", name) if part)
    return name.replace("-", "_")


def read(path):
    with open(path, encoding="utf-8") as f:
        return f.read()


def files(top, ending):
    found = glob.glob(os.path.join(top, "crates", "**", "*" + ending), recursive=True)
    return sorted(f for f in found if "/out/" not in f and "/target/" not in f)


def own_names(paths):
    names, goals = set(), set()
    for path in paths:
        for line in read(path).split("\n"):
            if line.lstrip().startswith("--"):
                continue
            m = SIGNATURE.match(line)
            if not m or m["name"] == "--":
                continue
            if GOAL.match(m["type"]):
                goals.add(m["name"])
            elif "-" in m["name"].strip("-") or m["name"].endswith("?") or (m["name"][0].isupper() and "_" in m["name"]):
                names.add(m["name"])
    return names - goals


def library_names(text, crates):
    """The names that a file takes from a module that is not this repository's."""
    taken = set()
    for line in text.split("\n"):
        m = IMPORT.match(line.strip())
        if m and not any(m[1].startswith(f"Rattle.{c}.") for c in crates):
            taken |= {w for item in m[2].split(",") for w in item.split()}
    return taken


def turn(code, names, kept):
    """Respells the names in a piece of code. A word is not looked at where it is part of a longer one."""
    return WORD.sub(lambda m: respelled(m[0]) if m[0] in names and m[0] not in kept else m[0], code)


def turn_antt(line, names, kept):
    code, dashes, comment = line.partition("--") if line.lstrip().startswith("--") else line.partition(" -- ")
    return turn(code, names, kept) + dashes + comment


def turn_rt(text, names, kept):
    out, depth = [], 0
    for line in text.split("\n"):
        if line.lstrip().startswith("//"):
            out.append(line)
            continue
        if depth or CLAUSE.match(line):
            depth = max(0, depth + line.count("{") - line.count("}"))
            line = turn(line, names, kept)
            line = re.sub(r"«([a-z_A-Z0-9]+)»", lambda m: m[1], line)
        out.append(line)
    return "\n".join(out)


def main():
    top = sys.argv[1] if len(sys.argv) > 1 else "."
    crates = sorted(os.path.basename(os.path.dirname(d)) for d in glob.glob(os.path.join(top, "crates", "*", "src")))
    antt, rt = files(top, ".antt"), files(top, ".rt")
    names = own_names(antt)
    paths = re.compile(r"\bRattle\.[\w.+]*|[\w)]\.[\w-]+")
    present = {w for path in antt for w in WORD.findall(paths.sub(" ", read(path)))}
    present |= {m for path in rt for m in re.findall(r"\b(?:struct|enum|type|const|trait) (\w+)", read(path))}
    together = sorted(n for n in names if respelled(n) in present)
    twins = sorted(n for n in names for o in names if n < o and respelled(n) == respelled(o))
    if together or twins:
        for n in together + twins:
            print(f"falls together: {n}: {respelled(n)}")
    if together or twins:
        raise SystemExit(1)
    for path in antt + rt:
        text = read(path)
        kept = library_names(text, crates)
        clash = sorted(names & kept)
        if clash:
            print(f"{path}: of a library, as they were: {', '.join(clash)}")
        if path.endswith(".rt"):
            new = turn_rt(text, names, kept)
        else:
            new = "\n".join(turn_antt(line, names, kept) for line in text.split("\n"))
        if new != text:
            with open(path, "w", encoding="utf-8") as f:
                f.write(new)
    print(f"{len(names)} names")


if __name__ == "__main__":
    main()
