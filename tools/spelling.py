#!/usr/bin/env python3
"""Spells the definitions and lemmas of this repository as Rattle does: words in snake case, types in camel case.

usage: python3 tools/spelling.py            at the top: rewrites crates/**/*.rt and *.antt in place
       python3 tools/spelling.py --list     only prints the names that it turns

It turns a name only where specs/ or proofs/ of this repository declare it (a definition, a lemma, a constructor, a
field, or a name after `as`), never a goal's name and never a name of a library. It stops where two names would fall
together or where a library's import has the name too.
"""

import os
import re
import sys

# a name of antt: what stands between spaces, brackets, dots, commas, semicolons and quotes
NAME = re.compile(r'[^\s(){}\[\].,;"`@?λ:=|]+')
DECLARED = re.compile(
    r"^\s*(?:(?:pub|abbrev|unfoldable|total|opaque|private|instance)\s+)*((?:[^\s(){}\[\].,;\"`@?:=|]+\s+)+):\s"
)
HEAD = re.compile(r"^\s*(?:pub\s+)?(?:data|record|ruleset|class)\s+(?:pub\s+)?([^\s(){}:]+)")
ALIAS = re.compile(r"\bas\s+([^\s(){}\[\].,;]+)")
GOAL = re.compile(r":\s*(?:goal|need|given)\.")
IMPORT = re.compile(r"^\s*(?:ghost\s+)?(?:pub\s+)?use\s+(\S+?)\.\{(.*?)\}", re.S | re.M)
WORDS = {"pub", "abbrev", "unfoldable", "use", "mod", "module", "where", "let", "in"}


def files():
    for folder, dirs, names in os.walk("crates"):
        dirs[:] = sorted(d for d in dirs if d not in ("out", "must-fail", "data"))
        for name in sorted(names):
            if name.endswith((".rt", ".antt")):
                yield os.path.join(folder, name)


def own(path):
    """The names that a file of specs/ or proofs/ declares."""
    found = set()
    with open(path, encoding="utf-8") as f:
        text = f.read()
    for line in text.split("\n"):
        code = line.split("--")[0] if line.lstrip().startswith("--") else line
        if not code.strip():
            continue
        m = DECLARED.match(code)
        if m and not GOAL.search(code):
            found.update(m.group(1).split())
        m = HEAD.match(code)
        if m:
            found.add(m.group(1))
        if re.match(r"\s*(?:ghost\s+)?use\s", code):
            found.update(ALIAS.findall(code))
    return found - WORDS


def spelled(name):
    """The name in snake case, or a type's in camel case."""
    name = name.replace("\u2032", "'")
    if "-" not in name.strip("-"):
        return name
    parts = name.split("-")
    if name[0].isupper():
        return "".join(p[:1].upper() + p[1:] for p in parts)
    return "_".join(parts)


def main():
    paths = list(files())
    declared = set()
    for path in paths:
        if path.endswith(".antt"):
            declared |= own(path)
    for path in paths:
        if path.endswith(".rt"):
            with open(path, encoding="utf-8") as f:
                for line in f:
                    if re.match(r"\s*ghost\s+use\s", line):
                        declared.update(ALIAS.findall(line))
    turned = {n: spelled(n) for n in declared if spelled(n) != n and not n.startswith("◌")}
    # what a library gives under the same name stays; so its name is not turned
    for path in paths:
        with open(path, encoding="utf-8") as f:
            text = f.read()
        for source, names in IMPORT.findall(text):
            if re.match(r"Rattle\.(algebra|groups|sharing|history|laws|custody|lines|console|cabinet|worked|own_group|bench)\b", source):
                continue
            for n in re.split(r"[,\s]+", names):
                if n in turned:
                    print(f"spelling: {path} imports {n} from {source}", file=sys.stderr)
                    turned.pop(n)
    back = {}
    for old, new in sorted(turned.items()):
        if new in back or new in declared:
            print(f"spelling: {old} and {back.get(new, new)} fall together as {new}", file=sys.stderr)
            raise SystemExit(1)
        back[new] = old
    if "--list" in sys.argv:
        for old, new in sorted(turned.items()):
            print(old, new)
        return
    for path in paths:
        with open(path, encoding="utf-8") as f:
            text = f.read()
        out = []
        for line in text.split("\n"):
            out.append(NAME.sub(lambda m: turned.get(m.group(0), m.group(0)), line))
        new = "\n".join(out)
        if new != text:
            with open(path, "w", encoding="utf-8") as f:
                f.write(new)
    print(f"spelling: {len(turned)} names turned")


main()
