#!/usr/bin/env python3
"""Lists the places of the design pass in crates/*/src, and how many there are of each kind.

    python3 tools/places.py [-q] [ROOT]

A kind is a point of docs/DESIGN-PASS.md with a letter for each way to look. Of the tests only loops are listed. With
-q only the counts are printed.
"""
import difflib
import re
import sys
from collections import defaultdict
from pathlib import Path

LINES = {
    "1a enums of our own": r"^\s*(pub(\(crate\))? )?enum \w+",
    "1b a result in a result": r"Result<Result<",
    "1c a result whose error is a number, or nothing": r"Result<[^;{]*, (usize|u8|u16|u32|u64|\(\))>",
    "1d a truth value in a field or a parameter, or as a C result": r"^\s*(pub )?\w+: bool,$|[(,] ?\w+: bool\b|^\) -> bool",
    "1e a number or a character for a kind": r"\b(id|group|letter|kind|code)\b: (u8|u32|char)\b|fn id\(|if \w+ == [A-Z]{2,}",
    "1f a number for a refusal": r"fn (number|place)\(self\)|\((u32), usize\)|number: u32, place: usize",
    "1g a number as an answer that says nothing": r"fn \w+(<.*>)?\(.*\) -> u8$",
    "3a loops over a range": r"^\s*for .* in .*\.\.",
    "3b loops on a condition": r"^\s*(while|loop)\b",
    "3c loops over values": r"^\s*for (?!.*\.\.).* in ",
    "4a traits of the library by hand": r"^impl.*\b(Clone|Copy|PartialEq|Eq|PartialOrd|Ord|Hash|Default|From|TryFrom|Display|Debug|FromStr|Drop)\b.* for ",
    "4b conversions, comparisons and printing as functions": r"fn (same|shown|letter|heading|text|name|number|place|is_stay|answer|show_\w+|refused|accepted)\b",
    "4c an error let go, or turned by hand": r"Err\(_\) =>",
    "6a fixed arrays and buffers": r"\w+: \[[A-Z]\w+; |let mut \w+ = \[",
    "6b a part of a slice by numbers": r"\[[^\]\[]*\.\.[^\]\[]*\]",
    "6c a length beside a buffer": r"\bcount: usize\b|\bwidth: usize\b|shares: usize|scratch: usize|working: usize",
    "7a tables of functions, and dyn": r"\bfn\(|\bdyn\b|\[fn\b",
    "7b a choice by kind": r"\bmatch (change|letter|self|held|call|request)\b",
}

WORDS = set(
    "as break const continue else enum extern false fn for if impl in let loop match mod mut pub ref return self Self "
    "static struct trait true type unsafe use where while Ok Err Some None".split()
)


def functions(text):
    """Name, head and body of each function, without contracts and comments."""
    text = re.sub(r"//[^\n]*", "", text)
    for found in re.finditer(r"\bfn (\w+)", text):
        at, depth = found.end(), 0
        head_end = None
        while at < len(text):
            rest = text[at:]
            clause = re.match(r"(requires|ensures)\b[^{]*\{", rest)
            if clause and depth == 0:
                if head_end is None:
                    head_end = at
                at += clause.end()
                level = 1
                while level:
                    level += {"{": 1, "}": -1}.get(text[at], 0)
                    at += 1
                continue
            if text[at] == ";" and depth == 0:
                break
            if text[at] == "{":
                start, level = at + 1, 1
                at += 1
                while level:
                    level += {"{": 1, "}": -1}.get(text[at], 0)
                    at += 1
                yield found.group(1), text[found.end() : head_end or start - 1], text[start : at - 1]
                break
            depth += {"(": 1, ")": -1, "[": 1, "]": -1}.get(text[at], 0)
            at += 1


def shape(body):
    """The body's words and signs, each name and number by the order in which it first stands."""
    seen, out = {}, []
    for token in re.findall(r"\w+|[^\w\s]", body):
        if re.match(r"\w", token) and token not in WORDS:
            token = "#%d" % seen.setdefault(token, len(seen))
        out.append(token)
    return out


def clauses(text):
    """Each requires clause's text, with the function that it stands at."""
    text = re.sub(r"//[^\n]*", "", text)
    name = None
    for found in re.finditer(r"\bfn (\w+)|\brequires\b[^{]*\{", text):
        if found.group(1):
            name = found.group(1)
            continue
        at, level = found.end(), 1
        while level:
            level += {"{": 1, "}": -1}.get(text[at], 0)
            at += 1
        yield name, " ".join(text[found.end() : at - 1].split())


def parameters(head):
    inside = head[head.find("(") + 1 : head.rfind(")")]
    return frozenset(" ".join(p.split()) for p in re.findall(r"\b\w+: [^,()]+(?:\([^)]*\))?", inside))


def main():
    args = [a for a in sys.argv[1:] if a != "-q"]
    quiet = "-q" in sys.argv
    root = Path(args[0]) if args else Path(__file__).resolve().parent.parent
    files = sorted(root.glob("crates/*/src/**/*.rt"))
    places = defaultdict(list)
    all_functions = []
    facts, heads = defaultdict(set), []
    for file in files:
        where = str(file.relative_to(root / "crates"))
        text = file.read_text()
        tests = file.name == "tests.rt"
        for number, line in enumerate(text.split("\n"), 1):
            code = line.split("//")[0]
            tests = tests or code.startswith("mod tests {")
            if re.match(r"\s*(ghost|requires|ensures)\b", code):
                continue
            for kind, pattern in LINES.items():
                if (kind[0] == "3" or not tests) and re.search(pattern, code):
                    places[kind].append(f"{where}:{number}: {code.strip()}")
        for name, head, body in functions(text):
            all_functions.append((f"{where} {name}", shape(body)))
            heads.append((f"{where} {name}", parameters(head)))
        for name, fact in clauses(text):
            facts[fact].add(f"{where} {name}")
    for i, (first, a) in enumerate(all_functions):
        for second, b in all_functions[i + 1 :]:
            if min(len(a), len(b)) < 12 or "tests" in first or "tests" in second:
                continue
            near = difflib.SequenceMatcher(None, a, b, autojunk=False)
            if near.real_quick_ratio() > 0.9 and near.quick_ratio() > 0.9 and near.ratio() > 0.9:
                places["2a functions of nearly one shape"].append(f"{first} | {second}")
    for fact, at in facts.items():
        if len(at) > 2:
            places["5a a fact required by three functions or more"].append(f"{fact}: {', '.join(sorted(at))}")
    groups = defaultdict(set)
    for i, (first, a) in enumerate(heads):
        for second, b in heads[i + 1 :]:
            if len(a & b) > 2:
                groups[a & b] |= {first, second}
    for names, at in groups.items():
        whole = {first for first, a in heads if names <= a}
        if len(whole) > 2 and not any(names < other and len(at2) == len(at) for other, at2 in groups.items()):
            places["5b three parameters or more that travel together"].append(f"{', '.join(sorted(names))}: {', '.join(sorted(whole))}")
    for file in sorted(root.glob("crates/*/proofs/**/Answers.antt")):
        where = str(file.relative_to(root / "crates").parent)
        for line in file.read_text().split("\n"):
            if re.match(r"pub [\w-]+ : goal\.", line):
                places["8a goals answered by hand"].append(f"{where}: {line.split()[1]}")
    for kind in sorted(places):
        print(f"{len(places[kind]):4} {kind}")
        if not quiet:
            for place in places[kind]:
                print(f"       {place}")


main()
