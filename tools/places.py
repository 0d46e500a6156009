#!/usr/bin/env python3
"""Counts the places of each point of docs/DESIGN-PASS.md in crates/*/src, for a tree (default: this one); with --list prints them.

    tools/places.py [--list POINT] [TREE]
"""

import re
import sys
from pathlib import Path

GREPS = [
    ("1a verdict beside a value", r"^\s+pub verdict:"),
    ("1b own Option or Result", r"^\s+(Bad|Wrong|NotAForm|NotWritten\(.*\)|(Stopped|Refused)\(Refusal\)),"),
    ("1c flag beside a value", r"^\s+pub (good|more|failed|found|ok): bool"),
    ("1d number for a kind or a word", r"kind: [1-6]\b|step\([1-6],|_(line|kind)\([1-6],|^\s+[1-6] => |\b(kind|word) == [1-6]"),
    ("3 index counted by hand", r"^\s+(while|loop)\b"),
    ("4 conversion or printing by hand", r"\bfn (number|code|record_number|marks_number|reason_number|written_number|byte|one|wide|node|larger|kind_byte|limit_word|first_of|request_of|is_ring|put_\w+|(ring|tree)_(flags|bytes))\("),
    ("5a fact in a requires", r"requires .*\b(Open|Sound|Good|Lent|Shape|Bounded|Eight|SoundTable|Ready|Inside|Fits|HeldReady|Room|Going)\b"),
    ("6 index beside a buffer", r"\b(at|from|len): usize\b"),
    ("7 switch on a step's kind", r"match (kind|stage|said|f|recorded|word|request)\b"),
]


def sources(tree):
    return sorted(Path(tree).glob("crates/*/src/**/*.rt"))


def signatures(text):
    """Each function's name, its line and its parameters."""
    for m in re.finditer(r"^([ \t]*)(?:#\[[^\n]*\]\s*)?((?:pub )?(?:extern \"C\" |unsafe )*fn (\w+)(?:<[^(]*>)?\()", text, re.M):
        depth, i = 1, m.end()
        while depth and i < len(text):
            depth += text[i] == "("
            depth -= text[i] == ")"
            i += 1
        inner = text[m.end() : i - 1]
        depth, part, parts = 0, "", []
        for c in inner:
            depth += c in "([<{"
            depth -= c in ")]>}"
            if c == "," and depth == 0:
                parts.append(part.strip())
                part = ""
            else:
                part += c
        if part.strip():
            parts.append(part.strip())
        yield m.group(3), text.count("\n", 0, m.start(2)) + 1, parts


def places(tree):
    found = {name: [] for name, _ in GREPS}
    found["2 name of a function that stands twice"] = []
    found["5b function of eight parameters and more"] = []
    found["5c function of three lent columns and more"] = []
    names = {}
    for path in sources(tree):
        text = path.read_text()
        where = path.relative_to(tree)
        lines = text.split("\n")
        for name, pattern in GREPS:
            for i, line in enumerate(lines, 1):
                if re.search(pattern, line) and not line.lstrip().startswith("//"):
                    found[name].append(f"{where}:{i}: {line.strip()}")
        for name, line, parts in signatures(text):
            names.setdefault(name, []).append(f"{where}:{line}")
            if len(parts) >= 8:
                found["5b function of eight parameters and more"].append(f"{where}:{line}: {name} {len(parts)}")
            if sum(bool(re.search(r":\s*&\s*('\w+ )?(mut )?\[", p)) for p in parts) >= 3:
                found["5c function of three lent columns and more"].append(f"{where}:{line}: {name}")
    for name, at in sorted(names.items()):
        if len(at) > 1:
            found["2 name of a function that stands twice"].append(f"{name}: {' '.join(at)}")
    return found


def main():
    args = sys.argv[1:]
    point = args.pop(args.index("--list") + 1) if "--list" in args else None
    if point is not None:
        args.remove("--list")
    tree = Path(args[0]) if args else Path(__file__).resolve().parent.parent
    found = places(tree)
    for name in sorted(found):
        print(f"{len(found[name]):5} {name}")
        if point and name.startswith(point):
            print("".join(f"        {x}\n" for x in found[name]), end="")
    answers = [p for p in Path(tree).glob("crates/*/proofs/**/*.antt") if p.name in ("Answers.antt", "Invariants.antt")]
    print(f"{len(answers):5} 8 file of answers or invariants, {sum(len(p.read_text().splitlines()) for p in answers)} lines")


main()
