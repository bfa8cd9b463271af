#!/usr/bin/env python3
"""Counts the places in crates/*/src where a newer form of the language may serve (docs/DESIGN-PASS.md).

    python3 tools/places.py [-l] [FOLDER]

FOLDER is a checkout, this one if none is given. For each point the places are counted by the patterns below, and with
-l listed. A pattern finds candidates: what is kept of them, and why, stands in the page.
"""
import collections
import glob
import os
import re
import sys

# What stands between a function's name and its body, clauses included.
HEAD = r"^[ ]*(?:pub(?:\(crate\))? )?(?:const |final )*fn (\w+)"

PATTERNS = {
    1: [
        ("own enums", r"^[ ]*(?:pub )?enum \w+"),
        ("numbers for a corner, a quarter or a place in a path", r"\b(?:corner|from|ix|n): (?:Option<)?u(?:8|64)\b"),
        ("a stage beside what it speaks of", r"^    (?:pub )?stage: \w+,"),
        ("an early return where `?` says it", r"let (?:Ok|Some)\(\w+\) = .* else \{"),
    ],
    3: [
        ("while", r"^[ ]*while "),
        ("for over a range", r"^[ ]*for \w+ in .*\.\."),
        ("an index counted by hand", r"^[ ]*\w+ \+= 1;"),
        ("the lesser of two by hand", r"if ([\w.()]+) < ([\w.()]+) \{\s*\1\s*\} else \{\s*\2"),
    ],
    4: [
        ("a match that wraps again what it took", r"(?:Ok|Some)\((\w+)\) => (?:Ok|Some)\([^\n]*\b\1\b|None => None,\n"),
        ("reading, printing and comparing by functions of their own", r"fn (?:named|read|show\w*|alike|turn_alike)\b"),
        ("plain types without equality", r"#\[derive\(Clone, Copy\)\]\n(?:pub )?(?:struct|enum) (?:Point|Vec2|Rect|Affine|PathEl|Circle|Triangle|Ellipse|RoundedRect|RoundedRectRadii|Mark)\b"),
    ],
    5: [
        ("three members that go together", r"M\.Shape\.wind M\.Shape\.frame M\.Shape\.drawn"),
        ("a table with the count of its entries in use", r"requires (?:within )?\{ count ≤ length table"),
        ("a function of what could be its own", r"^(?:const )?fn \w+(?:<[^>]*>)?\((?:entry: Entry|circle: Circle|s: RoundedRect|part: Part|radii: Vec2, x_rotation)"),
        ("the limits of a root's rest", r"(?:requires|ensures) whole \{"),
    ],
    6: [
        ("a buffer filled by hand, with a count", r"let mut given"),
        ("an array beside a count", r"\[(?:0\.0|Tally::NONE); \w+"),
        ("a record of a count, with the table elsewhere", r"^    pub\(crate\) count: usize"),
    ],
    7: [
        ("a switch on what to run, handed on", r"zeros: Zeros"),
        ("twin calls that differ in a constructor", r"^fn (?:position|count|winding|top|elements)\(answer: "),
    ],
}


def sources(top):
    for path in sorted(glob.glob(os.path.join(top, "crates/*/src/**/*.rt"), recursive=True)):
        with open(path) as f:
            yield os.path.relpath(path, top), f.read()


def functions(text):
    """The functions of a file: name, line, and the body."""
    for m in re.finditer(HEAD, text, re.M):
        at = re.compile(r"\n[ ]*\{\n|\{\n", re.M).search(text, m.end())
        if not at or ";" in text[m.end() : at.start()].split("ensures")[0]:
            continue
        depth, i = 1, at.end()
        while depth and i < len(text):
            depth += {"{": 1, "}": -1}.get(text[i], 0)
            i += 1
        yield m.group(1), text.count("\n", 0, m.start()) + 1, text[at.end() : i - 1]


def shape(body):
    """A body with its names and literals left out; keywords and operators stay."""
    kept = {"match", "if", "else", "let", "mut", "for", "while", "in", "return", "Ok", "Err", "Some", "None", "self"}
    words = re.sub(r"//[^\n]*", "", body)
    words = re.sub(r'"[^"]*"|\b[0-9][\w.]*', "0", words)
    words = re.sub(r"\b[A-Za-z_]\w*\b", lambda m: m.group(0) if m.group(0) in kept else "x", words)
    return re.sub(r"\s+", "", re.sub(r"(x(::|\.)?)+x", "x", words))


def twins(files):
    """Functions of one shape, in groups: those whose bodies have at least three lines."""
    groups = collections.defaultdict(list)
    for path, text in files:
        if path.endswith("tests.rt") or "/limits/" in path:
            continue
        for name, line, body in functions(text):
            if sum(1 for row in body.split("\n") if row.strip()) >= 3:
                groups[shape(body)].append(f"{path}:{line} {name}")
    return [g for g in groups.values() if len(g) > 1]


def main():
    words = sys.argv[1:]
    listed = "-l" in words
    top = next((w for w in words if w != "-l"), ".")
    files = list(sources(top))
    for point in range(1, 8):
        if point == 2:
            groups = twins(files)
            print(f"2 functions of one shape: {sum(map(len, groups))} in {len(groups)} groups")
            for group in groups if listed else []:
                print("    " + ", ".join(group))
            continue
        for what, pattern in PATTERNS[point]:
            found = [
                f"{path}:{text.count(chr(10), 0, m.start()) + 1}"
                for path, text in files
                for m in re.finditer(pattern, text, re.M)
            ]
            print(f"{point} {what}: {len(found)}")
            for place in found if listed else []:
                print("    " + place)
    proofs = glob.glob(os.path.join(top, "crates/*/proofs/**/*.antt"), recursive=True)
    answers = [p for p in proofs if p.endswith("/Answers.antt")]
    lines = sum(len(open(p).read().split("\n")) - 1 for p in proofs)
    print(f"8 lines of proofs: {lines}, in {len(proofs)} files, {len(answers)} of them answers")


main()
