#!/usr/bin/env python3
"""Spells the repository's own definitions and lemmas in snake case.

usage: snake_names.py [--check] [FOLDER]

In every crate below FOLDER/crates (the current folder where none is given) each definition, lemma, record field and
import alias of specs/, proofs/ and the clauses of src/ that is written with dashes, as length-of, is written with
underscores, as length_of. Names that the library or the checker makes keep their dashes: a file's imports from the
library, and the names of goals, invariants and measures. Comments and texts in quotes are left as they are.

--check prints what would change and the names that would fall together, and writes nothing. A second run changes
nothing more. Exit status 1 if names would fall together.
"""

import glob
import os
import re
import sys

NAME = r"(?:[^\s(){}.;,@\"«»\[\]])+"
DECLARED = re.compile(rf"^[ \t]*(?:(?:abbrev|unfoldable|pattern|pub) )*({NAME}) :\s+(\S+)", re.M)
RECORD = re.compile(rf"^[ \t]*(?:pub )?(?:record|data|ruleset|syntax) ({NAME})", re.M)
USE = re.compile(r"^[ \t]*(?:pub )?(?:ghost )?use ([^;{\n]+?)(?:\.\{([^}]*)\})?(?: as (\S+?))?;?[ \t]*$", re.M)
SKIP = re.compile(r'(?P<antt>(?<![^\s(){}\[\];,])--[^\n]*)|(?P<rust>//[^\n]*)|(?P<text>b?"(?:\\.|[^"\\\n])*")', re.S)


def split(text, is_rust):
    """Yields the parts of the text, each with whether it may be changed."""
    at = 0
    for m in SKIP.finditer(text):
        if m["antt"] and is_rust or m["rust"] and not is_rust:
            continue
        if m.start() < at:
            continue
        yield text[at : m.start()], True
        yield m[0], False
        at = m.end()
    yield text[at:], True


def code(text, is_rust):
    return "".join(part if free else " " for part, free in split(text, is_rust))


def imports(text):
    """Yields (path, name, alias) of each name that the file imports."""
    for m in USE.finditer(text):
        path, names, alias = m[1], m[2], m[3]
        if names is None:
            yield path, None, alias
            continue
        for it in names.split(","):
            words = it.split()
            if len(words) == 1:
                yield path, words[0], None
            elif len(words) == 3 and words[1] == "as":
                yield path, words[0], words[2]


def main(argv):
    check = "--check" in argv
    rest = [a for a in argv if a != "--check"]
    root = rest[0] if rest else "."
    crates = sorted(os.listdir(os.path.join(root, "crates")))
    files = {}
    for kind in ("specs/**/*.antt", "proofs/**/*.antt", "src/**/*.rt"):
        for f in sorted(glob.glob(os.path.join(root, "crates", "*", *kind.split("/")), recursive=True)):
            with open(f, encoding="utf-8") as it:
                files[f] = it.read()

    own = set()
    for f, text in files.items():
        plain = code(text, f.endswith(".rt"))
        if f.endswith(".antt"):
            for m in DECLARED.finditer(plain):
                if not m[2].startswith("goal."):
                    own.add(m[1])
            own.update(RECORD.findall(plain))
        for path, name, alias in imports(plain):
            if alias:
                own.add(alias)
    new = {d: d.replace("-", "_") for d in own if re.search(r"\w-\w", d)}

    changed, together = 0, []
    for f, text in files.items():
        is_rust = f.endswith(".rt")
        plain = code(text, is_rust)
        theirs = set()
        for path, name, alias in imports(plain):
            parts = path.split(".")
            if not (parts[0] == "Rattle" and len(parts) > 1 and parts[1] in crates):
                theirs.add(name)
                theirs.add(parts[-1])
        here = {d: s for d, s in new.items() if d not in theirs}
        words = set(re.findall(NAME, plain))
        for d, s in here.items():
            if d in words and s in words:
                together.append(f"{f}: {d} and {s}")
        token = re.compile(NAME)
        out = "".join(token.sub(lambda m: here.get(m[0], m[0]), part) if free else part for part, free in split(text, is_rust))
        if out != text:
            changed += 1
            if not check:
                with open(f, "w", encoding="utf-8") as it:
                    it.write(out)
    print("\n".join(together))
    print(f"{len(new)} names, {changed} files, {len(together)} that may fall together")
    return 1 if together else 0


if __name__ == "__main__":
    raise SystemExit(main(sys.argv[1:]))
