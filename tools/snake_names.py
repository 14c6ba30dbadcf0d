#!/usr/bin/env python3
"""Turns this repository's own definitions and lemmas to snake case, and its own types to camel case; run once, at the top,
right after the kit's port script: it stops where no Proof.antt is left, for then that is behind us. Names of the library, of
src/ (functions, types, strings) and of generated goals stay.

A name is ours if a file of specs/ or proofs/ (a Proof.antt aside) has it and no `use` line of that file brings it from
outside. It refuses to write if two names would fall together. Comments and quoted text keep their words."""
import glob
import os
import re
import sys

NAME = re.compile(r"[^\s(){}\[\].,;:=\"`]+")
USE = re.compile(r"^\s*(?:pub )?(?:ghost )?use ([^\s{;]+?)(?:\.\{([^}]*)\})?(?: as \S+)?;?\s*$")
OWN = "Rattle."
SAID = {"null?": "null_ref"}
HYPHENATED = re.compile(r"^[^\W\d]?[\w'◌⊑?]*(?:-[\w'◌⊑?]+)+$")


def crates():
    return sorted(os.path.basename(c) for c in glob.glob("crates/*"))


def lemma_files():
    found = glob.glob("crates/*/specs/**/*.antt", recursive=True) + glob.glob("crates/*/proofs/**/*.antt", recursive=True)
    return sorted(f for f in found if os.path.basename(f) != "Proof.antt")


def clause_files():
    return sorted(glob.glob("crates/*/src/**/*.rt", recursive=True))


def proof_files():
    return sorted(glob.glob("crates/*/proofs/**/Proof.antt", recursive=True))


def brought(text, mine):
    """The names that a file's `use` lines bring: from outside, and from our own specs and proofs."""
    outside, inside = set(), set()
    for line in text.split("\n"):
        m = USE.match(line)
        if m:
            own = m[1].startswith(OWN) and m[1].split(".")[1] in mine
            names = {n.strip().split(" as ")[0] for n in (m[2] or "").split(",") if n.strip()}
            (inside if own else outside).update(names)
    return outside, inside


def code(line):
    """The line's parts that are neither comment nor quoted text, each with a flag that says so."""
    at = line.find("-- ") if not line.lstrip().startswith("--") else 0
    head, tail = (line[:at], line[at:]) if at >= 0 else (line, "")
    for i, part in enumerate(head.split('"')):
        yield part if i % 2 == 0 else '"' + part + '"', i % 2 == 0
    yield tail, False


def new_name(name):
    if name in SAID:
        return SAID[name]
    if name[0].isupper():
        return "".join(p[0].upper() + p[1:] for p in name.split("-"))
    return name.replace("-", "_")


def words(text):
    for line in text.split("\n"):
        for part, plain in code(line):
            if plain:
                yield from NAME.findall(part)


def map_of(mine):
    names, all_words = set(), set()
    for f in lemma_files():
        text = open(f, encoding="utf-8").read()
        outside, _ = brought(text, mine)
        found = set(words(text))
        all_words |= found
        for w in found - outside:
            w = w.strip("◌")
            if w in SAID or HYPHENATED.match(w) and "-" in w.strip("-"):
                names.add(w)
    turned = {n: new_name(n) for n in names}
    by_new = {}
    for old in sorted(turned):
        by_new.setdefault(turned[old], []).append(old)
    clash = [f"{', '.join(olds)} -> {new}" for new, olds in by_new.items() if len(olds) > 1 or new in all_words]
    return turned, clash


def turn(part, names):
    def put(m):
        w = m[0]
        bare = w.strip("◌")
        return w.replace(bare, names[bare]) if bare in names else w

    return NAME.sub(put, part)


def rewrite(path, names):
    text = open(path, encoding="utf-8").read()
    new = "\n".join("".join(turn(p, names) if plain else p for p, plain in code(line)) for line in text.split("\n"))
    if new != text:
        open(path, "w", encoding="utf-8").write(new)
        return 1
    return 0


def rewrite_clauses(path, names):
    """Of a .rt file only `ghost use` lines and clauses."""
    text = open(path, encoding="utf-8").read()
    lines = text.split("\n")
    for i, line in enumerate(lines):
        if re.match(r"\s*(ghost use|requires|ensures|ghost)\b", line):
            lines[i] = turn(line, names)
    new = "\n".join(lines)
    if new != text:
        open(path, "w", encoding="utf-8").write(new)
        return 1
    return 0


def main():
    mine = crates()
    if not proof_files():
        print("no Proof.antt is left: this ran before, and would now turn the names of goals", file=sys.stderr)
        raise SystemExit(1)
    names, clash = map_of(mine)
    if "--list" in sys.argv:
        print("\n".join(f"{a} -> {b}" for a, b in sorted(names.items())))
    if clash:
        print("names that fall together:\n" + "\n".join(clash), file=sys.stderr)
        raise SystemExit(1)
    changed = 0
    for f in lemma_files():
        outside, _ = brought(open(f, encoding="utf-8").read(), mine)
        changed += rewrite(f, {a: b for a, b in names.items() if a not in outside})
    for f in proof_files():
        outside, inside = brought(open(f, encoding="utf-8").read(), mine)
        changed += rewrite(f, {a: b for a, b in names.items() if a in inside and a not in outside})
    for f in clause_files():
        changed += rewrite_clauses(f, names)
    print(f"{len(names)} names, {changed} files")


main()
