#!/usr/bin/env python3
"""Spells the repository's own definitions and lemmas as Rattle's library spells its own: words in snake case.

usage: python3 tools/respell.py

It runs once, at the top of the repository, after the kit's port.py. It renames what the files of specs/ and the lemma
files of proofs/ declare: `withPlace` becomes `with_place`, and `head-ready` becomes `head_ready`. Types, modules and
constructors that begin with a capital keep their names, and so does all that Rust code declares. Names in function
folders of proofs/ that Rattle makes (goals, steps) are left alone. Pages and must-fail edits follow the same table.
Where a lemma's name would meet a definition's in one file, the lemma is called NAME_lem.
A second run stops at names that would meet, and changes nothing.
"""

import glob
import re

# A lemma whose name would meet a definition's in some file is called NAME_lem. These are called otherwise, or were
# brought to snake case by port.py and would meet a definition now; they stand in the crate `promises` alone.
OTHERWISE = {"kind-after": "the_kind_after"}
IN_PROMISES = {"line_after": "the_line_after", "ring_in": "ring_in_lem", "is_free": "is_free_lem", "way_in": "way_in_lem", "way_out": "way_out_lem"}

TOKEN = re.compile(r"[^\s(){}\[\].;,@\"«»`|/:]+")
CAMEL = re.compile(r"[a-z][a-z0-9]*(?:[A-Z]+[a-z0-9]*)+'*")
USE = re.compile(r"^(?:pub )?use ((?!Rattle\.(?!std\b|core\b))[^\s{;]+)\.\{([^}]*)\}", re.M)
RESERVED = set("data record deriving module where use mod pub package open as unfoldable abbrev axiom unfold unfolding ruleset mutual infix infixl infixr elim let in do search omega simp rw cc grind ground assumption first_of hlevel".split())


def read(path):
    with open(path, encoding="utf-8") as f:
        return f.read()


def snake(name):
    words = re.sub(r"([A-Z]+)([A-Z][a-z])", r"\1_\2", re.sub(r"([a-z0-9])([A-Z])", r"\1_\2", name))
    return words.lower().replace("-", "_")


def tokens(text):
    return set(TOKEN.findall(text))


def main():
    specs = glob.glob("crates/*/specs/**/*.antt", recursive=True)
    lemmas = glob.glob("crates/*/proofs/*.antt")
    proofs = [p for p in glob.glob("crates/*/proofs/**/*.antt", recursive=True) if p not in lemmas]
    sources = glob.glob("crates/*/src/**/*.rt", recursive=True)
    edits = glob.glob("crates/*/must-fail/*.edit")
    pages = glob.glob("*.md") + glob.glob("docs/*.md")
    texts = {p: read(p) for p in specs + lemmas + proofs + sources + edits + pages}

    libraries = set()
    for p in specs + lemmas + proofs:
        for _, names in USE.findall(texts[p]):
            libraries.update(n.strip().split(" as ")[0] for n in names.split(","))
    table = {}
    for p in specs + lemmas:
        for name in tokens(re.sub(r"--.*", "", texts[p])):
            if "-" in name.strip("-") and "◌" not in name and name[0].islower():
                table[name] = snake(name)
    for p in specs + lemmas + proofs:
        for name in tokens(texts[p]):
            if CAMEL.fullmatch(name):
                table[name] = snake(name)
    for name in libraries & set(table):
        del table[name]
    table.update(OTHERWISE)

    def spelled(p, name):
        if p.startswith("crates/promises/") and name in IN_PROMISES:
            return IN_PROMISES[name]
        return table.get(name, name)

    for p in specs + lemmas:
        have = tokens(texts[p])
        at = {}
        for name in have:
            at.setdefault(spelled(p, name), []).append(name)
        for new, olds in at.items():
            dashed = [n for n in olds if "-" in n]
            if len(olds) > 1 and len(dashed) == 1:
                table[dashed[0]] = new + "_lem"
    bad = 0
    for old, new in table.items():
        if new in RESERVED:
            print(f"reserved: {old} -> {new}")
            bad += 1
    for p in specs + lemmas:
        at = {}
        for name in tokens(texts[p]):
            at.setdefault(spelled(p, name), []).append(name)
        for new, olds in at.items():
            if len(olds) > 1:
                print(f"meet: {p}: {' '.join(sorted(olds))} -> {new}")
                bad += 1
    if bad:
        return 1

    declared = set().union(*(tokens(texts[p]) for p in specs + lemmas))

    def named(p, name):
        # port.py turned no page
        return snake(name) if "-" in name and name not in table and snake(name) in declared else spelled(p, name)

    for p, text in texts.items():
        if p in sources:
            new = re.sub(r"[^\W\d][\w']*", lambda m: table.get(m[0], m[0]) if CAMEL.fullmatch(m[0]) else m[0], text)
        elif p in pages:
            new = re.sub(r"`[^`\n]*`", lambda m: TOKEN.sub(lambda n: named(p, n[0]), m[0]), text)
        elif p in proofs:
            # behind a dot stand the steps of the code, whose names Rattle makes, or a record's fields
            new = TOKEN.sub(lambda m: snake(m[0]) if m[0] in table and text[m.start() - 1 : m.start()] == "." and m[0] not in OTHERWISE else table.get(m[0], m[0]), text)
        else:
            new = TOKEN.sub(lambda m: spelled(p, m[0]), text)
        if new != text:
            with open(p, "w", encoding="utf-8") as f:
                f.write(new)
    print(f"respelled: {len(table)} names")
    return 0


if __name__ == "__main__":
    raise SystemExit(main())
