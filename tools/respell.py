#!/usr/bin/env python3
"""Spells the repository's own definitions and lemmas as today's Rattle does, after port.py.

usage: python3 tools/respell.py            at the top of the repository, once
       python3 tools/respell.py --map      prints the old and the new names, and writes nothing

Functions, lemmas and fields go to snake case. A dash stays where it joins two names (`length-insert_all`), and is a `_`
before and after a plain word (`merge_keeps_pages`). Types and modules, Rattle's functions, and what Rattle makes of them
(goals and steps in proofs/F/) keep their names. Only names that the repository defines and that no library's import
brings in are turned. Edits in must-fail/ are turned with the files that they fit.
"""

import glob
import os
import re
import sys

WORD = r"[^\s(){}\[\].;,@\"«»\\:`|*/=<>]+"
# Words of the libraries that stand on one side of a dash.
LIBRARY = set(
    """length take drop map sum get_or set append cons filter reverse replicate concat zip add sub mul div mod pow suc zero
    ones and or not min max all any eq leb ltb eqb le lt""".split()
)


def read(path):
    with open(path, encoding="utf-8") as it:
        return it.read()


def snake(name):
    """camelCase to snake_case; an acronym or a type within keeps nothing of its capitals."""
    name = re.sub(r"(?<=[a-z0-9])([A-Z])", lambda m: "_" + m[1].lower(), name)
    return name


def files(*patterns):
    return sorted(p for it in patterns for p in glob.glob(it, recursive=True) if "/out/" not in p)


def is_walk(path):
    """Whether a file of proofs/F/ names what Rattle makes of a function."""
    return re.search(r"/proofs/.+/(Proof|Loops|Reads|Answers|Invariants)\.antt$", path) is not None


def definitions(text):
    """The names that a file defines: (name, whether it is a field, whether it is a definition or a plain word's lemma)."""
    field_of = False
    for line in text.split("\n"):
        it = re.match(r"(?:pub )?(record|data) (" + WORD + r")", line)
        if it:
            field_of = it[1] == "record"
            yield it[2], False, True
            continue
        it = re.match(r"(\s*)((?:(?:pub|abbrev|unfoldable|infixl|infixr) )*)(" + WORD + r")(?: \{[^}]*\})* :(?: |$)", line)
        if it:
            inside = bool(it[1])
            yield it[3], inside and field_of, bool(it[2].replace("pub ", "").strip())
        if line and not line[0].isspace():
            field_of = False


def main(argv):
    antt = files("crates/*/specs/**/*.antt", "crates/*/proofs/**/*.antt")
    source = files("crates/*/src/**/*.rt")
    edits = files("crates/*/must-fail/*.edit")
    own, fields, words, taken, foreign = set(), set(), set(LIBRARY), set(), {}
    for path in antt:
        text = read(path)
        for name, field, is_definition in definitions(text):
            if not is_walk(path):
                (fields if field else own).add(name)
            if is_definition and "-" not in name:
                words.add(snake(name))
        taken.update(re.findall(WORD, text))
        for it in re.findall(r"(?m)^(?:pub )?use (\S+?)\.\{([^}]*)\}", text):
            if not it[0].startswith("Rattle."):
                foreign.setdefault(path, set()).update(re.split(r" as |, ", it[1].replace("\n", " ")))
    for path in source:
        words.update(re.findall(r"\bfn (\w+)", read(path)))

    def new_name(name, field=False):
        if not ("-" in name or re.search(r"[a-z0-9][A-Z]", name)):
            return name
        if "-" not in name and name[:1].isupper():
            return name
        parts = [it if it[:1].isupper() else snake(it) for it in name.split("-")]
        out = parts[0]
        for before, it in zip(parts, parts[1:]):
            joins = before in words and it in words and not field
            out += ("-" if joins else "_") + it
        return out

    turned = {it: new_name(it) for it in own}
    turned = {old: new for old, new in turned.items() if old != new}
    of_fields = {it: new_name(it, True) for it in fields}
    of_fields = {old: new for old, new in of_fields.items() if old != new}
    # A lemma that would have its function's name gets `_lem`.
    by_new = {}
    for old, new in turned.items():
        by_new.setdefault(new, []).append(old)
    for new, olds in by_new.items():
        if len(olds) > 1 or new in own:
            for old in olds:
                if "-" in old and old not in fields:
                    turned[old] = new + "_lem"
    seen = {}
    for old, new in sorted(turned.items()):
        if new in seen or new in own:
            print(f"look: {old} -> {new} falls together with {seen.get(new, new)}")
        seen[new] = old
    for path in antt + source:
        text = "\n".join(it for it in read(path).split("\n") if not re.match(r"(pub )?(ghost )?use ", it))
        here = set(re.findall(r"(?<![.\w-])" + WORD, text))
        for old, new in turned.items():
            if old in here and new in here:
                print(f"look: {path} has {old} and {new}")
    all_foreign = set().union(*foreign.values()) if foreign else set()
    for it in sorted(all_foreign & set(turned)):
        print(f"look: {it} is also a library's: " + " ".join(p for p in foreign if it in foreign[p]))
    if argv == ["--map"]:
        for old, new in sorted(turned.items()):
            print(old, new)
        for old, new in sorted(of_fields.items()):
            print("field", old, new)
        return 0

    def turn(text, path):
        keep = foreign.get(path, set())
        walk = is_walk(path)

        def one(found):
            word, start = found[0], found.start()
            if start and text[start - 1] == ".":
                head = re.search(r"use [^\s{]*\.$", text[max(0, start - 200):start].rsplit("\n", 1)[-1])
                if head:
                    return word
                return of_fields.get(word, word)
            if word in keep:
                return word
            if word in turned:
                return turned[word]
            rest = text[found.end():found.end() + 3]
            if word in of_fields and (rest.startswith((" =", " :", ";", "}")) or not walk):
                return of_fields[word]
            return word

        return re.sub(WORD, one, text)

    for path in antt + source + edits:
        text = read(path)
        new = turn(text, path)
        if new != text:
            with open(path, "w", encoding="utf-8") as it:
                it.write(new)
    print(f"respell: {len(turned)} names, {len(of_fields)} fields")
    return 0


if __name__ == "__main__":
    raise SystemExit(main(sys.argv[1:]))
