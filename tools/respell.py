#!/usr/bin/env python3
"""Brings the repository's own names to today's spelling, once, after port.py: functions, lemmas, fields and constructors in snake case, facts as types.

usage: python3 tools/respell.py [--dry]      at the top of the repository

A name counts as the repository's own where specs/ or proofs/ declare it: at the left of a signature, as a constructor or as a field. Of these, each that
begins small and has a capital within is respelled: `pageAt` is `page_at`, `setSlot-page` is `set_slot-page`. What is a fact (its signature ends in a
`Type`) is spelled as a type. The words of FACTS and OTHERS are given by hand. Names are turned in specs/, proofs/, contracts of src/, edits and documents;
strings and the code of src/ have no such names.
"""
import collections
import os
import re
import sys

LETTERS = r"[^\s(){}\[\].,;:`\"|]"
OWN = re.compile(r"[a-z]+[0-9]*[a-z0-9]*(?:[A-Z][A-Za-z0-9₀-₉]*)")

# what is a fact, in a signature of more than one line, or by a better name
FACTS = {}
OTHERS = {}

# a lemma that would have its function's name: in these folders it gets `_lem` first
LEMMAS = {
    "crates/heads": ["entry_in"],
    "crates/salvage": ["bit_word"],
    "crates/laws/specs/Example": ["held_by"],
    "crates/laws/specs/Frame": ["no_bits"],
    "crates/laws/specs/Bits": ["one_bit"],
    "crates/laws/specs/Convert": ["one_more"],
}


def snake(word):
    """`pageAt` is page_at, `blocksR` is blocks_r, `isO` is is_o."""
    return re.sub(r"(?<=[a-z0-9])(?=[A-Z])|(?<=[A-Z])(?=[A-Z][a-z])", "_", word).lower()


def typed(word):
    return word[0].upper() + word[1:]


def files(*ends):
    for top in ("crates", ".ci", "docs", "."):
        for folder, dirs, names in os.walk(top):
            dirs[:] = sorted(d for d in dirs if d not in ("out", ".git", "target"))
            if top == ".":
                dirs[:] = []
            for n in sorted(names):
                if n.endswith(ends):
                    yield os.path.join(folder, n)


def declared():
    """Each own name with its signature: up to the next line that is no deeper."""
    found = collections.defaultdict(list)
    for path in files(".antt"):
        lines = open(path, encoding="utf-8").read().split("\n")
        for i, line in enumerate(lines):
            m = re.match(r"^(\s*)(?:\| )?((?:(?:unfoldable|abbrev|pub|data|record) )*)(" + LETTERS + r"+(?: " + LETTERS + r"+)*) :(?: |$)", line)
            if not m:
                continue
            depth = len(m.group(1))
            text = line
            for more in lines[i + 1:]:
                if len(more) - len(more.lstrip()) <= depth or not more.strip():
                    break
                text += " " + more.strip()
            for name in m.group(3).split():
                found[name].append(text)
    return found


def turned(found):
    new = {}
    for name, texts in found.items():
        head = name.split("-")[0]
        for part in name.split("-"):
            if not OWN.fullmatch(part):
                continue
            fact = part == name and all(re.search(r"Type( \d)?$", t.split(" where")[0].rstrip()) for t in texts)
            new[part] = FACTS.get(part) or OTHERS.get(part) or (typed(part) if fact else snake(part))
    return new


def respell(text, new):
    pattern = re.compile(r"(?<![A-Za-z0-9_'])(" + "|".join(sorted(map(re.escape, new), key=len, reverse=True)) + r")(?![A-Za-z0-9_'₀-₉])")
    return pattern.sub(lambda m: new[m.group(1)], text)


def main():
    found = declared()
    new = turned(found)
    words = collections.Counter()
    for path in files(".antt", ".rt"):
        words.update(re.findall(r"[A-Za-z0-9_'₀-₉]+", open(path, encoding="utf-8").read()))
    for old, name in sorted(new.items()):
        meets = words[name]
        if meets or "--dry" in sys.argv:
            print(f"{old} -> {name}" + (f"    MEETS {meets}" if meets else ""))
    back = collections.defaultdict(list)
    for old, name in new.items():
        back[name].append(old)
    for name, olds in back.items():
        if len(olds) > 1:
            print("FALL TOGETHER", name, olds)
    if "--dry" in sys.argv:
        return
    for folder, names in LEMMAS.items():
        for path in files(".antt"):
            if path.startswith(folder + "/"):
                text = open(path, encoding="utf-8").read()
                open(path, "w", encoding="utf-8").write(respell(text, {n: n + "_lem" for n in names}))
    count = 0
    for path in files(".antt", ".rt", ".edit", ".md", ".txt"):
        if os.path.basename(path) in ("PORT.md", "PORT-OTHER.md"):
            continue
        text = open(path, encoding="utf-8").read()
        other = respell(text, new)
        if other != text:
            open(path, "w", encoding="utf-8").write(other)
            count += 1
    print(f"{len(new)} words, {count} files")


main()
