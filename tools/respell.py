#!/usr/bin/env python3
"""Brings the names of this repository's definitions and lemmas to the spelling of today's Rattle.

usage: tools/respell.py            at the top of the repository, once, right after the kit's port.py

Words are written in snake case, so 'nextOf' becomes 'next_of', and a name with a middle dot is one word, so 'Ring·on'
becomes 'ring_on'. Types, modules and names of Rust and C keep their spelling. The names are taken from the code of
specs/, proofs/ and src/, comments and strings aside; they are then respelled there, in comments, in the must-fail
edits and in the pages. Two names that would fall together in one file are printed, and then no more is written.
"""

import collections
import pathlib
import re
import sys

# where a number stands within the name
BY_HAND = {
    "sends6D": "sends_6d",
    "tokenFrom5": "token_from_5",
    "sdnTo9": "sdn_to_9",
    "case3Replied": "case_3_replied",
    "case4Answered": "case_4_answered",
}
# lemmas to which port.py gave the name of a function of ours, as std has a lemma of their old name
LEMMAS = {
    "read_short": ("read-short", ["frame_laws/proofs/Framed", "frame_laws/proofs/Theorems", "state/proofs/Hearing"]),
}
# what is cut from a lemma's name in front of a dash, and is no name beside the function's
ASIDE = {"up_to"}
WORD = re.compile(r"[A-Za-z0-9_]+")
CAMEL = re.compile(r"[a-z](?:[a-z0-9_]*[a-z0-9])?[A-Z]\w*")
DOTTED = re.compile(r"(?<![\w#'-])([A-Z]\w*)·(\w+)")


def snake(word):
    if word in BY_HAND:
        return BY_HAND[word]
    return re.sub(r"(?<=[a-z0-9])([A-Z])", lambda m: "_" + m.group(1).lower(), word)


def joined(module, word):
    return re.sub(r"(?<=[a-z0-9])([A-Z])", r"_\1", module).lower() + "_" + snake(word)


def code(path, text):
    if path.suffix == ".antt":
        return re.sub(r"--.*", "", text)
    return re.sub(r'"[^"\n]*"|b\'.\'', "", re.sub(r"//.*", "", text))


def camels(text):
    return {w for w in WORD.findall(text) if CAMEL.fullmatch(w)}


def respelled(text, names):
    text = DOTTED.sub(lambda m: joined(m.group(1), m.group(2)), text)
    return WORD.sub(lambda m: snake(m.group()) if m.group() in names else m.group(), text)


def main():
    here = pathlib.Path(".")
    sources = [p for p in sorted(here.glob("crates/*/*/**/*")) if p.suffix in (".antt", ".rt") and "out" not in p.parts]
    texts = {p: p.read_text(encoding="utf-8") for p in sources}
    for lemma, (name, files) in LEMMAS.items():
        for p in (here / "crates" / f"{f}.antt" for f in files):
            texts[p] = re.sub(rf"(?<![\w.'·#-]){lemma}(?![\w'·-])", name, texts[p])
            p.write_text(texts[p], encoding="utf-8")
    codes = {p: code(p, t) for p, t in texts.items()}
    names = set().union(*(camels(c) for c in codes.values()))
    bad = 0
    for p, c in codes.items():
        if p.suffix != ".antt":
            continue
        plain = set(re.findall(r"(?<![\w.'·#-])[a-z][\w'-]*(?![\w'·-])", c))
        made = collections.defaultdict(set)
        for w in camels(c):
            made[snake(w)].add(w)
        for s, ws in made.items():
            if len(ws) > 1 or s in plain and s not in ASIDE:
                bad += 1
                print(f"{p}: {', '.join(sorted(ws))} and {s}")
    if bad:
        return 1
    pages = [p for p in [*here.glob("*.md"), *here.glob("docs/*.md"), *here.glob("samples/*.md")]]
    edits = sorted(here.glob("crates/*/must-fail/**/*.edit"))
    for p in [*sources, *edits, *pages]:
        old = p.read_text(encoding="utf-8")
        new = respelled(old, names)
        if new != old:
            p.write_text(new, encoding="utf-8")
    print(f"{len(names)} names respelled")
    return 0


if __name__ == "__main__":
    sys.exit(main())
