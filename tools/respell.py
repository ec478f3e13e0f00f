#!/usr/bin/env python3
"""Brings the repository's own definitions and lemmas to snake case, as port.py does with those that a library spells alike.

usage: python3 tools/respell.py [--check]     at the top, once, right after port.py

What is renamed: each name that a file of specs/, or a file of lemmas in proofs/, declares, and that begins with a small letter and has a
capital or a dash inside. `putWord` becomes `put_word`, `sub-add` becomes `sub_add`; a letter that names a worked case is small too.
Types, facts (a definition whose value is a type) and modules keep their capitals, and functions of src/, exports, strings, inputs and
outputs their names. It turns whole words of .antt files, of the clauses and `ghost use` lines of .rt files, of .edit files and of the code
spans of pages. Where two names would fall together, or a new name is a word of the file already, OWN below says what is written instead.
"""
import glob
import os
import re
import sys

WORD = re.compile(r'[^\s(){}.;,@"«»`:]+')
DECLARED = re.compile(r"^ *((?:(?:abbrev|unfoldable|pub|data|record|ruleset) +)*)([^ :(){}=|;,\"]+)(?: \{[^{}]*\})* *:(?!=)")
CONSTANT = re.compile(r"[A-Z][A-Z0-9-]*$")
# Names that the rule alone would spell like another name, or badly.
OWN = {"getD-within": "get_or_within", "word-at": "word_at_lem", "in-area": "in_area_lem", "in-word": "in_word_lem"}
# Lemmas that had the snake-case name of a definition before.
LEMMAS = {"load_ok": "load_ok_lem", "write_done": "write_done_lem"}
# Imports under another name, and variables.
BOUND = {"verdictOf", "hasEnded", "codeLength", "inList", "specialValue", "someOf", "secondSlot"}
ALIAS = re.compile(r"^use \S+ as ([a-z][^\s;]*)$")


def lemma_files():
    return sorted(f for f in glob.glob("crates/*/specs/*.antt") + glob.glob("crates/*/proofs/*.antt"))


def snake(name):
    words = re.sub(r"(?<=[a-z0-9])[A-Z]", lambda m: "_" + m[0].lower(), name).replace("-", "_")
    return re.sub(r"(?<=_)[A-Z](?=\d?(_|$))", lambda m: m[0].lower(), words)


def declared():
    names = set()
    for f in lemma_files():
        for line in open(f, encoding="utf-8"):
            m = DECLARED.match(line)
            name = m[2] if m else (ALIAS.match(line) or [0, ""])[1]
            if re.match(r"[a-z]", name) and re.search(r"[A-Z-]", name) or CONSTANT.match(name) and "-" in name:
                names.add(name)
    return names


def table():
    """Old names and new ones. A lemma that would have the name of the definition that it is about ends in `_lem`."""
    names = declared() | BOUND
    new = {n: n.replace("-", "_") if CONSTANT.match(n) else snake(n) for n in sorted(names)}
    taken = {m for n, m in new.items() if "-" not in n}
    return {n: OWN.get(n, m + "_lem" if "-" in n and m in taken else m) for n, m in new.items()}


def turn(text, names):
    return WORD.sub(lambda m: names.get(m[0], m[0]), text)


def turn_proof(text, names):
    """In the proof of a function, what has a dash behind `c.` or `before.` is a step named after a function of src/, and gets its spelling."""

    def one(m):
        head = text[: m.start() - 1].rsplit(".", 1)[-1] if m.start() and text[m.start() - 1] == "." else "A"
        head = WORD.findall(head)[-1] if WORD.findall(head) else "A"
        if "-" in m[0] and m[0] in names and not head[0].isupper():
            return m[0].replace("-", "_")
        return names.get(m[0], m[0])

    return WORD.sub(one, text)


def turn_lemmas(f, text):
    """The two lemmas of LEMMAS stand in one file each, and proofs of functions name them behind no dot."""
    if not f.endswith(".antt") or not re.search(r"(CoreLaws|ExecuteLaws)", f + text):
        return text
    for old, new in LEMMAS.items():
        text = re.sub(rf"(?<![\w.-]){old}(?![\w.'-])", new, text)
    return text


CLAUSE = re.compile(r"ghost use [^;]*;|\b(?:requires|ensures)\b[^{;\n]*\{|\bghost\b[^{;\n]*\{")


def turn_rt(text, names):
    """Clauses, imports and comments' code spans alone: a clause goes from its word to the brace that closes it."""
    text = re.sub(r"//[^\n]*", lambda m: turn_page(m[0], names), text)
    out, at = [], 0
    for m in CLAUSE.finditer(text):
        if m.start() < at:
            continue
        end = m.end()
        if not m[0].startswith("ghost use"):
            depth = 1
            while depth:
                depth += {"{": 1, "}": -1}.get(text[end], 0)
                end += 1
        out += [text[at : m.start()], turn(text[m.start() : end], names)]
        at = end
    return "".join(out) + text[at:]


def turn_page(text, names):
    return re.sub(r"`[^`\n]+`", lambda m: turn(m[0][1:-1], names).join("``"), text)


def files():
    for pattern in ("crates/*/specs/**/*.antt", "crates/*/proofs/**/*.antt", "crates/*/src/**/*.rt", "crates/*/must-fail/*.edit", "*.md", "docs/*.md"):
        yield from sorted(f for f in glob.glob(pattern, recursive=True) if not os.path.basename(f).startswith("PORT"))


def main(check):
    names = table()
    for f in files():
        text = open(f, encoding="utf-8").read()
        by = turn_rt if f.endswith(".rt") else turn_page if f.endswith(".md") else turn_proof if f.count("/") > 3 else turn
        new = by(turn_lemmas(f, text), names)
        if new != text and not check:
            open(f, "w", encoding="utf-8").write(new)
    print(f"respell: {len(names)} names")


if __name__ == "__main__":
    main("--check" in sys.argv[1:])
