#!/usr/bin/env python3
"""Brings the definitions and lemmas of this repository to the spelling of today's Rattle: words in snake case.

usage: python3 tools/snake_names.py        at the top of the repository, after port.py and before any edit by hand

A word that a file of specs/, a lemma file of proofs/ or a ghost field declares in camel case or with a dash gets its snake-case name, in
specs/, in proofs/, in the clauses of src/, in must-fail edits and in the pages. Goals, steps and names of std keep theirs.
A name whose snake-case form is taken already, as by a function of src/, gets the name that CHOSEN has for it.
"""

import glob
import re

NAME = r"[^\s(){}\[\].,;:=λ→⌜⌝\"`⟨⟩|]+"
TOKEN = re.compile(NAME)
DECLARED = re.compile(r"^\s*(?:(?:pub|abbrev|unfoldable|private)\s+)*(" + NAME + r")\s*:(?!:)")
STD = re.compile(r"use Rattle\.std\.\S+?\.\{(.*?)\}")


# Where the snake-case form is the name of a function of src/ or of another word.
CHOSEN = {
    "addDigit": "digit_added",
    "bodyLen": "body_length",
    "childEarlier": "children_earlier",
    "endLine": "line_ended",
    "endNumber": "number_ended",
    "few-definitions": "few_definitions_lem",
    "first-at": "first_at_lem",
    "formAt": "formula_at",
    "is-handle": "handle_known",
    "is-place": "place_known",
    "isBlank": "is_blank_row",
    "isHandle": "is_handle_of",
    "isPlace": "is_place_of",
    "letterFits": "letter_in_range",
    "looksAt": "row_looked_at",
    "nameReads": "reads_name",
    "name-reads": "name_reads",
    "namesTaken": "count_of_names",
    "onlyLetters": "has_only_letters",
    "placeAt": "place_numbered",
    "readByte": "byte_read",
    "row-true": "row_true_lem",
    "rowTrue": "row_truth",
    "samePlace": "place_eq",
    "sameSign": "sign_eq",
    "someRows": "rows_or_none",
    "takeNumber": "number_taken",
    "takes-name": "takes_name_lem",
    "takesName": "wants_name",
    "withLetter": "letter_added",
}


def snake(word):
    word = re.sub(r"(?<=[a-z0-9'])([A-Z])", lambda m: "_" + m.group(1).lower(), word)
    return word.replace("-", "_")


def wants(word):
    return word[0].islower() and (re.search(r"[a-z0-9][A-Z]", word) or "-" in word) and not word.startswith("-")


def read(path):
    with open(path, encoding="utf-8") as f:
        return f.read()


def words(text):
    return set(TOKEN.findall(re.sub(r"--.*", "", text)))


def renamings():
    """The new name of each word, and the words for which CHOSEN has to choose one."""
    declared, std, taken = set(), set(), set()
    for path in antt_files() + source_files():
        text = read(path)
        for imported in STD.finditer(text):
            std |= {w.strip() for w in imported.group(1).split(",")}
        taken |= words(text)
    for path in lemma_files():
        for line in read(path).splitlines():
            m = DECLARED.match(line)
            if m and wants(m.group(1)):
                declared.add(m.group(1))
    for path in source_files():
        declared |= {w for w in re.findall(r"\bghost (\w+):", read(path)) if wants(w)}
    names, fell = {}, []
    for word in sorted(declared - std):
        to = CHOSEN.get(word, snake(word))
        if to in names.values() or (to in taken and to != "name_reads"):
            fell.append((word, to))
        names[word] = to
    return names, fell


def lemma_files():
    return sorted(glob.glob("crates/*/specs/*.antt") + glob.glob("crates/*/proofs/*.antt"))


def antt_files():
    return sorted(glob.glob("crates/*/specs/**/*.antt", recursive=True) + glob.glob("crates/*/proofs/**/*.antt", recursive=True))


def source_files():
    return sorted(glob.glob("crates/*/src/**/*.rt", recursive=True))


def pages():
    return sorted(glob.glob("docs/*.md") + ["README.md"])


def turned(text, names, dashes):
    """The text with each word of `names`; one behind a dot keeps its name if it has a dash, as a goal or a step does."""

    def new(m):
        word = m.group(0)
        if word not in names or ("-" in word and not dashes):
            return word
        if "-" in word and m.start() and text[m.start() - 1] == ".":
            return word
        return names[word]

    return TOKEN.sub(new, text)


def quoted(text, names, known):
    """A quotation of a page: names that port.py turned are turned here too."""

    def new(m):
        word = m.group(0)
        to = names.get(word, snake(word))
        return to if wants(word) and to in known and word not in known else word

    return TOKEN.sub(new, text)


def write(path, text):
    with open(path, encoding="utf-8") as f:
        if f.read() == text:
            return
    with open(path, "w", encoding="utf-8") as f:
        f.write(text)


def main():
    names, fell = renamings()
    if fell:
        for word, to in fell:
            print(f"snake_names: {word} and another word fall together as {to}: choose a name in CHOSEN")
        raise SystemExit(1)
    for path in antt_files():
        goals = {w: t for w, t in names.items() if not re.search(r"(?m)^pub " + re.escape(w) + r" : goal\.", read(path))}
        write(path, turned(read(path), goals, True))
    for path in source_files() + sorted(glob.glob("crates/*/must-fail/*.edit")):
        write(path, turned(read(path), names, False))
    known = {w for path in antt_files() + source_files() for w in words(read(path))}
    for path in pages():
        write(path, re.sub(r"`[^`\n]*`", lambda m: quoted(m.group(0), names, known), read(path)))
    print(f"snake_names: {len(names)} words")


if __name__ == "__main__":
    main()
