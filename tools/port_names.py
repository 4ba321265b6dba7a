#!/usr/bin/env python3
"""Respells this repository's own definitions and lemmas, once, after port.py brought it to a newer Rattle.

usage: python3 tools/port_names.py     at the top of the repository

Words are in snake case there: raceList becomes race_list, and a field or a constructor of specs/ loses its dashes. A lemma
keeps the dashes between its parts. Where two names would fall together, the table APART says what is written instead.
Functions of src/ and exported names are in snake case already; names of the library stay as they are.
"""

import os
import re

WORD = re.compile(r"[A-Za-z_][\w'-]*")
CAMEL = re.compile(r"[a-z][\w'-]*$")
LIBRARY = {"mut_slice_Tells", "not_T", "shr_Tells", "shr_slice_Tells", "uint_Lawful", "uint_Makes", "uint_Tells", "walk_Meets"}
# fields, constructors and theorems whose plain spelling is another name's: up_to, by_worker, in_conflict, is_run, trace_a
APART = {
    "up-to": "up_to_end",
    "by-worker": "by_worker_tests",
    "in-conflict": "are_in_conflict",
    "is-run": "is_a_run",
    "trace-A": "trace_a_tests",
    "last-cell": "the_last_cell",
}
# a field first_cell beside the word firstCell, and a lemma beside the word listedBy
HERE = {
    "crates/conflicts/specs/Cells.antt": {"first_cell": "the_first_cell"},
    "crates/conflicts/proofs/ReadingCells.antt": {"first_cell": "the_first_cell"},
    "crates/conflicts/proofs/Cells.antt": {"first_cell": "the_first_cell"},
    "crates/races/proofs/Answers.antt": {"listed_by": "races_listed-by"},
    "crates/races/proofs/Listed.antt": {"listed_by": "races_listed-by"},
    "crates/race_list/proofs/Lists.antt": {"listed_by": "races_listed-by"},
}
DECLARED = re.compile(r"\s*(?:pub |abbrev |unfoldable |data |record )*([a-z]\S*-\S*)\s+[:(]|\s*(?:pub |abbrev |unfoldable |data |record )+([a-z]\S*-\S*)")


def paths(top, endings):
    for folder, dirs, files in os.walk(top):
        dirs[:] = sorted(d for d in dirs if d != "out")
        for name in sorted(files):
            if name.endswith(endings):
                yield os.path.join(folder, name)


def text_of(path):
    with open(path, encoding="utf-8") as f:
        return f.read()


def snake(word):
    return "-".join(re.sub(r"(?<=[a-z0-9])([A-Z])", r"_\1", part).lower() for part in word.split("-"))


def names():
    """What is written for each name that is respelled."""
    new = {}
    for path in paths("crates", (".rt", ".antt")):
        text = re.sub(r"(--|//)[^\n]*", "", text_of(path))
        for word in WORD.findall(text):
            if CAMEL.match(word) and re.search("[A-Z]", word) and word not in LIBRARY:
                new[word] = snake(word)
        if "/specs/" in path:
            for line in text.splitlines():
                found = DECLARED.match(line)
                if found:
                    word = found.group(1) or found.group(2)
                    new[word] = snake(word).replace("-", "_")
    return new | APART


def main():
    new = names()
    files = list(paths("crates", (".rt", ".antt", ".edit"))) + ["README.md"] + list(paths("docs", (".md",)))
    files += ["planted/errors.txt"]
    changed = 0
    for path in files:
        here = new | HERE.get(path, {})
        old = text_of(path)
        text = WORD.sub(lambda found: here.get(found.group(0), found.group(0)), old)
        if path.endswith(".md"):
            text = re.sub(r"`[^`\n]*`", lambda quoted: WORD.sub(lambda w: here.get(w.group(0), w.group(0)), quoted.group(0)), old)
        if text != old:
            with open(path, "w", encoding="utf-8") as f:
                f.write(text)
            changed += 1
    print(f"{len(new)} names, {changed} files")


if __name__ == "__main__":
    main()
