#!/usr/bin/env python3
"""Turns this repository's own names in specs/, proofs/ and clauses to snake case: taskLimit becomes task_limit.

usage: tools/respell.py [FILE..]      at the top of the repository: those files, or else every .rt and .antt file below crates/

Types, facts and modules keep their capital; names of the library (KEPT) and strings stay. It stops where a file has the new name
already, so that no two names fall together (a Proof.antt names modules and steps of the code by such names, which is no harm).
"""
import os
import re
import sys

# Names of Rattle's own, and those whose new form would be another name of ours.
KEPT = {"mut_slice_Tells", "shr_slice_Tells", "uint_Makes", "uint_Tells", "walk_Meets"}
# Lemmas that would have the name of their function, each by its new name; LEMMAS is where they stand or are cited.
LEMMAS = {"position_at": "position_at_lem", "list_at": "list_at_lem", "held_after": "held_after_lem"}
LEMMA_FILES = re.compile(r"crates/(board/proofs/FillLaws|dispatch/proofs/ReaderLaws|loading/proofs/FlatLaws|memory/proofs/GridLaws|"
                         r"roster/proofs/LoopLaws|roster/proofs/checks/steps_fault/Proof)\.antt")
# A comment, and a folder of a function's proof, as in proofs.row_of.Goals, has no name of an item.
FOLDER = re.compile(r"--.*|(?<=\.)[\w']+(?=\.(?:Statement|Tie|Goals|Given)\b)|Rattle\.\w+\.specs\.contracts\.[\w.]+ as [\w']+")
WORD = re.compile(r"[^\W\d][\w']*")
CAMEL = re.compile(r"_*[a-z][\w']*[A-Z]")


def snake(name):
    return re.sub(r"(?<=[a-z0-9])([A-Z])", lambda m: "_" + m.group(1), name).lower()


def respelled(word):
    return snake(word) if CAMEL.match(word) and word not in KEPT else word


def turned(text):
    """The text with each word respelled, strings of the source left out."""
    parts = re.split(r'(b?"(?:[^"\\\n]|\\.)*")', text)
    return "".join(p if i % 2 else WORD.sub(lambda m: respelled(m.group()), p) for i, p in enumerate(parts))


def sources():
    for folder, folders, files in os.walk("crates"):
        folders[:] = sorted(f for f in folders if f != "out")
        for name in sorted(files):
            if name.endswith((".rt", ".antt")):
                yield os.path.join(folder, name)


def main():
    met = 0
    texts = {}
    for path in sys.argv[1:] or sources():
        with open(path, encoding="utf-8") as f:
            texts[path] = f.read()
        if LEMMA_FILES.search(path):
            texts[path] = re.sub(r"(?<![.\w'-])[\w']+(?![\w'-])", lambda m: LEMMAS.get(m.group(), m.group()), texts[path])
    for path, text in texts.items():
        words = set(WORD.findall(FOLDER.sub("", text)))
        for word in sorted(words):
            new = respelled(word)
            if new != word and new in words and path.endswith(".antt") and not path.endswith("/Proof.antt"):
                print(f"{path}: {word} would fall together with {new}")
                met += 1
    if met:
        sys.exit(1)
    for path, text in texts.items():
        with open(path, "w", encoding="utf-8") as f:
            f.write(turned(text))


main()
