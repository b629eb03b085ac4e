#!/usr/bin/env python3
"""Brings the definitions and lemmas of this repository to today's spelling: words in snake case.

usage: tools/respell.py [FOLDER]

Run once in FOLDER (by default the repository's top), right after the kit's port.py. A name of specs/ or proofs/ is made of parts that a
dash joins; each part that is a word in lower camel case becomes snake case, so that `firstRefusal` is `first_refusal`
and `length-fieldWidths` is `length-field_widths`. Types, modules and facts keep upper camel case. A few names that
port.py left neither old nor new have a line of their own below. Functions, fields and types of src/ keep their names.
It stops where two names of one file would fall together. A definition may share its name with the function of src/
that it describes, as `tuner_of`: the two never stand in one place.
"""
import os
import re
import sys

top = sys.argv[1] if len(sys.argv) > 1 else os.path.join(os.path.dirname(os.path.abspath(__file__)), "..")

# What port.py garbled: lemmas whose names it took for one word.
OWN = {
    "get_d_bits": "get_or-bits",
    "get_d_map": "get_or-map",
    "bytes_bits": "bytes-bits",
    "value_inj": "value-inj",
    # These would fall together with the definitions that they speak of.
    "same_kind": "same-kind",
    "no_frames": "no-frames",
    "starts_from": "starts-from",
}
NAME = r"[^\s(){}\[\]:;,.·\"`«»λ∀]+"
DEFINED = re.compile(rf"^\s*(?:(?:abbrev|unfoldable|pub|data|record|ruleset)\s+)*({NAME})(?: \([^()]*\))* :(?: |$)", re.M)
FIELD = re.compile(rf"^\s+(?:pub )?({NAME}) : ", re.M)
TOKEN = re.compile(r"(?<![\w'-])[A-Za-z_][\w'₀-₉]*(?:-[\w'₀-₉]+)*")


def snake(part):
    part = re.sub(r"^getD$", "get_or", part)
    if not re.match(r"[a-z]", part) or not re.search(r"[a-z0-9][A-Z]", part):
        return part
    part = re.sub(r"([a-z0-9])([A-Z])", r"\1_\2", part)
    return part.lower()


def new_name(name):
    return OWN.get(name) or "-".join(snake(it) for it in name.split("-"))


def files(root):
    for folder, folders, names in os.walk(os.path.join(root, "crates")):
        folders[:] = sorted(it for it in folders if it not in ("out", "must-fail"))
        for name in sorted(names):
            if name.endswith((".antt", ".rt")):
                yield os.path.join(folder, name)


def main():
    texts = {}
    for path in files(top):
        with open(path, encoding="utf-8") as f:
            texts[path] = f.read()
    turned = {}
    for path, text in texts.items():
        if path.endswith(".antt"):
            for it in DEFINED.findall(text) + FIELD.findall(text):
                if new_name(it) != it:
                    turned[it] = new_name(it)
    together = False
    for path, text in texts.items():
        # In src/ a definition stands in clauses alone, and in a Proof.antt the function's name stands in paths.
        if path.endswith((".rt", "/Proof.antt")):
            shadows = {it for it in turned.values() if path.endswith(".rt") and re.search(rf"(?<![\w'-]){re.escape(it)}\s*:(?!:)", text)}
            for it in sorted(shadows):
                print(f"{path}: look: a parameter or field is called {it}")
            continue
        words = set(TOKEN.findall(text))
        new = {}
        for it in words:
            to = turned.get(it, it)
            if to in new and new[to] != it:
                print(f"{path}: {it} and {new[to]} would both be {to}")
                together = True
            new[to] = it
    if together and "--force" not in sys.argv:
        sys.exit(1)
    for path, text in texts.items():
        def turn(m):
            # A path's parts are modules and functions.
            if m[0] in OWN and (path.endswith(".rt") or text[m.end() : m.end() + 1] == "."):
                return m[0]
            return turned.get(m[0], m[0])

        to = TOKEN.sub(turn, text)
        if to != text:
            with open(path, "w", encoding="utf-8") as f:
                f.write(to)
    print(f"{len(turned)} names are turned")
    if "--list" in sys.argv:
        for it in sorted(turned):
            print(it, turned[it])


main()
