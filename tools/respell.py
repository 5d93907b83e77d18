#!/usr/bin/env python3
"""Turns the names of this repository's own definitions and lemmas to snake case, after the kit's port.py has run once.

usage: python3 tools/respell.py [--list]      at the top of the repository; --list prints old and new names and changes nothing

Run once, for docs/PORT.md. A name is one that a file of specs/ or proofs/*.antt defines: passingBelow is passing_below and put-step is put_step; names
of types and facts, which begin with a capital, stay. A name is turned in each .antt and .rt file, in clauses and ghost items only in the latter, and in
must-fail edits. A file that has the old name from a library keeps it.
"""

import os
import re
import sys

NAME = r"[A-Za-z_𝓤𝓛ℕ][A-Za-z0-9_'₀-₉²³⁺𝓤𝓛ℕ-]*"
DEFINED = re.compile(r"(?m)^\s*(?:(?:pub|abbrev|unfoldable|pattern) )*(" + NAME + r")(?: \{[^}\n]*\})? : ")
SHAPED = re.compile(r"(?m)^\s*(?:pub )?(?:record|data) (" + NAME + ")")
OUTER = re.compile(r"(?m)^\s*(?:pub )?use (?!Rattle\.(?:OWN)\.)[^\n{]*\{([^}]*)\}")
USED = re.compile(r"(?m)^\s*(?:pub |ghost )?use [^{;]*\{([^}]*)\}")
ALIAS = re.compile(r"\bas (" + NAME + ")")
WORD = re.compile(r"(?<![\w'-])" + NAME)

# a definition beside a fact, a field or a lemma whose name came out as its plain turn
OTHERWISE = {
    "goesOn": "is_going_on",
    "heldAfter": "held_afterwards",
    "inOrder": "is_in_order",
    "notAfter": "is_not_after",
    "notLate": "is_not_late",
}
# lemmas that port.py had turned already to what a definition is called now: in these files alone
HERE = {
    "crates/bounded/proofs/Consequences.antt": {"pair_size": "pair_size_lem"},
    "crates/compression/proofs/Turns.antt": {"next_word": "next_word_lem"},
}


def snake(name):
    name = re.sub(r"(?<=[a-z0-9])([A-Z]+)(?![a-z])", lambda m: "_" + m.group(1).lower(), name)
    name = re.sub(r"(?<=[a-z0-9])([A-Z])", lambda m: "_" + m.group(1).lower(), name)
    return name.replace("-", "_")


def files(ends):
    for folder, dirs, names in os.walk("crates"):
        dirs[:] = sorted(d for d in dirs if d != "out")
        for f in sorted(names):
            if f.endswith(ends):
                yield os.path.join(folder, f)


def text_of(path):
    with open(path, encoding="utf-8") as f:
        return f.read()


def is_of_function(path):
    return path.count("/") > 3 and os.path.basename(path) in ("Proof.antt", "Answers.antt", "Invariants.antt")


def own_names():
    """The names that specs/ and proofs/*.antt define, each with its new one, where that differs."""
    names = set()
    for path in files((".antt",)):
        if not is_of_function(path):
            text = text_of(path)
            names |= set(DEFINED.findall(text)) | set(SHAPED.findall(text))
    for path in files((".antt", ".rt")):
        for group in USED.findall(text_of(path)):
            names |= set(ALIAS.findall(group))
    turned = {n: OTHERWISE.get(n, snake(n)) for n in names if not n[0].isupper()}
    taken = {t for n, t in turned.items() if "-" not in n}
    # a lemma that would have its function's name gets _lem
    turned = {n: t + "_lem" if "-" in n and t in taken else t for n, t in turned.items()}
    return {n: t for n, t in turned.items() if n != t}, names


def imported(text, outer):
    """What a file brings in from libraries, by the names that it has here."""
    return {it.split(" as ")[-1].strip() for group in outer.findall(text) for it in group.replace("\n", " ").split(",")}


def clauses(text):
    """A .rt file in pieces: those at odd places are clauses and ghost items, the others code."""
    piece = r"((?:^|(?<=\n))\s*(?:ghost use [^;]*;|(?:requires|ensures|ghost|invariant)\b[^{\n]*\{(?:[^{}]|\{[^{}]*\})*\}))"
    return re.split(piece, text)


def main(argv):
    turned, names = own_names()
    own = "|".join(sorted(c for c in os.listdir("crates")))
    outer = re.compile(OUTER.pattern.replace("OWN", own))
    if argv == ["--list"]:
        for n in sorted(turned):
            print(n, turned[n])
        return 0
    for path in files((".antt", ".rt", ".edit")):
        text = text_of(path)
        kept = imported(text, outer) if path.endswith(".antt") else set()
        here = turned | HERE.get(path, {})
        turn = lambda m: m.group(0) if m.group(0) in kept else here.get(m.group(0), m.group(0))
        if path.endswith(".antt") or (path.endswith(".edit") and re.search(r"(?m)^file: (specs|proofs)/", text)):
            new = "".join(l if l.lstrip().startswith(("--", "#", "file:")) else WORD.sub(turn, l) for l in text.splitlines(keepends=True))
        elif path.endswith(".rt"):
            parts = clauses(text)
            new = "".join(WORD.sub(turn, p) if i % 2 else p for i, p in enumerate(parts))
        else:
            new = "".join(WORD.sub(turn, l) if re.match(r"(old|new): .*(requires|ensures|ghost)", l) else l for l in text.splitlines(keepends=True))
        if new != text:
            with open(path, "w", encoding="utf-8") as f:
                f.write(new)
    return 0


if __name__ == "__main__":
    raise SystemExit(main(sys.argv[1:]))
