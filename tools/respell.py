#!/usr/bin/env python3
"""Respells the repository's own definitions, fields and lemmas: words in snake case, types and modules in camel case.

usage: tools/respell.py            at the top, once, right after the toolchain's port.py

It turns whole words alone, by spelling, in crates/: all of each .antt file, the clauses and `ghost use` items of each .rt file, and each
must-fail edit. Names of Rust items, strings, inputs and outputs stay. A lemma that would fall together with another name gets `_lem`.
"""

import collections
import os
import re

WORD = re.compile(r"""[^\s(){}.;,@"«»`]+""")
DECLARED = re.compile(
    r"(?m)^( *)((?:abbrev |unfoldable |opaque |pub |data |record )*)([^\s(){}.;,@\"«»:]+)((?: (?:\([^()]*\)|\{[^{}]*\}))*) :(?=\s)"
)
CONSTRUCTOR = re.compile(r"(?m)^  (?:pub )?([a-z]\w*(?:-\w+)*(?: [a-z]\w*(?:-\w+)*)*) :(?=\s)")
CAMEL = re.compile(r"[a-z][a-z0-9]*(?:[A-Z][a-z0-9]*)+")
CLAUSE = re.compile(r"(?:requires|ensures)\s*\*?\s*(?:\w+\s*)?\{")
GHOST_USE = re.compile(r"ghost\s+use\b[^;]*;")
# Names that would fall together where no lemma could step aside.
BY_HAND = {
    "lastRow": "last_row_slice",
    "in_sum": "in_sum_lem",
    "one_state": "one_state_lem",
    "getD-tab": "get_or_tab",
    "add-zero": "add_nought",
    "in-float": "in_float_lem",
    "is-nan": "is_nan_lem",
    "ofPHREDProb": "of_phred_prob",
    "of-PHREDProb": "of_phred_prob_lem",
}


def snake(name):
    words = re.sub(r"(?<=[a-z0-9])[A-Z]+", lambda m: "_" + m[0].lower(), name)
    return words.replace("-", "_")


def files(end):
    for folder, dirs, names in os.walk("crates"):
        dirs[:] = sorted(d for d in dirs if d != "out")
        for name in sorted(names):
            if name.endswith(end):
                yield os.path.join(folder, name)


def read(path):
    with open(path, encoding="utf-8") as f:
        return f.read()


def write(path, text):
    with open(path, "w", encoding="utf-8") as f:
        f.write(text)


def is_walk(path):
    """Whether the file is the proof of one function, whose answers are named after the toolchain's goals."""
    return path.endswith("/Proof.antt")


USE = re.compile(r"\buse ([^\s;{]+)\.\{([^}]*)\}")


def lent(text):
    """The names that the file brings in from the toolchain: they are its own."""
    names = set()
    for m in USE.finditer(text):
        steps = m[1].split(".")
        if steps[0] != "Rattle" or not os.path.isdir(os.path.join("crates", steps[1])):
            names.update(item.split(" as ")[0].strip() for item in m[2].split(","))
    return names


def goals(text):
    """The names that a walk declares for the toolchain's goals, or that it has to export: they keep their spelling."""
    return {m[3] for m in DECLARED.finditer(text) if re.match(r" *(?:tie\.|\{M : )", text[m.end() :].split("\n")[0] or " ")}


def table():
    """Old spelling to new, of all that the repository declares."""
    declared, everywhere = set(), set()
    for path in files(".antt"):
        text = read(path)
        kept = goals(text) if is_walk(path) else set()
        names = {m[3] for m in DECLARED.finditer(text)}
        for m in CONSTRUCTOR.finditer(text):
            names.update(m[1].split(" "))
        everywhere |= names
        declared |= names - kept
    turned = {n: snake(n) for n in declared if not n[0].isupper() and snake(n) != n and "Need" not in n}
    turned.update(BY_HAND)
    met = collections.defaultdict(set)
    for n in everywhere:
        met[turned.get(n, n)].add(n)
    for new, olds in met.items():
        if len(olds) > 1:
            for n in olds:
                if "-" in n and n not in BY_HAND:
                    turned[n] = new + "_lem"
    return turned


def turn(text, turned, kept=frozenset(), after_dot=True):
    def one(m):
        word = m[0]
        prime = len(word) - len(word.rstrip("'"))
        stem = word[: len(word) - prime]
        if stem in kept:
            return word
        if stem not in turned:
            return snake(stem) + word[len(stem) :] if CAMEL.fullmatch(stem) else word
        if "-" in stem and not after_dot and text[m.start() - 1 : m.start()] == ".":
            return word
        return turned[stem] + word[len(stem) :]

    return WORD.sub(one, text)


def close(text, at):
    """The place behind the brace that closes the one before `at`."""
    depth = 1
    while depth:
        depth += {"{": 1, "}": -1}.get(text[at], 0)
        at += 1
    return at


def in_rust(text, turned):
    """Clauses, `ghost use` items, and the code spans of comments."""
    spans = [(m.start(), m.end()) for m in GHOST_USE.finditer(text)]
    spans += [(m.start(), close(text, m.end())) for m in CLAUSE.finditer(text)]
    spans += [(m.start(), m.end()) for m in re.finditer(r"(?m)^ *//.*$", text)]
    out, at = [], 0
    for a, b in sorted(spans):
        if a < at:
            continue
        out += [text[at:a], turn(text[a:b], turned)]
        at = b
    return "".join(out) + text[at:]


def main():
    turned = table()
    for path in files(".antt"):
        text = read(path)
        kept = lent(text) | (goals(text) if is_walk(path) else set())
        write(path, turn(text, turned, kept, not is_walk(path)))
    for path in files(".rt"):
        text = read(path)
        write(path, in_rust(text, turned))
    for path in files(".edit"):
        text = read(path)
        write(path, turn(text, turned))
    for old in sorted(turned):
        print(f"{old}\t{turned[old]}")


if __name__ == "__main__":
    main()
