#!/usr/bin/env python3
"""Brings the repository's own definitions and lemmas to Rattle's spelling. Run once, in the root, right after the kit's port/port.py.

usage: tools/respell.py [FOLDER]

Words are in snake case: `labelAllows` becomes `label_allows`, the lemma `onReached-fit` `on_reached-fit`, the constant `FILE-LENGTH` `FILE_LENGTH`. Functions
of src/, C names and strings keep their spelling. A lemma that would have the name of a definition beside it gets `_lem`. The proof of the function f is
`f_spec`.
"""

import os
import re
import sys

# Lemmas of which another name in their file would take the spelling.
APART = {
    "crates/preservation/proofs/Granted.antt": {"in_use": "in_use_lem"},
    "crates/preservation/proofs/Borrowed.antt": {"in_use": "in_use_lem"},
    "crates/preservation/proofs/Decided.antt": {"in_use": "in_use_lem"},
    "crates/ownership/proofs/Directory.antt": {"in_use": "in_use_lem"},
    "crates/borrow/proofs/Steps.antt": {"lent_back": "lent_back_lem"},
    "crates/borrow/proofs/read/borrow_read/Proof.antt": {"lent_back": "lent_back_lem"},
    "crates/script_input/proofs/BlockLaws.antt": {"number_read": "number_read_lem"},
    "crates/rules/proofs/Written.antt": {"numbers_fit": "numbers_fit_lem"},
    "crates/resolution/proofs/Parsing.antt": {"on_read": "on_read_lem", "word_ok": "word_ok_lem"},
}
TOKEN = re.compile(r"[A-Za-z_α-ωΑ-Ω][A-Za-z0-9_'α-ωΑ-Ω₀-₉-]*")
CONSTANT = re.compile(r"[A-Z0-9]+(-[A-Z0-9]+)+$")
SIGNATURE = re.compile(r"^ *(?:pub |abbrev |unfoldable )*([^\s:(){}]+(?: [^\s:(){}]+)*) : ", re.M)
HEAD = re.compile(r"^ *(?:pub )?(?:data|record) ([^\s:]+)", re.M)
STRING = re.compile(r'"(?:[^"\\]|\\.)*"')


def files(root, ending):
    for folder, dirs, names in os.walk(root):
        dirs[:] = sorted(d for d in dirs if d not in ("out", ".git", "target"))
        for name in sorted(names):
            if name.endswith(ending):
                yield os.path.join(folder, name)


def read(path):
    with open(path, encoding="utf-8") as f:
        return f.read()


def code(text):
    return re.sub(r"--[^\n]*", "", text)


def declared(text):
    found = set()
    for m in SIGNATURE.finditer(code(text)):
        found.update(w for w in m[1].split(" ") if w not in ("pub", "abbrev", "unfoldable", "use", "open"))
    found.update(m[1] for m in HEAD.finditer(code(text)))
    return found


def snake(word):
    """One part of a name, between dashes."""
    if not re.match(r"[a-z]", word):
        return word
    word = re.sub(r"(?<=[a-z0-9])([A-Z]+)(?=[A-Z][a-z])", lambda m: "_" + m[1].lower(), word)
    return re.sub(r"(?<=[a-z0-9])([A-Z])", lambda m: "_" + m[1].lower(), word)


def spelling(own, seen):
    """From a name to its spelling. Only words that stand in definitions or proofs are turned, and constants that are declared here."""

    def turned(word):
        if word not in seen:
            return word
        if CONSTANT.match(word):
            return word.replace("-", "_") if word in own else word
        # std's word for the element at an index has another name now.
        return re.sub(r"^get_d-", "get_or-", "-".join(snake(p) for p in word.split("-")))

    return turned


def respell(text, turned, apart):
    def word(m):
        w = m[0]
        if w in apart:
            return apart[w]
        return turned(w)

    return TOKEN.sub(word, text)


def in_source(text, turned):
    """Clauses, ghost items and comments of a source; its strings stay, and in its code only names of definitions have these spellings."""
    out, at = [], 0
    for m in STRING.finditer(text):
        out += [respell(text[at : m.start()], turned, {}), m[0]]
        at = m.end()
    return "".join(out) + respell(text[at:], turned, {})


def proof_name(path, text):
    """The name by which a check finds the proof of the function in whose folder the file is."""
    name = os.path.basename(os.path.dirname(path))
    wanted = name + "_spec"
    for old in {m for m in re.findall(r"[a-z_0-9-]+-spec\b", text) if m.replace("-", "_") == wanted}:
        text = re.sub(r"(?<![\w-])" + re.escape(old) + r"(?![\w-])", wanted, text)
    return text


def main(argv):
    root = argv[1] if len(argv) > 1 else "."
    antt = list(files(os.path.join(root, "crates"), ".antt"))
    own, seen = set(), set()
    for path in antt:
        text = read(path)
        own |= declared(text)
        seen.update(TOKEN.findall(code(text)))
    turned = spelling(own, seen)
    olds = {w for w in own if turned(w) != w}
    for w in sorted(olds):
        if turned(w) in own:
            print(f"look: {w} and {turned(w)} fall together")
    for path in antt + list(files(os.path.join(root, "crates"), ".rt")):
        text = read(path)
        here = os.path.relpath(path, root)
        if path.endswith(".rt"):
            new = in_source(text, turned)
        else:
            new = respell(text, turned, APART.get(here, {}))
            if path.endswith("/Proof.antt"):
                new = proof_name(path, new)
        if new != text:
            with open(path, "w", encoding="utf-8") as f:
                f.write(new)
    print(f"respell: {len(olds)} names have another spelling")


if __name__ == "__main__":
    main(sys.argv)
