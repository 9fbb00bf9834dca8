#!/usr/bin/env python3
"""respell [ROOT]: brings the repository's own definitions, lemmas and bound names to the spelling of words: snake case, and an apostrophe for a prime.

It goes over crates/ (.antt, .rt and .edit), edits/, README.md and docs/. A word that begins with a small letter and has a capital in it is respelled, each
part of a name that dashes join by itself, as in `anyOf-append`. Types, modules, and the constants that carry the names of the Rust and of the
format (`Class.OrdinalDuplicate`, `Kind.Field`) begin with a capital and stay. Text in double quotes stays; byte literals do not (docs/PORT.md). In documents only the words that the crates have are respelled.
A lemma whose name would fall together with a definition's gets `_lem` (LEMMAS); --show lists the words of each file that fall together: what is left there
is a definition and a function of src/ that have one name in two languages, or a definition and lemmas named after it. It is run once, after the kit's port.py.
"""

import os
import re
import sys

WORD = re.compile(r"[A-Za-z_][\w'′]*")
# Lemmas that the kit's script gave a name which the definition that they are about has now.
LEMMAS = re.compile(r"(?<![.\w'-])(by_names|done_at|found_all|never_ends|pair_line|starts_by|target_at|variant_found)(?![\w'.-])")
QUOTED = re.compile(r'b?"(?:[^"\\\n]|\\.)*"')


def respelled(word):
    if not word[0].islower():
        return word
    return re.sub(r"(?<=[a-z0-9])(?=[A-Z])", "_", word).lower().replace("′", "'")


def with_words(text, change, quotes):
    """The text with each of its words changed, but for those in quotes."""
    out, at = [], 0
    for quoted in [*(QUOTED.finditer(text) if quotes else ()), None]:
        end = quoted.start() if quoted else len(text)
        out.append(WORD.sub(lambda m: change(m[0]), text[at:end]))
        if quoted:
            out.append(quoted[0])
            at = quoted.end()
    return "".join(out)


def files(root, folder, endings):
    for at, folders, names in os.walk(os.path.join(root, folder)):
        folders[:] = sorted(it for it in folders if it != "out")
        for name in sorted(names):
            if name.endswith(endings):
                yield os.path.join(at, name)


def main():
    root = sys.argv[1] if len(sys.argv) > 1 else os.path.dirname(os.path.dirname(os.path.abspath(__file__)))
    if os.path.exists(os.path.join(root, "docs", "PORT.md")):
        sys.exit("respell: docs/PORT.md is there, so this has been run, and a second run would spell some names wrongly")
    words, written, bad = set(), {}, []
    for path in files(root, "crates", (".antt", ".rt")):
        with open(path, encoding="utf-8") as it:
            text = it.read()
        if os.path.join("proofs", "") in path:
            text = LEMMAS.sub(r"\1_lem", text)
        said = {}
        with_words(text, lambda w: said.setdefault(respelled(w), set()).add(w) or w, path.endswith(".rt"))
        words |= {w for spelled in said.values() for w in spelled}
        bad += [f"{path}: {sorted(it)}" for it in said.values() if len(it) > 1]
        written[path] = with_words(text, respelled, path.endswith(".rt"))
    if "--show" in sys.argv:
        print("\n".join(bad))
    for folder in ("crates", "edits"):
        for path in files(root, folder, (".edit",)):
            with open(path, encoding="utf-8") as it:
                written[path] = with_words(it.read(), respelled, False)
    known = {w for w in words if respelled(w) != w}
    for path in [*files(root, "docs", (".md",)), os.path.join(root, "README.md")]:
        with open(path, encoding="utf-8") as it:
            written[path] = with_words(it.read(), lambda w: respelled(w) if w in known else w, False)
    for path, text in written.items():
        with open(path, encoding="utf-8") as it:
            before = it.read()
        if text != before:
            with open(path, "w", encoding="utf-8") as it:
                it.write(text)


if __name__ == "__main__":
    main()
