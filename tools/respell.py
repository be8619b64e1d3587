#!/usr/bin/env python3
"""Brings the names of the definitions and lemmas of specs/ and proofs/ to today's spelling. Run once, at the top, right after the kit's port.py.

usage: tools/respell.py [FOLDER]

tools/respelled.tsv has the old name and the new one, a pair a line: words are in snake case, types and facts in camel case, a dash joins the names of two
definitions, and a lemma that would have its definition's name ends in _lem. Functions of src/, strings, and what Rattle generates keep their names.
A clause that port.py turned into `s.now ≡ s.now` gets back what it said: that a lent value is at the return what it was at the call.
"""

import os
import re
import sys

HERE = os.path.dirname(os.path.realpath(__file__))
# Lemmas that had today's spelling already, and share it with a definition: only where they are declared or imported.
LEMMAS = {
    "after_check": "edit_rules/proofs/Exactly.antt",
    "area_in": "fmap_area/proofs/Records.antt fmap_area/proofs/at/Proof.antt fmap/proofs/Counting.antt",
    "by_parts": "edit_rules/proofs/Sums.antt",
    "count_fits": "strict_check/proofs/Answers.antt strict_check/proofs/check/Proof.antt",
    "field_fits": "edit_rules/proofs/Written.antt edit_rules/proofs/Sums.antt edit_decide/proofs/ContainsMagic.antt edit_write/proofs/write_component/Proof.antt",
    "from_place": "image_claims/proofs/Parts.antt load_segment/proofs/Finding.antt",
    "strict_place": "image_claims/proofs/Refusing.antt bench_calls/proofs/Refusing.antt",
}
LETTER = r"[\w'\-◌·]"
# Fields of our records with a dash, which stand behind a dot too.
FIELDS = """all-tests area-tests all-taken content-at count-read distinct-names done-again header-fits length-is minor-read name-at name-max name-min name-part
    none-untaken not-refused offset-max offset-min other-bytes other-components passes-to-13 record-read record-zero some-area then-zero without-magic""".split()
# A name of the library's that one of ours had too.
LIBRARY = {"or-false": "strict_rules/proofs/Slots.antt"}
KEPT = re.compile(r"\b(\w+)\.now ≡ \1\.now\b")


def pattern(names):
    return re.compile(r"(?<!" + LETTER + r")(" + "|".join(re.escape(n) for n in sorted(names, key=len, reverse=True)) + r")(?!" + LETTER + r")")


def main():
    top = sys.argv[1] if len(sys.argv) > 1 else "."
    with open(os.path.join(HERE, "respelled.tsv"), encoding="utf-8") as f:
        table = dict(line.rstrip("\n").split("\t") for line in f)
    own = pattern(table)

    def turn(text, of_function):
        def one(m):
            # What Rattle makes of a function's code is named behind a dot, with dashes of its own.
            if "-" in m.group(1) and m.start() and text[m.start() - 1] == "." and (of_function or m.group(1) not in FIELDS):
                if not re.search(r"\b[A-Z]\w*\.$", text[: m.start()][-80:]):
                    return m.group(0)
            return table[m.group(1)]

        return own.sub(one, text)

    for folder, dirs, files in os.walk(os.path.join(top, "crates")):
        dirs[:] = sorted(d for d in dirs if d != "out")
        for name in sorted(files):
            if not name.endswith((".rt", ".antt", ".edit")):
                continue
            path = os.path.join(folder, name)
            with open(path, encoding="utf-8") as f:
                old = f.read()
            new = old
            for lemma, places in LEMMAS.items():
                if name.endswith(".antt") and any(path.endswith("crates/" + p) for p in places.split()):
                    new = re.sub(r"(?<![\w'\-.])" + lemma + r"(?!" + LETTER + r")", lemma + "_lem", new)
            new = turn(new, name == "Proof.antt")
            for theirs, place in LIBRARY.items():
                if path.endswith("crates/" + place):
                    new = re.sub(r"(?<!" + LETTER + r")" + table[theirs] + r"(?!" + LETTER + r")", theirs, new)
            # Two names that are words in comments too.
            new = new.replace("well_formed_lem header", "well-formed header").replace("ill_formed header", "ill-formed header")
            if name.endswith(".rt"):
                new = KEPT.sub(r"\1.exit.now ≡ \1.entry.now", new)
            if new != old:
                with open(path, "w", encoding="utf-8") as f:
                    f.write(new)
    for folder, dirs, files in list(os.walk(os.path.join(top, "docs"))) + [(top, [], ["README.md"])]:
        for name in sorted(files):
            if not name.endswith(".md"):
                continue
            path = os.path.join(folder, name)
            with open(path, encoding="utf-8") as f:
                old = f.read()
            new = re.sub(r"`[^`\n]+`", lambda m: turn(m.group(0), False), old)
            if new != old:
                with open(path, "w", encoding="utf-8") as f:
                    f.write(new)


main()
