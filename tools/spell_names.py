#!/usr/bin/env python3
"""Spells the repository's own definitions and lemmas as its Rattle does: words in snake case, types and modules in camel case.

usage: tools/spell_names.py [--check] [FOLDER]      FOLDER: the repository (default: the current folder)

A name that a file of specs/ or proofs/ declares, and of which a part between dashes begins small and has capitals, is written
in snake case, part by part: putBytes becomes put_bytes, and leads-putBe leads-put_be. It is respelled everywhere: in antt, in
clauses, in comments, in must-fail edits and in the pages. Names of src/ stay. A lemma that stood as a definition's new name gets
_lem first. Each new spelling that a file had already is listed. --check writes nothing. Run it once, right after port.py.
"""
import os
import re
import sys

WORD = re.compile(r"[^\s(){}.;,@\"«»:`\[\]|/*!?]+")
DECLARED = re.compile(r"(?m)^ *(?:(?:pub|abbrev|unfoldable|open|record|data) )*([^\s:(){}.;,@\"«»]+)(?: \{[^{}\n]*\}| \([^()\n]*\))* :(?= )")
# Lemmas and hypotheses that would meet a definition's new name: "a lemma that would have its function's name gets _lem".
LEMMAS = """all_live bytes_left ended_by four_bytes goes_on hands_out insert_all key_fits keys_from laid_out next_low no_key node_ok
number_is row_fits same_blocks too_many turned_down""".split()
LEMMA = re.compile(r"(?<![^\s(){},;])(" + "|".join(LEMMAS) + r")(?![^\s(){}.,;])")


def part(word):
    if not re.match(r"[a-z]", word) or not re.search(r"[A-Z]", word):
        return word
    return re.sub(r"(?<=[a-z0-9'])[A-Z]|(?<=[A-Z])[A-Z](?=[a-z])", lambda m: "_" + m[0], word).lower()


def spelled(name):
    return "-".join(part(it) for it in name.split("-"))


def files(root):
    for top in ("crates", "docs", "README.md", "CHANGELOG.md"):
        path = os.path.join(root, top)
        if os.path.isfile(path):
            yield path
        for above, folders, names in os.walk(path):
            folders[:] = sorted(it for it in folders if it not in ("out", "data"))
            for it in sorted(names):
                if it.endswith((".antt", ".rt", ".edit", ".md")):
                    yield os.path.join(above, it)


def main(args):
    check = "--check" in args
    root = ([it for it in args if not it.startswith("--")] or ["."])[0]
    texts = {}
    for path in files(root):
        with open(path, encoding="utf-8") as f:
            texts[path] = f.read()
    names = {}
    for path, text in texts.items():
        if path.endswith(".antt"):
            for it in DECLARED.findall(text):
                if spelled(it) != it:
                    names[it] = spelled(it)
    meets = {}
    for path, text in texts.items():
        if path.endswith((".antt", ".rt")):
            words = set(WORD.findall(text))
            for old, new in names.items():
                if old in words and new in words:
                    meets.setdefault(old, []).append(path)
    both = {}
    for old, new in names.items():
        both.setdefault(new, []).append(old)
    for new, olds in both.items():
        if len(olds) > 1:
            print(f"together: {new}: {' '.join(olds)}")
    for old, paths in sorted(meets.items()):
        print(f"meets: {old} -> {names[old]}: {' '.join(os.path.relpath(it, root) for it in paths)}")
    changed = 0
    for path, text in texts.items():
        new = LEMMA.sub(r"\1_lem", text) if path.endswith(".antt") else text
        new = WORD.sub(lambda m: names.get(m[0], m[0]), new)
        if new != text:
            changed += 1
            if not check:
                with open(path, "w", encoding="utf-8") as f:
                    f.write(new)
    print(f"{len(names)} names, {changed} files")
    return 0


if __name__ == "__main__":
    raise SystemExit(main(sys.argv[1:]))
