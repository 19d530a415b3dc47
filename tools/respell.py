#!/usr/bin/env python3
"""respell.py: turns this repository's own definitions and lemmas to the spelling of today's Rattle, in place: `lenTo-other` becomes `len_to-other`.

usage: tools/respell.py [--check] [ROOT]      run once, after the kit's port.py; ROOT is the checkout, and --check writes nothing

A word is in snake case: each part of a name (hyphens and underscores part it) that begins with a small letter and has a capital in it is split before its
capitals. Types, modules and constructors begin with a capital and stay. What turns: the .antt files and the .rt files below crates/, but for quoted text, and
the edits of tests. The names of src/, exported names, strings, inputs and outputs stay: none of them has a capital behind a small first letter.
It prints 'together:' for each name that was there already in a file that now has it from another name."""
import collections
import os
import re
import sys

WORD = re.compile(r"[^\s(){}.;,@«»\[\]|\"`:/*’…!?#&<>=+]+")
QUOTED = re.compile(r'b?"(?:[^"\\\n]|\\.)*"|b\'(?:[^\'\\\n]|\\.)\'')
# Lemmas that port.py turned to a name that a definition has now: they keep their hyphen.
APART = {"read_named": "read-named", "start_up": "start-up"}
HUMPS = re.compile(r"[a-z][a-z0-9]*(?:[A-Z][a-z0-9]*)+'*")


def respelled(word):
    """The word in today's spelling; the same word where no part of it has humps."""
    if word in APART:
        return APART[word]
    parts = re.split(r"([-_])", word)
    return "".join(re.sub(r"(?<!^)(?=[A-Z])", "_", p).lower() if HUMPS.fullmatch(p) else p for p in parts)


def turned(text):
    """The text with each word respelled but for quoted text, the words that were turned, and all words as they were."""
    were, turns = set(), {}

    def word(m):
        new = respelled(m[0])
        were.add(m[0])
        if new != m[0]:
            turns[m[0]] = new
        return new

    out, at = [], 0
    for q in QUOTED.finditer(text):
        out += [WORD.sub(word, text[at:q.start()]), q[0]]
        at = q.end()
    return "".join(out + [WORD.sub(word, text[at:])]), turns, were


def main():
    words = [a for a in sys.argv[1:] if a != "--check"]
    root = words[0] if words else os.path.join(os.path.dirname(os.path.realpath(__file__)), "..")
    of, count = collections.defaultdict(set), 0
    for top in ("crates", "tests"):
        for folder, dirs, files in os.walk(os.path.join(root, top)):
            dirs[:] = sorted(d for d in dirs if d != "out")
            for file in sorted(files):
                path = os.path.join(folder, file)
                if not file.endswith((".antt", ".rt", ".edit")):
                    continue
                with open(path, encoding="utf-8") as f:
                    text = f.read()
                new, turns, were = turned(text)
                for old, it in turns.items():
                    of[it].add(old)
                    if it in were:
                        print(f"together: {os.path.relpath(path, root)}: {old} and {it}")
                if new != text:
                    count += 1
                    if "--check" not in sys.argv:
                        with open(path, "w", encoding="utf-8") as f:
                            f.write(new)
    for new, olds in sorted(of.items()):
        if len(olds) > 1:
            print(f"together: {new}: {', '.join(sorted(olds))}")
    print(f"respell: {len(of)} names in {count} files")


if __name__ == "__main__":
    main()
