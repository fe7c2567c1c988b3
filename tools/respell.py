#!/usr/bin/env python3
"""Spells the repository's own definitions and lemmas as today's Rattle does: words in snake case, types and modules in camel case.

usage: python3 tools/respell.py       at the top of the repository, once, right after port.py

tools/respell.txt has a line for each name: as it was, and as it is. The names go into specs/, proofs/ and the clauses of src/ of each
crate, into the must-fail edits and, where they stand in backquotes, into README.md and docs/. Functions of src/ keep their names.
"""

import os
import re

# Two lemmas would have the name that a definition gets, in a file that names that definition too.
TOGETHER = {
    "crates/station/proofs/KindTable.antt": ("register_of", "register_of_lem"),
    "crates/lists/proofs/StepLaws.antt": ("step_words", "step_words_lem"),
}
WORD = r"(?<![\w'₀-₉-]){}(?![\w'₀-₉-])"


def table():
    with open("tools/respell.txt", encoding="utf-8") as f:
        return dict(line.split() for line in f if line.strip())


def below(top, *endings):
    for folder, folders, files in os.walk(top):
        folders[:] = sorted(it for it in folders if it not in ("out", ".git"))
        for file in sorted(files):
            if file.endswith(endings):
                yield os.path.join(folder, file)


def rewritten(path, change):
    with open(path, encoding="utf-8") as f:
        text = f.read()
    new = change(text)
    if new != text:
        with open(path, "w", encoding="utf-8") as f:
            f.write(new)


def main():
    names = table()
    camel = {a: b for a, b in names.items() if re.search("[A-Z]", a)}
    token = re.compile(r"(?<![\w'₀-₉])[a-z][\w'₀-₉]*(?![\w₀-₉])")

    # a name of one word, also where it is a part of a name with dashes
    def parts(text):
        return token.sub(lambda m: camel.get(m[0], m[0]), text)

    whole = re.compile(r"(?<![\w'₀-₉-])[a-z][\w'₀-₉-]*(?![\w₀-₉])")

    def wholes(text):
        return parts(whole.sub(lambda m: names.get(m[0], m[0]), text))

    def in_backquotes(text):
        return parts(re.sub(r"`[^`\n]+`", lambda m: wholes(m[0]), text))

    for path, (old, new) in TOGETHER.items():
        rewritten(path, lambda text: re.sub(WORD.format(old), new, text))
    for path in below("crates", ".antt", ".rt"):
        rewritten(path, lambda text: parts(text).replace("getD-", "get_or-"))
        if path.endswith("/Proof.antt"):
            name = os.path.basename(os.path.dirname(path)).lstrip("+") + "_spec"
            dashed = name.replace("_", "-")
            rewritten(path, lambda text: re.sub(rf"(?<![\w-]){dashed}(?![\w-])", name, text))
    for path in below("crates", ".edit"):
        rewritten(path, wholes)
    for path in ["README.md", *below("docs", ".md", ".txt")]:
        rewritten(path, in_backquotes)


if __name__ == "__main__":
    main()
