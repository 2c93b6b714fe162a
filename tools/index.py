#!/usr/bin/env python3
"""Prints docs/INDEX.md: the files of each crate, with the line that each begins with.

    python3 tools/index.py > docs/INDEX.md
    python3 tools/index.py --check     # says whether docs/INDEX.md is up to date

Crates come in an order in which each stands behind those that it stands on. Tables of contents (`Lib.antt`), answers of single
functions and what the compiler declares have no line.
"""

import os
import sys

ROOT = os.path.dirname(os.path.dirname(os.path.abspath(__file__)))
PARTS = (("src", ".rt", "//! ", "Code"), ("specs", ".antt", "-- ", "Definitions"), ("proofs", ".antt", "-- ", "Lemmas"))
HEAD = """# Index

The files of each crate, with the sentence that each begins with. `tools/index.py` makes this page.
"""


def crates_of(text):
    """The crates of a crates.txt and the crates that each names, in the order of the text."""
    found = {}
    for line in text.splitlines():
        if line.strip() and not line.startswith("#"):
            name, _, below = line.partition(":")
            found[name.strip()] = below.split()
    return found


def lowest_first(crates):
    """The names of crates, each behind those that it stands on."""
    order = []

    def place(name):
        if name in crates and name not in order:
            for below in crates[name]:
                place(below)
            order.append(name)

    for name in crates:
        place(name)
    return order


def first_sentence(text, mark):
    """The first sentence of the comment that a text begins with, or nothing."""
    words = []
    for line in text.splitlines():
        if not line.startswith(mark):
            break
        words.append(line[len(mark):].strip())
    comment = " ".join(words)
    end = comment.find(". ")
    return comment if end < 0 else comment[:end + 1]


def files_under(folder, ending):
    """The files of a folder and of those in it, in the order of their paths, each as it is named from the folder."""
    found = []
    for at, folders, names in os.walk(folder):
        folders.sort()
        found += [os.path.relpath(os.path.join(at, name), folder) for name in names if name.endswith(ending)]
    return sorted(found)


def is_listed(part, name):
    """Whether a file has a line of its own."""
    if os.path.basename(name) in ("Lib.antt", "Answers.antt", "Invariants.antt"):
        return False
    return not (part == "specs" and name.split(os.sep)[0] == "declared")


def lines_of(folder, part, ending, mark):
    """A line for each listed file of a part of a crate that begins with a comment."""
    lines = []
    for name in files_under(os.path.join(folder, part), ending):
        if is_listed(part, name):
            with open(os.path.join(folder, part, name), encoding="utf-8") as file:
                sentence = first_sentence(file.read(), mark)
            if sentence:
                lines.append(f"- `{name.removesuffix('.antt')}`: {sentence}")
    return lines


def index_of(root):
    """The whole page."""
    with open(os.path.join(root, "crates.txt"), encoding="utf-8") as file:
        crates = crates_of(file.read())
    page = [HEAD]
    for name in lowest_first(crates):
        page.append(f"## `{name}`\n")
        for part, ending, mark, title in PARTS:
            lines = lines_of(os.path.join(root, "crates", name), part, ending, mark)
            if lines:
                page.append(f"{title}, in `{name}/{part}`:\n\n" + "\n".join(lines) + "\n")
    return "\n".join(page)


def main(words):
    page = index_of(ROOT)
    if words == ["--check"]:
        with open(os.path.join(ROOT, "docs", "INDEX.md"), encoding="utf-8") as file:
            same = file.read() == page
        if not same:
            print("docs/INDEX.md is not up to date: python3 tools/index.py > docs/INDEX.md", file=sys.stderr)
        return 0 if same else 1
    if words:
        print("usage: index.py [--check]", file=sys.stderr)
        return 2
    sys.stdout.write(page)
    return 0


if __name__ == "__main__":
    sys.exit(main(sys.argv[1:]))
