#!/usr/bin/env python3
"""Counts what an addition costs: in how many files each form of the tree is named, which files are walks over forms, and lines.

    python3 tools/walks.py            # all tables
    python3 tools/walks.py FORM       # the files that name one form, as FlagsOfWords

It counts by text. A form is a variant of one of the enums below. In code a file names it behind the enum's name; in definitions and proofs
behind the name under which the variants were taken in, or in the list of those that were. A file is a walk over an enum where it names
at least half of its variants.
"""

import os
import re
import sys

ROOT = os.path.dirname(os.path.dirname(os.path.abspath(__file__)))
ENUMS = {"Expr": "rust_tree/src/expr.rt", "Stmt": "rust_tree/src/stmt.rt", "Item": "rust_tree/src/item.rt"}
PARTS = ("src", "specs", "proofs")


def variants_of(text, enum):
    """The variants of an enum of a source file, in their order."""
    body = re.search(r"pub enum " + enum + r"\b[^{]*\{(.*?)\n\}", text, re.S).group(1)
    return re.findall(r"^    ([A-Z]\w*)", body, re.M)


def files_of(root):
    """Each source file, definition and proof, as its path below crates/ and its text."""
    for crate in sorted(os.listdir(os.path.join(root, "crates"))):
        for part in PARTS:
            for at, folders, names in os.walk(os.path.join(root, "crates", crate, part)):
                folders[:] = sorted(f for f in folders if f != "declared")
                for name in sorted(names):
                    if name.endswith((".rt", ".antt")):
                        path = os.path.join(at, name)
                        with open(path, encoding="utf-8") as file:
                            yield os.path.relpath(path, os.path.join(root, "crates")), file.read()


def forms_named(path, text, enum):
    """What a file names of an enum: in code behind `Expr::`, elsewhere as a variant, as a layer of a fold, or by an import."""
    if path.endswith(".rt"):
        return set(re.findall(rf"\b{enum}::(\w+)", text))
    shorts = [*re.findall(rf"\.{enum}\.TheVariants as (\w+)", text), f"{enum}-F"]
    found = {form for short in shorts for form in re.findall(rf"(?<![\w-]){short}\.(\w+)", text)}
    imported = re.search(rf"\.{enum}\.TheVariants\.\{{([^}}]*)\}}", text)
    names = imported.group(1).split(",") if imported else []
    return found | {name.strip().removeprefix("rolls-") for name in names}


def table(root):
    """For each enum, its variants with the files that name each. The file that declares one names it."""
    files = list(files_of(root))
    found = {}
    for enum, path in ENUMS.items():
        forms = variants_of(next(text for name, text in files if name == path), enum)
        found[enum] = {form: [] for form in forms}
        for name, text in files:
            named = set(forms) if name == path else forms_named(name, text, enum)
            for form in forms:
                if form in named:
                    found[enum][form].append(name)
    return found


def walks(forms):
    """The files that name at least half of the variants of an enum, with how many each names."""
    counts = {}
    for files in forms.values():
        for name in files:
            counts[name] = counts.get(name, 0) + 1
    return sorted((name, n) for name, n in counts.items() if 2 * n >= len(forms))


def lines(root):
    """Lines of code, definitions and proofs."""
    total = dict.fromkeys(PARTS, 0)
    for name, text in files_of(root):
        total[name.split(os.sep)[1]] += text.count("\n")
    return total


def main(words):
    found = table(ROOT)
    if words:
        for enum, forms in found.items():
            for name in forms.get(words[0], []):
                print(f"{enum}: {name}")
        return 0
    for enum, forms in found.items():
        print(f"{enum}: {len(forms)} forms")
        for form, files in sorted(forms.items(), key=lambda f: -len(f[1])):
            print(f"  {len(files):3} {form}")
        print(f"  walks over {enum}:")
        for name, n in walks(forms):
            print(f"    {name} ({n})")
    print("lines: " + ", ".join(f"{part} {n}" for part, n in lines(ROOT).items()))
    return 0


if __name__ == "__main__":
    sys.exit(main(sys.argv[1:]))
