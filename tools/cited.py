#!/usr/bin/env python3
"""Writes docs/generated/LAWS.md: the laws that crates share, and who cites them. A file of laws is shared if another crate imports it.
Run it at the repository's root:

    python3 tools/cited.py      # or with - to print the page"""
import collections
import glob
import os
import re

import generated

HEAD = """# Shared laws

`python3 tools/cited.py` writes this page whole.
A file of laws stands here if another crate cites it.
What it says is its own first comment.

| file | what it says | laws | cited by |
|---|---|---:|---|
"""
IMPORT = re.compile(r"^use\s+Rattle\.(\w+)\.proofs\.(\w+)\b", re.M)
LAW = re.compile(r"^ *pub (?!mod|ruleset|record|data|use|abbrev|unfoldable)\S+ :", re.M)


def first_comment(text):
    """The comment that a file begins with, up to the first line that ends a sentence."""
    lines = []
    for line in text.split("\n"):
        if not line.startswith("--"):
            break
        lines.append(line[2:].strip())
        if line.endswith("."):
            break
    return " ".join(lines)


def main():
    order = generated.crates()
    users = collections.defaultdict(set)
    for path in glob.glob("crates/*/proofs/**/*.antt", recursive=True):
        crate = path.split("/")[1]
        with open(path, encoding="utf-8") as f:
            for other, page in IMPORT.findall(f.read()):
                if other != crate:
                    users[other, page].add(crate)
    rows = []
    for crate in order:
        for path in sorted(glob.glob(f"crates/{crate}/proofs/*.antt")):
            page = os.path.basename(path)[:-5]
            cites = [c for c in order if c in users[crate, page]]
            if cites:
                with open(path, encoding="utf-8") as f:
                    text = f.read()
                rows.append(f"| `{crate}/{page}` | {first_comment(text)} | {len(LAW.findall(text))} | {', '.join(cites)} |\n")
    generated.write("LAWS", HEAD + "".join(rows))


if __name__ == "__main__":
    main()
