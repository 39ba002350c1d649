#!/usr/bin/env python3
"""Writes docs/generated/EDITS.md: each must-fail edit, the wrong answer that it tries, and the fact at which it is refused. It reads
what a run of .ci/run printed. Run it at the repository's root:

    mkdir -p target && .ci/run > target/ci.log; python3 tools/edits.py target/ci.log      # with - too to print the page"""
import glob
import os
import re
import sys

import generated

HEAD = """# Edits that must fail

`python3 tools/edits.py LOG` writes this page whole, from what `.ci/run` printed of each edit.
An edit makes one place of a crate wrong, in its code or in a definition, and the check must refuse it.
"Refused at" has the first fact that no longer holds: the function, or the file of laws, and the goal or the law in it.

| edit | what it says, and the edit breaks | changed | refused at |
|---|---|---|---|
"""

SAID = re.compile(r"^rt: must-fail (\w+/\w+)\.edit: (.*)", re.M)
ERROR = re.compile(r"(?:\./)?(?:proofs|specs)/(\S+?)\.antt:\d+:\d+: error: `([^`]+)`")
NOTE = re.compile(r"note: (src/\S+?):(\d+):\d+: (?:it is not proved|`search` found no proof) .*?\(?`([^`]+)`\)")


def told(edit):
    """The edit's own sentence, and the file that it changes."""
    with open(edit, encoding="utf-8") as f:
        lines = f.read().split("\n")
    says = " ".join(line[1:].strip() for line in lines if line.startswith("#"))
    files = [line[6:] for line in lines if line.startswith("file: ")]
    return says, ", ".join(sorted(set(files)))


def function_at(path, line):
    """The function whose code stands at that line; an attribute belongs to the function below it."""
    with open(path, encoding="utf-8") as f:
        lines = f.readlines()
    while line < len(lines) and lines[line - 1].lstrip().startswith("#["):
        line += 1
    names = re.findall(r"^\s*(?:pub )?(?:extern \"C\" )?fn (\w+)", "".join(lines[:line]), re.M)
    return names[-1] if names else "?"


def refused_at(crate, said):
    """The first fact that is refused."""
    if not said.startswith("refused"):
        return said.split(":")[0] or "not run"
    error, note = ERROR.search(said), NOTE.search(said)
    if error:
        place = re.sub(r"/(Answers|Invariants)$", "", error.group(1)).replace("/", "::")
        return f"`{place}`: `{error.group(2)}`"
    if note:
        return f"`{function_at(f'crates/{crate}/{note.group(1)}', int(note.group(2)))}`: `{note.group(3)}`"
    return "see the run"


def main():
    logs = [word for word in sys.argv[1:] if word != "-"]
    if len(logs) != 1:
        sys.exit("one LOG of .ci/run")
    with open(logs[0], encoding="utf-8") as f:
        said = dict(SAID.findall(f.read()))
    rows = []
    for edit in sorted(glob.glob("crates/*/must-fail/*.edit")):
        crate, name = edit.split("/")[1], os.path.basename(edit)[:-5]
        says, files = told(edit)
        rows.append(f"| `{crate}/{name}` | {says} | {files} | {refused_at(crate, said.get(f'{crate}/{name}', ''))} |\n")
    generated.write("EDITS", HEAD + "".join(rows))


if __name__ == "__main__":
    main()
