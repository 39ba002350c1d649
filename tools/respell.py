#!/usr/bin/env python3
"""Respells the repository's own definitions, laws and fields as CONTRACT_STYLE of the kit asks.

It was run once, right after the kit's port.py, on the commit that docs/PORT.md names first; it stays so that a reader can make that
step again. The tree as it stands now needs it no more.

usage: python3 tools/respell.py [--list]      at the top of the repository

A word is in snake case. A dash joins two names that the statement itself has, as in `length-append`; a plain word is
added with `_`, as in `be_ext`. Types, modules, functions of src/, goals and generated names are not touched.
With --list it prints the map and changes nothing.
"""

import os
import re
import sys

TOKEN = re.compile(r"[^\s(){}\[\],;:λ.|]+")
SIGNATURE = re.compile(r"^(\s*)((?:pub |abbrev |unfoldable )*)([^\s(){}\[\],;:.|]+) : (.*)$")
# laws that port.py gave a definition's new name
LAWS = {"put_one": "put_one_lem", "value_in": "value_in_lem"}
LAWS_IN = ("number/proofs/RowLaws.antt", "format4_columns/proofs/PlacesLaws.antt", "format4_lookup/proofs/LookupLaws.antt")
# names of the library that a law's name may join, beside those that stand in its statement
OPERATORS = {"append": "◌++◌", "add": "◌+◌", "mul": "◌*◌", "sub": "◌-◌", "div": "◌/◌", "mod": "◌%◌", "pow": "◌^◌", "cons": "◌∷◌", "suc": "suc"}


def files(root, ends):
    for folder, dirs, names in os.walk(os.path.join(root, "crates")):
        dirs[:] = sorted(d for d in dirs if d != "out")
        for n in sorted(names):
            if n.endswith(ends):
                yield os.path.join(folder, n)


def read(path):
    with open(path, encoding="utf-8") as f:
        return f.read()


def is_law_file(path):
    """A file of specs/, or a file of laws that lies right in proofs/; the proof of one function lies one folder lower."""
    parts = path.split(os.sep)
    at = parts.index("crates")
    return parts[at + 2] == "specs" or (parts[at + 2] == "proofs" and parts[-1] not in ("Proof.antt", "Invariants.antt", "Answers.antt"))


def declared(root):
    """Each own name with the text of its statement."""
    found = {}
    for path in files(root, ".antt"):
        if not is_law_file(path):
            continue
        lines = read(path).split("\n")
        for i, line in enumerate(lines):
            m = SIGNATURE.match(line)
            rule = re.match(r"^\s*pub ruleset ([^\s(){}:]+)", line)
            if rule:
                found.setdefault(rule.group(1), "")
            if not m or "=" in line.split(" : ")[0]:
                continue
            text = m.group(4)
            j = i + 1
            while j < len(lines) and re.match(r"^" + m.group(1) + r"\s+→", lines[j]):
                text += " " + lines[j]
                j += 1
            found[m.group(3)] = found.get(m.group(3), "") + " " + text
    return found


def snake(word):
    """The word in snake case; capitals that stand together are one word."""
    word = re.sub(r"getD", "get_or", word)
    word = re.sub(r"(?<=[a-z0-9])(?=[A-Z])|(?<=[A-Z])(?=[A-Z][a-z])", "_", word)
    return re.sub(r"[A-Z]+", lambda m: m.group(0).lower(), word) if word[:1].islower() else word


def joined(name, statement):
    """The name with a dash only between two names that stand in the statement."""
    words = set(TOKEN.findall(statement))
    words |= {snake(w) for w in words} | {w for w, op in OPERATORS.items() if op.strip("◌") in words}
    parts = [snake(p) for p in name.split("-")]
    out, i, last = "", 0, False
    while i < len(parts):
        size, known = 1, False
        for n in range(len(parts) - i, 0, -1):
            w = "_".join(parts[i : i + n])
            if w in words:
                size, known = n, True
                break
        w = "_".join(parts[i : i + size])
        out += w if not out else ("-" if last and known else "_") + w
        last = known
        i += size
    return out


def respelled(root):
    """The map of old names to new ones. A law that would have a definition's name ends in _lem."""
    names = declared(root)
    new = {}
    for name, statement in names.items():
        if re.match(r"^[a-z]", name) and re.search(r"[a-z0-9][A-Z]|-", name):
            new[name] = joined(name, statement)
    stay = {n for n in names if n not in new or new[n] == n}
    taken = stay | {b for a, b in new.items() if "-" not in a}
    for name, to in sorted(new.items()):
        if "-" in name and to != name:
            while to in taken:
                to += "_lem"
            new[name] = to
            taken.add(to)
    return {a: b for a, b in new.items() if a != b}


def fields(root):
    """Names of fields and of what lies in a section: they are indented."""
    found = set()
    for path in files(root, ".antt"):
        for line in read(path).split("\n"):
            m = SIGNATURE.match(line)
            if m and m.group(1):
                found.add(m.group(3))
    return found


def split_comment(line, mark):
    """A line's code and its comment."""
    if line.lstrip().startswith(mark):
        return "", line
    at = line.find(" " + mark + " ")
    return (line, "") if at < 0 else (line[:at], line[at:])


def turn_text(text, new, own_fields, mark):
    """The text with own names respelled; in comments only names in mixed case, since others may be words with a dash."""
    modules = set(re.findall(r" as ([a-z]\w*)$", text, re.M))
    aliases = {a: snake(a) for a in re.findall(r" as ([a-z]+[A-Z]\w*)", text)}

    def one(m, comment):
        word, before = m.group(0), m.string[: m.start()]
        to = new.get(word) or aliases.get(word)
        if not to or (comment and "-" in word):
            return word
        owner = re.search(r"([^\s(){}\[\],;:λ.|]+)\.$", before)
        if owner and owner.group(1) not in modules and word not in own_fields:
            return word
        return to

    out = []
    for line in text.split("\n"):
        code, comment = split_comment(line, mark)
        out.append(TOKEN.sub(lambda m: one(m, False), code) + TOKEN.sub(lambda m: one(m, True), comment))
    return "\n".join(out)


def turn_older(text, new, now):
    """A text that port.py leaves, as a page or an edit: names that it turned elsewhere are turned here too."""
    def one(m):
        word = m.group(0)
        if word in new:
            return new[word]
        return snake(word) if word not in now and re.match(r"[a-z]+[A-Z]", word) and snake(word) in now | {"get_or"} else word

    return TOKEN.sub(one, text)


def turn_page(text, new, now):
    """A page's names stand between backticks."""
    return re.sub(r"`([^`\n]+)`", lambda m: "`" + turn_older(m.group(1), new, now) + "`", text)


def captured(path, text, new):
    """New names that the file has already, beside the old one: a variable would hide the definition."""
    words = set(TOKEN.findall(text))
    return sorted(b for a, b in new.items() if a in words and b in words)


def write(path, text):
    with open(path, "w", encoding="utf-8") as f:
        f.write(text)


def main():
    root = os.getcwd()
    new = respelled(root)
    own_fields = fields(root)
    by = {}
    for a, b in new.items():
        by.setdefault(b, []).append(a)
    for b, olds in sorted(by.items()):
        if len(olds) > 1:
            print(f"clash: {b} <- {', '.join(olds)}")
    for path in files(root, (".antt", ".rt")):
        for b in captured(path, read(path), new):
            print(f"look: {path}: {b} stands there already")
    now = set(declared(root)) | set(new.values())
    if "--list" in sys.argv:
        for a, b in sorted(new.items()):
            print(a, b)
        return 0
    for path in files(root, (".antt", ".rt", ".edit")):
        text = read(path)
        if path.endswith(LAWS_IN):
            text = TOKEN.sub(lambda m: LAWS.get(m.group(0), m.group(0)), text)
        if path.endswith(".edit"):
            write(path, turn_older(text, new, now))
            continue
        mark = "//" if path.endswith(".rt") else "--"
        write(path, turn_text(text, new, own_fields, mark))
    pages = ["README.md", "CONTRIBUTING.md"] + [os.path.join("docs", n) for n in sorted(os.listdir("docs")) if n.endswith(".md")]
    for path in pages:
        write(path, turn_page(read(path), new, now))
    return 0


if __name__ == "__main__":
    raise SystemExit(main())
