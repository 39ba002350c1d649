#!/usr/bin/env python3
"""Which definitions of crates/*/specs/ a reader must believe: those that the promises of the calls for hosts reach, by name.
Run it at the repository's root:

    python3 tools/believed.py            # a table by crate, and the declared types that those definitions name
    python3 tools/believed.py --list     # also each definition that is not believed
    python3 tools/believed.py --mixed    # also each of those that stands beside believed ones, not below a ruled heading of its own
    python3 tools/believed.py --names    # also each name that is defined in more than one place

It fails where a file none of whose definitions is believed does not begin with "-- Inner:", where a file that does holds a believed
definition, where a believed name is defined in two places, and where the contracts of the calls for hosts name what no root reaches."""
import collections
import glob
import os
import re
import sys

# What the promises name: crate, file, definition.
ROOTS = [
    ("cmap_promise", "Cmap", "answer_of"), ("cmap_promise", "Cmap", "output_of"), ("cmap_promise", "Cmap", "number_of"),
    ("cmap_promise", "Cmap", "length_of"), ("cmap_promise", "Cmap", "records_of"),
    ("cmap_promise", "Fates", "fate_of"), ("cmap_promise", "Fates", "fate_number_of"),
    ("heads", "Heads", "old_head"), ("heads", "Heads", "new_head"), ("heads", "Heads", "head_number_of"), ("heads", "Heads", "printed_of"),
    ("cmap_answers", "Answers", "old_answer"), ("cmap_answers", "Answers", "new_answer"),
    ("job_output", "Answered", "answered"), ("job_input", "Job", "parse"),
    ("host_calls", "Calls", "subset_of"), ("host_calls", "Calls", "record_fate_of"), ("host_calls", "Calls", "codes_after"),
    ("host_calls", "Calls", "glyphs_after"), ("host_calls", "Calls", "out_after"),
    ("host_told", "Told", "told"), ("host_told", "Told", "told_fate"), ("host_told", "Told", "told_head"),
]

# The crate of the calls for hosts: what its contracts name is to be believed.
HOSTS = "crustedlane"
# The file of a type that the code declares, as specs.declared.NAME.
DECLARED = "declared"

INNER = "-- Inner:"
# A ruled line below which a file has what no promise names, though promises name what stands above it.
ASKED = re.compile(r"^\s*-- ---- .*\b(?:asks?|asked|inner)\b", re.I)
MODULE = r"^\s*(?:ghost )?use\s+Rattle\.(\w+)\.specs\.((?:declared\.)?[A-Z]\w*)"
IMPORT = re.compile(MODULE + r"(?:\.TheVariants)?\.\{([^}]*)\}", re.M)
ALIAS = re.compile(MODULE + r"\s+as\s+(\S+?);?$", re.M)
DEFINED = re.compile(r"^(\s*)(?:(?:abbrev|unfoldable) )?(?:pub )?(?:(record|data) (\S+)(?=[ :])|(\S+) :(?= |$))")
MEMBER = re.compile(r"^\s*(?:pub )?(\S+) : ")
TYPE = re.compile(r"^( *)(?:pub )?(enum|struct) (\w+) \{\n(.*?)^\1\}", re.M | re.S)
WORD = re.compile(r"[^\s(){}\[\].,;:λ]+")
BINDER = re.compile(r"(?:λ\s*|let\s+|[({])\s*([^\s(){}:.=]+(?:\s+[^\s(){}:.=]+)*?)\s*(?::|=|\.)(?=\s)")


def code_of(text):
    """The lines with their comments taken out."""
    return [re.sub(r"(^|\s)--.*", "", line) for line in text.split("\n")]


class Definition:
    """A definition, a record with its fields, a data type with its constructors, or a type that the code declares."""

    def __init__(self, path, line, kind, around, asked=False):
        self.path, self.line, self.kind, self.around, self.asked = path, line, kind, around, asked
        self.lines, self.members, self.types, self.indent = [], [], {}, 0

    def place(self):
        return f"{self.path}:{self.line}"


class Page:
    """A file of specs/: what it imports under which name, and whether it says that it is inner."""

    def __init__(self, path, text):
        self.path, self.inner = path, text.startswith(INNER)
        self.names = {}
        for crate, page, words in IMPORT.findall(text):
            for word in filter(None, (part.strip() for part in words.split(","))):
                name, _, other = word.partition(" as ")
                self.names[(other or name).strip()] = (crate, page, name.strip())
        self.aliases = {alias: (crate, page) for crate, page, alias in ALIAS.findall(text)}


def read_page(path, crate, page, text, found):
    """Adds the file's definitions to those found."""
    held, around, asked = None, "", False
    raw = text.split("\n")
    for number, line in enumerate(code_of(text), 1):
        bare = line.strip()
        if raw[number - 1].lstrip().startswith("-- ----"):
            asked = bool(ASKED.match(raw[number - 1]))
        if not bare or bare.startswith(("use ", "pub mod ")):
            continue
        if bare.startswith("module "):
            held, around = None, bare
            continue
        defined = DEFINED.match(line)
        indent = len(line) - len(line.lstrip())
        if defined and (held is None or indent <= held.indent):
            name = defined.group(3) or defined.group(4)
            around = around if indent else ""
            held = found[crate, page, name] = Definition(path, number, defined.group(2), around, asked)
            held.indent = indent
        elif held and held.kind and MEMBER.match(line):
            held.members.append(MEMBER.match(line).group(1))
        if held:
            held.lines.append(line)


def read_types(crate, found):
    """Adds the types that the crate's code declares, with their cases or fields."""
    for path in sorted(glob.glob(f"crates/{crate}/src/**/*.rt", recursive=True)):
        with open(path, encoding="utf-8") as f:
            text = f.read()
        for declared in TYPE.finditer(text):
            _, kind, name, body = declared.groups()
            one = Definition(path, text[:declared.start()].count("\n") + 1, kind, "")
            one.lines = re.sub(r"//.*", "", body).split("\n")
            bare = re.sub(r"\([^)]*\)|\{[^}]*\}", "", "\n".join(one.lines)) if kind == "enum" else "\n".join(one.lines)
            one.members = re.findall(r"(\w+)\s*(?:,|$)" if kind == "enum" else r"(\w+)\s*:", bare, re.M)
            used = re.findall(r"^use (?:\w+::)*(\w+)::(?:([A-Z]\w*)|\{([^}]*)\});", text, re.M)
            one.types = {word: (other, f"{DECLARED}.{word}", word) for other, single, several in used for word in re.findall(r"\b[A-Z]\w*", single + several)}
            found[crate, f"{DECLARED}.{name}", name] = one


def read():
    """Every definition by crate, file and name, and every file by crate and name."""
    found, pages = collections.OrderedDict(), {}
    for crate in sorted(os.listdir("crates")):
        for path in sorted(glob.glob(f"crates/{crate}/specs/*.antt")):
            page = os.path.basename(path)[:-5]
            if page == "Lib":
                continue
            with open(path, encoding="utf-8") as f:
                text = f.read()
            pages[crate, page] = Page(path, text)
            read_page(path, crate, page, text, found)
        read_types(crate, found)
    return found, pages


def owners(found):
    """The data type or enum of each constructor, by crate, file and constructor."""
    return {(crate, page, member): (crate, page, name)
            for (crate, page, name), one in found.items() if one.kind in ("data", "enum") for member in one.members}


def equations(lines):
    """The text of a definition in parts that bind names for themselves: the signature, then each equation."""
    parts, name = [[]], None
    for line in lines:
        first = line.split()[0]
        if name is None:
            name = re.sub(r"^\s*(?:(?:abbrev|unfoldable) )?(?:pub )?(?:record |data )?", "", line).split()[0]
        elif first == name:
            parts.append([])
        parts[-1].append(line)
    return ["\n".join(part) for part in parts]


def named_in(part, constructors):
    """The words of one equation that are not bound in it, no field and no part of a field's name; an alias keeps its dot."""
    part = re.sub(r"([{;]\s*)[^\s{};=]+ =(?=\s)", r"\1", part)
    part = re.sub(r"(?<=[\s(])\.[^\s(){}.,;]+", " ", part)
    bound = set()
    for binders in BINDER.findall(part):
        bound.update(binders.split())
    patterns, _, body = re.sub(r"\s=(?=\s)", "\0", part, count=1).partition("\0")
    if body and " : " not in patterns:
        bound.update(word for word in WORD.findall(patterns)[1:] if word not in constructors)
    words = set(re.findall(r"[^\s(){}\[\].,;:λ]+\.[^\s(){}\[\].,;:λ]+", part))
    return words | {word for word in WORD.findall(part) if word not in bound}


def reached(found, pages):
    """The definitions and the declared types that the roots reach."""
    own = owners(found)
    seen, left = set(), list(ROOTS)
    while left:
        key = left.pop()
        key = own.get(key, key)
        if key in seen or key not in found:
            continue
        seen.add(key)
        crate, page, _ = key
        one = found[key]
        if page.startswith(DECLARED):
            for word in re.findall(r"\b[A-Z]\w*", "\n".join(one.lines)):
                left.append(one.types.get(word, (crate, f"{DECLARED}.{word}", word)))
            continue
        names, aliases = pages[crate, page].names, pages[crate, page].aliases
        constructors = {name for name, place in names.items() if place in own}
        constructors |= {name for other_crate, other_page, name in own if (other_crate, other_page) == (crate, page)}
        for part in equations(one.lines) + [one.around]:
            for word in named_in(part, constructors):
                alias, _, rest = word.partition(".")
                if rest:
                    if alias in aliases:
                        left.append(aliases[alias] + (rest,))
                    continue
                local = (crate, page, word)
                left.append(local if local in found or local in own else names.get(word, key))
    return seen


def is_type(key):
    return key[1].startswith(DECLARED)


def doubled(found):
    """Each name that is defined in more than one place, with the places; a case of a declared enum is named with its enum and is no name."""
    places = collections.OrderedDict()
    for key, one in found.items():
        for name in [key[2]] + (one.members if one.kind == "data" else []):
            places.setdefault(name, []).append(key)
    return {name: keys for name, keys in sorted(places.items()) if len(keys) > 1}


def faults(found, pages, seen):
    """What is not as it must be, a sentence each."""
    said = []
    for (crate, page), one in sorted(pages.items()):
        keys = [key for key in found if key[:2] == (crate, page)]
        believed = [key[2] for key in keys if key in seen]
        if keys and not believed and not one.inner:
            said.append(f'{one.path}: none of its definitions is believed, and it does not begin with "{INNER}"')
        if believed and one.inner:
            said.append(f'{one.path}: it begins with "{INNER}", and believed are {", ".join(believed)}')
    for path in sorted(glob.glob(f"crates/{HOSTS}/src/**/*.rt", recursive=True)):
        with open(path, encoding="utf-8") as f:
            for key in Page(path, f.read()).names.values():
                if key in found and key not in seen:
                    said.append(f"{path}: it names {'/'.join(key)}, which no root reaches")
    for name, keys in doubled(found).items():
        believed = [key for key in keys if key in seen]
        if len(believed) > 1:
            said.append(f"{name}: a believed name with {len(believed)} meanings: {', '.join(found[key].place() for key in believed)}")
    return said


def counted(found, seen):
    """By crate: believed definitions and all, believed lines and all; and the declared types that are named, with their cases and fields."""
    rows = collections.OrderedDict()
    types = [0, 0, 0, 0]
    for key, one in found.items():
        if is_type(key):
            if key in seen:
                enum = one.kind == "enum"
                types[0 if enum else 2] += 1
                types[1 if enum else 3] += len(one.members)
            continue
        row = rows.setdefault(key[0], [0, 0, 0, 0])
        row[1] += 1
        row[3] += len(one.lines)
        if key in seen:
            row[0] += 1
            row[2] += len(one.lines)
    return rows, types


def print_table(found, seen):
    rows, (enums, cases, structs, fields) = counted(found, seen)
    print("| crate | definitions | lines |\n|---|---|---|")
    for crate, (d, dd, n, nn) in rows.items():
        if d:
            print(f"| `{crate}` | {d} of {dd} | {n} of {nn} |")
    total = [sum(column) for column in zip(*rows.values())]
    print(f"| all | {total[0]} of {total[1]} | {total[2]} of {total[3]} |")
    print(f"\nDeclared types that these name: {enums} enums with {cases} cases, {structs} structs with {fields} fields.")


def main():
    unknown = [word for word in sys.argv[1:] if word not in ("--list", "--mixed", "--names")]
    if unknown:
        sys.exit(f"no such argument: {' '.join(unknown)}")
    found, pages = read()
    missing = [root for root in ROOTS if root not in found]
    if missing:
        sys.exit(f"no such definition: {', '.join('/'.join(root) for root in missing)}")
    seen = reached(found, pages)
    print_table(found, seen)
    if "--list" in sys.argv:
        for key, one in found.items():
            if key not in seen and not is_type(key):
                print(f"not believed: {one.place()}: {key[2]}")
    if "--mixed" in sys.argv:
        mixed = {key[:2] for key in seen}
        for key, one in found.items():
            if key not in seen and key[:2] in mixed and not is_type(key) and not one.asked:
                print(f"mixed: {one.place()}: {key[2]}")
    if "--names" in sys.argv:
        for name, keys in doubled(found).items():
            places = [found[key].place() + (" (believed)" if key in seen else "") for key in keys]
            print(f"names: {name}: {', '.join(places)}")
    said = faults(found, pages, seen)
    for sentence in said:
        print(sentence, file=sys.stderr)
    if said:
        sys.exit(1)


if __name__ == "__main__":
    main()
