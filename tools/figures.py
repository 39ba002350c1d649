#!/usr/bin/env python3
"""Writes docs/generated/FIGURES.md: functions, lines of code, definitions, laws and answers of each crate and each group of crates, the
memory of its check, its must-fail edits, functions with many parameters, and how many definitions are to be believed.
Run it at the repository's root, where nothing else runs:

    python3 tools/figures.py                # runs .ci/run and watches it; with - it prints the page
    python3 tools/figures.py LOG [PEAKS]    # goes by an earlier run: what it printed, and each crate's KiB as JSON

A run is left in target/figures.log and target/figures.json. A LOG of another make may end as bash's `time` ends it.
rt keeps on a machine what passed there: only a run of a machine that has kept nothing tells what everything costs."""
import glob
import json
import os
import re
import resource
import subprocess
import sys
import tempfile
import time

import believed
import generated

HEAD = """# Figures

`python3 tools/figures.py` runs `.ci/run` and writes this page whole.

"""

LEGEND = """
Lines are those that are neither empty nor a comment.
**Code** is `src/`, contracts included.
**Definitions** are `specs/`, what a contract can say.
**Laws** are the files of `proofs/` that stand for no one function.
**Answers** are the functions' own proof files: invariants, and answers to the goals that the check leaves.
**MiB**, where the run was watched, is the most memory that the prover held for the crate, or for the crate with an edit.
"""

# A group is the first word of its crates' names; the names of the library and of the program are given from outside.
GROUPS = {"crustedlane": "host", "crustedlane_c": "host", "cmap_job": "job"}
MANY, TOO_MANY = 8, 12
FUNCTION = re.compile(r"^\s*(?:pub )?(?:extern \"C\" )?fn \w+\s*\(", re.M)
COLUMNS = "functions | code | definitions | laws | answers | edits"


def lines_of(paths, comment):
    """Lines that are neither empty nor a comment."""
    count = 0
    for path in paths:
        with open(path, encoding="utf-8") as f:
            count += sum(1 for line in f if line.strip() and not line.strip().startswith(comment))
    return count


def parameters(text, start):
    """How many parameters stand in the brackets that open before `start`."""
    depth, count, word = 1, 0, False
    for letter in text[start:]:
        depth += letter in "([{<"
        depth -= letter in ")]}>"
        if not depth:
            break
        if letter == "," and depth == 1:
            count, word = count + word, False
        else:
            word = word or not letter.isspace()
    return count + word


def functions_of(paths):
    """How many parameters each function has."""
    found = []
    for path in paths:
        with open(path, encoding="utf-8") as f:
            text = re.sub(r"//.*", "", f.read())
        found += [parameters(text, match.end()) for match in FUNCTION.finditer(text)]
    return found


def counted(crate):
    """Functions by their parameters, and the numbers of the crate's row up to its edits."""
    src = glob.glob(f"crates/{crate}/src/**/*.rt", recursive=True)
    specs = glob.glob(f"crates/{crate}/specs/**/*.antt", recursive=True)
    proofs = glob.glob(f"crates/{crate}/proofs/**/*.antt", recursive=True)
    answers = [p for p in proofs if os.path.basename(p) in ("Answers.antt", "Invariants.antt")]
    laws = [p for p in proofs if p not in answers]
    functions = functions_of(src)
    return functions, [len(functions), lines_of(src, "//"), lines_of(specs, "--"), lines_of(laws, "--"), lines_of(answers, "--"),
                       len(glob.glob(f"crates/{crate}/must-fail/*.edit"))]


def group_of(crate):
    return GROUPS.get(crate, crate.split("_")[0])


def groups():
    """The groups, each after those that its crates stand on."""
    stands = {}
    with open("crates.txt", encoding="utf-8") as f:
        for line in f:
            if ":" in line and not line.startswith("#"):
                crate, others = line.split(":")
                crate = crate.split()[0]
                stands.setdefault(group_of(crate), set()).update(group_of(other) for other in others.split())
    order = []
    while len(order) < len(stands):
        left = [group for group in stands if group not in order]
        order.append(next((group for group in left if not stands[group] & set(left) - {group}), left[0]))
    return order


# ---- the run

def machine():
    """The cores, the processor's name and the memory, as far as the system tells them."""
    said = [f"{os.cpu_count()} cores"]
    try:
        told = subprocess.run(["lscpu"], capture_output=True, text=True, check=True, env={**os.environ, "LC_ALL": "C"}).stdout
    except (OSError, subprocess.CalledProcessError):
        told = ""
    with open("/proc/cpuinfo", encoding="utf-8") as f:
        told += f.read()
    name = re.search(r"^[Mm]odel name\s*:\s*(.+)", told, re.M)
    if name and name.group(1).strip("- "):
        said.append(name.group(1).strip())
    with open("/proc/meminfo", encoding="utf-8") as f:
        kib = re.search(r"MemTotal:\s+(\d+)", f.read())
    if kib:
        said.append(f"{int(kib.group(1)) / 1048576:.0f} GiB of memory")
    return ", ".join(said)


def look(peaks):
    """Notes the most memory of each check that runs now."""
    for pid in filter(str.isdigit, os.listdir("/proc")):
        try:
            with open(f"/proc/{pid}/cmdline", encoding="utf-8") as f:
                words = f.read().split("\0")
            with open(f"/proc/{pid}/status", encoding="utf-8") as f:
                held = re.search(r"VmHWM:\s+(\d+)", f.read())
        except OSError:
            continue
        if "--crate-name" in words and held:
            crate = words[words.index("--crate-name") + 1]
            peaks[crate] = max(peaks.get(crate, 0), int(held.group(1)))


def run():
    """What .ci/run prints, with its time and the machine, and each crate's most memory in KiB."""
    peaks, began = {}, time.time()
    with tempfile.TemporaryFile("w+", encoding="utf-8") as out:
        child = subprocess.Popen([".ci/run"], stdout=out, stderr=subprocess.STDOUT)
        while child.poll() is None:
            look(peaks)
            time.sleep(0.5)
        spans = [("real", time.time() - began)]
        used = resource.getrusage(resource.RUSAGE_CHILDREN)
        spans += [("user", used.ru_utime), ("sys", used.ru_stime)]
        out.seek(0)
        log = out.read() + "\n" + "".join(f"{name}\t{int(span // 60)}m{span % 60:.1f}s\n" for name, span in spans) + f"machine\t{machine()}\n"
    os.makedirs("target", exist_ok=True)
    with open("target/figures.log", "w", encoding="utf-8") as f:
        f.write(log)
    with open("target/figures.json", "w", encoding="utf-8") as f:
        json.dump(peaks, f)
    return log, peaks


def minutes(span):
    return f"{int(span // 60)} min {span % 60:.0f} s"


def whole(log):
    """What the run came to, as rows of a table."""
    verdict = re.findall(r"\d+ passed, \d+ failed", log)
    took = {name: int(m) * 60 + float(s) for name, m, s in re.findall(r"^(real|user|sys)\s+(\d+)m([\d.]+)s", log, re.M)}
    told = re.findall(r"^machine\t(.+)", log, re.M)
    rows = [("`.ci/run`", verdict[-1] if verdict else "no verdict")]
    if "real" in took:
        rows.append(("time", minutes(took["real"])))
    if "user" in took and "sys" in took:
        rows.append(("processor time", minutes(took["user"] + took["sys"])))
    if told:
        rows.append(("machine", told[-1]))
    return rows


# ---- the page

def many(functions):
    return [sum(1 for n in functions if n > bound) for bound in (MANY, TOO_MANY)]


def to_believe():
    """The sums of tools/believed.py, as rows of a table."""
    found, pages = believed.read()
    rows, (enums, cases, structs, fields) = believed.counted(found, believed.reached(found, pages))
    d, dd, n, nn = [sum(column) for column in zip(*rows.values())]
    return [("definitions to believe", f"{d:,} of {dd:,}"), ("their lines", f"{n:,} of {nn:,}"),
            ("declared types that they name", f"{enums} enums with {cases} cases, {structs} structs with {fields} fields")]


def table(head, align, rows):
    return "\n".join([f"| {head} |", "|" + "|".join(align) + "|"] + [f"| {' | '.join(row)} |" for row in rows]) + "\n"


def commas(numbers):
    """The numbers as cells of a table; an empty cell for one that is not known."""
    return ["" if n is None else f"{n:,}" for n in numbers]


def summed(rows):
    """The sum of each column; not known where one of its numbers is not."""
    return [None if None in column else sum(column) for column in zip(*rows)]


def page(log, peaks):
    order = generated.crates()
    rows, functions = {}, {}
    for crate in order:
        functions[crate], rows[crate] = counted(crate)
    sums = summed(rows.values())
    every = [n for crate in order for n in functions[crate]]
    text = HEAD
    text += table("figure | is", ["---", "---"], [list(row) for row in whole(log) + [
        ("crates", f"{len(order)} in {len(groups())} groups"), ("must-fail edits", f"{sums[5]:,}"), ("functions", f"{sums[0]:,}"),
        (f"functions with more than {MANY} parameters", f"{many(every)[0]}"),
        (f"functions with more than {TOO_MANY} parameters", f"{many(every)[1]}")] + to_believe()])
    text += LEGEND + "\n## By group\n\n"
    by_group = []
    for group in groups():
        held = [crate for crate in order if group_of(crate) == group]
        by_group.append([group] + commas([len(held)] + summed(rows[crate] for crate in held)))
    text += table(f"group | crates | {COLUMNS}", ["---"] + 7 * ["---:"], by_group + [["**all**"] + commas([len(order)] + sums)])
    text += "\n## By crate\n\n"
    held = {crate: peak // 1024 for crate, peak in peaks.items()}
    by_crate = [[crate] + commas(rows[crate] + [held.get(crate)] * bool(held)) for crate in order]
    last = [f"**all {len(order)}**"] + commas(sums) + ([f"at most {max(held.values()):,}"] if held else [])
    text += table(f"crate | {COLUMNS}" + " | MiB" * bool(held), ["---"] + (6 + bool(held)) * ["---:"], by_crate + [last])
    text += "\n## Functions with many parameters\n\n"
    wide = [[crate] + commas(many(functions[crate])) for crate in order if many(functions[crate])[0]]
    text += table(f"crate | more than {MANY} | more than {TOO_MANY}", ["---", "---:", "---:"], wide + [["**all**"] + commas(many(every))])
    return text


def main():
    files = [word for word in sys.argv[1:] if word != "-"]
    if len(files) > 2:
        sys.exit("at most LOG and PEAKS")
    if files:
        with open(files[0], encoding="utf-8") as f:
            log = f.read()
        peaks = {}
        if len(files) == 2:
            with open(files[1], encoding="utf-8") as f:
                peaks = json.load(f)
    else:
        log, peaks = run()
    generated.write("FIGURES", page(log, peaks))


if __name__ == "__main__":
    main()
