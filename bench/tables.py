#!/usr/bin/env python3
"""tables.py DIRECTORY: the tables of docs/MEASURED.md, from the files that the drivers left there."""
import csv
import os
import sys


def rows(path):
    with open(path) as f:
        return list(csv.reader((line for line in f if not line.startswith("#")), delimiter=";"))[1:]


def number(text):
    return f"{float(text):,.{1 if float(text) < 100 else 0}f}"


def crate_times(path):
    """Microseconds of the crate for each job: its lines are NAME.job, answer, length, least and middle nanoseconds, calls."""
    if not os.path.exists(path):
        return {}
    with open(path) as f:
        lines = [line.split() for line in f if not line.startswith("#")]
    return {name.removesuffix(".job"): int(least) / 1000 for name, answer, _, least, _, _ in lines if answer == "OK"}


def speed(directory):
    counts = {r[0]: r[1:] for r in rows(directory + "/count.csv")}
    crate = crate_times(directory + "/crate.csv")
    print("| job | library µs | HarfBuzz µs | HarfBuzz / library | prepared µs | crate µs | library instructions | clearing | HarfBuzz instructions | HarfBuzz / library |")
    print("|---|---:|---:|---:|---:|---:|---:|---:|---:|---:|")
    for job, name, _, _, a, b, ratio, prepared, _, _ in rows(directory + "/speed.csv"):
        ours, cleared, theirs, theirs_cleared = map(int, counts[job])
        ours, theirs = ours - cleared, theirs - theirs_cleared  # callgrind may count a byte that memset clears as an instruction
        its = number(crate[job]) if job in crate else ""
        if float(b) < 0:  # HarfBuzz gives no result
            print(f"| {name} | {number(a)} | none | | none | {its} | {ours:,} | {cleared:,} | | |")
            continue
        print(f"| {name} | {number(a)} | {number(b)} | {ratio} | {number(prepared)} | {its} | {ours:,} | {cleared:,} | {theirs:,} | {theirs / ours:.2f} |")


def hostile(path):
    print("\n| case | size | source bytes | answer | length | seconds |")
    print("|---|---:|---:|---:|---:|---:|")
    last = {}
    for r in rows(path):
        last.setdefault(r[0], []).append(r)
    for name, run in last.items():
        for r in run[-2:] if run[-1][6].startswith("~") else run[-1:]:
            size = f"{int(r[2]):,} {r[1]}"
            length = f"{int(r[5]):,}" if r[5] else ""
            source = f"{int(r[3]):,}" if r[3] else ""
            print(f"| {name} | {size} | {source} | {r[4] or 'not run'} | {length} | {r[6]} |")


def growth(path):
    """Microseconds of the library and of HarfBuzz at doubled sizes, a column a shape."""
    table, shapes = {}, []
    for _, name, points, _, a, b, *_ in rows(path):
        shape = name.split(",")[0]
        if shape not in shapes:
            shapes.append(shape)
        table.setdefault(int(points), {})[shape] = (a, b)
    print("\n| points | " + " | ".join(f"{s}: library | HarfBuzz" for s in shapes) + " |")
    print("|---:|" + "---:|" * (2 * len(shapes)))
    for points, row in table.items():
        print(f"| {points:,} | " + " | ".join(f"{float(row[s][0]):,.0f} | {float(row[s][1]):,.0f}" for s in shapes) + " |")


def main():
    directory = sys.argv[1]
    speed(directory)
    for name, table in (("hostile", hostile), ("growth", growth)):
        if os.path.exists(f"{directory}/{name}.csv"):
            table(f"{directory}/{name}.csv")


main()
