#!/usr/bin/env python3
"""Instructions of one call by callgrind, for jobs of `speed` or, from 1000 on, of `speed growth`.

count.py SPEED JOB...      a line for each job: library, of which memset, HarfBuzz, of which memset
count.py SPEED -f JOB...   the library's functions, the costliest first

callgrind counts a cleared byte as an instruction where memset goes by `rep stosb`; so what memset comes to is told apart.
"""
import collections
import re
import subprocess
import sys
import tempfile

LIBRARIES = (("c", "cmap_subset"), ("h", "hb_subset_plan_execute_or_fail"))
CALLS = 2  # of which the mean is given: HarfBuzz's first call has its memory from elsewhere


def by_function(text):
    """Each function's own cost: the lines under its fn=, those behind a calls= left out."""
    names, cost, fn, skip = {}, collections.Counter(), None, False
    for line in text.splitlines():
        if line.startswith("fn="):
            number, name = re.match(r"fn=\((\d+)\)(?: (.*))?", line).groups()
            if name:
                names[number] = name
            fn = number
        elif line.startswith("cfn="):
            number, name = re.match(r"cfn=\((\d+)\)(?: (.*))?", line).groups()
            if name:
                names[number] = name
        elif line.startswith("calls="):
            skip = True
        elif re.match(r"[+\-*\d]", line) and fn:
            if not skip:
                cost[fn] += int(line.split()[1])
            skip = False
    return {names[n]: c // CALLS for n, c in cost.items()}


def count(speed, library, call, job):
    with tempfile.NamedTemporaryFile("r") as out:
        subprocess.run(
            ["valgrind", "--tool=callgrind", f"--callgrind-out-file={out.name}", f"--toggle-collect={call}", speed, "count", library, job, str(CALLS)],
            check=True, capture_output=True)
        with open(out.name) as f:
            return by_function(f.read())


def main():
    speed, jobs = sys.argv[1], sys.argv[2:]
    if jobs[0] == "-f":
        for job in jobs[1:]:
            cost = count(speed, *LIBRARIES[0], job)
            total = sum(cost.values())
            print(f"job {job}: {total}")
            for name, c in sorted(cost.items(), key=lambda x: -x[1])[:12]:
                print(f"  {c:>12} {100 * c / total:5.1f}%  {name}")
        return
    print("job;library;of which memset;HarfBuzz;of which memset")
    for job in jobs:
        row = [job]
        for library, call in LIBRARIES:
            cost = count(speed, library, call, job)
            row += [sum(cost.values()), sum(c for name, c in cost.items() if "memset" in name)]
        print(*row, sep=";", flush=True)


main()
