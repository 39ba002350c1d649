#!/usr/bin/env python3
"""Packs stored jobs and their answers into the two files that `rt` replays the crate `job_vectors` on.
To add or change a job: unpack, put NAME.job and NAME.out there, pack, and commit what it writes.

    pack_vectors.py unpack CRATE DIR   writes NAME.job and NAME.out for each vector
    pack_vectors.py pack DIR CRATE     the way back: writes CRATE/stdin, CRATE/stdout and CRATE/names
    pack_vectors.py which CRATE BYTE   the vector whose answer has this byte of CRATE/stdout (cmp's count, from 1)

stdin has each job behind its length in four bytes, stdout the answers one after the other: an answer
carries its own length. names has a line for each, in the same order.
"""
import pathlib
import struct
import sys

LONGEST = 81951  # the program's room for a job


def pieces(data, length_at):
    """Cuts data into pieces of length_at + 4 bytes and as many more as the number at length_at says."""
    at = 0
    while at < len(data):
        end = at + length_at + 4 + struct.unpack(">I", data[at + length_at : at + length_at + 4])[0]
        yield data[at:end]
        at = end


def stored(crate):
    names = (crate / "names").read_text().split()
    jobs = [p[4:] for p in pieces((crate / "stdin").read_bytes(), 0)]
    answers = list(pieces((crate / "stdout").read_bytes(), 2))
    assert len(names) == len(jobs) == len(answers)
    return zip(names, jobs, answers)


def unpack(crate, target):
    target.mkdir(parents=True, exist_ok=True)
    for name, job, answer in stored(crate):
        (target / (name + ".job")).write_bytes(job)
        (target / (name + ".out")).write_bytes(answer)


def pack(source, crate):
    names = sorted(p.stem for p in source.glob("*.job"))
    jobs = [(source / (n + ".job")).read_bytes() for n in names]
    answers = [(source / (n + ".out")).read_bytes() for n in names]
    for name, job, answer in zip(names, jobs, answers):
        assert len(job) <= LONGEST, name
        assert list(pieces(answer, 2)) == [answer], name
    (crate / "stdin").write_bytes(b"".join(struct.pack(">I", len(j)) + j for j in jobs))
    (crate / "stdout").write_bytes(b"".join(answers))
    (crate / "names").write_text("".join(n + "\n" for n in names))


def which(crate, byte):
    end = 0
    for name, _, answer in stored(crate):
        end += len(answer)
        if byte <= end:
            return name
    return "past the last answer"


words = sys.argv[1:]
if len(words) != 3 or words[0] not in ("unpack", "pack", "which"):
    sys.exit(__doc__)
first, second = pathlib.Path(words[1]), words[2]
if words[0] == "which":
    print(which(first, int(second)))
elif words[0] == "pack":
    pack(first, pathlib.Path(second))
else:
    unpack(first, pathlib.Path(second))
