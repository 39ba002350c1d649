#!/usr/bin/env python3
"""Writes the border jobs and their answers: border_vectors.py DIR.
Each answer is written out here from docs/RULES.md, not computed by a subsetter."""
import pathlib
import struct
import sys


def u16(*numbers):
    return b"".join(struct.pack(">H", n % 65536) for n in numbers)


def u32(*numbers):
    return b"".join(struct.pack(">I", n) for n in numbers)


def u24(n):
    return struct.pack(">I", n)[1:]


def framed(mark, payload):
    return mark + u32(len(payload)) + payload


def job(source, pairs, kept, entries, requested=()):
    return (
        framed(b"TB", source)
        + framed(b"PR", b"".join(u32(c) + u16(g) for c, g in pairs))
        + framed(b"KP", u32(*kept))
        + framed(b"MP", u16(*entries))
        + framed(b"RQ", u16(*requested))
    )


def no(number):
    return framed(b"NO", bytes([number]))


def ok(result):
    return framed(b"OK", result)


def cmap(*records):
    """Records (platform, encoding, table); as in a result, the last table stands first."""
    at, head, tables = 4 + 8 * len(records), [], b""
    for platform, encoding, table in reversed(records):
        head.insert(0, u16(platform, encoding) + u32(at + len(tables)))
        tables += table
    return u16(0, len(records)) + b"".join(head) + tables


def source_of(*records):
    """The same with the tables in the records' order."""
    at, head, tables = 4 + 8 * len(records), b"", b""
    for platform, encoding, table in records:
        head += u16(platform, encoding) + u32(at + len(tables))
        tables += table
    return u16(0, len(records)) + head + tables


def shared(first, second, table):
    """A result of two records, (platform, encoding), with one table."""
    return u16(0, 2, *first) + u32(20) + u16(*second) + u32(20) + table


def format4(segments, language=0):
    """Segments (start, end, delta), and the closing one."""
    segments = segments + [(0xFFFF, 0xFFFF, 1)]
    s = len(segments)
    e = s.bit_length() - 1
    head = u16(4, 16 + 8 * s, language, 2 * s, 2 * 2**e, e, 2 * s - 2 * 2**e)
    ends, starts, deltas = ([x[i] for x in segments] for i in (1, 0, 2))
    return head + u16(*ends) + u16(0) + u16(*starts) + u16(*deltas) + u16(*[0] * s)


def format12(groups, language=0):
    """Groups (start, end, glyph)."""
    return u16(12, 0) + u32(16 + 12 * len(groups), language, len(groups)) + b"".join(u32(*g) for g in groups)


def format14(selector, ranges, mappings):
    """One selector with both tables: ranges (start, additional count) and mappings (code point, glyph)."""
    default = u32(len(ranges)) + b"".join(u24(c) + bytes([n]) for c, n in ranges)
    non_default = u32(len(mappings)) + b"".join(u24(c) + u16(g) for c, g in mappings)
    head = u16(14) + u32(21 + len(default) + len(non_default), 1) + u24(selector)
    return head + u32(21, 21 + len(default)) + default + non_default


C1 = format4([(0x41, 0x41, 1 - 0x41)])
WHOLE = job(cmap((3, 1, C1)), [(0x41, 1)], [0x41], [0, 1])


def twelve(groups, pairs, n, language=0):
    """A job whose source is one format 12 at (3,10)."""
    return job(cmap((3, 10, format12(groups, language))), pairs, [c for c, _ in pairs], range(n))


def twelve_ok(groups, language=0):
    return ok(cmap((3, 10, format12(groups, language))))


def room(points, mappings):
    """A job with all three formats whose format 14 is the smaller, the fewer points and mappings it keeps; and its result."""
    lone = [10 + 2 * i for i in range(1630)]
    first, last = lone[0], lone[-1]
    # the languages differ, so that the format 4 does not cover the format 12
    source = cmap(
        (0, 3, format4([(first, last, 1)])),
        (0, 4, format12([(first, last, 1)], 1)),
        (0, 5, format14(0xFE00, [(10, 2 * points - 2)], [(c, 3) for c in lone[100 : 100 + mappings]])),
    )
    result = cmap(
        (0, 3, format4([(c, c, 1 - c) for c in lone])),
        (0, 4, format12([(c, c, 1) for c in lone], 1)),
        (0, 5, format14(0xFE00, [(c, 0) for c in lone[:points]], [(c, 7) for c in lone[100 : 100 + mappings]])),
    )
    return job(source, [(c, 1) for c in lone], lone + [0xFE00], [7] * 8192), result


def lists_a(*records, kept=(0x41,)):
    """A job that lists U+0041 as glyph 1."""
    return job(source_of(*records), [(0x41, 1)], kept, [0, 1])


def vectors():
    # worked cases that no other vector holds
    yield "c8", twelve([(0x41, 0x44, 1)], [(0x41, 1), (0x42, 2), (0x44, 3)], 5), twelve_ok([(0x41, 0x42, 1), (0x44, 0x44, 3)])
    yield "c10", twelve([(100, 102, 0)], [(100, 1), (101, 2), (102, 3)], 10), twelve_ok([(101, 102, 2)])
    # limits that are still inside
    yield "point-0x10ffff", twelve([(0x10FFFF, 0x10FFFF, 1)], [(0x10FFFF, 1)], 2), twelve_ok([(0x10FFFF, 0x10FFFF, 1)])
    yield "group-end-cut", twelve([(0x10FFFE, 0xFFFFFFFF, 1)], [(0x10FFFE, 1), (0x10FFFF, 2)], 3), twelve_ok([(0x10FFFE, 0x10FFFF, 1)])
    yield "last-glyph-requested", job(cmap((3, 1, C1)), [(0x41, 1)], [0x41], [0, 1], [1]), ok(cmap((3, 1, C1)))
    yield "9-records-up-to-the-end", job(u16(0, 1, 3, 1) + u32(12), [(0x41, 1)], [0x41], [0, 1]), no(9)
    # the source's language
    table = format4([(0x41, 0x41, 1 - 0x41)], 0x0102)
    yield "language-4", job(cmap((3, 1, table)), [(0x41, 1)], [0x41], [0, 1]), ok(cmap((3, 1, table)))
    yield "language-12", twelve([(0x41, 0x41, 1)], [(0x41, 1)], 2, 0x10005), twelve_ok([(0x41, 0x41, 1)], 0x10005)
    # a length that is one byte too long for the source, or one too short for the records; the default table would stand at 6
    yield "format-4-one-byte-past-the-source", lists_a((3, 1, C1[:2] + u16(33) + C1[4:])), no(9)
    for name, length in ("past-the-source", 22), ("short-of-its-records", 20):
        fourteen = u16(14) + u32(length, 1) + u24(0xFE00) + u32(6, 0)
        yield f"format-14-one-byte-{name}", lists_a((3, 1, C1), (0, 5, fourteen), kept=(0x41, 0xFE00)), ok(cmap((3, 1, C1)))
    # retained, covered, served
    twelve_a = format12([(0x41, 0x41, 1)])
    yield "unretained-format-12-alone-is-6", lists_a((0, 6, twelve_a)), no(6)
    yield "unretained-format-12-is-not-7", lists_a((0, 3, C1), (0, 6, twelve_a)), ok(cmap((0, 3, C1)))
    mapping = u16(14) + u32(30, 1) + u24(0xFE00) + u32(0, 21, 1) + u24(0x41) + u16(9)
    yield "7-before-8", lists_a((3, 1, twelve_a), (0, 5, mapping), kept=(0x41, 0xFE00)), no(7)
    above = format12([(0x10000, 0x10000, 1)])
    asked = job(source_of((0, 3, above), (0, 4, above)), [(0x10000, 1)], [0x10000], [0, 1])
    yield "covered-0x10000-is-above", asked, ok(shared((0, 3), (0, 4), above))
    yield "format-4-at-0-4-is-served-not-covered", lists_a((0, 3, C1), (0, 4, C1)), ok(shared((0, 3), (0, 4), C1))
    # the work buffer
    asked, result = room(4, 11)
    assert len(result) == 32768
    yield "result-32768-bytes-with-14", asked, ok(result)
    asked, result = room(8, 8)
    assert len(result) == 32769
    yield "10-result-32769-bytes", asked, no(10)
    yield "12-before-10", asked + b"\0", no(12)
    # all payloads at their limits; the pairs do not rise
    longest = job(bytes(32768), [(0, 0)] * 2048, [0] * 4096, [0] * 8192, [0] * 2048)
    yield "2-longest-job", longest, no(2)
    yield "12-longest-job-and-a-byte", longest + b"\0", no(12)
    # damaged
    tb, pr, kp, mp, rq = (framed(m, b"") for m in (b"TB", b"PR", b"KP", b"MP", b"RQ"))
    yield "12-source-twice", tb + tb + pr + kp + mp + rq, no(12)
    yield "12-requested-twice", tb + pr + kp + mp + rq + rq, no(12)
    yield "12-no-requested", tb + pr + kp + mp, no(12)
    yield "12-no-source", pr + kp + mp + rq, no(12)
    yield "12-map-behind-requested", tb + pr + kp + rq + mp, no(12)
    yield "12-small-mark", b"tb" + WHOLE[2:], no(12)
    yield "12-source-length-0xffffffff", b"TB" + u32(0xFFFFFFFF) + WHOLE[6:], no(12)
    yield "12-kp-of-6-bytes", tb + pr + framed(b"KP", bytes(6)) + mp + rq, no(12)
    yield "12-mp-of-3-bytes", tb + pr + kp + framed(b"MP", bytes(3)) + rq, no(12)
    yield "12-rq-of-1-byte", tb + pr + kp + mp + framed(b"RQ", bytes(1)), no(12)
    for n in range(len(WHOLE)):
        yield f"12-first-{n:02}-bytes-of-the-whole-case", WHOLE[:n], no(12)


if len(sys.argv) != 2:
    sys.exit(__doc__)
for name, asked, answer in vectors():
    (pathlib.Path(sys.argv[1]) / f"border-{name}.job").write_bytes(asked)
    (pathlib.Path(sys.argv[1]) / f"border-{name}.out").write_bytes(answer)
