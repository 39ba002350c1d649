//! Jobs outside the agreed domain, one or more for each recorded difference.
use crate::job::Job;
use crate::model::{bytes_12, bytes_14, bytes_4, cmap, Group, Segment, Selector};

/// A job and the difference that it shows.
pub struct Aimed {
    pub what: &'static str,
    pub job: Job,
}

type Records<'a> = &'a [(u16, u16, Vec<u8>)];

fn source(records: Records) -> Vec<u8> {
    let list: Vec<_> = records.iter().enumerate().map(|(k, r)| (r.0, r.1, k)).collect();
    let subtables: Vec<_> = records.iter().map(|r| r.2.clone()).collect();
    cmap(&list, &subtables)
}

/// A job whose kept points are the pairs' and some more; the map is the identity on `n` glyphs.
fn job(records: Records, pairs: &[(u32, u16)], more: &[u32], n: u32) -> Job {
    let (codes, glyphs): (Vec<u32>, Vec<u16>) = pairs.iter().copied().unzip();
    let mut kept: Vec<u32> = codes.iter().chain(more).copied().collect();
    kept.sort_unstable();
    kept.dedup();
    let map = (0..n).map(|g| g as u16).collect();
    Job { source: source(records), codes, glyphs, kept, map, requested: vec![] }
}

fn segment(start: u32, end: u32, delta: u16) -> Segment {
    Segment { start, end, delta, array_at: None }
}

/// Maps 1 to 0xFFFE.
fn everything() -> Vec<u8> {
    bytes_4(0, &[segment(0, 0xFFFE, 1), segment(0xFFFF, 0xFFFF, 1)], &[])
}

/// Maps 0x41.
fn c1() -> Vec<u8> {
    bytes_4(0, &[segment(0x41, 0x41, 0xFFC0), segment(0xFFFF, 0xFFFF, 1)], &[])
}

fn twelve(groups: &[(u32, u32, u32)]) -> Vec<u8> {
    let groups: Vec<_> = groups.iter().map(|&(start, end, glyph)| Group { start, end, glyph }).collect();
    bytes_12(0, &groups)
}

fn ranges(point: u32, ranges: &[(u32, u8)]) -> Vec<u8> {
    bytes_14(&[Selector { point, ranges: Some(ranges.to_vec()), mappings: None }])
}

fn mappings(point: u32, mappings: &[(u32, u16)]) -> Vec<u8> {
    bytes_14(&[Selector { point, ranges: None, mappings: Some(mappings.to_vec()) }])
}

/// Pairs from stretches: first code point, first glyph, count.
fn stretches(list: &[(u32, u16, u32)]) -> Vec<(u32, u16)> {
    list.iter().flat_map(|&(c, g, count)| (0..count).map(move |i| (c + i, g + i as u16))).collect()
}

fn runs(list: &[(u32, u16, u32)]) -> Job {
    job(&[(0, 3, everything())], &stretches(list), &[], 2)
}

/// A job with its source's bytes changed at a place.
fn with(mut job: Job, at: usize, bytes: &[u8]) -> Job {
    job.source[at..at + bytes.len()].copy_from_slice(bytes);
    job
}

const A: (u32, u16) = (0x41, 1);

/// All aimed jobs.
pub fn aimed() -> Vec<Aimed> {
    let mut list = of_the_rules();
    list.extend(found_besides());
    list.extend(sizes_and_lists());
    list.extend(damaged());
    list.into_iter().map(|(what, job)| Aimed { what, job }).collect()
}

fn of_the_rules() -> Vec<(&'static str, Job)> {
    vec![
        ("run cost: first run of 32,767, one more (in the domain)", runs(&[(1, 7, 32_767), (32_768, 1, 1)])),
        ("run cost: first run of 32,768, one more", runs(&[(1, 7, 32_768), (32_769, 1, 1)])),
        ("run cost: first run of 32,771, one more", runs(&[(1, 7, 32_771), (32_772, 1, 1)])),
        ("run cost: first run of 32,772, one more", runs(&[(1, 7, 32_772), (32_773, 1, 1)])),
        ("run cost: last run of 32,768", runs(&[(1, 7, 1), (2, 100, 32_768)])),
        ("run cost: last run of 32,771", runs(&[(1, 7, 1), (2, 100, 32_771)])),
        ("run cost: last run of 32,772", runs(&[(1, 7, 1), (2, 100, 32_772)])),
        ("run cost: middle run of 32,775", runs(&[(1, 7, 1), (2, 100, 32_775), (32_777, 3, 1)])),
        ("run cost: middle run of 32,776", runs(&[(1, 7, 1), (2, 100, 32_776), (32_778, 3, 1)])),
        ("format 12 without pairs", job(&[(3, 10, twelve(&[(0x41, 0x41, 1)]))], &[], &[0x41], 2)),
        (
            "format 12 whose pairs it does not map",
            job(&[(3, 1, c1()), (3, 10, twelve(&[(0x42, 0x42, 1)]))], &[A], &[0x42], 2),
        ),
        (
            "ranges branch: a point inside a range",
            job(
                &[(0, 3, everything()), (0, 5, ranges(0xFE00, &[(0xFDFF, 1), (0xFE10, 0), (0xFE20, 0)]))],
                &[(0xFE00, 1)],
                &[],
                2,
            ),
        ),
        (
            "group with start above end: 200..100, glyph 1, n = 300",
            job(&[(3, 10, twelve(&[(200, 100, 1), (600, 600, 2)]))], &[(250, 5), (600, 2)], &[], 300),
        ),
        (
            "group with start above end: 5..3, glyph 1, n = 10",
            job(&[(3, 10, twelve(&[(5, 3, 1), (600, 600, 2)]))], &[(5, 5), (6, 6), (600, 2)], &[], 10),
        ),
        (
            "variation mapping to a glyph at n",
            job(&[(0, 3, c1()), (0, 5, mappings(0xFE00, &[(0x41, 2)]))], &[A], &[0xFE00], 2),
        ),
        ("variation mapping to an absent glyph", {
            let mut j = job(&[(0, 3, c1()), (0, 5, mappings(0xFE00, &[(0x41, 1)]))], &[A], &[0xFE00], 2);
            j.map[1] = 65_535;
            j
        }),
    ]
}

fn found_besides() -> Vec<(&'static str, Job)> {
    let many = |count: usize| {
        let mut selectors = vec![Selector { point: 0xFE00, ranges: Some(vec![(0x41, 0)]), mappings: None }];
        selectors.extend((1..count as u32).map(|i| Selector { point: 0xFE00 + i, ..Selector::default() }));
        bytes_14(&selectors)
    };
    let six = || vec![0, 6, 0, 12, 0, 0, 0, 0x41, 0, 1, 0, 1];
    let records = |count: u16| -> Vec<(u16, u16, Vec<u8>)> {
        (0..count).map(|k| (if k == 0 { 0 } else { 1 }, if k == 0 { 3 } else { k }, c1())).collect()
    };
    vec![
        (
            "group 0xFFFFFFFF..0xFFFFFFFF with glyph 0",
            job(&[(3, 10, twelve(&[(600, 600, 1), (u32::MAX, u32::MAX, 0)]))], &[(3, 1), (600, 2)], &[], 10),
        ),
        ("512 selectors", job(&[(0, 3, c1()), (0, 5, many(512))], &[A], &[0xFE00], 2)),
        ("513 selectors", job(&[(0, 3, c1()), (0, 5, many(513))], &[A], &[0xFE00], 2)),
        (
            "segCountX2 of 0 behind a written table",
            with(job(&[(0, 3, c1()), (3, 1, c1())], &[A], &[], 2), 20 + 32 + 6, &[0, 0]),
        ),
        (
            "odd segCountX2 behind a written table",
            with(job(&[(0, 3, c1()), (3, 1, c1())], &[A], &[], 2), 20 + 32 + 6, &[0, 5]),
        ),
        ("odd segCountX2 alone", with(job(&[(0, 3, c1())], &[A], &[], 2), 12 + 6, &[0, 5])),
        ("version 1", with(job(&[(0, 3, c1())], &[A], &[], 2), 0, &[0, 1])),
        ("64 records", job(&records(64), &[A], &[], 2)),
        ("65 records", job(&records(65), &[A], &[], 2)),
        (
            "default range from 0",
            job(&[(0, 3, everything()), (0, 5, ranges(0xFE00, &[(0, 2)]))], &[(1, 1), (2, 1)], &[0xFE00], 2),
        ),
        (
            "overlapping ranges (1,+1), (2,+1) with 1, 2, 3 kept",
            job(
                &[(0, 3, everything()), (0, 5, ranges(0xFE00, &[(1, 1), (2, 1)]))],
                &[(1, 1), (2, 1), (3, 1)],
                &[0xFE00],
                2,
            ),
        ),
        (
            "ranges branch, ranges not in order: FE20, FE00, FE10",
            job(
                &[(0, 3, everything()), (0, 5, ranges(0xFE00, &[(0xFE20, 0), (0xFE00, 0), (0xFE10, 0)]))],
                &[(0xFE00, 1)],
                &[],
                2,
            ),
        ),
        (
            "ranges branch, ranges not in order: FE10, FE20, FE00",
            job(
                &[(0, 3, everything()), (0, 5, ranges(0xFE00, &[(0xFE10, 0), (0xFE20, 0), (0xFE00, 0)]))],
                &[(0xFE00, 1)],
                &[],
                2,
            ),
        ),
        (
            "single points, ranges not in order: 3, 1",
            job(
                &[(0, 3, everything()), (0, 5, ranges(0xFE00, &[(3, 0), (1, 0)]))],
                &[(1, 1), (3, 1)],
                &[0xFE00],
                2,
            ),
        ),
        (
            "mappings not in order: 3, 1, 1",
            job(
                &[(0, 3, everything()), (0, 5, mappings(0xFE00, &[(3, 1), (1, 0), (1, 1)]))],
                &[(1, 1), (3, 1)],
                &[0xFE00],
                2,
            ),
        ),
        (
            "sibling of another format (6), nothing kept that the 12 maps",
            job(&[(0, 3, c1()), (3, 1, six()), (3, 10, twelve(&[(0x50, 0x50, 1)]))], &[A], &[], 2),
        ),
        (
            "sibling of format 14, nothing kept that the 12 maps",
            job(
                &[(0, 3, c1()), (3, 1, ranges(0xFE00, &[(5, 0)])), (3, 10, twelve(&[(0x50, 0x50, 1)]))],
                &[A],
                &[],
                2,
            ),
        ),
        (
            "first sibling of another format (6), second one equal",
            job(&[(3, 1, six()), (3, 1, c1()), (3, 10, twelve(&[(0x41, 0x41, 1)]))], &[A], &[], 2),
        ),
    ]
}

fn sizes_and_lists() -> Vec<(&'static str, Job)> {
    let base = || job(&[(0, 3, c1())], &[A], &[], 2);
    let changed = |change: &dyn Fn(&mut Job)| {
        let mut j = base();
        change(&mut j);
        j
    };
    vec![
        ("size: n = 0", changed(&|j| j.map.clear())),
        ("size: n = 65,536", changed(&|j| j.map = vec![1; 65_536])),
        ("size: source of 1,048,577 bytes", changed(&|j| j.source.resize(1_048_577, 0))),
        ("size: 131,073 kept points", changed(&|j| j.kept = (0..131_073).collect())),
        (
            "size: 65,536 pairs",
            job(
                &[(3, 10, twelve(&[(0, 0x10FFFF, 1)]))],
                &stretches(&[(0, 0, 32_768), (32_768, 0, 32_768)]),
                &[],
                2,
            ),
        ),
        ("pairs: glyph 65,535", changed(&|j| j.glyphs[0] = 65_535)),
        ("pairs: a point twice", changed(&|j| (j.codes, j.glyphs) = (vec![0x41, 0x41], vec![1, 1]))),
        ("kept lacks a listed point", changed(&|j| j.kept = vec![0x42])),
        ("requested glyph at n", changed(&|j| j.requested = vec![2])),
    ]
}

fn damaged() -> Vec<(&'static str, Job)> {
    let array = |at| {
        bytes_4(
            0,
            &[Segment { array_at: Some(at), ..segment(0x41, 0x42, 0) }, segment(0xFFFF, 0xFFFF, 1)],
            &[7, 8],
        )
    };
    let with_12 = |four: Vec<u8>| {
        job(
            &[(0, 3, four), (0, 4, twelve(&[(0x41, 0x42, 1), (0x10000, 0x10000, 1)]))],
            &[A, (0x42, 3)],
            &[0x10000],
            9,
        )
    };
    vec![
        ("source of 3 bytes", Job { source: vec![0, 0, 0], ..job(&[(0, 3, c1())], &[A], &[], 2) }),
        ("length field of format 4 too short", with(job(&[(0, 3, c1())], &[A], &[], 2), 14, &[0, 31])),
        ("length field of format 4 past the end", with(job(&[(0, 3, c1())], &[A], &[], 2), 14, &[0, 33])),
        ("odd range offset 5, halved downwards", {
            let mut j = with_12(array(0));
            j.source[20 + 28..20 + 30].copy_from_slice(&[0, 5]);
            j
        }),
        ("array index partly outside", with_12(array(1))),
        ("array index wholly outside", with_12(array(2))),
        (
            "format 14 at (3,9)",
            job(&[(0, 3, c1()), (3, 9, ranges(0xFE00, &[(0x41, 0)]))], &[A], &[0xFE00], 2),
        ),
        (
            "format 14 at platform 7",
            job(&[(0, 3, c1()), (7, 1, ranges(0xFE00, &[(0x41, 0)]))], &[A], &[0xFE00], 2),
        ),
        (
            "format 14 at (3,1)",
            job(&[(0, 3, c1()), (3, 1, ranges(0xFE00, &[(0x41, 0)]))], &[A], &[0xFE00], 2),
        ),
        ("(3,1) leads nowhere", with(job(&[(0, 3, c1()), (3, 1, c1())], &[A], &[], 2), 16, &[0, 0, 1, 0])),
        (
            "overlapping segments, the last decides",
            job(
                &[(
                    0,
                    3,
                    bytes_4(
                        0,
                        &[segment(0x40, 0x42, 1), segment(0x41, 0x41, 0xFFBF), segment(0xFFFF, 0xFFFF, 1)],
                        &[],
                    ),
                )],
                &[A, (0x42, 3)],
                &[],
                2,
            ),
        ),
        (
            "groups not in order",
            job(&[(3, 10, twelve(&[(0x50, 0x52, 1), (0x41, 0x42, 1)]))], &[A, (0x51, 2)], &[], 9),
        ),
        (
            "a selector twice",
            job(
                &[
                    (0, 3, c1()),
                    (
                        0,
                        5,
                        bytes_14(&[
                            Selector { point: 0xFE00, ranges: Some(vec![(0x41, 0)]), mappings: None },
                            Selector { point: 0xFE00, ranges: None, mappings: Some(vec![(0x41, 1)]) },
                        ]),
                    ),
                ],
                &[A],
                &[0xFE00],
                2,
            ),
        ),
    ]
}
