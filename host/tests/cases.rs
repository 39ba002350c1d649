//! The cases of `docs/RULES.md` and examples of `docs/DECISIONS.md`, asked of the plain implementation.
use crustedlane::plain::{fate, fates, new_head, old_head, subset, Answer, FateKind, Head};

fn be(numbers: &[(u32, usize)]) -> Vec<u8> {
    numbers.iter().flat_map(|(n, width)| n.to_be_bytes()[4 - width..].to_vec()).collect()
}

/// A format 4 of segments (start, end, delta, range offset) and an array.
fn four(language: u16, segments: &[(u32, u32, u32, u32)], array: &[u16]) -> Vec<u8> {
    let length = 16 + 8 * segments.len() + 2 * array.len();
    let s2 = 2 * segments.len() as u32;
    let mut b = be(&[(4, 2), (length as u32, 2), (language.into(), 2), (s2, 2), (0, 4), (0, 2)]);
    segments.iter().for_each(|s| b.extend(be(&[(s.1, 2)])));
    b.extend([0, 0]);
    segments.iter().for_each(|s| b.extend(be(&[(s.0, 2)])));
    segments.iter().for_each(|s| b.extend(be(&[(s.2, 2)])));
    segments.iter().for_each(|s| b.extend(be(&[(s.3, 2)])));
    array.iter().for_each(|&g| b.extend(be(&[(g.into(), 2)])));
    b
}

/// A format 12 of groups (start, end, glyph).
fn twelve(language: u32, groups: &[(u32, u32, u32)]) -> Vec<u8> {
    let count = groups.len() as u32;
    let mut b = be(&[(12, 2), (0, 2), (16 + 12 * count, 4), (language, 4), (count, 4)]);
    groups.iter().for_each(|g| b.extend(be(&[(g.0, 4), (g.1, 4), (g.2, 4)])));
    b
}

/// A source of records (platform, encoding) and their subtables.
fn source(records: &[(u32, u32, Vec<u8>)]) -> Vec<u8> {
    let mut b = be(&[(0, 2), (records.len() as u32, 2)]);
    let mut at = 4 + 8 * records.len();
    for (platform, encoding, subtable) in records {
        b.extend(be(&[(*platform, 2), (*encoding, 2), (at as u32, 4)]));
        at += subtable.len();
    }
    records.iter().for_each(|(_, _, subtable)| b.extend(subtable));
    b
}

/// A format 4 that maps 1..0xFFFE.
fn everything() -> Vec<u8> {
    four(0, &[(0, 0xFFFE, 1, 0), (0xFFFF, 0xFFFF, 1, 0)], &[])
}

/// The pairs of stretches: first code point, first glyph, count.
fn stretches(list: &[(u32, u16, u32)]) -> (Vec<u32>, Vec<u16>) {
    list.iter().flat_map(|&(c, g, n)| (0..n).map(move |i| (c + i, g + i as u16))).unzip()
}

/// The one subtable written for pairs that are all kept, of a source with one record.
fn only(platform: u32, encoding: u32, subtable: Vec<u8>, list: &[(u32, u16, u32)], n: usize) -> Vec<u8> {
    let (codes, glyphs) = stretches(list);
    let source = source(&[(platform, encoding, subtable)]);
    match subset(&source, &codes, &glyphs, &codes, &vec![0; n], &[], usize::MAX) {
        Answer::Written { bytes, records: 1 } => bytes[12..].to_vec(),
        other => panic!("{other:?}"),
    }
}

fn cut(list: &[(u32, u16, u32)]) -> Vec<u8> {
    only(3, 1, everything(), list, 2)
}

fn deltas(table: &[u8]) -> Vec<u16> {
    let s = usize::from(table[7] / 2);
    table[16 + 4 * s..16 + 6 * s].chunks(2).map(|b| u16::from_be_bytes([b[0], b[1]])).collect()
}

const C1: [u16; 16] = [4, 0x20, 0, 4, 4, 1, 0, 0x41, 0xFFFF, 0, 0x41, 0xFFFF, 0xFFC0, 1, 0, 0];

fn c1() -> Vec<u8> {
    C1.iter().flat_map(|n| n.to_be_bytes()).collect()
}

#[test]
fn c1_to_c7() {
    assert_eq!(cut(&[(0x41, 1, 1)]), c1());
    let c2 = cut(&[(0x41, 65, 1)]);
    assert_eq!((c2.len(), &c2[28..30]), (34, &[0, 4][..]));
    let c3 = cut(&[(10, 20, 3), (13, 40, 1)]);
    assert_eq!((c3.len(), deltas(&c3)), (40, vec![0, 1]));
    let c4 = cut(&[(10, 20, 4), (14, 40, 1)]);
    assert_eq!((c4.len(), deltas(&c4)), (40, vec![10, 26, 1]));
    assert_eq!(cut(&[(10, 20, 1), (11, 40, 7), (18, 70, 1)]).len(), 50);
    let c6 = cut(&[(10, 20, 1), (11, 40, 8), (19, 70, 1)]);
    assert_eq!((c6.len(), deltas(&c6)), (48, vec![10, 29, 51, 1]));
    assert_eq!(deltas(&cut(&[(10, 20, 1), (11, 40, 4)])), [10, 29, 1]);
    let decided = cut(&[(10, 20, 4), (14, 40, 4), (18, 70, 1)]);
    assert_eq!((decided.len(), deltas(&decided)), (50, vec![10, 0, 1]));
}

#[test]
fn c8_and_c10() {
    let c8 = only(3, 10, twelve(0, &[(0x40, 0x50, 1)]), &[(0x41, 1, 2), (0x44, 3, 1)], 100);
    assert_eq!((c8.len(), &c8[12..16]), (40, &[0, 0, 0, 2][..]));
    let c10 = only(3, 10, twelve(0, &[(100, 102, 0)]), &[(99, 5, 5)], 10);
    assert_eq!(c10[16..], be(&[(101, 4), (102, 4), (7, 4)]));
}

#[test]
fn borders_of_too_long() {
    let lone = |count: u32| -> Vec<(u32, u16, u32)> { (1..=count).map(|i| (2 * i, 7, 1)).collect() };
    assert_eq!(cut(&lone(8188)).len(), 65_528);
    let (codes, glyphs) = stretches(&lone(8189));
    let source = source(&[(3, 1, everything()), (3, 10, twelve(0, &[(1, 60_000, 1)]))]);
    let ask = |kept: &[u32]| fates(&source, &codes, &glyphs, kept, &[0; 65_000], &[]);
    assert_eq!(ask(&codes), Err(9), "covered by one that is too long");
    let kept: Vec<u32> = codes.iter().copied().chain([59_999, 60_001]).collect();
    let kinds: Vec<_> = ask(&kept).expect("60,001 is mapped by the sibling alone");
    assert_eq!(kinds[0].kind, FateKind::TooLong);
    assert_eq!(kinds[1].kind, FateKind::WrittenAt(12));
}

#[test]
fn u_ffff_ends_a_segment() {
    let table = only(3, 1, four(0, &[(0xFFF0, 0xFFFF, 0x20, 0)], &[]), &[(0xFFFE, 5, 2)], 2);
    assert_eq!(table.len(), 24);
}

#[test]
fn whole_output_rooms_and_fates() {
    let source = source(&[(3, 1, c1())]);
    let ask = |room| subset(&source, &[0x41], &[1], &[0x41], &[0, 1], &[], room);
    assert_eq!(ask(44), Answer::Written { bytes: source.clone(), records: 1 });
    assert_eq!(ask(43), Answer::NoRoom(44));
    let fate = |k| fate(&source, &[0x41], &[1], &[0x41], &[0, 1], &[], k);
    assert_eq!((fate(0).platform, fate(0).encoding, fate(0).kind), (3, 1, FateKind::WrittenAt(12)));
    assert_eq!((fate(1).platform, fate(1).kind), (0, FateKind::NoSuchRecord));
}

#[test]
fn refusals_come_in_order() {
    let number = |source: &[u8], codes: &[u32], kept: &[u32], map: &[u16], requested: &[u16]| match subset(
        source,
        codes,
        &vec![1; codes.len()],
        kept,
        map,
        requested,
        0,
    ) {
        Answer::Refused(number) => number,
        other => panic!("{other:?}"),
    };
    assert_eq!(number(&[], &[2, 1], &[], &[], &[9]), 1);
    assert_eq!(number(&[], &[2, 1], &[3, 1], &[0], &[9]), 2);
    assert_eq!(number(&[], &[1, 2], &[1, 3], &[0], &[9]), 3);
    assert_eq!(number(&[], &[1, 2], &[1, 2], &[0], &[1]), 4);
    assert_eq!(number(&[0, 0, 0], &[1, 2], &[1, 2], &[0], &[0]), 5);
    assert_eq!(number(&[0, 0, 0, 0], &[1, 2], &[1, 2], &[0], &[0]), 6);
}

#[test]
fn heads() {
    let group = source(&[(3, 1, c1()), (3, 10, twelve(0, &[(0, 5, 0xFFFF_FFFF)]))]);
    assert_eq!(old_head(&group, 0x41), Head::Glyph(1));
    assert_eq!(new_head(&group, 0x41), Head::Glyph(0));
    assert_eq!(new_head(&group, 2), Head::Glyph(0));
    assert_eq!(old_head(&group, 0x10041), Head::Glyph(0));
    let array = source(&[(0, 3, four(0, &[(10, 11, 0, 2), (0xFFFF, 0xFFFF, 1, 0)], &[7]))]);
    assert_eq!((old_head(&array, 10), new_head(&array, 11)), (Head::Glyph(0), Head::Glyph(7)));
    assert_eq!(new_head(&source(&[]), 1), Head::Refused(11));
    assert_eq!(old_head(&[0, 0, 0], 1), Head::Refused(5));
}
