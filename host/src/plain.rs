//! The rules of `docs/RULES.md`, as plainly as they can be said in Rust.
//!
//! Nothing here is shared with the proved crates. Numbers are wide enough that nothing wraps, except
//! where the rules say "mod 65,536". Clarity comes before speed.

/// The largest code point.
const UNICODE_LIMIT: u32 = 0x10FFFF;
/// The largest glyph number that a pair may name.
const GLYPH_LIMIT: u16 = 65_534;
/// What the map says of an old glyph that is gone.
const ABSENT: u16 = 65_535;
/// The most source records that are accepted.
const RECORD_LIMIT: usize = 64;
/// The most selector records of a readable format 14.
const SELECTOR_LIMIT: u32 = 512;
/// The longest format 4 subtable.
const FORMAT_4_LIMIT: usize = 65_535;

/// What a call for the whole result comes to.
#[derive(Clone, Debug, PartialEq, Eq)]
pub enum Answer {
    /// The result and the number of its records.
    Written { bytes: Vec<u8>, records: usize },
    /// Refusal 1 to 9.
    Refused(u8),
    /// Refusal 10, with the length that is needed.
    NoRoom(usize),
}

/// What becomes of one source record.
#[derive(Clone, Copy, Debug, PartialEq, Eq)]
pub struct Fate {
    pub platform: u16,
    pub encoding: u16,
    pub kind: FateKind,
}

/// The kinds of fate, with refusals and the record that isn't there.
#[derive(Clone, Copy, Debug, PartialEq, Eq, PartialOrd, Ord)]
pub enum FateKind {
    NotRetained,
    Skipped,
    Empty,
    TooLong,
    Covered,
    WrittenAt(u32),
    Refused(u8),
    NoSuchRecord,
}

/// What a print head answers.
#[derive(Clone, Copy, Debug, PartialEq, Eq)]
pub enum Head {
    Glyph(u16),
    /// 5 or 11.
    Refused(u8),
}

/// The whole result for the lent lists, if it fits into `room` bytes.
pub fn subset(
    source: &[u8],
    codes: &[u32],
    glyphs: &[u16],
    kept: &[u32],
    map: &[u16],
    requested: &[u16],
    room: usize,
) -> Answer {
    match plan(&Lent { source, codes, glyphs, kept, map, requested }) {
        Err(number) => Answer::Refused(number),
        Ok(plan) if plan.length() > room => Answer::NoRoom(plan.length()),
        Ok(plan) => Answer::Written { bytes: plan.bytes(), records: plan.written().count() },
    }
}

/// The fate of source record `k`.
pub fn fate(
    source: &[u8],
    codes: &[u32],
    glyphs: &[u16],
    kept: &[u32],
    map: &[u16],
    requested: &[u16],
    k: usize,
) -> Fate {
    let nowhere = |kind| Fate { platform: 0, encoding: 0, kind };
    match plan(&Lent { source, codes, glyphs, kept, map, requested }) {
        Err(number) => nowhere(FateKind::Refused(number)),
        Ok(plan) => plan.fates().get(k).copied().unwrap_or(nowhere(FateKind::NoSuchRecord)),
    }
}

/// The fates of all source records, or the refusal.
pub fn fates(
    source: &[u8],
    codes: &[u32],
    glyphs: &[u16],
    kept: &[u32],
    map: &[u16],
    requested: &[u16],
) -> Result<Vec<Fate>, u8> {
    plan(&Lent { source, codes, glyphs, kept, map, requested }).map(|plan| plan.fates())
}

// What is lent, and refusals 1 to 4.

/// The lists of one call.
struct Lent<'a> {
    source: &'a [u8],
    codes: &'a [u32],
    glyphs: &'a [u16],
    kept: &'a [u32],
    map: &'a [u16],
    requested: &'a [u16],
}

impl Lent<'_> {
    /// A size is broken.
    fn is_1(&self) -> bool {
        self.source.len() > 1_048_576
            || self.codes.len() != self.glyphs.len()
            || self.codes.len() > 65_535
            || self.kept.len() > 131_072
            || self.map.is_empty()
            || self.map.len() > 65_535
            || self.requested.len() > 65_535
    }

    /// The pairs break order or limits.
    fn is_2(&self) -> bool {
        !rises(self.codes)
            || self.codes.iter().any(|&c| c > UNICODE_LIMIT)
            || self.glyphs.iter().any(|&g| g > GLYPH_LIMIT)
    }

    /// The kept points break order or limits, or lack a listed one.
    fn is_3(&self) -> bool {
        !rises(self.kept)
            || self.kept.iter().any(|&c| c > UNICODE_LIMIT)
            || self.codes.iter().any(|&c| !self.keeps(c))
    }

    /// The requested glyphs break order or limit.
    fn is_4(&self) -> bool {
        !rises(self.requested) || self.requested.iter().any(|&g| usize::from(g) >= self.map.len())
    }

    /// Whether a point is kept; asks for rising kept points.
    fn keeps(&self, point: u32) -> bool {
        self.kept.binary_search(&point).is_ok()
    }

    /// Whether an old glyph is requested; asks for rising requested glyphs.
    fn requests(&self, glyph: u16) -> bool {
        self.requested.binary_search(&glyph).is_ok()
    }

    /// The new number of an old glyph, if it has one.
    fn new_glyph(&self, old: u16) -> Option<u16> {
        self.map.get(usize::from(old)).copied().filter(|&new| new != ABSENT)
    }

    /// The listed pairs whose code point the subtable maps.
    fn pairs_mapped_by(&self, subtable: &Subtable) -> Vec<Pair> {
        let mapped = subtable.maps(self.codes, self.map.len());
        let pairs = self.codes.iter().zip(self.glyphs).map(|(&code, &glyph)| Pair { code, glyph });
        pairs.zip(mapped).filter(|(_, mapped)| *mapped).map(|(pair, _)| pair).collect()
    }

    /// The kept points that the subtable maps.
    fn kept_mapped_by(&self, subtable: &Subtable) -> Vec<u32> {
        let mapped = subtable.maps(self.kept, self.map.len());
        self.kept.iter().zip(mapped).filter(|(_, mapped)| *mapped).map(|(&c, _)| c).collect()
    }
}

/// A listed code point with its new glyph.
#[derive(Clone, Copy)]
struct Pair {
    code: u32,
    glyph: u16,
}

/// Whether each entry exceeds the one before it.
fn rises<T: PartialOrd>(list: &[T]) -> bool {
    list.windows(2).all(|w| w[0] < w[1])
}

// Numbers in bytes, high byte first.

/// The number of `width` bytes at `at`, if they are all there.
fn number(bytes: &[u8], at: u64, width: usize) -> Option<u32> {
    let at = usize::try_from(at).ok()?;
    let part = bytes.get(at..at.checked_add(width)?)?;
    Some(part.iter().fold(0, |n, &byte| n << 8 | u32::from(byte)))
}

/// `n` in `width` bytes at the end of `bytes`.
fn push(bytes: &mut Vec<u8>, n: u32, width: usize) {
    bytes.extend_from_slice(&n.to_be_bytes()[4 - width..]);
}

// The source's records and what they lead to.

/// A source record: platform, encoding and offset.
#[derive(Clone, Copy, PartialEq)]
struct Record {
    platform: u16,
    encoding: u16,
    offset: u32,
}

impl Record {
    fn pair(&self) -> (u16, u16) {
        (self.platform, self.encoding)
    }
}

/// The source's records; `None` is refusal 5.
fn records(source: &[u8]) -> Option<Vec<Record>> {
    let version = number(source, 0, 2)?;
    let count = number(source, 2, 2)? as usize;
    if version != 0 || count > RECORD_LIMIT {
        return None;
    }
    (0..count).map(|k| record(source, k)).collect()
}

/// Source record `k`, if it is all there.
fn record(source: &[u8], k: usize) -> Option<Record> {
    let at = 4 + 8 * k as u64;
    Some(Record {
        platform: number(source, at, 2)? as u16,
        encoding: number(source, at + 2, 2)? as u16,
        offset: number(source, at + 4, 4)?,
    })
}

/// A segment of format 4.
#[derive(Clone, Copy)]
struct Segment {
    start: u32,
    end: u32,
    delta: u32,
    range_offset: u32,
}

impl Segment {
    fn holds(&self, c: u32) -> bool {
        self.start <= c && c <= self.end
    }
}

/// A group of format 12.
#[derive(Clone, Copy)]
struct Group {
    start: u32,
    end: u32,
    glyph: u32,
}

/// A readable subtable.
enum Subtable<'a> {
    Four {
        language: u32,
        segments: Vec<Segment>,
        array: Vec<u16>,
    },
    Twelve {
        language: u32,
        groups: Vec<Group>,
    },
    /// The whole subtable up to its length, and the number of selector records.
    Fourteen {
        bytes: &'a [u8],
        selectors: u64,
    },
}

/// The readable subtable at an offset, if there is one.
fn readable(source: &[u8], offset: u32) -> Option<Subtable<'_>> {
    let from_here = source.get(usize::try_from(offset).ok()?..)?;
    match number(from_here, 0, 2)? {
        4 => readable_4(own_length(from_here, number(from_here, 2, 2)?)?),
        12 => readable_12(own_length(from_here, number(from_here, 4, 4)?)?),
        14 => readable_14(own_length(from_here, number(from_here, 2, 4)?)?),
        _ => None,
    }
}

/// The first `length` bytes, if they are all there.
fn own_length(bytes: &[u8], length: u32) -> Option<&[u8]> {
    bytes.get(..usize::try_from(length).ok()?)
}

/// A format 4 whose bytes end with its length.
fn readable_4(bytes: &[u8]) -> Option<Subtable<'_>> {
    let seg_count_x2 = number(bytes, 6, 2)?;
    let s = u64::from(seg_count_x2 / 2);
    if seg_count_x2 % 2 != 0 || s < 1 || (bytes.len() as u64) < 16 + 8 * s {
        return None;
    }
    let field = |column_at: u64, i: u64| number(bytes, column_at + 2 * i, 2);
    let segment = |i| {
        Some(Segment {
            end: field(14, i)?,
            start: field(16 + 2 * s, i)?,
            delta: field(16 + 4 * s, i)?,
            range_offset: field(16 + 6 * s, i)?,
        })
    };
    let array = bytes[16 + 8 * s as usize..].chunks_exact(2);
    Some(Subtable::Four {
        language: number(bytes, 4, 2)?,
        segments: (0..s).map(segment).collect::<Option<_>>()?,
        array: array.map(|entry| u16::from_be_bytes([entry[0], entry[1]])).collect(),
    })
}

/// A format 12 whose bytes end with its length.
fn readable_12(bytes: &[u8]) -> Option<Subtable<'_>> {
    let count = u64::from(number(bytes, 12, 4)?);
    if (bytes.len() as u64) < 16 + 12 * count {
        return None;
    }
    let group = |at| {
        Some(Group {
            start: number(bytes, at, 4)?,
            end: number(bytes, at + 4, 4)?,
            glyph: number(bytes, at + 8, 4)?,
        })
    };
    Some(Subtable::Twelve {
        language: number(bytes, 8, 4)?,
        groups: (0..count).map(|i| group(16 + 12 * i)).collect::<Option<_>>()?,
    })
}

/// A format 14 whose bytes end with its length.
fn readable_14(bytes: &[u8]) -> Option<Subtable<'_>> {
    let selectors = number(bytes, 6, 4)?;
    if selectors > SELECTOR_LIMIT || (bytes.len() as u64) < 10 + 11 * u64::from(selectors) {
        return None;
    }
    Some(Subtable::Fourteen { bytes, selectors: selectors.into() })
}

/// Whether a record is retained.
fn retained(record: &Record, subtable: &Option<Subtable>) -> bool {
    matches!(record.pair(), (0, 3) | (0, 4) | (3, 1) | (3, 10))
        || matches!(subtable, Some(Subtable::Fourteen { .. }))
}

// Which code points a subtable maps.

impl Subtable<'_> {
    /// The language of a format 4 or 12.
    fn language(&self) -> Option<u32> {
        match self {
            Self::Four { language, .. } | Self::Twelve { language, .. } => Some(*language),
            Self::Fourteen { .. } => None,
        }
    }

    /// For each of some rising points, whether the subtable maps it in a font of `n` glyphs.
    fn maps(&self, points: &[u32], n: usize) -> Vec<bool> {
        match self {
            Self::Four { segments, array, .. } => {
                let walked = walked(segments);
                points.iter().map(|&c| maps_4(walked, segments.len(), array, c)).collect()
            }
            Self::Twelve { groups, .. } => {
                let spans: Vec<_> = groups.iter().filter_map(|g| span_12(g, n as u64)).collect();
                inside(points, &spans)
            }
            Self::Fourteen { .. } => vec![false; points.len()],
        }
    }
}

/// The segments before the first that starts at 0xFFFF.
fn walked(segments: &[Segment]) -> &[Segment] {
    let stop = segments.iter().position(|segment| segment.start == 0xFFFF);
    &segments[..stop.unwrap_or(segments.len())]
}

/// Whether the last walked segment that holds `c` maps it, `s` being the count of all segments.
fn maps_4(walked: &[Segment], s: usize, array: &[u16], c: u32) -> bool {
    let Some(i) = walked.iter().rposition(|segment| segment.holds(c)) else {
        return false;
    };
    let segment = walked[i];
    if segment.range_offset == 0 {
        return (c + segment.delta) % 65_536 != 0;
    }
    let of_start = array_index(&segment, i, s, segment.start);
    let entry = array_entry(array, array_index(&segment, i, s, c));
    of_start >= 0 && entry.is_some_and(|entry| entry != 0)
}

/// Where in the glyph array segment `i` of `s` has its entry for `c`.
fn array_index(segment: &Segment, i: usize, s: usize, c: u32) -> i64 {
    let offset = i64::from(segment.range_offset / 2);
    offset + i64::from(c) - i64::from(segment.start) + i as i64 - s as i64
}

/// The array's entry at an index, if the index is inside.
fn array_entry(array: &[u16], index: i64) -> Option<u16> {
    array.get(usize::try_from(index).ok()?).copied()
}

/// The points that a format 12 group maps, first and last, in a font of `n` glyphs.
fn span_12(group: &Group, n: u64) -> Option<(u64, u64)> {
    let limit = u64::from(UNICODE_LIMIT);
    let (mut start, mut end, mut glyph) =
        (u64::from(group.start), u64::from(group.end).min(limit), u64::from(group.glyph));
    if glyph == 0 {
        start += 1;
        glyph += 1;
    }
    if start > end || glyph >= n {
        return None;
    }
    if glyph + end - start >= n {
        end = limit.min(start + n - glyph);
    }
    Some((start, end))
}

/// For each of some rising points, whether some span, given by its first and last, holds it.
fn inside(points: &[u32], spans: &[(u64, u64)]) -> Vec<bool> {
    let mut opened = vec![0_usize; points.len() + 1];
    let mut closed = vec![0_usize; points.len() + 1];
    for &(first, last) in spans {
        opened[points.partition_point(|&c| u64::from(c) < first)] += 1;
        closed[points.partition_point(|&c| u64::from(c) <= last)] += 1;
    }
    let mut open = 0;
    (0..points.len())
        .map(|i| {
            open = open + opened[i] - closed[i];
            open > 0
        })
        .collect()
}

// Format 4.

/// A stretch of pairs whose code points and glyphs both rise by one: first pair and length.
#[derive(Clone, Copy)]
struct Run {
    first: Pair,
    length: u32,
}

impl Run {
    fn last_code(&self) -> u32 {
        self.first.code + (self.length - 1)
    }

    fn delta(&self) -> u32 {
        (u32::from(self.first.glyph) + 65_536 - self.first.code) % 65_536
    }
}

/// A segment to be written; delta 0 means glyph array.
struct Cut {
    start: u32,
    end: u32,
    delta: u32,
}

/// The runs of some pairs, range by range.
fn ranges_of_runs(pairs: &[Pair]) -> Vec<Vec<Run>> {
    let mut ranges: Vec<Vec<Run>> = Vec::new();
    for &pair in pairs {
        let alone = Run { first: pair, length: 1 };
        match ranges.last_mut() {
            Some(runs) if runs[runs.len() - 1].last_code() + 1 == pair.code => {
                let end = runs.len() - 1;
                if u32::from(runs[end].first.glyph) + runs[end].length == u32::from(pair.glyph) {
                    runs[end].length += 1;
                } else {
                    runs.push(alone);
                }
            }
            _ => ranges.push(vec![alone]),
        }
    }
    ranges
}

/// The segments of one range.
fn cut_range(runs: &[Run]) -> Vec<Cut> {
    let (mut cuts, mut uncommitted) = (Vec::new(), Vec::new());
    for (i, &run) in runs.iter().enumerate() {
        uncommitted.push(run);
        let cost = if i == 0 { 8 } else { 16 };
        if i + 1 == runs.len() {
            cuts.extend(commit(&uncommitted, 8));
        } else if 2 * run.length >= cost {
            cuts.extend(commit(&uncommitted, cost));
            uncommitted.clear();
        }
    }
    cuts
}

/// The one or two segments that some runs of a range are written as.
fn commit(runs: &[Run], cost: u32) -> Vec<Cut> {
    let (run, earlier) = runs.split_last().expect("a run is committed");
    if !earlier.is_empty() && run.length >= 2 && 2 * run.length >= cost {
        vec![as_one(earlier), as_one(&[*run])]
    } else {
        vec![as_one(runs)]
    }
}

/// The segment of some runs: a lone run has its delta, several have 0.
fn as_one(runs: &[Run]) -> Cut {
    Cut {
        start: runs[0].first.code,
        end: runs[runs.len() - 1].last_code(),
        delta: if runs.len() == 1 { runs[0].delta() } else { 0 },
    }
}

/// All segments of some pairs, with the closing one.
fn cut(pairs: &[Pair]) -> Vec<Cut> {
    let mut cuts: Vec<Cut> = ranges_of_runs(pairs).iter().flat_map(|runs| cut_range(runs)).collect();
    if cuts.last().is_none_or(|last| last.end != 0xFFFF) {
        cuts.push(Cut { start: 0xFFFF, end: 0xFFFF, delta: 1 });
    }
    cuts
}

/// The glyphs of the pairs from `start` to `end`.
fn glyphs_between(pairs: &[Pair], start: u32, end: u32) -> impl Iterator<Item = u16> + '_ {
    let from = pairs.partition_point(|pair| pair.code < start);
    pairs[from..].iter().take_while(move |pair| pair.code <= end).map(|pair| pair.glyph)
}

/// The format 4 subtable of some pairs, if it isn't too long.
fn write_4(language: u32, pairs: &[Pair]) -> Option<Vec<u8>> {
    let cuts = cut(pairs);
    let s = cuts.len();
    let (mut range_offsets, mut array) = (Vec::new(), Vec::new());
    for (i, cut) in cuts.iter().enumerate() {
        if cut.delta == 0 {
            range_offsets.push(2 * (s - i) + 2 * array.len());
            array.extend(glyphs_between(pairs, cut.start, cut.end));
        } else {
            range_offsets.push(0);
        }
    }
    let length = 16 + 8 * s + 2 * array.len();
    if length > FORMAT_4_LIMIT {
        return None;
    }
    let entry_selector = s.ilog2();
    let search_range = 2 << entry_selector;
    let range_shift = 2 * s as u32 - search_range;
    let mut bytes = Vec::new();
    for n in [4, length as u32, language, 2 * s as u32, search_range, entry_selector, range_shift] {
        push(&mut bytes, n, 2);
    }
    cuts.iter().for_each(|cut| push(&mut bytes, cut.end, 2));
    push(&mut bytes, 0, 2);
    cuts.iter().for_each(|cut| push(&mut bytes, cut.start, 2));
    cuts.iter().for_each(|cut| push(&mut bytes, cut.delta, 2));
    range_offsets.iter().for_each(|&offset| push(&mut bytes, offset as u32, 2));
    array.iter().for_each(|&glyph| push(&mut bytes, glyph.into(), 2));
    Some(bytes)
}

// Format 12.

/// The format 12 subtable of some pairs.
fn write_12(language: u32, pairs: &[Pair]) -> Vec<u8> {
    let runs: Vec<Run> = ranges_of_runs(pairs).concat();
    let mut bytes = Vec::new();
    push(&mut bytes, 12, 2);
    push(&mut bytes, 0, 2);
    for n in [16 + 12 * runs.len() as u32, language, runs.len() as u32] {
        push(&mut bytes, n, 4);
    }
    for run in runs {
        for n in [run.first.code, run.last_code(), run.first.glyph.into()] {
            push(&mut bytes, n, 4);
        }
    }
    bytes
}

/// Whether record `k`, of format 12, is covered by its sibling.
fn covered(lent: &Lent, sources: &[(Record, Option<Subtable>)], k: usize) -> bool {
    let (record, Some(subtable)) = &sources[k] else {
        return false;
    };
    let sibling_pair = match record.pair() {
        (0, 4) => (0, 3),
        (3, 10) => (3, 1),
        _ => return false,
    };
    let points = lent.kept_mapped_by(subtable);
    if points.iter().any(|&c| c >= 0x10000) {
        return false;
    }
    sources
        .iter()
        .filter(|(other, _)| other.pair() == sibling_pair)
        .filter_map(|(_, other)| other.as_ref())
        .find(|other| other.language().is_some() && other.language() == subtable.language())
        .is_some_and(|sibling| lent.kept_mapped_by(sibling) == points)
}

// Format 14.

/// One selector's new tables; an empty one is missing.
struct NewSelector {
    selector: u32,
    default: Vec<u8>,
    non_default: Vec<u8>,
}

/// The new format 14 subtable, `None` if it is empty; `Err` is refusal 8.
fn write_14(lent: &Lent, bytes: &[u8], selectors: u64) -> Result<Option<Vec<u8>>, u8> {
    let mut new = Vec::new();
    for i in 0..selectors {
        let field = |at, width| number(bytes, 10 + 11 * i + at, width).expect("records fit");
        let selector = field(0, 3);
        if !lent.keeps(selector) {
            continue;
        }
        let default = new_default(lent, counted(bytes, field(3, 4), 4));
        let non_default = new_non_default(lent, counted(bytes, field(7, 4), 5))?;
        if !default.is_empty() || !non_default.is_empty() {
            new.push(NewSelector { selector, default, non_default });
        }
    }
    Ok(if new.is_empty() { None } else { Some(lay_out_14(&new)) })
}

/// The entries of a table that counts: its offset is not 0 and it fits into the subtable.
fn counted(bytes: &[u8], offset: u32, size: usize) -> &[u8] {
    let entries = || {
        let count = number(bytes, offset.into(), 4)? as usize;
        let from = offset as usize + 4;
        bytes.get(from..from.checked_add(size * count)?)
    };
    if offset == 0 {
        &[]
    } else {
        entries().unwrap_or(&[])
    }
}

/// The new default table of the old one's ranges.
fn new_default(lent: &Lent, old: &[u8]) -> Vec<u8> {
    let span = |range: &[u8]| {
        let start = u64::from(number(range, 0, 3).expect("four bytes"));
        (start, start + u64::from(range[3]))
    };
    let spans: Vec<_> = old.chunks_exact(4).map(span).collect();
    let covered = inside(lent.kept, &spans);
    let points = lent.kept.iter().zip(covered).filter(|(_, yes)| *yes).map(|(&c, _)| c);
    let longest = if ranges_branch(spans.len(), lent.kept.len()) { 256 } else { 1 };
    let mut ranges: Vec<(u32, u32)> = Vec::new();
    for c in points {
        match ranges.last_mut() {
            Some((start, count)) if *start + *count == c && *count < longest => *count += 1,
            _ => ranges.push((c, 1)),
        }
    }
    table_of(&ranges, |bytes, &(start, count)| {
        push(bytes, start, 3);
        push(bytes, count - 1, 1);
    })
}

/// Whether a default table of `r` ranges is written as ranges.
fn ranges_branch(r: usize, kept: usize) -> bool {
    let bit_length = (usize::BITS - r.leading_zeros()) as usize;
    r > kept * bit_length
}

/// The new non-default table of the old one's mappings; `Err` is refusal 8.
fn new_non_default(lent: &Lent, old: &[u8]) -> Result<Vec<u8>, u8> {
    let mut mappings = Vec::new();
    for mapping in old.chunks_exact(5) {
        let code = number(mapping, 0, 3).expect("five bytes");
        let glyph = number(mapping, 3, 2).expect("five bytes") as u16;
        if lent.keeps(code) || lent.requests(glyph) {
            mappings.push((code, lent.new_glyph(glyph).ok_or(8)?));
        }
    }
    Ok(table_of(&mappings, |bytes, &(code, glyph)| {
        push(bytes, code, 3);
        push(bytes, glyph.into(), 2);
    }))
}

/// A count in four bytes and the entries behind it; nothing if there are none.
fn table_of<T>(entries: &[T], write: impl Fn(&mut Vec<u8>, &T)) -> Vec<u8> {
    let mut bytes = Vec::new();
    if !entries.is_empty() {
        push(&mut bytes, entries.len() as u32, 4);
        entries.iter().for_each(|entry| write(&mut bytes, entry));
    }
    bytes
}

/// The bytes of a format 14 subtable: records, then tables, equal ones once at the last place.
fn lay_out_14(new: &[NewSelector]) -> Vec<u8> {
    let all: Vec<&[u8]> = new.iter().flat_map(|s| [&s.default[..], &s.non_default]).collect();
    let last_of: std::collections::HashMap<&[u8], usize> =
        all.iter().enumerate().map(|(i, &table)| (table, i)).collect();
    let mut at = 10 + 11 * new.len();
    let mut places = vec![0; all.len()];
    for (i, table) in all.iter().enumerate().filter(|(i, table)| last_of[*table] == *i) {
        places[i] = at;
        at += table.len();
    }
    let offset = |i: usize| if all[i].is_empty() { 0 } else { places[last_of[all[i]]] as u32 };
    let mut bytes = Vec::new();
    push(&mut bytes, 14, 2);
    push(&mut bytes, at as u32, 4);
    push(&mut bytes, new.len() as u32, 4);
    for (i, selector) in new.iter().enumerate() {
        push(&mut bytes, selector.selector, 3);
        push(&mut bytes, offset(2 * i), 4);
        push(&mut bytes, offset(2 * i + 1), 4);
    }
    for (_, table) in all.iter().enumerate().filter(|(i, table)| last_of[*table] == *i) {
        bytes.extend_from_slice(table);
    }
    bytes
}

// The plan: what becomes of every record, and the tables that are made.

/// What becomes of a record, before offsets are known.
#[derive(Clone, Copy)]
enum Outcome {
    NotRetained,
    Skipped,
    Empty,
    TooLong,
    Covered,
    /// Written, with the number of its table in the order of making.
    Table(usize),
}

/// Each record's outcome and the tables in the order of their making.
struct Plan {
    outcomes: Vec<(Record, Outcome)>,
    tables: Vec<Vec<u8>>,
}

/// Checks 1 to 9 in their order, then the plan.
fn plan(lent: &Lent) -> Result<Plan, u8> {
    let lists = [lent.is_1(), lent.is_2(), lent.is_3(), lent.is_4()];
    if let Some(first) = lists.iter().position(|&broken| broken) {
        return Err(first as u8 + 1);
    }
    let sources: Vec<(Record, Option<Subtable>)> = records(lent.source)
        .ok_or(5)?
        .into_iter()
        .map(|record| (record, readable(lent.source, record.offset)))
        .collect();
    check_retained(&sources)?;
    let (plan, formats) = make_tables(lent, &sources)?;
    if formats.0.is_none() && formats.1.is_none() {
        return Err(9);
    }
    Ok(plan)
}

/// Refusals 6 and 7.
fn check_retained(sources: &[(Record, Option<Subtable>)]) -> Result<(), u8> {
    let retained = || sources.iter().filter(|(record, subtable)| retained(record, subtable));
    let twelve = retained().any(|(_, t)| matches!(t, Some(Subtable::Twelve { .. })));
    let has = |pairs: [(u16, u16); 2]| retained().any(|(record, _)| pairs.contains(&record.pair()));
    if !twelve && !has([(0, 3), (3, 1)]) {
        Err(6)
    } else if twelve && !has([(0, 4), (3, 10)]) {
        Err(7)
    } else {
        Ok(())
    }
}

/// The numbers of the first tables made of format 4, 12 and 14.
type Made = (Option<usize>, Option<usize>, Option<usize>);

/// Takes the records in source order and makes each format's table once; `Err` is refusal 8.
fn make_tables(lent: &Lent, sources: &[(Record, Option<Subtable>)]) -> Result<(Plan, Made), u8> {
    let mut plan = Plan { outcomes: Vec::new(), tables: Vec::new() };
    let (mut four, mut twelve, mut fourteen) = (None, None, None);
    for (k, (record, subtable)) in sources.iter().enumerate() {
        let outcome = match subtable {
            _ if !retained(record, subtable) => Outcome::NotRetained,
            None => Outcome::Skipped,
            Some(Subtable::Four { .. }) if four.is_some() => serve(four),
            Some(Subtable::Twelve { .. }) if covered(lent, sources, k) => Outcome::Covered,
            Some(Subtable::Twelve { .. }) if twelve.is_some() => serve(twelve),
            Some(Subtable::Fourteen { .. }) if fourteen.is_some() => serve(fourteen),
            Some(subtable @ Subtable::Four { language, .. }) => {
                let pairs = lent.pairs_mapped_by(subtable);
                match write_4(*language, &pairs) {
                    _ if pairs.is_empty() => Outcome::Empty,
                    None => Outcome::TooLong,
                    Some(table) => plan.make(table, &mut four),
                }
            }
            Some(subtable @ Subtable::Twelve { language, .. }) => {
                plan.make(write_12(*language, &lent.pairs_mapped_by(subtable)), &mut twelve)
            }
            Some(Subtable::Fourteen { bytes, selectors }) => match write_14(lent, bytes, *selectors)? {
                None => Outcome::Empty,
                Some(table) => plan.make(table, &mut fourteen),
            },
        };
        plan.outcomes.push((*record, outcome));
    }
    Ok((plan, (four, twelve, fourteen)))
}

/// The outcome of a record that an earlier table serves.
fn serve(made: Option<usize>) -> Outcome {
    Outcome::Table(made.expect("a table was made"))
}

impl Plan {
    /// Adds a table and notes its number.
    fn make(&mut self, table: Vec<u8>, made: &mut Option<usize>) -> Outcome {
        *made = Some(self.tables.len());
        self.tables.push(table);
        serve(*made)
    }

    /// The written records with the numbers of their tables, in source order.
    fn written(&self) -> impl Iterator<Item = (&Record, usize)> {
        self.outcomes.iter().filter_map(|(record, outcome)| match outcome {
            Outcome::Table(number) => Some((record, *number)),
            _ => None,
        })
    }

    /// The length of version, count and records.
    fn header_length(&self) -> usize {
        4 + 8 * self.written().count()
    }

    /// The length of the whole result.
    fn length(&self) -> usize {
        self.header_length() + self.tables.iter().map(Vec::len).sum::<usize>()
    }

    /// Where a table stands: behind the header and all tables that were made later.
    fn offset(&self, number: usize) -> u32 {
        let later: usize = self.tables[number + 1..].iter().map(Vec::len).sum();
        (self.header_length() + later) as u32
    }

    /// The whole result.
    fn bytes(&self) -> Vec<u8> {
        let mut bytes = Vec::new();
        push(&mut bytes, 0, 2);
        push(&mut bytes, self.written().count() as u32, 2);
        for (record, number) in self.written() {
            push(&mut bytes, record.platform.into(), 2);
            push(&mut bytes, record.encoding.into(), 2);
            push(&mut bytes, self.offset(number), 4);
        }
        self.tables.iter().rev().for_each(|table| bytes.extend_from_slice(table));
        bytes
    }

    /// The fate of every source record.
    fn fates(&self) -> Vec<Fate> {
        let kind = |outcome| match outcome {
            Outcome::NotRetained => FateKind::NotRetained,
            Outcome::Skipped => FateKind::Skipped,
            Outcome::Empty => FateKind::Empty,
            Outcome::TooLong => FateKind::TooLong,
            Outcome::Covered => FateKind::Covered,
            Outcome::Table(number) => FateKind::WrittenAt(self.offset(number)),
        };
        let fate = |(record, outcome): &(Record, Outcome)| Fate {
            platform: record.platform,
            encoding: record.encoding,
            kind: kind(*outcome),
        };
        self.outcomes.iter().map(fate).collect()
    }
}

// Heads.

/// What the old print head answers for `c`: it reads the first format 4.
pub fn old_head(table: &[u8], c: u32) -> Head {
    head(table, c, |subtable| matches!(subtable, Subtable::Four { .. }))
}

/// What the new print head answers for `c`: it reads the first format 12, else as the old one.
pub fn new_head(table: &[u8], c: u32) -> Head {
    match head(table, c, |subtable| matches!(subtable, Subtable::Twelve { .. })) {
        Head::Refused(11) => old_head(table, c),
        answer => answer,
    }
}

/// What the first readable subtable that is wanted answers for `c`.
fn head(table: &[u8], c: u32, wanted: impl Fn(&Subtable) -> bool) -> Head {
    let Some(records) = records(table) else {
        return Head::Refused(5);
    };
    let mut subtables = records.iter().filter_map(|record| readable(table, record.offset));
    match subtables.find(wanted) {
        None => Head::Refused(11),
        Some(subtable) => Head::Glyph(look_up(&subtable, c).unwrap_or(0)),
    }
}

/// The glyph that a format 4 or 12 has for `c`.
fn look_up(subtable: &Subtable, c: u32) -> Option<u16> {
    match subtable {
        Subtable::Four { segments, array, .. } => look_up_4(segments, array, c),
        Subtable::Twelve { groups, .. } => look_up_12(groups, c),
        Subtable::Fourteen { .. } => None,
    }
}

/// The glyph of `c` by the first segment whose end is at least `c`.
fn look_up_4(segments: &[Segment], array: &[u16], c: u32) -> Option<u16> {
    let i = segments.iter().position(|segment| segment.end >= c)?;
    let segment = segments[i];
    if !segment.holds(c) {
        return None;
    }
    let with_delta = |n: u32| ((n + segment.delta) % 65_536) as u16;
    if segment.range_offset == 0 {
        return Some(with_delta(c));
    }
    match array_entry(array, array_index(&segment, i, segments.len(), c))? {
        0 => Some(0),
        entry => Some(with_delta(entry.into())),
    }
}

/// The glyph of `c` by the first group whose end is at least `c`.
fn look_up_12(groups: &[Group], c: u32) -> Option<u16> {
    let group = groups.iter().find(|group| group.end >= c)?;
    if group.start > c {
        return None;
    }
    u16::try_from(u64::from(group.glyph) + u64::from(c - group.start)).ok()
}

// The job program.

/// The marks of a job's records with the size of an entry and the most entries.
const JOB_RECORDS: [(&[u8; 2], usize, usize); 5] =
    [(b"TB", 1, 32_768), (b"PR", 6, 2_048), (b"KP", 4, 4_096), (b"MP", 2, 8_192), (b"RQ", 2, 2_048)];
/// The room that the program has for a result.
const JOB_ROOM: usize = 32_768;

/// What the job program writes for what it reads.
pub fn job(input: &[u8]) -> Vec<u8> {
    let Some([source, pairs, kept, map, requested]) = job_payloads(input) else {
        return no(12);
    };
    let codes: Vec<u32> = pairs.chunks_exact(6).map(|p| number(p, 0, 4).expect("six")).collect();
    let glyphs: Vec<u16> = entries_16(pairs, 6, 4);
    let kept: Vec<u32> = kept.chunks_exact(4).map(|p| number(p, 0, 4).expect("four")).collect();
    let (map, requested) = (entries_16(map, 2, 0), entries_16(requested, 2, 0));
    match subset(source, &codes, &glyphs, &kept, &map, &requested, JOB_ROOM) {
        Answer::Refused(number) => no(number),
        Answer::NoRoom(_) => no(10),
        Answer::Written { bytes, .. } => {
            let mut reply = b"OK".to_vec();
            push(&mut reply, bytes.len() as u32, 4);
            reply.extend(bytes);
            reply
        }
    }
}

/// The two-byte numbers at `at` in entries of `size` bytes.
fn entries_16(payload: &[u8], size: usize, at: u64) -> Vec<u16> {
    payload.chunks_exact(size).map(|entry| number(entry, at, 2).expect("inside") as u16).collect()
}

/// The five payloads of a well-formed job within the limits.
fn job_payloads(input: &[u8]) -> Option<[&[u8]; 5]> {
    let (mut rest, mut payloads) = (input, [&input[..0]; 5]);
    for (payload, (mark, size, most)) in payloads.iter_mut().zip(JOB_RECORDS) {
        rest = rest.strip_prefix(mark)?;
        let length = number(rest, 0, 4)? as usize;
        *payload = rest.get(4..4_usize.checked_add(length)?)?;
        rest = &rest[4 + length..];
        if length % size != 0 || length / size > most {
            return None;
        }
    }
    rest.is_empty().then_some(payloads)
}

/// The reply for a refusal.
fn no(number: u8) -> Vec<u8> {
    vec![b'N', b'O', 0, 0, 0, 1, number]
}
