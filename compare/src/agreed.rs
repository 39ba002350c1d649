//! Jobs of the agreed domain, each made from a seed alone.
use crate::domain::{check, group_span, points_4, ranges_branch, LIMIT};
use crate::model::{Group, Model, Record, Segment, Selector, Subtable};
use crate::rng::Rng;

/// The ways in which a job is made.
#[derive(Clone, Copy, Debug, PartialEq, Eq, PartialOrd, Ord)]
pub enum Shape {
    /// Some records of all kinds.
    Mixed,
    /// A format 12 made from the format 4 beside it, or nearly so.
    Twins,
    /// One format 4 that maps much, and pairs in runs of chosen lengths.
    Runs,
    /// A default table near the border between ranges and single points.
    RangesBorder,
    /// Many points in a row, each the start of a range, in the ranges branch.
    LongRanges,
    /// Lone points or array entries at the border of "too long".
    TooLongBorder,
    /// Runs just under 32,768.
    LongRuns,
    /// Up to 64 records of different languages.
    ManyRecords,
    /// A result whose length is about the program's room.
    RoomBorder,
}

const LENGTHS: [u32; 14] = [1, 1, 2, 3, 3, 4, 4, 5, 7, 7, 8, 8, 9, 17];

/// The job of a seed; a try that falls outside the domain is made anew.
pub fn model(seed: u64) -> (Shape, Model) {
    let mut rng = Rng::new(seed);
    loop {
        let shape = match rng.below(1000) {
            0..=399 => Shape::Mixed,
            400..=599 => Shape::Twins,
            600..=799 => Shape::Runs,
            800..=959 => Shape::RangesBorder,
            960..=963 => Shape::LongRanges,
            964..=971 => Shape::TooLongBorder,
            972..=973 => Shape::LongRuns,
            974..=977 => Shape::RoomBorder,
            _ => Shape::ManyRecords,
        };
        let model = made(&mut rng, shape);
        if check(&model).is_ok() {
            return (shape, model);
        }
    }
}

fn made(rng: &mut Rng, shape: Shape) -> Model {
    match shape {
        Shape::Mixed => mixed(rng),
        Shape::Twins => twins(rng),
        Shape::Runs => runs(rng),
        Shape::RangesBorder => ranges_border(rng),
        Shape::LongRanges => long_ranges(rng),
        Shape::TooLongBorder => too_long_border(rng),
        Shape::LongRuns => long_runs(rng),
        Shape::ManyRecords => many_records(rng),
        Shape::RoomBorder => room_border(rng),
    }
}

// Parts.

/// Rising stretches (first, last) between `low` and `high`, some of them adjacent.
fn stretches(rng: &mut Rng, low: u32, high: u32) -> Vec<(u32, u32)> {
    let mut list = Vec::new();
    let mut at = low + rng.pick(&[0, 0, 1, 5]);
    for _ in 0..rng.pick(&[0, 1, 1, 2, 3, 5, 9]) {
        let length = rng.pick(&LENGTHS);
        if at > high || at + (length - 1) > high {
            break;
        }
        list.push((at, at + length - 1));
        at += length + rng.pick(&[0, 0, 0, 1, 1, 2, 20]);
    }
    list
}

/// Stretches in several areas, borders among them.
fn areas(rng: &mut Rng, bmp_only: bool) -> Vec<(u32, u32)> {
    let bmp =
        [(0, 0x1F), (0x20, 0x7F), (0x3000, 0x30FF), (0xD7F0, 0xE00F), (0xFDF0, 0xFE20), (0xFFD0, 0xFFFE)];
    let above = [(0x10000, 0x10040), (0x1F600, 0x1F680), (0xE0100, 0xE01EF), (0x10FFD0, LIMIT)];
    let mut list = Vec::new();
    for &(low, high) in bmp.iter().chain(if bmp_only { &[] } else { &above[..] }) {
        if rng.once_in(3) {
            list.extend(stretches(rng, low, high));
        }
    }
    if !bmp_only && rng.once_in(6) && list.last().is_none_or(|l| l.1 < 0xFFF0) {
        list.push((0xFFF8, 0x10000 + rng.below(9)));
    }
    list
}

fn language(rng: &mut Rng) -> u16 {
    rng.pick(&[0, 0, 0, 0, 1, 5, 65_535])
}

/// A format 4 over some stretches.
fn four(rng: &mut Rng, areas: &[(u32, u32)]) -> Subtable {
    let (mut segments, mut array): (Vec<Segment>, Vec<u16>) = (Vec::new(), Vec::new());
    for &(start, end) in areas.iter().filter(|a| a.1 < 0xFFFF) {
        let mut segment = Segment { start, end, delta: rng.draw() as u16, array_at: None };
        match rng.below(8) {
            0 => segment.delta = 0,
            1 => segment.delta = (65_536 - rng.between(start, end)) as u16,
            2..=4 => {
                segment.delta = rng.pick(&[0, 0, 1, 65_535, segment.delta]);
                let length = (end - start + 1) as usize;
                let old = rng.once_in(4) && array.len() >= length;
                let at = if old { rng.below((array.len() - length) as u32 + 1) } else { array.len() as u32 };
                segment.array_at = Some(at);
                if !old {
                    array.extend((0..length).map(|_| rng.pick(&[0, 1, 7, 65_535, 300, 301])));
                }
            }
            _ => {}
        }
        segments.push(segment);
    }
    if rng.once_in(5) {
        let last = segments.last().map_or(0xFFE0, |s| s.end + 1);
        segments.push(Segment {
            start: rng.between(last.max(0xFFE0), 0xFFFF),
            end: 0xFFFF,
            delta: rng.pick(&[0x20, 1, 0x30, 0]),
            array_at: None,
        });
    } else if segments.is_empty() || !rng.once_in(8) {
        segments.push(Segment { start: 0xFFFF, end: 0xFFFF, delta: 1, array_at: None });
    }
    Subtable::Four { language: language(rng), segments, array }
}

/// A format 12 over some stretches, for a font of about `n` glyphs.
fn twelve(rng: &mut Rng, areas: &[(u32, u32)], n: u32) -> Subtable {
    let glyph = |rng: &mut Rng| match rng.below(10) {
        0 | 1 => 0,
        2 => n.saturating_sub(rng.below(4)),
        3 => n.saturating_sub(rng.below(20)),
        4 => rng.pick(&[1, 2, n, n + 1, 65_534, 65_535, 65_536, u32::MAX]),
        _ => rng.below(n + 1),
    };
    let mut groups: Vec<Group> =
        areas.iter().map(|&(start, end)| Group { start, end, glyph: glyph(rng) }).collect();
    if let Some(last) = groups.last_mut().filter(|_| rng.once_in(6)) {
        last.end = rng.pick(&[LIMIT, LIMIT + 1, 0x11_0010, u32::MAX]).max(last.start);
    } else if rng.once_in(20) {
        let start = rng.pick(&[LIMIT + 1, 0x20_0000, u32::MAX]);
        groups.push(Group { start, end: rng.pick(&[start, u32::MAX]), glyph: rng.below(4) + 1 });
    }
    let language = u32::from(language(rng)) + rng.pick(&[0, 0, 0, 0, 65_536]);
    Subtable::Twelve { language, groups }
}

/// A list of ranges, in order and apart, over some points.
fn ranges(rng: &mut Rng, areas: &[(u32, u32)]) -> Vec<(u32, u8)> {
    let mut list: Vec<(u32, u8)> = Vec::new();
    for &(start, end) in areas {
        let mut at = start.max(1);
        while at <= end {
            let more = rng.pick(&[0, 0, 1, 3, 255]).min(end - at);
            list.push((at, more as u8));
            at += more + 1 + rng.pick(&[0, 0, 1, 2]);
        }
    }
    list
}

/// A format 14 whose tables speak of the areas; a wrong glyph comes in once in some while.
fn fourteen(rng: &mut Rng, areas: &[(u32, u32)], n: u32) -> Subtable {
    let mut points = vec![0x180B, 0xFE00, 0xFE0E, 0xFE0F, 0xE0100, 0xE0101, 0xE01EF, 0x41, LIMIT];
    points.retain(|_| rng.once_in(3));
    let odd = rng.once_in(6);
    let mut selectors: Vec<Selector> = Vec::new();
    for point in points {
        let part: Vec<_> = areas.iter().copied().filter(|_| !rng.once_in(3)).collect();
        let glyph = |rng: &mut Rng| if odd && rng.once_in(4) { n + rng.below(2) } else { rng.below(n) };
        let mapped = part.iter().flat_map(|a| a.0..=a.1.min(a.0 + 5)).collect::<Vec<_>>();
        let mut new = Selector {
            point,
            ranges: (!rng.once_in(3)).then(|| ranges(rng, &part)),
            mappings: (!rng.once_in(3)).then(|| mapped.iter().map(|&c| (c, glyph(rng) as u16)).collect()),
        };
        match selectors.last() {
            Some(old) if rng.once_in(3) => new.ranges = old.ranges.clone(),
            Some(old) if rng.once_in(3) => new.mappings = old.mappings.clone(),
            _ => {}
        }
        selectors.push(new);
    }
    Subtable::Fourteen { selectors }
}

/// A map of `n` entries, some absent.
fn map(rng: &mut Rng, n: u32) -> Vec<u16> {
    let (gone, base) = (rng.pick(&[0, 0, 0, 9, 40]), rng.below(60_000));
    (0..n)
        .map(|g| if gone > 0 && rng.once_in(gone) { 65_535 } else { ((g * 7 + base) % 65_535) as u16 })
        .collect()
}

/// A glyph count, borders among them.
fn glyph_count(rng: &mut Rng) -> u32 {
    match rng.below(400) {
        0 => 65_535,
        1..=9 => rng.between(1, 3),
        10..=60 => rng.between(4, 40),
        _ => rng.between(41, 500),
    }
}

/// Glyphs for rising code points, in runs of chosen lengths.
fn with_glyphs(rng: &mut Rng, codes: &[u32]) -> Vec<(u32, u16)> {
    let (mut glyph, mut left) = (0_u32, 0);
    let own = rng.once_in(4);
    codes
        .iter()
        .map(|&c| {
            if left == 0 {
                left = rng.pick(&LENGTHS);
                glyph = match rng.below(12) {
                    0 if own => c % 65_535,
                    1 => rng.pick(&[0, 65_534, 65_530, 1]),
                    _ => rng.below(3000),
                };
            }
            left -= 1;
            glyph = if glyph > 65_534 { 1 } else { glyph + 1 };
            (c, (glyph - 1) as u16)
        })
        .collect()
}

/// Some of the points of some stretches, and at times a few beside them.
fn some_points(rng: &mut Rng, areas: &[(u32, u32)]) -> Vec<u32> {
    let rare = rng.pick(&[0, 0, 3, 9]);
    let mut points = Vec::new();
    for &(start, end) in areas {
        for c in start.saturating_sub(1)..=end.min(start + 300).saturating_add(1).min(LIMIT) {
            let beside = c < start || c > end;
            if if beside { rng.once_in(4) } else { rare == 0 || !rng.once_in(rare) } {
                points.push(c);
            }
        }
    }
    if rng.once_in(5) {
        points.push(rng.pick(&[0, 0xFFFF, 0x10000, LIMIT, 0xFFFE]));
    }
    points.sort_unstable();
    points.dedup();
    points
}

/// Sets pairs, kept and requested for what the subtables speak of.
fn lists(rng: &mut Rng, model: &mut Model, areas: &[(u32, u32)]) {
    let mut codes = some_points(rng, areas);
    let n = model.map.len();
    for subtable in &model.subtables {
        if let Subtable::Twelve { groups, .. } = subtable {
            codes.extend(groups.iter().filter_map(|g| group_span(g, n)).map(|s| s.0).take(1));
        }
    }
    if rng.once_in(12) {
        codes.truncate(rng.below(3) as usize);
    }
    codes.sort_unstable();
    codes.dedup();
    model.pairs = with_glyphs(rng, &codes);
    if !rng.once_in(3) {
        model.kept.extend(some_points(rng, areas).iter().filter(|_| rng.once_in(2)));
    }
    for subtable in &model.subtables {
        if let Subtable::Fourteen { selectors } = subtable {
            model.kept.extend(selectors.iter().map(|s| s.point).filter(|_| !rng.once_in(4)));
        }
    }
    model.requested = (0..n as u32).filter(|_| rng.once_in(30)).map(|g| g as u16).collect();
    if rng.once_in(4) {
        model.requested.clear();
    }
    model.settle();
}

/// Takes kept points away that lie inside a range where the ranges branch is taken.
fn only_starts(model: &mut Model) {
    loop {
        let kept = model.kept.len();
        let mut inner: Vec<(u32, u32)> = Vec::new();
        for subtable in &model.subtables {
            let Subtable::Fourteen { selectors } = subtable else { continue };
            for ranges in selectors.iter().filter_map(|s| s.ranges.as_ref()) {
                if ranges_branch(ranges.len(), kept) {
                    inner.extend(ranges.iter().map(|r| (r.0 + 1, r.0 + u32::from(r.1))));
                }
            }
        }
        let gone = |c: u32| inner.iter().any(|&(a, b)| a <= c && c <= b);
        model.kept.retain(|&c| !gone(c));
        model.pairs.retain(|p| !gone(p.0));
        if model.kept.len() == kept {
            return;
        }
    }
}

/// Adds a record that leads to a new subtable.
fn add(model: &mut Model, (platform, encoding): (u16, u16), subtable: Subtable) {
    model.records.push(Record { platform, encoding, leads_to: model.subtables.len() });
    model.subtables.push(subtable);
}

/// Bytes of another format, or of none.
fn raw(rng: &mut Rng) -> Subtable {
    let format = rng.pick(&[0, 2, 6, 8, 10, 13, 5, 1000]);
    let mut bytes = vec![(format >> 8) as u8, format as u8];
    bytes.extend((0..rng.pick(&[2, 10, 300])).map(|_| rng.draw() as u8));
    Subtable::Raw(bytes)
}

// Shapes.

fn mixed(rng: &mut Rng) -> Model {
    let n = glyph_count(rng);
    let mut model = Model { map: map(rng, n), ..Model::default() };
    let (all, bmp) = (areas(rng, false), areas(rng, true));
    let natural = !rng.once_in(5);
    for pair in [(0, 3), (0, 4), (3, 1), (3, 10)] {
        let like_four = if natural { matches!(pair, (0, 3) | (3, 1)) } else { rng.once_in(2) };
        if rng.once_in(if like_four { 4 } else { 2 }) {
            continue;
        }
        let old = model.subtables.iter().position(|t| matches!(t, Subtable::Four { .. }) == like_four);
        let over = if rng.once_in(if like_four { 2 } else { 4 }) { &bmp } else { &all };
        match old {
            Some(leads_to) if !rng.once_in(3) => {
                model.records.push(Record { platform: pair.0, encoding: pair.1, leads_to })
            }
            _ if like_four => add(&mut model, pair, four(rng, over)),
            _ => add(&mut model, pair, twelve(rng, over, n)),
        }
    }
    if rng.once_in(2) {
        add(&mut model, (0, 5), fourteen(rng, &all, n));
    } else if rng.once_in(6) {
        add(&mut model, (0, 5), if rng.once_in(2) { four(rng, &all) } else { twelve(rng, &all, n) });
    }
    for pair in [(1, 0), (0, 1), (0, 6), (3, 0), (2, 1), (4, 4), (9, 10)] {
        if rng.once_in(12) {
            let subtable = match rng.below(3) {
                0 => four(rng, &all),
                1 => twelve(rng, &all, n),
                _ => raw(rng),
            };
            add(&mut model, pair, subtable);
        }
    }
    match rng.below(4) {
        0 => rng.shuffle(&mut model.records),
        _ => model.records.sort_by_key(|r| (r.platform, r.encoding)),
    }
    let spoken_of = if rng.once_in(4) { bmp } else { all };
    lists(rng, &mut model, &spoken_of);
    only_starts(&mut model);
    model
}

/// The groups of some rising points, each with a glyph that is safely inside the font.
fn groups_of(points: &[u32]) -> Vec<Group> {
    let mut groups: Vec<Group> = Vec::new();
    for &c in points {
        match groups.last_mut() {
            Some(g) if g.end + 1 == c => g.end = c,
            _ => groups.push(Group { start: c, end: c, glyph: 1 }),
        }
    }
    groups
}

fn twins(rng: &mut Rng) -> Model {
    let bmp = areas(rng, true);
    let all = areas(rng, false);
    let n = rng.between(100, 400);
    let mut model = Model { map: map(rng, n), ..Model::default() };
    let subtable = four(rng, &bmp);
    let Subtable::Four { segments, array, language } = &subtable else { unreachable!() };
    let mut points = points_4(segments, array);
    match rng.below(6) {
        0 if !points.is_empty() => drop(points.remove(rng.below(points.len() as u32) as usize)),
        1 => {
            let extra = rng.pick(&[0xFFFF, 0x10000, 0x1F600, LIMIT]);
            points.push(extra);
            model.kept.extend(rng.once_in(2).then_some(extra));
        }
        _ => {}
    }
    points.sort_unstable();
    points.dedup();
    let language = u32::from(*language) + rng.pick(&[0, 0, 0, 0, 0, 1, 65_536]);
    let twin = Subtable::Twelve { language, groups: groups_of(&points) };
    let subtable = if rng.once_in(5) { twin.clone() } else { subtable };
    let pairs = rng.pick(&[[(0, 3), (0, 4)], [(3, 1), (3, 10)], [(0, 3), (3, 10)], [(0, 4), (0, 3)]]);
    let (platform, encoding) = pairs[0];
    if rng.once_in(4) {
        add(&mut model, (platform, encoding), four(rng, &all));
    }
    add(&mut model, pairs[0], subtable);
    add(&mut model, pairs[1], twin.clone());
    if rng.once_in(3) {
        let other = if pairs[1] == (3, 10) { (0, 4) } else { (3, 10) };
        match rng.below(3) {
            0 => add(&mut model, other, twelve(rng, &all, n)),
            1 => model.records.push(Record {
                platform: other.0,
                encoding: other.1,
                leads_to: model.subtables.len() - 1,
            }),
            _ => add(&mut model, other, twin.clone()),
        }
    }
    if rng.once_in(4) {
        let pair = rng.pick(&[(0, 3), (3, 1)]);
        add(&mut model, pair, if rng.once_in(2) { twin } else { four(rng, &bmp) });
    }
    if rng.once_in(4) {
        add(&mut model, (0, 5), fourteen(rng, &bmp, n));
    }
    if rng.once_in(2) {
        rng.shuffle(&mut model.records);
    }
    let spoken_of = if rng.once_in(5) { all } else { bmp };
    lists(rng, &mut model, &spoken_of);
    only_starts(&mut model);
    model
}

/// A format 4 that maps all from 1 to 0xFFFE, or to 0xFFFF.
fn everything(to_the_end: bool) -> Subtable {
    let segment = |start, end, delta| Segment { start, end, delta, array_at: None };
    let segments = if to_the_end {
        vec![segment(0, 10, 0), segment(11, 0xFFFF, 0)]
    } else {
        vec![segment(0, 0xFFFE, 1), segment(0xFFFF, 0xFFFF, 1)]
    };
    Subtable::Four { language: 0, segments, array: vec![] }
}

/// Rising points in ranges, each of some runs of chosen lengths.
fn runs(rng: &mut Rng) -> Model {
    let mut model = Model { map: vec![0, 1, 2], ..Model::default() };
    add(&mut model, rng.pick(&[(0, 3), (3, 1)]), everything(rng.once_in(2)));
    if rng.once_in(3) {
        let groups = vec![Group { start: 0, end: LIMIT, glyph: rng.pick(&[0, 1, 2]) }];
        model.map = vec![3; 65_535];
        model.map.truncate(rng.between(100, 70_000).min(65_535) as usize);
        add(&mut model, (3, 10), Subtable::Twelve { language: rng.pick(&[0, 1]), groups });
    }
    let mut at = match rng.below(6) {
        0 => 0,
        1 => 0xFFFF - rng.below(40),
        _ => rng.below(0xFF00),
    };
    let lengths: &[u32] = rng.pick(&[&LENGTHS[..], &[1], &[3, 4, 7, 8, 9], &[1, 2, 7, 8], &[7, 8]]);
    for _ in 0..rng.pick(&[1, 1, 2, 3, 4]) {
        let mut glyph = rng.below(60_000);
        for _ in 0..rng.pick(&[1, 2, 3, 4, 5, 9]) {
            glyph = match rng.below(8) {
                0 => at % 65_000,
                1 => rng.below(60_000),
                2 => glyph.saturating_sub(1),
                _ => glyph + rng.between(1, 3),
            };
            for _ in 0..rng.pick(lengths) {
                if at <= 0x10010 && glyph <= 65_534 {
                    model.pairs.push((at, glyph as u16));
                }
                at += 1;
                glyph += 1;
            }
        }
        at += rng.between(1, 3);
    }
    if rng.once_in(3) {
        model.kept.extend([rng.below(0xFFFF), rng.below(0x10000)]);
    }
    model.settle();
    model
}

fn ranges_border(rng: &mut Rng) -> Model {
    let n = rng.between(3, 60);
    let mut model = Model { map: map(rng, n), ..Model::default() };
    let wanted = rng.between(1, 12);
    add(&mut model, rng.pick(&[(0, 3), (3, 1)]), everything(rng.once_in(4)));
    let point = rng.pick(&[0xFE00, 0xE0100, 0x180B]);
    let bits = |r: u32| 32 - r.leading_zeros();
    let borders: Vec<u32> = (1..=wanted * 10 + 2).filter(|&r| r.abs_diff(wanted * bits(r)) <= 1).collect();
    let r = if borders.is_empty() { 1 } else { rng.pick(&borders) } + rng.pick(&[0, 0, 1, 5]);
    let mut at = rng.pick(&[1, 0x3000, 0xFE00 - 5, 0xFF80, LIMIT - 4 * r]);
    let adjacent = rng.once_in(2);
    let mut list: Vec<(u32, u8)> = Vec::new();
    for _ in 0..r {
        let more = if adjacent { 0 } else { rng.pick(&[0, 0, 1, 2]) };
        list.push((at, more as u8));
        at += more + 1 + if adjacent { rng.pick(&[0, 0, 0, 0, 1]) } else { rng.pick(&[0, 1]) };
    }
    list.retain(|x| x.0 + u32::from(x.1) <= LIMIT);
    model.kept.push(point);
    while (model.kept.len() as u32) < wanted {
        let (start, more) = list[rng.below(list.len() as u32) as usize];
        let c = match rng.below(6) {
            0 => rng.below(0xFFFF) + 1,
            1 | 2 => start,
            3 => start + u32::from(more),
            _ => list[(model.kept.len() + 3) % list.len()].0,
        };
        if !model.kept.contains(&c) {
            model.kept.push(c);
        } else if rng.once_in(20) {
            break;
        }
    }
    model.kept.sort_unstable();
    let codes: Vec<u32> = model.kept.iter().copied().filter(|&c| c < 0xFFFF && !rng.once_in(2)).collect();
    model.pairs = with_glyphs(rng, &codes);
    let mut selectors = vec![Selector { point, ranges: Some(list.clone()), mappings: None }];
    if rng.once_in(3) {
        let mappings = list.iter().take(9).map(|x| (x.0, rng.below(n) as u16)).collect();
        selectors.push(Selector { point: point + 1, ranges: Some(list), mappings: Some(mappings) });
        if model.kept.len() > 2 && !rng.once_in(3) {
            let at = rng.below(model.kept.len() as u32) as usize;
            if model.kept[at] != point && !model.pairs.iter().any(|p| p.0 == model.kept[at]) {
                model.kept[at] = point + 1;
            }
        }
    }
    add(&mut model, (0, 5), Subtable::Fourteen { selectors });
    model.settle();
    only_starts(&mut model);
    model
}

fn long_ranges(rng: &mut Rng) -> Model {
    let mut model = Model { map: vec![0, 1], ..Model::default() };
    add(&mut model, (0, 3), everything(false));
    let kept = rng.between(250, 262);
    let list: Vec<(u32, u8)> = (0..13 * kept + 50).map(|i| (0x4000 + i, 0)).collect();
    let first = rng.between(0x4000, 0x4400);
    model.kept = (first..first + kept).chain([0xFE00]).collect();
    model.pairs = with_glyphs(rng, &[first, first + 1]);
    let selectors = vec![Selector { point: 0xFE00, ranges: Some(list), mappings: None }];
    add(&mut model, (0, 5), Subtable::Fourteen { selectors });
    model.settle();
    model
}

fn too_long_border(rng: &mut Rng) -> Model {
    let mut model = Model { map: vec![0; 40_000], ..Model::default() };
    let to_the_end = rng.once_in(2);
    add(&mut model, (3, 1), everything(to_the_end));
    let near = rng.between(0, 4);
    match rng.below(3) {
        0 => {
            let step = rng.between(2, 7);
            model.pairs = (1..8187 + near).map(|i| (step * i + 1, 7 + (i % 3) as u16)).collect();
            model.pairs.retain(|p| (p.1 as u32) != p.0);
        }
        1 => {
            let at = rng.between(1, 3000);
            model.pairs = (0..32_749 + near).map(|i| (at + i, 65_000 - i as u16)).collect();
        }
        _ => {
            let lone = rng.between(1, 3000);
            let array = (65_535 - 24 - 8 * lone) / 2 + near - 3;
            model.pairs = (0..lone).map(|i| (2 * i + 1, 60_000)).collect();
            model.pairs.extend((0..array).map(|i| (2 * lone + 5 + i, 65_000 - i as u16)));
        }
    }
    if rng.once_in(4) {
        let c = 0xFFFF;
        model.pairs.push((c, 3));
    }
    model.pairs.retain(|p| p.0 <= 0xFFFF);
    if rng.once_in(2) {
        let groups = vec![Group { start: 0, end: LIMIT, glyph: rng.pick(&[0, 1]) }];
        let pair = rng.pick(&[(3, 10), (0, 4)]);
        add(&mut model, pair, Subtable::Twelve { language: rng.pick(&[0, 0, 1]), groups });
        model.kept.extend(rng.pick(&[&[][..], &[0x10000], &[0x9000, 0x10000]]));
    }
    if rng.once_in(2) {
        add(&mut model, (0, 3), four(rng, &[(1, 20), (0x100, 0x180)]));
    }
    model.settle();
    model
}

fn long_runs(rng: &mut Rng) -> Model {
    let mut model = Model { map: vec![0; 65_535], ..Model::default() };
    add(&mut model, (0, 3), everything(true));
    let mut at = rng.between(1, 30);
    for _ in 0..rng.between(1, 3) {
        let length = rng.pick(&[32_767, 32_766, 16_384, 32_760, 4, 8, 1]);
        let glyph = rng.between(1, 65_534 - length);
        model.pairs.extend((0..length).map(|i| (at + i, (glyph + i) as u16)));
        at += length + rng.pick(&[0, 0, 0, 1]);
    }
    model.pairs.retain(|p| p.0 <= 0xFFFF);
    model.settle();
    model
}

fn many_records(rng: &mut Rng) -> Model {
    let n = rng.between(20, 90);
    let mut model = Model { map: map(rng, n), ..Model::default() };
    let all = areas(rng, false);
    let count = rng.pick(&[5, 20, 63, 64]);
    for language in 0..count {
        let pair = rng.pick(&[(0, 3), (0, 4), (3, 1), (3, 10), (1, 0), (0, 6)]);
        let mut subtable =
            if matches!(pair, (0, 3) | (3, 1)) { four(rng, &all) } else { twelve(rng, &all, n) };
        match &mut subtable {
            Subtable::Four { language: own, .. } => *own = language % 16,
            Subtable::Twelve { language: own, .. } => *own = (language % 16).into(),
            _ => {}
        }
        if matches!(subtable, Subtable::Twelve { .. }) && !matches!(pair, (0, 4) | (3, 10)) {
            continue;
        }
        let same = |r: &Record| {
            (r.platform, r.encoding) == pair && model.subtables[r.leads_to].language() == subtable.language()
        };
        if !model.records.iter().any(same) {
            add(&mut model, pair, subtable);
        }
    }
    lists(rng, &mut model, &all);
    model
}

fn room_border(rng: &mut Rng) -> Model {
    let mut model = Model { map: vec![0; 8_192], ..Model::default() };
    add(&mut model, (0, 3), everything(false));
    let groups =
        vec![Group { start: 0, end: 0x11000, glyph: 0 }, Group { start: 0x12000, end: 0x12000, glyph: 1 }];
    add(&mut model, (0, 4), Subtable::Twelve { language: 0, groups });
    let (lone, in_array) = (rng.between(1634, 1636), rng.below(30));
    model.pairs =
        (0..lone).map(|i| (2 * i + 1, if i < in_array { 2 * i as u16 + 1 } else { 60_000 })).collect();
    model.kept.push(0x12000);
    model.settle();
    model
}
