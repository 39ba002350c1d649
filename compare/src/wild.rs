//! Jobs outside the agreed domain: loosened, damaged and random ones, each made from a seed alone.
use crate::agreed;
use crate::job::Job;
use crate::model::{Group, Model, Record, Segment, Selector, Subtable};
use crate::rng::Rng;

/// A job, bytes for the program, and code points to ask heads about.
pub struct Wild {
    pub job: Job,
    pub input: Vec<u8>,
    pub points: Vec<u32>,
}

const ODD: [u32; 24] = [
    0, 1, 2, 3, 4, 5, 8, 12, 14, 16, 255, 256, 512, 513, 0x7FFF, 0x8000, 0xFFFE, 0xFFFF, 0x10000, 0x10FFFF,
    0x110000, 0x15555555, 0x7FFFFFFF, 0xFFFFFFFF,
];

/// The wild job of a seed.
pub fn wild(seed: u64) -> Wild {
    let mut rng = Rng::new(seed ^ 0x77_696C_6400);
    let rng = &mut rng;
    let mut job = match rng.below(16) {
        0 => random(rng),
        1 | 2 => agreed::model(rng.draw()).1.to_job(),
        _ => {
            let mut model = agreed::model(rng.draw()).1;
            for _ in 0..rng.between(1, 6) {
                loosen(rng, &mut model);
            }
            if !rng.once_in(8) {
                model.settle();
            }
            model.to_job()
        }
    };
    if rng.once_in(2) {
        for _ in 0..rng.pick(&[1, 1, 2, 4, 9]) {
            damage(rng, &mut job.source);
        }
    }
    if rng.once_in(10) {
        break_lists(rng, &mut job);
    }
    let points = questions(rng, &job);
    let input = program_input(rng, &job);
    Wild { job, input, points }
}

/// Bytes and lists without any sense.
fn random(rng: &mut Rng) -> Job {
    let length = rng.pick(&[0, 1, 3, 4, 5, 12, 44, 100, 400]);
    let small =
        |rng: &mut Rng| if rng.once_in(2) { rng.pick(&[0, 1, 3, 4, 12, 14]) } else { rng.draw() as u8 };
    let mut source: Vec<u8> = (0..length).map(|_| small(rng)).collect();
    if source.len() >= 4 && !rng.once_in(4) {
        source[..4].copy_from_slice(&[0, 0, 0, rng.below(6) as u8]);
    }
    let mut codes: Vec<u32> = (0..rng.below(9)).map(|_| rng.below(40)).collect();
    codes.sort_unstable();
    codes.dedup();
    Job {
        source,
        glyphs: codes.iter().map(|_| rng.draw() as u16).collect(),
        kept: codes.clone(),
        codes,
        map: (0..rng.below(20)).map(|_| rng.below(9) as u16).collect(),
        requested: vec![],
    }
}

/// A number near the ones that matter.
fn odd_point(rng: &mut Rng) -> u32 {
    match rng.below(3) {
        0 => rng.pick(&ODD),
        1 => rng.below(0x200),
        _ => rng.below(0x120000),
    }
}

/// Puts one part of a model out of order.
fn loosen(rng: &mut Rng, model: &mut Model) {
    let pairs = [(0, 3), (0, 4), (3, 1), (3, 10), (0, 5), (0, 6), (3, 9), (0, 14), (1, 0), (7, 7)];
    match rng.below(9) {
        0 if !model.records.is_empty() => {
            let k = rng.below(model.records.len() as u32) as usize;
            (model.records[k].platform, model.records[k].encoding) = rng.pick(&pairs);
        }
        1 if !model.subtables.is_empty() && model.records.len() < 70 => {
            let (platform, encoding) = rng.pick(&pairs);
            let leads_to = rng.below(model.subtables.len() as u32) as usize;
            let at = rng.below(model.records.len() as u32 + 1) as usize;
            model.records.insert(at, Record { platform, encoding, leads_to });
        }
        2 => rng.shuffle(&mut model.records),
        3 => {
            model.kept.extend((0..rng.below(40)).map(|_| rng.below(0x11000)));
            model.kept.retain(|&c| c <= 0x10FFFF);
        }
        4 => {
            let n = rng.pick(&[1, 2, 5, 100, 300]);
            model.map.resize(n, 3);
            model.requested.retain(|&g| usize::from(g) < n);
        }
        _ if !model.subtables.is_empty() => {
            let k = rng.below(model.subtables.len() as u32) as usize;
            loosen_subtable(rng, &mut model.subtables[k]);
        }
        _ => {}
    }
}

fn loosen_subtable(rng: &mut Rng, subtable: &mut Subtable) {
    match subtable {
        Subtable::Four { language, segments, array } => {
            let k = rng.below(segments.len() as u32) as usize;
            match rng.below(8) {
                0 => rng.shuffle(segments),
                1 => segments[k].start = odd_point(rng) & 0xFFFF,
                2 => segments[k].end = odd_point(rng) & 0xFFFF,
                3 => segments[k].delta = rng.draw() as u16,
                4 => segments[k].array_at = Some(rng.below(array.len() as u32 + 20)),
                5 => array.truncate(rng.below(array.len() as u32 + 1) as usize),
                6 => *language = rng.pick(&[0, 1, 5]),
                _ => {
                    let (start, end) = (rng.below(0x10000), rng.below(0x10000));
                    let array_at = rng.once_in(2).then_some(rng.below(9));
                    let new = Segment { start, end, delta: rng.draw() as u16, array_at };
                    segments.insert(k, new);
                }
            }
        }
        Subtable::Twelve { language, groups } => {
            let k = rng.below(groups.len() as u32 + 1) as usize;
            match rng.below(6) {
                0 => rng.shuffle(groups),
                1 if k < groups.len() => groups[k].start = odd_point(rng),
                2 if k < groups.len() => groups[k].end = odd_point(rng),
                3 if k < groups.len() => groups[k].glyph = odd_point(rng),
                4 => *language = rng.pick(&[0, 1, 5, 65_541]),
                _ => {
                    let new = Group { start: odd_point(rng), end: odd_point(rng), glyph: rng.below(400) };
                    groups.insert(k, new);
                }
            }
        }
        Subtable::Fourteen { selectors } => {
            let k = rng.below(selectors.len() as u32 + 1) as usize;
            match rng.below(8) {
                0 => rng.shuffle(selectors),
                1 => selectors.insert(
                    k,
                    Selector {
                        point: odd_point(rng) & 0xFFFFFF,
                        ranges: Some(vec![(0, 255)]),
                        mappings: None,
                    },
                ),
                2 if k < selectors.len() => {
                    let twice = selectors[k].clone();
                    selectors.insert(k, twice);
                }
                3 if rng.once_in(20) => selectors.resize(rng.between(511, 514) as usize, Selector::default()),
                _ if k < selectors.len() => loosen_selector(rng, &mut selectors[k]),
                _ => {}
            }
        }
        Subtable::Raw(bytes) => damage(rng, bytes),
    }
}

fn loosen_selector(rng: &mut Rng, selector: &mut Selector) {
    let ranges = selector.ranges.get_or_insert_with(Vec::new);
    let mappings = selector.mappings.get_or_insert_with(Vec::new);
    match rng.below(5) {
        0 => rng.shuffle(ranges),
        1 => ranges.push((odd_point(rng) & 0xFFFFFF, rng.draw() as u8)),
        2 => {
            let more: Vec<_> =
                (0..rng.below(300)).map(|_| (rng.below(0x300), rng.pick(&[0, 1, 9, 255]))).collect();
            ranges.extend(more);
        }
        3 => rng.shuffle(mappings),
        _ => mappings.push((odd_point(rng) & 0xFFFFFF, rng.below(300) as u16)),
    }
}

/// Puts a number into bytes that are there.
fn put(bytes: &mut [u8], at: u32, width: usize, n: u32) {
    for (i, b) in n.to_be_bytes()[4 - width..].iter().enumerate() {
        if let Some(place) = bytes.get_mut(at as usize + i) {
            *place = *b;
        }
    }
}

/// The number in some bytes, 0 where they end.
fn get(bytes: &[u8], at: u32, width: u32) -> u32 {
    (at..at + width).fold(0, |n, i| n << 8 | bytes.get(i as usize).map_or(0, |&b| u32::from(b)))
}

/// Changes some bytes of a table.
fn damage(rng: &mut Rng, bytes: &mut Vec<u8>) {
    let length = bytes.len() as u32;
    if length < 4 {
        bytes.push(rng.draw() as u8);
        return;
    }
    let count = u32::from(bytes[3]).min((length - 4) / 8);
    let record = if count > 0 { 4 + 8 * rng.below(count) } else { 4 };
    let offset = get(bytes, record + 4, 4).min(length);
    match rng.below(16) {
        0 => bytes[rng.below(length) as usize] ^= 1 << rng.below(8),
        1 => put(bytes, rng.below(length), 2, rng.pick(&ODD)),
        2 => put(bytes, rng.below(length) & !1, 4, rng.pick(&ODD)),
        3 => put(bytes, record + 4, 4, rng.below(length + 4)),
        4 => put(bytes, record + 4, 4, (offset + rng.below(9)).saturating_sub(4)),
        5 => put(bytes, record + 4, 4, rng.pick(&[2, 0, 4, u32::MAX, u32::MAX - 15, length, length - 1])),
        6 => bytes.truncate(rng.below(length) as usize),
        7 => bytes.extend((0..rng.below(30)).map(|_| rng.draw() as u8)),
        8 => {
            let (from, to, size) = (rng.below(length), rng.below(length), rng.between(1, 40));
            for i in 0..size {
                if from + i < length && to + i < length {
                    bytes[(to + i) as usize] = bytes[(from + i) as usize];
                }
            }
        }
        _ => damage_subtable(rng, bytes, offset),
    }
}

/// Changes a field of the subtable at an offset that means something in its format.
fn damage_subtable(rng: &mut Rng, bytes: &mut [u8], offset: u32) {
    let length = bytes.len() as u32;
    let near = |rng: &mut Rng, n: u32| match rng.below(4) {
        0 => rng.pick(&ODD),
        1 => rng.below(length + 8),
        _ => n.wrapping_add(rng.below(9)).wrapping_sub(4),
    };
    let change = |rng: &mut Rng, bytes: &mut [u8], at: u32, width: u32| {
        let n = near(rng, get(bytes, offset + at, width));
        put(bytes, offset + at, width as usize, n);
    };
    let part = |rng: &mut Rng, count: u32| rng.below(count.clamp(1, 600));
    match (get(bytes, offset, 2), rng.below(4)) {
        (4, 0) => change(rng, bytes, 2, 2),
        (4, 1) => change(rng, bytes, 6, 2),
        (4, _) => {
            let s = get(bytes, offset + 6, 2) / 2;
            let column = rng.pick(&[14, 16 + 2 * s, 16 + 4 * s, 16 + 6 * s, 16 + 6 * s]);
            let at = column + 2 * part(rng, s);
            change(rng, bytes, at, 2);
        }
        (12, 0) => change(rng, bytes, 4, 4),
        (12, 1) => change(rng, bytes, 12, 4),
        (12, _) => {
            let at = 16 + 12 * part(rng, get(bytes, offset + 12, 4)) + rng.pick(&[0, 4, 8]);
            change(rng, bytes, at, 4);
        }
        (14, 0) => change(rng, bytes, 2, 4),
        (14, 1) => change(rng, bytes, 6, 4),
        (14, _) => {
            let at = 10 + 11 * part(rng, get(bytes, offset + 6, 4)) + rng.pick(&[3, 7]);
            if rng.once_in(3) {
                let table = get(bytes, offset + at, 4).min(length);
                change(rng, bytes, table, 4);
            } else {
                change(rng, bytes, at, 4);
            }
        }
        _ => put(bytes, offset, 2, rng.pick(&[4, 12, 14])),
    }
}

/// Breaks an order, a limit or a size.
fn break_lists(rng: &mut Rng, job: &mut Job) {
    let at = |rng: &mut Rng, length: usize| rng.below(length.max(1) as u32) as usize;
    match rng.below(12) {
        0 => job.glyphs.push(1),
        1 => drop(job.codes.pop()),
        2 => job.map.clear(),
        3 if rng.once_in(10) => job.map.resize(rng.between(65_534, 65_536) as usize, 1),
        4 => rng.shuffle(&mut job.codes),
        5 => rng.shuffle(&mut job.kept),
        6 => job.requested.push(rng.below(job.map.len() as u32 + 3) as u16),
        7 if !job.glyphs.is_empty() => {
            let k = at(rng, job.glyphs.len());
            job.glyphs[k] = rng.pick(&[65_535, 65_534]);
        }
        8 => {
            let c = rng.pick(&[0x10FFFF, 0x110000, u32::MAX]);
            job.codes.push(c);
            job.glyphs.push(1);
            if rng.once_in(2) {
                job.kept.push(c);
            }
        }
        9 if !job.kept.is_empty() => {
            let k = at(rng, job.kept.len());
            job.kept.remove(k);
        }
        10 => job.kept.push(rng.pick(&[0x10FFFF, 0x110000, 5])),
        _ => job.requested.extend(job.requested.clone().last()),
    }
}

/// Code points to ask heads about.
fn questions(rng: &mut Rng, job: &Job) -> Vec<u32> {
    let mut points = vec![0, 0xFFFF, 0x10000, u32::MAX, odd_point(rng), rng.draw() as u32];
    for _ in 0..8 {
        let from = if rng.once_in(2) { &job.codes } else { &job.kept };
        if !from.is_empty() {
            points.push(rng.pick(from).wrapping_add(rng.below(3)).wrapping_sub(1));
        }
    }
    points
}

/// The job's bytes, at times damaged.
fn program_input(rng: &mut Rng, job: &Job) -> Vec<u8> {
    let mut bytes = job.to_bytes();
    let length = bytes.len() as u32;
    match rng.below(12) {
        0 => bytes.truncate(rng.below(length) as usize),
        1 => bytes.extend((0..rng.between(1, 3)).map(|_| rng.draw() as u8)),
        2 => {
            let places = mark_places(&bytes);
            let at = rng.pick(&places) + rng.below(6) as usize;
            bytes[at] ^= 1 << rng.below(8);
        }
        3 => {
            let places = mark_places(&bytes);
            let at = rng.pick(&places);
            bytes.splice(at + 6..at + 6, [0]);
            let grown = u32::from_be_bytes(bytes[at + 2..at + 6].try_into().expect("four")) + 1;
            bytes[at + 2..at + 6].copy_from_slice(&grown.to_be_bytes());
        }
        _ => {}
    }
    bytes
}

/// Where the five marks of a job stand.
fn mark_places(bytes: &[u8]) -> Vec<usize> {
    let (mut places, mut at) = (Vec::new(), 0);
    while at < bytes.len() {
        places.push(at);
        at += 6 + u32::from_be_bytes(bytes[at + 2..at + 6].try_into().expect("four")) as usize;
    }
    places
}
