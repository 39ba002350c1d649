//! A job before it is bytes: records, segments, groups, selectors.
use crate::job::Job;

/// A segment of format 4; with an array it names where in the array its glyphs begin.
#[derive(Clone, Copy, Debug, PartialEq, Eq)]
pub struct Segment {
    pub start: u32,
    pub end: u32,
    pub delta: u16,
    pub array_at: Option<u32>,
}

/// A group of format 12.
#[derive(Clone, Copy, Debug, PartialEq, Eq)]
pub struct Group {
    pub start: u32,
    pub end: u32,
    pub glyph: u32,
}

/// A selector record of format 14: ranges (start, additional count) and mappings (code point, glyph).
#[derive(Clone, Debug, Default, PartialEq, Eq)]
pub struct Selector {
    pub point: u32,
    pub ranges: Option<Vec<(u32, u8)>>,
    pub mappings: Option<Vec<(u32, u16)>>,
}

/// What a record leads to.
#[derive(Clone, Debug, PartialEq, Eq)]
pub enum Subtable {
    Four {
        language: u16,
        segments: Vec<Segment>,
        array: Vec<u16>,
    },
    Twelve {
        language: u32,
        groups: Vec<Group>,
    },
    Fourteen {
        selectors: Vec<Selector>,
    },
    /// Any other bytes.
    Raw(Vec<u8>),
}

/// A record; several may lead to one subtable.
#[derive(Clone, Copy, Debug, PartialEq, Eq)]
pub struct Record {
    pub platform: u16,
    pub encoding: u16,
    pub leads_to: usize,
}

/// A job with its source taken apart.
#[derive(Clone, Debug, Default, PartialEq, Eq)]
pub struct Model {
    pub records: Vec<Record>,
    pub subtables: Vec<Subtable>,
    pub pairs: Vec<(u32, u16)>,
    pub kept: Vec<u32>,
    pub map: Vec<u16>,
    pub requested: Vec<u16>,
}

fn be(bytes: &mut Vec<u8>, width: usize, numbers: &[u32]) {
    numbers.iter().for_each(|n| bytes.extend_from_slice(&n.to_be_bytes()[4 - width..]));
}

/// The bytes of a format 4, its length and search fields right as far as they fit.
pub fn bytes_4(language: u16, segments: &[Segment], array: &[u16]) -> Vec<u8> {
    let s = segments.len() as u32;
    let e = s.max(1).ilog2();
    let mut b = Vec::new();
    let length = 16 + 8 * s + 2 * array.len() as u32;
    be(&mut b, 2, &[4, length, language.into(), 2 * s, 2 << e, e, (2 * s).wrapping_sub(2 << e)]);
    segments.iter().for_each(|x| be(&mut b, 2, &[x.end]));
    be(&mut b, 2, &[0]);
    segments.iter().for_each(|x| be(&mut b, 2, &[x.start]));
    segments.iter().for_each(|x| be(&mut b, 2, &[x.delta.into()]));
    for (i, x) in segments.iter().enumerate() {
        be(&mut b, 2, &[x.array_at.map_or(0, |at| 2 * (s - i as u32 + at))]);
    }
    array.iter().for_each(|&g| be(&mut b, 2, &[g.into()]));
    b
}

/// The bytes of a format 12.
pub fn bytes_12(language: u32, groups: &[Group]) -> Vec<u8> {
    let (mut b, count) = (Vec::new(), groups.len() as u32);
    be(&mut b, 2, &[12, 0]);
    be(&mut b, 4, &[16 + 12 * count, language, count]);
    groups.iter().for_each(|g| be(&mut b, 4, &[g.start, g.end, g.glyph]));
    b
}

/// The bytes of a format 14; its tables stand in order, each on its own.
pub fn bytes_14(selectors: &[Selector]) -> Vec<u8> {
    let (mut head, mut tables) = (Vec::new(), Vec::new());
    let first = 10 + 11 * selectors.len();
    for selector in selectors {
        be(&mut head, 3, &[selector.point]);
        let at = |there: bool, tables: &Vec<u8>| if there { (first + tables.len()) as u32 } else { 0 };
        be(&mut head, 4, &[at(selector.ranges.is_some(), &tables)]);
        if let Some(ranges) = &selector.ranges {
            be(&mut tables, 4, &[ranges.len() as u32]);
            for &(start, more) in ranges {
                be(&mut tables, 3, &[start]);
                be(&mut tables, 1, &[more.into()]);
            }
        }
        be(&mut head, 4, &[at(selector.mappings.is_some(), &tables)]);
        if let Some(mappings) = &selector.mappings {
            be(&mut tables, 4, &[mappings.len() as u32]);
            for &(code, glyph) in mappings {
                be(&mut tables, 3, &[code]);
                be(&mut tables, 2, &[glyph.into()]);
            }
        }
    }
    let mut b = Vec::new();
    be(&mut b, 2, &[14]);
    be(&mut b, 4, &[(first + tables.len()) as u32, selectors.len() as u32]);
    b.extend(head);
    b.extend(tables);
    b
}

impl Subtable {
    pub fn to_bytes(&self) -> Vec<u8> {
        match self {
            Self::Four { language, segments, array } => bytes_4(*language, segments, array),
            Self::Twelve { language, groups } => bytes_12(*language, groups),
            Self::Fourteen { selectors } => bytes_14(selectors),
            Self::Raw(bytes) => bytes.clone(),
        }
    }

    /// The language; format 14 has none, and of other bytes it is not asked.
    pub fn language(&self) -> u32 {
        match self {
            Self::Four { language, .. } => (*language).into(),
            Self::Twelve { language, .. } => *language,
            Self::Fourteen { .. } | Self::Raw(_) => 0,
        }
    }
}

/// A cmap of records (platform, encoding, place in `subtables`) and subtables without gaps.
pub fn cmap(records: &[(u16, u16, usize)], subtables: &[Vec<u8>]) -> Vec<u8> {
    let mut b = Vec::new();
    be(&mut b, 2, &[0, records.len() as u32]);
    let first = 4 + 8 * records.len();
    for &(platform, encoding, leads_to) in records {
        let before: usize = subtables[..leads_to].iter().map(Vec::len).sum();
        be(&mut b, 2, &[platform.into(), encoding.into()]);
        be(&mut b, 4, &[(first + before) as u32]);
    }
    subtables.iter().for_each(|t| b.extend(t));
    b
}

impl Model {
    /// The source's bytes.
    pub fn source(&self) -> Vec<u8> {
        let records: Vec<_> = self.records.iter().map(|r| (r.platform, r.encoding, r.leads_to)).collect();
        let subtables: Vec<_> = self.subtables.iter().map(Subtable::to_bytes).collect();
        cmap(&records, &subtables)
    }

    /// The job's lists.
    pub fn to_job(&self) -> Job {
        let (codes, glyphs) = self.pairs.iter().copied().unzip();
        Job {
            source: self.source(),
            codes,
            glyphs,
            kept: self.kept.clone(),
            map: self.map.clone(),
            requested: self.requested.clone(),
        }
    }

    /// Kept points sorted, each once, with every listed one among them.
    pub fn settle(&mut self) {
        self.kept.extend(self.pairs.iter().map(|p| p.0));
        self.kept.sort_unstable();
        self.kept.dedup();
    }
}
