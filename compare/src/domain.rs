//! Whether a job lies in the agreed domain of `docs/RULES.md`.
use crate::model::{Group, Model, Segment, Selector, Subtable};
use std::collections::BTreeSet;

pub const LIMIT: u32 = 0x10FFFF;
pub const FOUR_PAIRS: [(u16, u16); 4] = [(0, 3), (0, 4), (3, 1), (3, 10)];

/// Whether a default table of `r` ranges is written as ranges.
pub fn ranges_branch(r: usize, kept: usize) -> bool {
    r > kept * (usize::BITS - r.leading_zeros()) as usize
}

/// The first and last point that a group maps in a font of `n` glyphs.
pub fn group_span(g: &Group, n: usize) -> Option<(u32, u32)> {
    let n = n as u64;
    let skip = u32::from(g.glyph == 0);
    let (start, end, glyph) = (u64::from(g.start) + u64::from(skip), g.end.min(LIMIT), g.glyph.max(1));
    let last = u64::from(end).min(start + n.checked_sub(glyph.into())?);
    (u64::from(glyph) < n && start <= end.into()).then_some((start as u32, last as u32))
}

/// The points that a format 4 of the agreed domain maps.
pub fn points_4(segments: &[Segment], array: &[u16]) -> Vec<u32> {
    let maps = |x: &Segment, c: u32| match x.array_at {
        None => (c + u32::from(x.delta)) % 65_536 != 0,
        Some(at) => array[(at + c - x.start) as usize] != 0,
    };
    let walked = segments.iter().take_while(|x| x.start != 0xFFFF);
    walked.flat_map(|x| (x.start..=x.end).filter(move |&c| maps(x, c))).collect()
}

fn apart(list: impl Iterator<Item = (u32, u32)>) -> bool {
    let mut next = Some(0);
    for (start, end) in list {
        if start > end || next.is_none_or(|next| start < next) {
            return false;
        }
        next = end.checked_add(1);
    }
    true
}

fn sound_4(segments: &[Segment], array: &[u16]) -> Result<(), &'static str> {
    let inside = |x: &Segment| x.array_at.is_none_or(|at| ((at + x.end - x.start) as usize) < array.len());
    if segments.is_empty() || 16 + 8 * segments.len() + 2 * array.len() > 65_535 {
        Err("format 4 of no length that can be told")
    } else if !apart(segments.iter().map(|x| (x.start, x.end))) || segments.iter().any(|x| x.end > 0xFFFF) {
        Err("segments not in order and apart")
    } else if !segments.iter().all(inside) {
        Err("array index outside")
    } else {
        Ok(())
    }
}

fn sound_14(selectors: &[Selector], kept: &[u32]) -> Result<(), &'static str> {
    if selectors.windows(2).any(|w| w[0].point >= w[1].point) || selectors.len() > 512 {
        return Err("selectors not in order, or too many");
    }
    for selector in selectors {
        let Some(ranges) = &selector.ranges else { continue };
        let spans = || ranges.iter().map(|&(start, more)| (start, start + u32::from(more)));
        if !apart(spans()) || ranges.first().is_some_and(|r| r.0 == 0) {
            return Err("ranges not in order and apart, or from 0");
        }
        let inner = |&(start, end): &(u32, u32)| {
            let at = kept.partition_point(|&c| c <= start);
            kept.get(at).is_some_and(|&c| c <= end)
        };
        if ranges_branch(ranges.len(), kept.len()) && spans().any(|span| inner(&span)) {
            return Err("a point inside a range is kept, in the ranges branch");
        }
    }
    Ok(())
}

fn long_run(pairs: &[(u32, u16)]) -> bool {
    let mut length = 1;
    pairs.windows(2).any(|w| {
        let on = w[0].0 + 1 == w[1].0 && u32::from(w[0].1) + 1 == w[1].1.into();
        length = if on { length + 1 } else { 1 };
        length >= 32_768
    })
}

/// Why a model is outside the agreed domain, or in a place of it that is a recorded difference.
pub fn check(model: &Model) -> Result<(), &'static str> {
    let mut seen = BTreeSet::new();
    for record in &model.records {
        let (pair, subtable) = ((record.platform, record.encoding), &model.subtables[record.leads_to]);
        if !seen.insert((pair, subtable.language())) {
            return Err("records not distinct");
        }
        let four_or_twelve = matches!(subtable, Subtable::Four { .. } | Subtable::Twelve { .. });
        if FOUR_PAIRS.contains(&pair) && !four_or_twelve {
            return Err("one of the four pairs leads elsewhere");
        }
        match subtable {
            Subtable::Four { segments, array, .. } => sound_4(segments, array)?,
            Subtable::Twelve { groups, .. } => {
                let span = |g: &Group| group_span(g, model.map.len());
                let listed = |(first, last): (u32, u32)| {
                    let at = model.pairs.partition_point(|p| p.0 < first);
                    model.pairs.get(at).is_some_and(|p| p.0 <= last)
                };
                if !apart(groups.iter().map(|g| (g.start, g.end))) {
                    return Err("groups not in order and apart");
                } else if groups.iter().any(|g| g.start == u32::MAX && g.glyph == 0) {
                    return Err("the group 0xFFFFFFFF of glyph 0");
                } else if FOUR_PAIRS.contains(&pair) && !groups.iter().filter_map(span).any(listed) {
                    return Err("a format 12 without pairs");
                }
            }
            Subtable::Fourteen { selectors } if pair == (0, 5) => sound_14(selectors, &model.kept)?,
            Subtable::Fourteen { .. } => return Err("format 14 elsewhere"),
            Subtable::Raw(bytes) if bytes.starts_with(&[0, 14]) => return Err("format 14 raw"),
            Subtable::Raw(_) => {}
        }
    }
    if model.records.len() > 64 {
        Err("too many records")
    } else if long_run(&model.pairs) {
        Err("a run of 32,768")
    } else {
        Ok(())
    }
}
