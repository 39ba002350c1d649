//! The smallest form of a job that still shows a difference.
use crate::domain::check;
use crate::model::{Model, Subtable};
use std::ops::Range;

/// The most rounds of cutting.
const ROUNDS: usize = 300;

/// Cuts parts away for as long as the job stays in the domain and still differs; `differing` tells the first
/// model of some that does.
pub fn shrink(model: &Model, differing: &dyn Fn(&[Model]) -> Option<usize>) -> Model {
    let mut small = model.clone();
    for _ in 0..ROUNDS {
        let next = cuts(&small).chunks(40).find_map(|cuts| {
            let mut some: Vec<Model> = cuts.iter().map(|cut| cut.of(&small)).collect();
            some.retain(|m| *m != small && check(m).is_ok());
            differing(&some).map(|k| some.swap_remove(k))
        });
        match next {
            Some(next) => small = next,
            None => break,
        }
    }
    small
}

/// A part that can be taken away.
enum Cut {
    Records(Range<usize>),
    /// Pairs, from the kept points too.
    Pairs(Range<usize>),
    /// Pairs, whose points stay kept.
    Listed(Range<usize>),
    Kept(Range<usize>),
    Requested,
    Glyphs(usize),
    /// A subtable that no record leads to.
    Unused(usize),
    /// Segments, groups or selectors of a subtable.
    Parts(usize, Range<usize>),
    /// Ranges of a selector of a subtable.
    Ranges(usize, usize, Range<usize>),
    /// Mappings of a selector of a subtable.
    Mappings(usize, usize, Range<usize>),
}

/// The pieces of a list of some length: the whole, halves, and so on, not too many.
fn pieces(length: usize) -> Vec<Range<usize>> {
    let (mut list, mut piece) = (Vec::new(), length);
    while piece > 0 && list.len() < 200 {
        list.extend((0..length).step_by(piece).map(|at| at..(at + piece).min(length)));
        piece /= 2;
    }
    list
}

/// Every cut of a model.
fn cuts(model: &Model) -> Vec<Cut> {
    let mut list: Vec<Cut> = pieces(model.records.len()).into_iter().map(Cut::Records).collect();
    list.extend(pieces(model.pairs.len()).into_iter().map(Cut::Pairs));
    list.extend(pieces(model.pairs.len()).into_iter().map(Cut::Listed));
    list.extend(pieces(model.kept.len()).into_iter().map(Cut::Kept));
    list.push(Cut::Requested);
    let n = model.map.len();
    list.extend([1, 2, 10, n / 2, n.saturating_sub(1)].map(|n| Cut::Glyphs(n.max(1))));
    for (i, subtable) in model.subtables.iter().enumerate() {
        if model.records.iter().all(|record| record.leads_to != i) {
            list.push(Cut::Unused(i));
        }
        let parts = match subtable {
            Subtable::Four { segments, .. } => segments.len(),
            Subtable::Twelve { groups, .. } => groups.len(),
            Subtable::Fourteen { selectors } => selectors.len(),
            Subtable::Raw(_) => 0,
        };
        list.extend(pieces(parts).into_iter().map(|piece| Cut::Parts(i, piece)));
        if let Subtable::Fourteen { selectors } = subtable {
            for (j, selector) in selectors.iter().enumerate() {
                let count = selector.ranges.as_ref().map_or(0, Vec::len);
                list.extend(pieces(count).into_iter().map(|piece| Cut::Ranges(i, j, piece)));
                let count = selector.mappings.as_ref().map_or(0, Vec::len);
                list.extend(pieces(count).into_iter().map(|piece| Cut::Mappings(i, j, piece)));
            }
        }
    }
    list
}

impl Cut {
    /// A model without this part.
    fn of(&self, model: &Model) -> Model {
        let mut m = model.clone();
        match self {
            Self::Records(piece) => drop(m.records.drain(piece.clone())),
            Self::Pairs(piece) => {
                let gone: Vec<u32> = m.pairs.drain(piece.clone()).map(|p| p.0).collect();
                m.kept.retain(|c| gone.binary_search(c).is_err());
            }
            Self::Listed(piece) => drop(m.pairs.drain(piece.clone())),
            Self::Kept(piece) => drop(m.kept.drain(piece.clone())),
            Self::Requested => m.requested.clear(),
            Self::Glyphs(n) => {
                m.map.truncate(*n);
                m.requested.retain(|&g| usize::from(g) < *n);
            }
            Self::Unused(i) => {
                m.subtables.remove(*i);
                m.records.iter_mut().filter(|r| r.leads_to > *i).for_each(|r| r.leads_to -= 1);
            }
            Self::Parts(i, piece) => match &mut m.subtables[*i] {
                Subtable::Four { segments, .. } => drop(segments.drain(piece.clone())),
                Subtable::Twelve { groups, .. } => drop(groups.drain(piece.clone())),
                Subtable::Fourteen { selectors } => drop(selectors.drain(piece.clone())),
                Subtable::Raw(_) => {}
            },
            Self::Ranges(i, j, piece) => {
                if let Subtable::Fourteen { selectors } = &mut m.subtables[*i] {
                    selectors[*j].ranges.as_mut().expect("ranges").drain(piece.clone());
                }
            }
            Self::Mappings(i, j, piece) => {
                if let Subtable::Fourteen { selectors } = &mut m.subtables[*i] {
                    selectors[*j].mappings.as_mut().expect("mappings").drain(piece.clone());
                }
            }
        }
        m.settle();
        m
    }
}
