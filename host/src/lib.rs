//! The proved cmap subsetter for Rust hosts.
//!
//! [`subset`] cuts a font's character map down to a job's code points, [`fate`] tells what becomes of a source
//! record, and [`old_head`] and [`new_head`] tell what a print head prints. Any sizes and any bytes get an answer.
//! What the library asks of a host is that pointers are good, aligned and not null, and that nothing else reads or
//! writes what a call writes; Rust's slices are all of that, so every call here is safe. The rules are in
//! `docs/RULES.md`, what is proved in `docs/PROMISES.md`; `docs/GLOSSARY.md` tells the lists by one job.
//!
//! [`plain`] is a second implementation of the rules, written from their text and not from the proved code. It
//! exists to be compared with.
// "mod 65,536" is written as the rules write it.
#![allow(clippy::manual_is_multiple_of)]

mod answer;
mod boundary;
pub mod plain;

pub use answer::{Answer, Fate, FateKind, Refusal};
pub use boundary::Pair;

/// Cuts the source's map down to the pairs and writes the result to `out`.
///
/// `kept` are the code points that stay in the font, those of the pairs and the wanted selectors among them. Entry g
/// of `map` is old glyph g's new number, 65,535 if it is absent. `requested` are old glyphs whose variation mappings
/// stay, under a kept selector, though the code point is not kept. `kept`, `requested` and the points of `pairs` rise
/// strictly. A refusal leaves `out` as it was, a result leaves the bytes after it.
///
/// **Variation forms are kept only for selectors on the kept list.** The glyphs of `pairs` are the caller's word: they
/// are held against their limit of 65,534 and against nothing else, neither the map nor the source.
pub fn subset(
    source: &[u8],
    pairs: &[Pair],
    kept: &[u32],
    map: &[u16],
    requested: &[u16],
    out: &mut [u8],
) -> Answer {
    let (mut codes, mut glyphs) = rooms(pairs);
    subset_in(source, pairs, &mut codes, &mut glyphs, kept, map, requested, out)
}

/// [`subset`] with the work room lent: two slices, each at least as long as the pairs.
///
/// After any answer but number 1 their first places hold the pairs' code points and glyphs.
#[allow(clippy::too_many_arguments)]
pub fn subset_in(
    source: &[u8],
    pairs: &[Pair],
    codes: &mut [u32],
    glyphs: &mut [u16],
    kept: &[u32],
    map: &[u16],
    requested: &[u16],
    out: &mut [u8],
) -> Answer {
    // SAFETY: each pointer and count is a slice's; those written are borrowed for this call alone.
    let raw = unsafe {
        boundary::cmap_subset(
            source.as_ptr(),
            source.len(),
            pairs.as_ptr(),
            pairs.len(),
            codes.as_mut_ptr(),
            codes.len(),
            glyphs.as_mut_ptr(),
            glyphs.len(),
            kept.as_ptr(),
            kept.len(),
            map.as_ptr(),
            map.len(),
            requested.as_ptr(),
            requested.len(),
            out.as_mut_ptr(),
            out.len(),
        )
    };
    raw.into()
}

/// What becomes of the source's record of that number, counted from 0, in the same job as [`subset`].
pub fn fate(
    source: &[u8],
    pairs: &[Pair],
    kept: &[u32],
    map: &[u16],
    requested: &[u16],
    record: usize,
) -> Fate {
    let (mut codes, mut glyphs) = rooms(pairs);
    fate_in(source, pairs, &mut codes, &mut glyphs, kept, map, requested, record)
}

/// [`fate`] with the work room lent, which it leaves as [`subset_in`] does.
#[allow(clippy::too_many_arguments)]
pub fn fate_in(
    source: &[u8],
    pairs: &[Pair],
    codes: &mut [u32],
    glyphs: &mut [u16],
    kept: &[u32],
    map: &[u16],
    requested: &[u16],
    record: usize,
) -> Fate {
    // SAFETY: as in `subset_in`.
    let raw = unsafe {
        boundary::cmap_fate(
            source.as_ptr(),
            source.len(),
            pairs.as_ptr(),
            pairs.len(),
            codes.as_mut_ptr(),
            codes.len(),
            glyphs.as_mut_ptr(),
            glyphs.len(),
            kept.as_ptr(),
            kept.len(),
            map.as_ptr(),
            map.len(),
            requested.as_ptr(),
            requested.len(),
            record,
        )
    };
    raw.into()
}

/// The glyph that the old head prints for a code point: by the first record that leads to a readable format 4. So it
/// prints 0 for every point above U+FFFF, also where the new head has a glyph.
pub fn old_head(table: &[u8], code: u32) -> Result<u16, Refusal> {
    // SAFETY: the pointer and count are a slice's.
    unsafe { boundary::cmap_old_head(table.as_ptr(), table.len(), code) }.into()
}

/// The glyph that the new head prints: by the first readable format 12, and as the old head if there is none. Neither
/// head reads format 14.
pub fn new_head(table: &[u8], code: u32) -> Result<u16, Refusal> {
    // SAFETY: the pointer and count are a slice's.
    unsafe { boundary::cmap_new_head(table.as_ptr(), table.len(), code) }.into()
}

/// Work room for some pairs.
fn rooms(pairs: &[Pair]) -> (Vec<u32>, Vec<u16>) {
    (vec![0; pairs.len()], vec![0; pairs.len()])
}
