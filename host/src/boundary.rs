//! The boundary to the proved library: the declarations of `include/crustedlane.h`, which says what each means.

/// A listed code point and its new glyph.
#[repr(C)]
#[derive(Clone, Copy, Debug, PartialEq, Eq)]
pub struct Pair {
    pub code: u32,
    pub glyph: u16,
}

#[repr(C)]
pub(crate) struct RawAnswer {
    pub number: u8,
    pub length: usize,
    pub records: usize,
}

#[repr(C)]
pub(crate) struct RawFate {
    pub number: u8,
    pub platform: u32,
    pub encoding: u32,
    pub kind: u8,
    pub offset: usize,
}

#[repr(C)]
pub(crate) struct RawGlyph {
    pub number: u8,
    pub glyph: u32,
}

extern "C" {
    pub(crate) fn cmap_subset(
        source: *const u8,
        source_count: usize,
        pairs: *const Pair,
        pair_count: usize,
        codes: *mut u32,
        code_count: usize,
        glyphs: *mut u16,
        glyph_count: usize,
        kept: *const u32,
        kept_count: usize,
        map: *const u16,
        map_count: usize,
        requested: *const u16,
        requested_count: usize,
        output: *mut u8,
        output_count: usize,
    ) -> RawAnswer;

    pub(crate) fn cmap_fate(
        source: *const u8,
        source_count: usize,
        pairs: *const Pair,
        pair_count: usize,
        codes: *mut u32,
        code_count: usize,
        glyphs: *mut u16,
        glyph_count: usize,
        kept: *const u32,
        kept_count: usize,
        map: *const u16,
        map_count: usize,
        requested: *const u16,
        requested_count: usize,
        record: usize,
    ) -> RawFate;

    pub(crate) fn cmap_old_head(table: *const u8, table_count: usize, code: u32) -> RawGlyph;
    pub(crate) fn cmap_new_head(table: *const u8, table_count: usize, code: u32) -> RawGlyph;
}

#[cfg(test)]
mod tests {
    use super::*;
    use std::mem::{align_of, offset_of, size_of};

    // examples/c/host.c asks the same of the header.
    #[test]
    fn layouts_are_those_of_the_header() {
        assert_eq!((size_of::<Pair>(), align_of::<Pair>()), (8, 4));
        assert_eq!((offset_of!(Pair, code), offset_of!(Pair, glyph)), (0, 4));

        assert_eq!((size_of::<RawAnswer>(), align_of::<RawAnswer>()), (24, 8));
        assert_eq!(offset_of!(RawAnswer, number), 0);
        assert_eq!((offset_of!(RawAnswer, length), offset_of!(RawAnswer, records)), (8, 16));

        assert_eq!((size_of::<RawFate>(), align_of::<RawFate>()), (24, 8));
        assert_eq!((offset_of!(RawFate, number), offset_of!(RawFate, platform)), (0, 4));
        assert_eq!((offset_of!(RawFate, encoding), offset_of!(RawFate, kind)), (8, 12));
        assert_eq!(offset_of!(RawFate, offset), 16);

        assert_eq!((size_of::<RawGlyph>(), align_of::<RawGlyph>()), (8, 4));
        assert_eq!((offset_of!(RawGlyph, number), offset_of!(RawGlyph, glyph)), (0, 4));
    }
}
