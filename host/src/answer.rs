//! What the calls answer, and how the library's numbers tell it.
use crate::boundary::{RawAnswer, RawFate, RawGlyph};
use std::fmt;

/// What a call for the whole result comes to.
#[derive(Clone, Copy, Debug, PartialEq, Eq)]
pub enum Answer {
    /// The first `length` bytes of the output are the result, which has so many records.
    Written { length: usize, records: usize },
    /// Nothing was written.
    Refused(Refusal),
    /// Number 10: the output is shorter than the result, and nothing was written.
    NoRoom { needed: usize },
}

impl Answer {
    /// The answer's number: 0 for a result, else that of the refusal.
    pub fn number(&self) -> u8 {
        match self {
            Self::Written { .. } => 0,
            Self::Refused(refusal) => refusal.number(),
            Self::NoRoom { .. } => 10,
        }
    }
}

/// Why a call refuses; 10 is [`Answer::NoRoom`].
#[derive(Clone, Copy, Debug, PartialEq, Eq, PartialOrd, Ord, Hash)]
pub enum Refusal {
    Sizes = 1,
    Pairs = 2,
    Kept = 3,
    Requested = 4,
    Source = 5,
    NoBasicRecord = 6,
    NoFullRecord = 7,
    MissingGlyph = 8,
    NothingWritten = 9,
    NoTable = 11,
}

impl Refusal {
    pub fn number(self) -> u8 {
        self as u8
    }
}

impl fmt::Display for Refusal {
    fn fmt(&self, f: &mut fmt::Formatter) -> fmt::Result {
        f.write_str(match self {
            Self::Sizes => {
                "a list or the source is too long, the map is empty, or the work room is too short"
            }
            Self::Pairs => "the pairs' code points don't rise, or a code point or glyph is above its limit",
            Self::Kept => "the kept points don't rise, one is above 0x10FFFF, or a listed point is not kept",
            Self::Requested => "the requested glyphs don't rise, or one is not a glyph of the font",
            Self::Source => "the source's header is short, of another version, or has too many records",
            Self::NoBasicRecord => "no retained record is format 12 and none is (0,3) or (3,1)",
            Self::NoFullRecord => "a retained record is format 12 and none is (0,4) or (3,10)",
            Self::MissingGlyph => "a variation mapping to be kept names a glyph that the map does not have",
            Self::NothingWritten => "neither a format 4 nor a format 12 table would be written",
            Self::NoTable => "there is no table that this head reads",
        })
    }
}

impl std::error::Error for Refusal {}

/// What becomes of one source record. Platform and encoding are the record's, and 0 where there is none.
#[derive(Clone, Copy, Debug, PartialEq, Eq)]
pub struct Fate {
    pub platform: u16,
    pub encoding: u16,
    pub kind: FateKind,
}

/// The kinds of fate, with refusals and the record that isn't there.
#[derive(Clone, Copy, Debug, PartialEq, Eq)]
pub enum FateKind {
    NotRetained,
    Skipped,
    Empty,
    TooLong,
    Covered,
    /// The record's table stands at this offset of the result.
    WrittenAt(usize),
    NoSuchRecord,
    Refused(Refusal),
}

impl fmt::Display for FateKind {
    fn fmt(&self, f: &mut fmt::Formatter) -> fmt::Result {
        match self {
            Self::NotRetained => f.write_str("not retained"),
            Self::Skipped => f.write_str("skipped"),
            Self::Empty => f.write_str("empty"),
            Self::TooLong => f.write_str("too long"),
            Self::Covered => f.write_str("covered"),
            Self::WrittenAt(offset) => write!(f, "written at {offset}"),
            Self::NoSuchRecord => f.write_str("no such record"),
            Self::Refused(refusal) => write!(f, "refused: {refusal}"),
        }
    }
}

// The library's promises rule out the numbers that panic here.

fn refusal(number: u8) -> Refusal {
    use Refusal::*;
    match number {
        1 => Sizes,
        2 => Pairs,
        3 => Kept,
        4 => Requested,
        5 => Source,
        6 => NoBasicRecord,
        7 => NoFullRecord,
        8 => MissingGlyph,
        9 => NothingWritten,
        11 => NoTable,
        _ => panic!("no refusal has number {number}"),
    }
}

/// A number that the library reads from two bytes.
fn two_bytes(number: u32) -> u16 {
    u16::try_from(number).expect("a number of two bytes")
}

impl From<RawAnswer> for Answer {
    fn from(raw: RawAnswer) -> Self {
        match raw.number {
            0 => Self::Written { length: raw.length, records: raw.records },
            10 => Self::NoRoom { needed: raw.length },
            number => Self::Refused(refusal(number)),
        }
    }
}

impl From<RawFate> for Fate {
    fn from(raw: RawFate) -> Self {
        let kind = match raw.kind {
            0 => FateKind::NotRetained,
            1 => FateKind::Skipped,
            2 => FateKind::Empty,
            3 => FateKind::TooLong,
            4 => FateKind::Covered,
            5 => FateKind::WrittenAt(raw.offset),
            6 => FateKind::NoSuchRecord,
            7 => FateKind::Refused(refusal(raw.number)),
            kind => panic!("no fate is of kind {kind}"),
        };
        Self { platform: two_bytes(raw.platform), encoding: two_bytes(raw.encoding), kind }
    }
}

impl From<RawGlyph> for Result<u16, Refusal> {
    fn from(raw: RawGlyph) -> Self {
        match raw.number {
            0 => Ok(two_bytes(raw.glyph)),
            number => Err(refusal(number)),
        }
    }
}
