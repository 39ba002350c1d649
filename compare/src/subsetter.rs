//! What is compared: an implementation of every call.
use crate::job::Job;
use crustedlane::plain::{self, Answer, Fate, FateKind, Head};
use crustedlane::{Pair, Refusal};

/// An implementation of the rules.
pub trait Subsetter {
    fn name(&self) -> &str;
    fn subset(&self, job: &Job, room: usize) -> Answer;
    fn fate(&self, job: &Job, record: usize) -> Fate;
    fn old_head(&self, table: &[u8], c: u32) -> Head;
    fn new_head(&self, table: &[u8], c: u32) -> Head;
    fn program(&self, input: &[u8]) -> Vec<u8>;

    /// The fates of all records in order; of a refused job the refusal alone.
    fn fates(&self, job: &Job) -> Vec<Fate> {
        let mut fates = Vec::new();
        loop {
            let fate = self.fate(job, fates.len());
            match fate.kind {
                FateKind::NoSuchRecord => return fates,
                FateKind::Refused(_) => return vec![fate],
                _ => fates.push(fate),
            }
        }
    }
}

/// The plain implementation.
pub struct Plain;

impl Subsetter for Plain {
    fn name(&self) -> &str {
        "plain"
    }
    fn subset(&self, j: &Job, room: usize) -> Answer {
        plain::subset(&j.source, &j.codes, &j.glyphs, &j.kept, &j.map, &j.requested, room)
    }
    fn fate(&self, j: &Job, record: usize) -> Fate {
        plain::fate(&j.source, &j.codes, &j.glyphs, &j.kept, &j.map, &j.requested, record)
    }
    fn old_head(&self, table: &[u8], c: u32) -> Head {
        plain::old_head(table, c)
    }
    fn new_head(&self, table: &[u8], c: u32) -> Head {
        plain::new_head(table, c)
    }
    fn program(&self, input: &[u8]) -> Vec<u8> {
        plain::job(input)
    }
    /// Made at once, since the plain implementation plans the whole job for each fate.
    fn fates(&self, j: &Job) -> Vec<Fate> {
        let fates = plain::fates(&j.source, &j.codes, &j.glyphs, &j.kept, &j.map, &j.requested);
        fates.unwrap_or_else(|_| vec![self.fate(j, 0)])
    }
}

/// The proved library.
pub struct Library;

/// What the library's output holds before a call.
const UNTOUCHED: u8 = 0xEE;

/// The pairs of a job and a work room of as many places as it has code points and glyphs: where it has more of one
/// than of the other the room of the other is too short, which is 1 as well.
fn pairs(j: &Job) -> (Vec<Pair>, Vec<u32>, Vec<u16>) {
    let pair = |k| Pair {
        code: j.codes.get(k).copied().unwrap_or_default(),
        glyph: j.glyphs.get(k).copied().unwrap_or_default(),
    };
    let count = j.codes.len().max(j.glyphs.len());
    ((0..count).map(pair).collect(), vec![0; j.codes.len()], vec![0; j.glyphs.len()])
}

/// The work room holds the pairs, or after 1 what it held.
fn room_holds(number: u8, j: &Job, codes: &[u32], glyphs: &[u16]) {
    let kept = if number == 1 {
        codes.iter().all(|&c| c == 0) && glyphs.iter().all(|&g| g == 0)
    } else {
        codes == j.codes && glyphs == j.glyphs
    };
    assert!(kept, "the work room after {number}");
}

fn head(answer: Result<u16, Refusal>) -> Head {
    match answer {
        Ok(glyph) => Head::Glyph(glyph),
        Err(refusal) => Head::Refused(refusal.number()),
    }
}

impl Subsetter for Library {
    fn name(&self) -> &str {
        "library"
    }
    /// Room without an end is what the answer to an empty output asks for.
    fn subset(&self, j: &Job, room: usize) -> Answer {
        if room == usize::MAX {
            return match self.subset(j, 0) {
                Answer::NoRoom(needed) => self.subset(j, needed),
                answer => answer,
            };
        }
        let (pairs, mut codes, mut glyphs) = pairs(j);
        let mut out = vec![UNTOUCHED; room];
        let answer = crustedlane::subset_in(
            &j.source,
            &pairs,
            &mut codes,
            &mut glyphs,
            &j.kept,
            &j.map,
            &j.requested,
            &mut out,
        );
        room_holds(answer.number(), j, &codes, &glyphs);
        let (answer, beyond) = match answer {
            crustedlane::Answer::Written { length, records } => {
                let beyond = out.split_off(length);
                (Answer::Written { bytes: out, records }, beyond)
            }
            crustedlane::Answer::Refused(refusal) => (Answer::Refused(refusal.number()), out),
            crustedlane::Answer::NoRoom { needed } => (Answer::NoRoom(needed), out),
        };
        assert!(beyond.iter().all(|&b| b == UNTOUCHED), "the output beyond the result");
        answer
    }
    fn fate(&self, j: &Job, record: usize) -> Fate {
        let (pairs, mut codes, mut glyphs) = pairs(j);
        let told = crustedlane::fate_in(
            &j.source,
            &pairs,
            &mut codes,
            &mut glyphs,
            &j.kept,
            &j.map,
            &j.requested,
            record,
        );
        let kind = match told.kind {
            crustedlane::FateKind::NotRetained => FateKind::NotRetained,
            crustedlane::FateKind::Skipped => FateKind::Skipped,
            crustedlane::FateKind::Empty => FateKind::Empty,
            crustedlane::FateKind::TooLong => FateKind::TooLong,
            crustedlane::FateKind::Covered => FateKind::Covered,
            crustedlane::FateKind::WrittenAt(offset) => FateKind::WrittenAt(offset as u32),
            crustedlane::FateKind::NoSuchRecord => FateKind::NoSuchRecord,
            crustedlane::FateKind::Refused(refusal) => FateKind::Refused(refusal.number()),
        };
        let number = if let FateKind::Refused(number) = kind { number } else { 0 };
        room_holds(number, j, &codes, &glyphs);
        Fate { platform: told.platform, encoding: told.encoding, kind }
    }
    fn old_head(&self, table: &[u8], c: u32) -> Head {
        head(crustedlane::old_head(table, c))
    }
    fn new_head(&self, table: &[u8], c: u32) -> Head {
        head(crustedlane::new_head(table, c))
    }
    /// The library has no program: the job is taken apart here, and its reply told from the call.
    fn program(&self, input: &[u8]) -> Vec<u8> {
        let no = |number| vec![b'N', b'O', 0, 0, 0, 1, number];
        match Job::from_bytes(input).map(|job| self.subset(&job, 32_768)) {
            None => no(12),
            Some(Answer::Refused(number)) => no(number),
            Some(Answer::NoRoom(_)) => no(10),
            Some(Answer::Written { bytes, .. }) => {
                [&b"OK"[..], &(bytes.len() as u32).to_be_bytes(), &bytes].concat()
            }
        }
    }
}
