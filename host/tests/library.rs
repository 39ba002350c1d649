//! The proved library through its safe calls: stored jobs, the plain implementation, and what a call leaves alone.
mod stored;

use crustedlane::{fate, fate_in, new_head, old_head, plain, subset, subset_in};
use crustedlane::{Answer, Fate, FateKind, Pair, Refusal};

/// What the output and the two halves of the work room hold before a call.
const OUT: u8 = 0xEE;
const CODE: u32 = 0x7777_7777;
const GLYPH: u16 = 0x9999;
/// Places of the work room beyond the pairs.
const BEYOND: usize = 3;

/// The lists of one call.
#[derive(Default)]
struct Job {
    source: Vec<u8>,
    pairs: Vec<Pair>,
    kept: Vec<u32>,
    map: Vec<u16>,
    requested: Vec<u16>,
}

/// The numbers of so many bytes in a payload, if they are whole and not too many.
fn numbers(payload: &[u8], width: usize, most: usize) -> Option<Vec<u64>> {
    let entries = payload.chunks_exact(width);
    let whole = entries.remainder().is_empty() && entries.len() <= most;
    let number = |entry: &[u8]| entry.iter().fold(0, |n, &b| n << 8 | u64::from(b));
    whole.then(|| entries.map(number).collect())
}

impl Job {
    /// A job of the program; `None` is 12.
    fn parse(input: &[u8]) -> Option<Self> {
        let mut rest = input;
        let mut list = |mark: &[u8], width, most| {
            let after = rest.strip_prefix(mark)?;
            let length = u32::from_be_bytes(*after.first_chunk()?) as usize;
            let payload = after[4..].get(..length)?;
            rest = &after[4 + length..];
            numbers(payload, width, most)
        };
        let source = list(b"TB", 1, 32_768)?.iter().map(|&n| n as u8).collect();
        let pair = |&n: &u64| Pair { code: (n >> 16) as u32, glyph: n as u16 };
        let pairs = list(b"PR", 6, 2_048)?.iter().map(pair).collect();
        let kept = list(b"KP", 4, 4_096)?.iter().map(|&n| n as u32).collect();
        let map = list(b"MP", 2, 8_192)?.iter().map(|&n| n as u16).collect();
        let requested = list(b"RQ", 2, 2_048)?.iter().map(|&n| n as u16).collect();
        rest.is_empty().then_some(Self { source, pairs, kept, map, requested })
    }

    fn codes(&self) -> Vec<u32> {
        self.pairs.iter().map(|pair| pair.code).collect()
    }

    fn glyphs(&self) -> Vec<u16> {
        self.pairs.iter().map(|pair| pair.glyph).collect()
    }

    /// The answer with an output of so many bytes, and the output; asks what the call leaves alone and leaves behind.
    fn cut(&self, room: usize) -> (Answer, Vec<u8>) {
        let mut out = vec![OUT; room];
        let (mut codes, mut glyphs) = self.rooms();
        let answer = subset_in(
            &self.source,
            &self.pairs,
            &mut codes,
            &mut glyphs,
            &self.kept,
            &self.map,
            &self.requested,
            &mut out,
        );
        self.room_holds(answer.number(), &codes, &glyphs);
        let written = match answer {
            Answer::Written { length, .. } => length,
            _ => 0,
        };
        assert!(out[written..].iter().all(|&b| b == OUT), "bytes beyond the result");
        let mut again = vec![OUT; room];
        let source = &self.source;
        assert_eq!(subset(source, &self.pairs, &self.kept, &self.map, &self.requested, &mut again), answer);
        assert_eq!(again, out);
        (answer, out)
    }

    /// The fate of a record, with the same questions.
    fn fate(&self, record: usize) -> Fate {
        let (mut codes, mut glyphs) = self.rooms();
        let told = fate_in(
            &self.source,
            &self.pairs,
            &mut codes,
            &mut glyphs,
            &self.kept,
            &self.map,
            &self.requested,
            record,
        );
        let number = match told.kind {
            FateKind::Refused(refusal) => refusal.number(),
            _ => 0,
        };
        self.room_holds(number, &codes, &glyphs);
        assert_eq!(fate(&self.source, &self.pairs, &self.kept, &self.map, &self.requested, record), told);
        told
    }

    fn rooms(&self) -> (Vec<u32>, Vec<u16>) {
        let places = self.pairs.len() + BEYOND;
        (vec![CODE; places], vec![GLYPH; places])
    }

    /// After any number but 1 the first places of the work room hold the pairs, and the others what they held.
    fn room_holds(&self, number: u8, codes: &[u32], glyphs: &[u16]) {
        let held = if number == 1 { 0 } else { self.pairs.len() };
        assert_eq!(codes[..held], self.codes()[..held]);
        assert_eq!(glyphs[..held], self.glyphs()[..held]);
        assert!(codes[held..].iter().all(|&c| c == CODE) && glyphs[held..].iter().all(|&g| g == GLYPH));
    }

    /// The library's answers are the plain implementation's, for some outputs, all records and some code points.
    fn same_as_plain(&self) {
        let (codes, glyphs) = (self.codes(), self.glyphs());
        let plainly =
            |room| plain::subset(&self.source, &codes, &glyphs, &self.kept, &self.map, &self.requested, room);
        let needed = match plainly(usize::MAX) {
            plain::Answer::Written { bytes, .. } => bytes.len(),
            _ => 0,
        };
        for room in [0, needed.saturating_sub(1), needed, needed + 9] {
            let (answer, out) = self.cut(room);
            match (answer, plainly(room)) {
                (Answer::Written { length, records }, plain::Answer::Written { bytes, records: plainly }) => {
                    assert!(out[..length] == bytes && records == plainly);
                }
                (Answer::Refused(refusal), plain::Answer::Refused(number)) => {
                    assert_eq!(refusal.number(), number);
                }
                (Answer::NoRoom { needed }, plain::Answer::NoRoom(length)) => assert_eq!(needed, length),
                other => panic!("{other:?}"),
            }
        }
        self.fates_as_plain(&codes, &glyphs);
        let points = self.points();
        heads_as_plain(&self.source, &points);
        let (_, result) = self.cut(needed);
        heads_as_plain(&result, &points);
    }

    fn fates_as_plain(&self, codes: &[u32], glyphs: &[u16]) {
        let plainly = plain::fates(&self.source, codes, glyphs, &self.kept, &self.map, &self.requested);
        let count = plainly.as_ref().map_or(0, Vec::len);
        for record in (0..=count).chain([usize::MAX]) {
            let expected = match &plainly {
                Err(number) => {
                    plain::Fate { platform: 0, encoding: 0, kind: plain::FateKind::Refused(*number) }
                }
                Ok(fates) => fates.get(record).copied().unwrap_or(plain::Fate {
                    platform: 0,
                    encoding: 0,
                    kind: plain::FateKind::NoSuchRecord,
                }),
            };
            let told = self.fate(record);
            assert_eq!((told.platform, told.encoding), (expected.platform, expected.encoding));
            assert_eq!(plain_kind(told.kind), expected.kind);
        }
    }

    /// Listed numbers, their neighbours, and borders.
    fn points(&self) -> Vec<u32> {
        let near = |pair: &Pair| [pair.code.wrapping_sub(1), pair.code, pair.code.wrapping_add(1)];
        let mut points: Vec<u32> = self.pairs.iter().flat_map(near).collect();
        points.extend([0, 0xFFFE, 0xFFFF, 0x10000, 0x10FFFF, 0x110000, u32::MAX]);
        points.sort_unstable();
        points.dedup();
        points
    }
}

fn plain_kind(kind: FateKind) -> plain::FateKind {
    match kind {
        FateKind::NotRetained => plain::FateKind::NotRetained,
        FateKind::Skipped => plain::FateKind::Skipped,
        FateKind::Empty => plain::FateKind::Empty,
        FateKind::TooLong => plain::FateKind::TooLong,
        FateKind::Covered => plain::FateKind::Covered,
        FateKind::WrittenAt(offset) => plain::FateKind::WrittenAt(offset as u32),
        FateKind::NoSuchRecord => plain::FateKind::NoSuchRecord,
        FateKind::Refused(refusal) => plain::FateKind::Refused(refusal.number()),
    }
}

fn heads_as_plain(table: &[u8], points: &[u32]) {
    let plainly = |head: plain::Head| match head {
        plain::Head::Glyph(glyph) => Ok(glyph),
        plain::Head::Refused(number) => Err(number),
    };
    for &code in points {
        let old = old_head(table, code).map_err(Refusal::number);
        assert_eq!(old, plainly(plain::old_head(table, code)), "old head, {code:#x}");
        let new = new_head(table, code).map_err(Refusal::number);
        assert_eq!(new, plainly(plain::new_head(table, code)), "new head, {code:#x}");
    }
}

#[test]
fn stored_jobs_get_the_program_s_answers() {
    for stored in stored::stored() {
        let reply = match Job::parse(&stored.job) {
            None => vec![b'N', b'O', 0, 0, 0, 1, 12],
            Some(job) => match job.cut(32_768) {
                (Answer::Written { length, .. }, out) => {
                    [b"OK", &(length as u32).to_be_bytes()[..], &out[..length]].concat()
                }
                (refused, _) => vec![b'N', b'O', 0, 0, 0, 1, refused.number()],
            },
        };
        assert!(reply == stored.answer, "{}", stored.name);
    }
}

#[test]
fn stored_jobs_as_plain() {
    for stored in stored::stored() {
        eprintln!("{}", stored.name);
        if let Some(job) = Job::parse(&stored.job) {
            job.same_as_plain();
        }
    }
}

/// The whole case of the rules: U+0041 as glyph 1.
fn whole() -> Job {
    let words: [u16; 22] =
        [0, 1, 3, 1, 0, 12, 4, 0x20, 0, 4, 4, 1, 0, 0x41, 0xFFFF, 0, 0x41, 0xFFFF, 0xFFC0, 1, 0, 0];
    Job {
        source: words.iter().flat_map(|n| n.to_be_bytes()).collect(),
        pairs: vec![Pair { code: 0x41, glyph: 1 }],
        kept: vec![0x41],
        map: vec![0, 1],
        requested: vec![],
    }
}

#[test]
fn the_whole_case() {
    let job = whole();
    assert_eq!(job.cut(44), (Answer::Written { length: 44, records: 1 }, job.source.clone()));
    assert_eq!(job.cut(43).0, Answer::NoRoom { needed: 44 });
    assert_eq!(job.fate(0), Fate { platform: 3, encoding: 1, kind: FateKind::WrittenAt(12) });
    assert_eq!((old_head(&job.source, 0x41), new_head(&job.source, 0x42)), (Ok(1), Ok(0)));
    assert_eq!(new_head(&job.source[..43], 0x41), Err(Refusal::NoTable));
    job.same_as_plain();
}

#[test]
fn empty_slices() {
    assert_eq!(subset(&[], &[], &[], &[], &[], &mut []), Answer::Refused(Refusal::Sizes));
    assert_eq!(subset(&[], &[], &[], &[0], &[], &mut []), Answer::Refused(Refusal::Source));
    assert_eq!(fate(&[], &[], &[], &[], &[], 0).kind, FateKind::Refused(Refusal::Sizes));
    assert_eq!(fate(&[], &[], &[], &[0], &[], 0).kind, FateKind::Refused(Refusal::Source));
    assert_eq!((old_head(&[], 0), new_head(&[], 0)), (Err(Refusal::Source), Err(Refusal::Source)));
}

/// Each size at its limit, where the answer is another than 1, and one beyond, where it is 1 and nothing changes.
#[test]
fn sizes_at_their_limits() {
    type Change = fn(&mut Job, usize);
    let limits: [(usize, Change); 5] = [
        (1_048_576, |job, size| job.source.resize(size, 0)),
        (65_535, |job, size| {
            job.pairs = (0..size as u32).map(|code| Pair { code, glyph: 1 }).collect();
            job.kept = job.codes();
        }),
        (131_072, |job, size| job.kept = (0..size as u32).collect()),
        (65_535, |job, size| job.map = vec![1; size]),
        (65_535, |job, size| {
            job.map = vec![1; 65_535];
            job.requested = (0..size).map(|glyph| glyph as u16).collect();
        }),
    ];
    for (limit, change) in limits {
        for size in [limit, limit + 1] {
            let mut job = whole();
            change(&mut job, size);
            assert_eq!(job.cut(50).0 == Answer::Refused(Refusal::Sizes), size > limit);
            assert_eq!(job.fate(0).kind == FateKind::Refused(Refusal::Sizes), size > limit);
            job.same_as_plain();
        }
    }
}

#[test]
fn a_short_work_room_is_1_and_stays() {
    let Job { source, pairs, kept, map, requested } = whole();
    for (code_places, glyph_places) in [(0, 1), (1, 0)] {
        let (mut codes, mut glyphs) = (vec![CODE; code_places], vec![GLYPH; glyph_places]);
        let mut out = [OUT; 44];
        let answer = subset_in(&source, &pairs, &mut codes, &mut glyphs, &kept, &map, &requested, &mut out);
        assert_eq!((answer, out), (Answer::Refused(Refusal::Sizes), [OUT; 44]));
        let told = fate_in(&source, &pairs, &mut codes, &mut glyphs, &kept, &map, &requested, 0);
        assert_eq!(told.kind, FateKind::Refused(Refusal::Sizes));
        assert!(codes.iter().all(|&c| c == CODE) && glyphs.iter().all(|&g| g == GLYPH));
    }
}

/// What the header says of the stack.
#[test]
fn a_thread_of_one_and_a_half_mebibytes_is_enough() {
    let jobs = || stored::stored().into_iter().filter_map(|stored| Job::parse(&stored.job));
    let all = move || jobs().for_each(|job| drop((job.cut(32_768), job.fate(0))));
    let thread = std::thread::Builder::new().stack_size(0x180000).spawn(all);
    thread.expect("a thread").join().expect("answers");
}
