//! Whether two answers are the same, and whether one implementation's answers agree with each other.
use crate::job::Job;
use crate::published::Reply;
use crate::subsetter::Subsetter;
use crate::through;
use crustedlane::plain::{Answer, Fate, FateKind, Head};

/// How an answer differs from the crate's reply.
pub fn against_published(answer: &Answer, reply: &Reply) -> Option<String> {
    match (answer, reply) {
        (Answer::Written { bytes, .. }, Reply::Table(table)) => tables_differ(bytes, table),
        (Answer::Refused(5), Reply::No(why)) if why.starts_with("source") => None,
        (Answer::Refused(6 | 7 | 9), Reply::No(why)) if why.starts_with("subset") => None,
        (Answer::Refused(8), Reply::Panic(why)) if why.contains("`None`") => None,
        _ => Some(format!("answer {}, crate {}", told(answer), told_reply(reply))),
    }
}

/// How two results differ, read through their offsets.
fn tables_differ(mine: &[u8], theirs: &[u8]) -> Option<String> {
    let (Some(a), Some(b)) = (through::read(mine), through::read(theirs)) else {
        return Some("a result that leads outside".into());
    };
    let pairs = |t: &through::Through| t.records.iter().map(|r| (r.0, r.1)).collect::<Vec<_>>();
    if pairs(&a) != pairs(&b) {
        return Some(format!("records {:?}, crate {:?}", pairs(&a), pairs(&b)));
    }
    if let Some(k) = (0..a.records.len()).find(|&k| a.records[k].2 != b.records[k].2) {
        let [mine, theirs] = [hex(&a.records[k].2), hex(&b.records[k].2)];
        return Some(format!("subtable of record {k}: {mine}, crate {theirs}"));
    }
    if a.shared_with != b.shared_with {
        return Some(format!("sharing {:?}, crate {:?}", a.shared_with, b.shared_with));
    }
    (a.length != b.length).then(|| format!("length {}, crate {}", a.length, b.length))
}

/// Bytes as text, long ones cut.
pub fn hex(bytes: &[u8]) -> String {
    let text: String = bytes.iter().take(160).map(|b| format!("{b:02x}")).collect();
    if bytes.len() > 160 {
        format!("{text}.. ({} bytes)", bytes.len())
    } else {
        text
    }
}

/// An answer as text.
pub fn told(answer: &Answer) -> String {
    match answer {
        Answer::Written { bytes, records } => format!("{records} records, {}", hex(bytes)),
        Answer::Refused(number) => format!("refusal {number}"),
        Answer::NoRoom(length) => format!("refusal 10, needs {length}"),
    }
}

/// The crate's reply as text.
pub fn told_reply(reply: &Reply) -> String {
    match reply {
        Reply::Table(bytes) => format!("table {}", hex(bytes)),
        Reply::No(why) => format!("no: {why}"),
        Reply::Panic(why) => format!("panic: {why}"),
    }
}

/// How an implementation's own answers to a job fail to agree with each other.
pub fn against_itself(s: &dyn Subsetter, job: &Job, answer: &Answer) -> Option<String> {
    let fates = s.fates(job);
    if let Answer::Refused(number) = answer {
        let refused = Fate { platform: 0, encoding: 0, kind: FateKind::Refused(*number) };
        return (fates != [refused]).then(|| format!("fates {fates:?} of refusal {number}"));
    }
    let Answer::Written { bytes, records } = answer else {
        return Some("no room in all memory".into());
    };
    if s.subset(job, bytes.len()) != *answer || s.subset(job, bytes.len() - 1) != Answer::NoRoom(bytes.len())
    {
        return Some("room".into());
    }
    let at = |k: usize, i: usize| u32::from(bytes[4 + 8 * k + i]);
    let listed: Vec<(u16, u16, u32)> = (0..*records)
        .map(|k| {
            let offset = at(k, 4) << 24 | at(k, 5) << 16 | at(k, 6) << 8 | at(k, 7);
            ((at(k, 0) << 8 | at(k, 1)) as u16, (at(k, 2) << 8 | at(k, 3)) as u16, offset)
        })
        .collect();
    let told: Vec<(u16, u16, u32)> = fates
        .iter()
        .filter_map(|f| match f.kind {
            FateKind::WrittenAt(offset) => Some((f.platform, f.encoding, offset)),
            _ => None,
        })
        .collect();
    if listed != told || bytes[2..4] != (*records as u16).to_be_bytes() {
        return Some(format!("fates {told:?} of records {listed:?}"));
    }
    heads_of_result(s, job, bytes)
}

/// How a head answers something else than the listed glyph or 0 of a result.
fn heads_of_result(s: &dyn Subsetter, job: &Job, result: &[u8]) -> Option<String> {
    let step = job.codes.len() / 24 + 1;
    let near = job.codes.iter().step_by(step).flat_map(|&c| [c.wrapping_sub(1), c, c.wrapping_add(1)]);
    for c in near.chain([0, 0xFFFF, 0x10000, 0x10FFFF, 0x110000, u32::MAX]) {
        let listed = job.codes.binary_search(&c).map_or(0, |i| job.glyphs[i]);
        for (head, answer) in [("old", s.old_head(result, c)), ("new", s.new_head(result, c))] {
            match answer {
                Head::Glyph(glyph) if glyph == 0 || glyph == listed => {}
                Head::Refused(11) if head == "old" => {}
                other => return Some(format!("{head} head of {c:#x}: {other:?}, listed {listed}")),
            }
        }
    }
    None
}

/// How the program differs from the call.
pub fn against_program(s: &dyn Subsetter, job: &Job) -> Option<String> {
    let expected = match s.subset(job, 32_768) {
        _ if !job.within_program_limits() => return None,
        Answer::Written { bytes, .. } => {
            [b"OK".to_vec(), (bytes.len() as u32).to_be_bytes().to_vec(), bytes].concat()
        }
        Answer::Refused(number) => vec![b'N', b'O', 0, 0, 0, 1, number],
        Answer::NoRoom(_) => vec![b'N', b'O', 0, 0, 0, 1, 10],
    };
    (s.program(&job.to_bytes()) != expected).then(|| "the program's reply".into())
}

/// How two implementations differ on a job, in any call.
pub fn against_other(a: &dyn Subsetter, b: &dyn Subsetter, job: &Job, points: &[u32]) -> Option<String> {
    let (first, second) = (a.subset(job, usize::MAX), b.subset(job, usize::MAX));
    if first != second {
        return Some(format!("{} {}, {} {}", a.name(), told(&first), b.name(), told(&second)));
    }
    let needed = match &first {
        Answer::Written { bytes, .. } => bytes.len(),
        _ => 0,
    };
    for room in [needed.saturating_sub(1), needed + 1] {
        if a.subset(job, room) != b.subset(job, room) {
            return Some(format!("in a room of {room} bytes"));
        }
    }
    let (first_fates, second_fates) = (a.fates(job), b.fates(job));
    if first_fates != second_fates || a.fate(job, 1_000_000) != b.fate(job, 1_000_000) {
        return Some(format!("fates {first_fates:?}, {second_fates:?}"));
    }
    let tables = match &first {
        Answer::Written { bytes, .. } => vec![&job.source[..], bytes],
        _ => vec![&job.source[..]],
    };
    for (table, &c) in tables.iter().flat_map(|t| points.iter().map(move |c| (t, c))) {
        let heads = |s: &dyn Subsetter| (s.old_head(table, c), s.new_head(table, c));
        if heads(a) != heads(b) {
            return Some(format!("heads of {c:#x}: {:?}, {:?}", heads(a), heads(b)));
        }
    }
    None
}
