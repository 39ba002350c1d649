//! The stored jobs: `stdin`, `stdout` and `names` as `tools/pack_vectors.py` writes them, in `crates/job_vectors` or the
//! directory that CRUSTEDLANE_VECTORS names by an absolute path, since Cargo runs tests in the package's folder. The
//! answers are the program's own, since `rt ci job_vectors` holds it to them.
use std::path::{Path, PathBuf};

/// A stored job with its answer.
pub struct Stored {
    pub name: String,
    pub job: Vec<u8>,
    pub answer: Vec<u8>,
}

/// All stored jobs.
pub fn stored() -> Vec<Stored> {
    let directory = match std::env::var_os("CRUSTEDLANE_VECTORS") {
        Some(named) => PathBuf::from(named),
        None => Path::new(env!("CARGO_MANIFEST_DIR")).join("../crates/job_vectors"),
    };
    assert!(directory.is_absolute(), "CRUSTEDLANE_VECTORS must be an absolute path");
    let read = |name| std::fs::read(directory.join(name)).expect("a file of stored jobs");
    let (stdin, stdout) = (read("stdin"), read("stdout"));
    let names = String::from_utf8(read("names")).expect("names");
    let jobs = pieces(&stdin, 0);
    let answers = pieces(&stdout, 2);
    assert_eq!((jobs.len(), answers.len()), (names.lines().count(), names.lines().count()));
    let with_name = names.lines().zip(jobs).zip(answers);
    with_name
        .map(|((name, job), answer)| Stored {
            name: name.into(),
            job: job[4..].into(),
            answer: answer.into(),
        })
        .collect()
}

fn u32_at(bytes: &[u8], at: usize) -> usize {
    u32::from_be_bytes(bytes[at..at + 4].try_into().unwrap()) as usize
}

/// Pieces of packed bytes; the number of those that follow stands in four bytes at `length_at` of each.
fn pieces(packed: &[u8], length_at: usize) -> Vec<&[u8]> {
    let (mut rest, mut pieces) = (packed, Vec::new());
    while !rest.is_empty() {
        let (piece, after) = rest.split_at(length_at + 4 + u32_at(rest, length_at));
        pieces.push(piece);
        rest = after;
    }
    pieces
}
