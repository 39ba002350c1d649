//! The sample of agreed jobs that the stored vectors hold with the crate's answers.
use crate::agreed::Shape;
use crate::case::{case, Case};
use crate::job::Job;
use crate::published::{Published, Reply};
use crate::subsetter::Subsetter;
use crate::verdict::against_published;
use crustedlane::plain::{Answer, FateKind};
use std::collections::BTreeSet;
use std::path::Path;

/// How many jobs of each shape are taken, and how long they may be.
const WANTED: [(Shape, usize, usize); 6] = [
    (Shape::Mixed, 60, 1_000),
    (Shape::Twins, 30, 1_000),
    (Shape::Runs, 25, 1_000),
    (Shape::RangesBorder, 25, 1_000),
    (Shape::ManyRecords, 9, 2_500),
    (Shape::LongRanges, 1, 20_000),
];
const SEEDS: u64 = 20_000;

/// Writes `crate-SHAPE-SEED.job` and `.out` for jobs that differ in what becomes of their records. The seeds are walked
/// from 0, and a job is taken if it is not too long and none of its shape before it came to the same.
/// The bytes of an accepted job are the crate's, and the tables' order is ours too; a refused job has our number, and
/// the crate refuses or panics.
pub fn write(published: &Published, s: &dyn Subsetter, directory: &Path) {
    let (mut seen, mut taken) = (BTreeSet::new(), [0; WANTED.len()]);
    for seed in 0..SEEDS {
        let Case::Agreed(shape, model) = case(seed) else { continue };
        let Some(k) = WANTED.iter().position(|wanted| wanted.0 == shape) else { continue };
        let job = model.to_job();
        let bytes = job.to_bytes();
        if taken[k] == WANTED[k].1 || bytes.len() > WANTED[k].2 || !job.within_program_limits() {
            continue;
        }
        let answer = s.subset(&job, 32_768);
        if !seen.insert((shape, comes_to(s, shape, &job, &answer))) {
            continue;
        }
        let replies = published.ask(&[job]);
        let Some(reply) = stored(&answer, &replies[0]) else { continue };
        taken[k] += 1;
        let name = format!("crate-{}-{seed:05}", format!("{shape:?}").to_lowercase());
        std::fs::write(directory.join(format!("{name}.job")), bytes).expect("a job is written");
        std::fs::write(directory.join(format!("{name}.out")), reply).expect("an answer is written");
    }
    println!("{} jobs", taken.iter().sum::<usize>());
}

/// What tells the sampled jobs apart: the records' fates, or the refusal; and the result's length in the shapes whose
/// records nearly all have the same fate.
fn comes_to(
    s: &dyn Subsetter,
    shape: Shape,
    job: &Job,
    answer: &Answer,
) -> (usize, Vec<(u16, u16, FateKind)>) {
    let length = match (shape, answer) {
        (Shape::Runs | Shape::RangesBorder, Answer::Written { bytes, .. }) => bytes.len(),
        _ => 0,
    };
    let told = s.fates(job).into_iter().map(|fate| match fate.kind {
        FateKind::WrittenAt(_) => (fate.platform, fate.encoding, FateKind::WrittenAt(0)),
        kind => (fate.platform, fate.encoding, kind),
    });
    (length, told.collect())
}

/// What is stored for the crate's reply.
fn stored(answer: &Answer, reply: &Reply) -> Option<Vec<u8>> {
    match (answer, reply) {
        (Answer::Written { bytes, .. }, Reply::Table(table)) if bytes == table => {
            Some([b"OK", &(table.len() as u32).to_be_bytes()[..], table].concat())
        }
        (Answer::Refused(number), reply) if against_published(answer, reply).is_none() => {
            Some(vec![b'N', b'O', 0, 0, 0, 1, *number])
        }
        _ => None,
    }
}
