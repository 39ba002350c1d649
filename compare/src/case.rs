//! What `agreed` asks: jobs of the agreed domain, and some that are broken on purpose.
use crate::agreed::{self, Shape};
use crate::job::Job;
use crate::model::Model;
use crate::rng::Rng;

/// A job of the agreed domain, or one whose refusal is known and is not for the crate to tell.
pub enum Case {
    Agreed(Shape, Model),
    /// A source that refusal 5 is for.
    Short(Job),
    /// Lists that refusal 1 to 4 is for.
    Lists(u8, Job),
}

/// The case of a seed.
pub fn case(seed: u64) -> Case {
    let (shape, model) = agreed::model(seed);
    let mut rng = Rng::new(!seed);
    let mut job = model.to_job();
    match rng.below(50) {
        0 => {
            let header = 4 + 8 * model.records.len() as u32;
            job.source.truncate(rng.below(header) as usize);
            Case::Short(job)
        }
        1 => {
            let number = spoil(&mut rng, &mut job);
            Case::Lists(number, job)
        }
        _ => Case::Agreed(shape, model),
    }
}

/// Breaks a list of an accepted form and tells the refusal that must follow.
fn spoil(rng: &mut Rng, job: &mut Job) -> u8 {
    let last = job.map.len() as u16 - 1;
    match rng.below(10) {
        0 => job.map.clear(),
        1 => job.glyphs.push(1),
        2 => {
            let next = job.codes.last().copied().unwrap_or(5);
            job.codes.extend([next, next]);
            job.glyphs.extend([1, 1]);
            return 2;
        }
        3 => {
            job.codes.push(0x110000);
            job.glyphs.push(1);
            return 2;
        }
        4 if !job.glyphs.is_empty() => {
            let k = rng.below(job.glyphs.len() as u32) as usize;
            job.glyphs[k] = 65_535;
            return 2;
        }
        5 if !job.codes.is_empty() => {
            let c = rng.pick(&job.codes);
            job.kept.retain(|&k| k != c);
            return 3;
        }
        6 => {
            let next = job.kept.last().copied().unwrap_or(5);
            job.kept.extend([next, next]);
            return 3;
        }
        7 => {
            job.kept.push(0x110000);
            return 3;
        }
        8 => {
            job.requested = vec![last, last];
            return 4;
        }
        _ => {
            job.requested = vec![last + 1];
            return 4;
        }
    }
    1
}
