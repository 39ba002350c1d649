//! Jobs whose selectors have large tables in no order, around the length from which the library notes places of the kept points.
use crate::model::{Model, Record, Segment, Selector, Subtable};
use crate::rng::Rng;
use crate::wild::Wild;

/// Tables of this many records and more have places noted.
const MANY: u32 = 32768;

/// Up to where points are drawn: all in a row, a plane, all planes and beyond.
const WIDTHS: [u32; 5] = [0x1000, 0x10000, 0x30000, 0x110000, 0x1000000];

/// Rising points, dense or far apart, with stretches that are listed whole.
fn points(rng: &mut Rng, width: u32) -> Vec<u32> {
    let (mut list, mut c) = (Vec::new(), rng.below(300));
    let gap = rng.pick(&[1, 2, 3, 40, 2000]);
    while c < width.min(0x110000) && list.len() < 60_000 {
        let run = if rng.once_in(3) { rng.between(1, 400) } else { 1 };
        list.extend(c..(c + run).min(0x110000));
        c += run + rng.between(1, gap);
    }
    list
}

/// The large job of a seed.
pub fn large(seed: u64) -> Wild {
    let mut rng = Rng::new(seed ^ 0x6C_6172_6765);
    let rng = &mut rng;
    let width = rng.pick(&WIDTHS);
    let mut kept = points(rng, width);
    let count = |rng: &mut Rng| rng.pick(&[MANY - 1, MANY, MANY + 1, MANY + 2000]);
    let selectors: Vec<Selector> = (0..rng.between(1, 3))
        .map(|i| Selector {
            point: 0xE0100 + i,
            ranges: (!rng.once_in(3)).then(|| {
                let most = rng.pick(&[1, 4, 256]);
                (0..count(rng)).map(|_| (rng.below(width), rng.below(most) as u8)).collect()
            }),
            mappings: (!rng.once_in(3))
                .then(|| (0..count(rng)).map(|_| (rng.below(width), rng.below(500) as u16)).collect()),
        })
        .collect();
    kept.extend(selectors.iter().filter(|_| !rng.once_in(4)).map(|s| s.point));
    let pairs = kept.iter().filter(|&&c| c < 0xFFFF).take(50).map(|&c| (c, 1)).collect();
    let everything = Subtable::Four {
        language: 0,
        segments: vec![Segment { start: 0, end: 0xFFFE, delta: 1, array_at: None }],
        array: vec![],
    };
    let requested = if rng.once_in(2) { vec![] } else { (0..500).filter(|_| rng.once_in(3)).collect() };
    let mut model = Model {
        records: vec![
            Record { platform: 0, encoding: 3, leads_to: 0 },
            Record { platform: 0, encoding: 5, leads_to: 1 },
        ],
        subtables: vec![everything, Subtable::Fourteen { selectors }],
        pairs,
        kept,
        map: (0..500).map(|g| if rng.once_in(5000) { 0xFFFF } else { g }).collect(),
        requested,
    };
    model.settle();
    let job = model.to_job();
    Wild { input: job.to_bytes(), points: job.kept.iter().copied().step_by(997).collect(), job }
}
