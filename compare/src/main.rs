//! compare agreed PROGRAM [--exact] [--from SEED] [--count N]   jobs of the agreed domain, against the crate
//! compare aimed PROGRAM [--exact]                              a job for each recorded difference
//! compare wild [--from SEED] [--count N]                       damaged jobs, for every implementation at hand
//! compare large [--from SEED] [--count N]                      jobs with large tables in no order, likewise
//! compare show agreed|wild SEED                                one job's bytes on standard output
//! compare sample PROGRAM DIRECTORY                             agreed jobs to store, with the crate's answers
//!
//! PROGRAM is the crate's program; --exact is given on to it.
use compare::agreed::Shape;
use compare::case::{case, Case};
use compare::domain::ranges_branch;
use compare::model::{Model, Subtable};
use compare::published::{Published, Reply};
use compare::shrink::shrink;
use compare::subsetter::{Library, Plain, Subsetter};
use compare::verdict::{against_itself, against_other, against_program, against_published, told, told_reply};
use compare::wild::Wild;
use compare::{aimed, job::Job, large, sample, through, wild};
use crustedlane::plain::{Answer, FateKind};
use std::collections::BTreeMap;
use std::io::Write;

/// How often something was seen.
#[derive(Default)]
struct Counts(BTreeMap<String, u64>);

impl Counts {
    fn add(&mut self, what: impl Into<String>) {
        *self.0.entry(what.into()).or_default() += 1;
    }

    fn print(&self) {
        self.0.iter().for_each(|(what, count)| println!("{count:>10}  {what}"));
    }
}

struct Arguments {
    words: Vec<String>,
    exact: bool,
    from: u64,
    count: u64,
}

fn arguments() -> Arguments {
    let mut result = Arguments { words: vec![], exact: false, from: 0, count: 10_000 };
    let mut list = std::env::args().skip(1);
    while let Some(word) = list.next() {
        let mut number = || list.next().and_then(|n| n.parse().ok()).expect("a number");
        match word.as_str() {
            "--exact" => result.exact = true,
            "--from" => result.from = number(),
            "--count" => result.count = number(),
            _ => result.words.push(word),
        }
    }
    result
}

/// The implementations at hand; the first is compared with the crate, each later one with the first.
fn implementations() -> Vec<Box<dyn Subsetter>> {
    vec![Box::new(Library), Box::new(Plain)]
}

fn published(arguments: &Arguments) -> Published {
    let program = arguments.words.get(1).expect("the crate's program").into();
    let exact = arguments.exact.then(|| "--exact".to_string());
    Published { program, arguments: exact.into_iter().collect() }
}

fn main() {
    let arguments = arguments();
    let failed = match arguments.words.first().map(String::as_str) {
        Some("agreed") => run_agreed(&arguments),
        Some("aimed") => run_aimed(&arguments),
        Some("wild") => run_wild(&arguments, wild::wild),
        Some("large") => run_wild(&arguments, large::large),
        Some("show") => show(&arguments),
        Some("sample") => {
            let directory = arguments.words.get(2).expect("a directory");
            sample::write(&published(&arguments), &*implementations()[0], directory.as_ref());
            false
        }
        _ => {
            eprintln!("compare agreed PROGRAM | aimed PROGRAM | wild | large | show agreed|wild SEED | sample PROGRAM DIRECTORY");
            true
        }
    };
    std::process::exit(failed.into());
}

/// What becomes of an agreed job, for the counts.
fn count(counts: &mut Counts, s: &dyn Subsetter, shape: Shape, model: &Model, job: &Job, answer: &Answer) {
    counts.add(format!("shape {shape:?}"));
    counts.add(match answer {
        Answer::Refused(number) => format!("answer {number}"),
        _ => "answer 0".into(),
    });
    for fate in s.fates(job) {
        match fate.kind {
            FateKind::WrittenAt(_) => counts.add("fate written"),
            FateKind::Refused(_) => {}
            kind => counts.add(format!("fate {kind:?}")),
        }
    }
    for record in &model.records {
        let kind = match &model.subtables[record.leads_to] {
            Subtable::Four { .. } => "format 4",
            Subtable::Twelve { .. } => "format 12",
            Subtable::Fourteen { .. } => "format 14",
            Subtable::Raw(_) => "other",
        };
        counts.add(format!("record ({},{}) to {kind}", record.platform, record.encoding));
    }
    for subtable in &model.subtables {
        let Subtable::Fourteen { selectors } = subtable else { continue };
        let kept = selectors.iter().filter(|x| job.kept.binary_search(&x.point).is_ok());
        for ranges in kept.filter_map(|x| x.ranges.as_ref()) {
            let branch = if ranges_branch(ranges.len(), job.kept.len()) { "ranges" } else { "single points" };
            counts.add(format!("default table of a kept selector: {branch} branch"));
            let r = ranges.len();
            let border = job.kept.len() * (usize::BITS - r.leading_zeros()) as usize;
            if r == border || r == border + 1 {
                counts.add(format!(
                    "default table with r {} the border",
                    if r == border { "at" } else { "one over" }
                ));
            }
        }
    }
    count_borders(counts, model, answer);
}

/// Borders that an agreed job touches.
fn count_borders(counts: &mut Counts, model: &Model, answer: &Answer) {
    for border in [0xFFFF, 0x10000, 0x10FFFF] {
        if model.pairs.binary_search_by_key(&border, |p| p.0).is_ok() {
            counts.add(format!("border: {border:#X} listed"));
        }
    }
    let mut length = 1;
    for (k, pair) in model.pairs.iter().enumerate() {
        let next = model.pairs.get(k + 1);
        if next.is_some_and(|n| n.0 == pair.0 + 1 && u32::from(n.1) == u32::from(pair.1) + 1) {
            length += 1;
            continue;
        }
        if matches!(length, 3 | 4 | 7 | 8 | 9 | 32_760..) {
            counts.add(format!("border: run of {length:>5}"));
        }
        length = 1;
    }
    let groups = model.subtables.iter().filter_map(|t| match t {
        Subtable::Twelve { groups, .. } => Some(groups),
        _ => None,
    });
    for group in groups.flatten() {
        let last = i64::from(group.glyph) + i64::from(group.end) - i64::from(group.start);
        let over = last - model.map.len() as i64;
        if (-1..=1).contains(&over) {
            counts.add(format!("border: group whose last glyph is n{over:+}"));
        }
    }
    if let Some(result) = match answer {
        Answer::Written { bytes, .. } => through::read(bytes),
        _ => None,
    } {
        let long = |length: usize| (65_500..65_536).contains(&length);
        for (_, _, table) in result.records.iter().filter(|r| r.2[1] == 4 && long(r.2.len())) {
            counts.add(format!("border: format 4 of {} bytes written", table.len()));
        }
    }
}

fn run_agreed(arguments: &Arguments) -> bool {
    let published = published(arguments);
    let implementations = implementations();
    let s = &*implementations[0];
    let (mut counts, mut differences) = (Counts::default(), 0);
    let seeds: Vec<u64> = (arguments.from..arguments.from + arguments.count).collect();
    for batch in seeds.chunks(2000) {
        let cases: Vec<Case> = batch.iter().map(|&seed| case(seed)).collect();
        let jobs: Vec<Job> = cases
            .iter()
            .map(|case| match case {
                Case::Agreed(_, model) => model.to_job(),
                Case::Short(job) | Case::Lists(_, job) => job.clone(),
            })
            .collect();
        let replies = published.ask(&jobs);
        for (((seed, case), job), reply) in batch.iter().zip(&cases).zip(&jobs).zip(&replies) {
            let answer = s.subset(job, usize::MAX);
            let mut difference = against_itself(s, job, &answer).or_else(|| against_program_of(s, case, job));
            for other in &implementations[1..] {
                difference = difference.or_else(|| against_other(s, &**other, job, &[]));
            }
            match case {
                Case::Agreed(shape, model) => {
                    counts.add("jobs of the agreed domain, compared with the crate");
                    count(&mut counts, s, *shape, model, job, &answer);
                    let versus = against_published(&answer, reply);
                    if versus.is_none() && matches!(answer, Answer::Written { .. }) {
                        counts.add(match (&answer, reply) {
                            (Answer::Written { bytes, .. }, Reply::Table(t)) if bytes == t => {
                                "results equal to the crate's byte for byte, the order of tables too"
                            }
                            _ => "results equal to the crate's through offsets only",
                        });
                    }
                    difference = difference.or(versus);
                }
                Case::Short(_) => {
                    counts.add("jobs with a short source, compared with the crate: 5");
                    difference = difference.or(against_published(&answer, reply));
                }
                Case::Lists(number, _) => {
                    counts.add(format!("jobs with a broken list, not the crate's to refuse: {number}"));
                    if answer != Answer::Refused(*number) {
                        difference = difference.or(Some(format!("{} and not {number}", told(&answer))));
                    }
                }
            }
            let Some(difference) = difference else { continue };
            differences += 1;
            println!("DIFFERENCE, seed {seed}: {difference}");
            if let (Case::Agreed(_, model), true) = (case, differences <= 5) {
                smallest(s, &published, model);
            }
        }
        eprint!("\r{} ", batch[batch.len() - 1] + 1);
    }
    eprintln!();
    counts.print();
    println!("{differences} differences");
    differences > 0
}

/// The program's reply, where the lists can be said in its bytes.
fn against_program_of(s: &dyn Subsetter, case: &Case, job: &Job) -> Option<String> {
    match case {
        Case::Lists(1, _) => None,
        _ => against_program(s, job),
    }
}

/// Prints the smallest form of a difference.
fn smallest(s: &dyn Subsetter, published: &Published, model: &Model) {
    let differences = |models: &[Model]| -> Vec<Option<String>> {
        let jobs: Vec<Job> = models.iter().map(Model::to_job).collect();
        let replies = published.ask(&jobs);
        jobs.iter().zip(&replies).map(|(j, r)| against_published(&s.subset(j, usize::MAX), r)).collect()
    };
    let small = shrink(model, &|models| differences(models).iter().position(Option::is_some));
    println!("  smallest: {small:?}");
    println!("  {}", differences(&[small])[0].clone().unwrap_or_default());
}

fn run_aimed(arguments: &Arguments) -> bool {
    let published = published(arguments);
    let implementations = implementations();
    let list = aimed::aimed();
    let jobs: Vec<Job> = list.iter().map(|a| a.job.clone()).collect();
    for (aimed, reply) in list.iter().zip(published.ask(&jobs)) {
        let answer = implementations[0].subset(&aimed.job, usize::MAX);
        let verdict = if against_published(&answer, &reply).is_none() { "same" } else { "DIFFERS" };
        println!("{verdict:7} {}", aimed.what);
        println!("        {}: {}", implementations[0].name(), told(&answer));
        for other in &implementations[1..] {
            if let Some(difference) =
                against_other(&*implementations[0], &**other, &aimed.job, &aimed.job.kept)
            {
                println!("        {}: {difference}", other.name());
            }
        }
        println!("        crate: {}", told_reply(&reply));
    }
    false
}

fn run_wild(arguments: &Arguments, made: fn(u64) -> Wild) -> bool {
    let implementations = implementations();
    let s = &*implementations[0];
    let (mut counts, mut differences) = (Counts::default(), 0);
    for seed in arguments.from..arguments.from + arguments.count {
        let wild = made(seed);
        let answer = s.subset(&wild.job, usize::MAX);
        counts.add(match answer {
            Answer::Refused(number) => format!("answer {number}"),
            _ => "answer 0".into(),
        });
        for fate in s.fates(&wild.job) {
            match fate.kind {
                FateKind::WrittenAt(_) => counts.add("fate written"),
                FateKind::Refused(_) => {}
                kind => counts.add(format!("fate {kind:?}")),
            }
        }
        let reply = s.program(&wild.input);
        counts.add(if reply[0] == b'O' { "program OK".into() } else { format!("program {}", reply[6]) });
        let mut found = against_itself(s, &wild.job, &answer);
        for other in &implementations[1..] {
            found = found.or_else(|| against_other(s, &**other, &wild.job, &wild.points));
            if other.program(&wild.input) != reply {
                found = found.or(Some("the program's reply".into()));
            }
        }
        if let Some(found) = found {
            differences += 1;
            println!("DIFFERENCE, seed {seed}: {found}");
        }
    }
    counts.print();
    println!("{differences} differences");
    differences > 0
}

fn show(arguments: &Arguments) -> bool {
    let seed = arguments.words.get(2).and_then(|n| n.parse().ok()).expect("a seed");
    let bytes = match arguments.words.get(1).map(String::as_str) {
        Some("agreed") => match case(seed) {
            Case::Agreed(_, model) => model.to_job().to_bytes(),
            Case::Short(job) | Case::Lists(_, job) => job.to_bytes(),
        },
        Some("wild") => wild::wild(seed).input,
        _ => panic!("agreed or wild"),
    };
    std::io::stdout().write_all(&bytes).is_err()
}
