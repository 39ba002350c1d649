//! The generators make what they say, and a wrong implementation is found.
use compare::job::Job;
use compare::subsetter::{Library, Plain, Subsetter};
use compare::verdict::{against_itself, against_other};
use compare::{agreed, domain, wild};
use crustedlane::plain::{Answer, Fate, FateKind, Head};
use std::collections::BTreeSet;

/// The plain implementation with one answer changed.
struct Twisted {
    what: &'static str,
}

impl Subsetter for Twisted {
    fn name(&self) -> &str {
        "twisted"
    }
    fn subset(&self, job: &Job, room: usize) -> Answer {
        match (self.what, Plain.subset(job, room)) {
            ("byte", Answer::Written { mut bytes, records }) => {
                *bytes.last_mut().unwrap() ^= 1;
                Answer::Written { bytes, records }
            }
            ("room", Answer::NoRoom(needed)) if room + 1 == needed => Plain.subset(job, needed),
            ("number", Answer::Refused(6)) => Answer::Refused(9),
            (_, answer) => answer,
        }
    }
    fn fate(&self, job: &Job, record: usize) -> Fate {
        match (self.what, Plain.fate(job, record)) {
            ("fate", fate) if fate.kind == FateKind::Skipped => Fate { kind: FateKind::Empty, ..fate },
            (_, fate) => fate,
        }
    }
    fn old_head(&self, table: &[u8], c: u32) -> Head {
        match (self.what, Plain.old_head(table, c)) {
            ("head", Head::Glyph(0)) if c == 0xFFFF => Head::Glyph(1),
            (_, answer) => answer,
        }
    }
    fn new_head(&self, table: &[u8], c: u32) -> Head {
        Plain.new_head(table, c)
    }
    fn program(&self, input: &[u8]) -> Vec<u8> {
        Plain.program(input)
    }
}

#[test]
fn twists_are_found() {
    for what in ["byte", "room", "number", "fate", "head"] {
        let found = (0..400).filter(|&seed| {
            let wild = wild::wild(seed);
            against_other(&Plain, &Twisted { what }, &wild.job, &wild.points).is_some()
        });
        assert!(found.count() > 0, "{what}");
    }
    let untwisted = |seed: u64| {
        let wild = wild::wild(seed);
        against_other(&Plain, &Twisted { what: "nothing" }, &wild.job, &wild.points)
    };
    assert_eq!((0..400).filter_map(untwisted).next(), None);
}

#[test]
fn the_library_is_as_plain() {
    for seed in 0..3000 {
        let wild = wild::wild(seed);
        assert_eq!(against_other(&Library, &Plain, &wild.job, &wild.points), None, "wild {seed}");
        assert_eq!(Library.program(&wild.input), Plain.program(&wild.input), "wild {seed}");
        let job = agreed::model(seed).1.to_job();
        assert_eq!(against_other(&Library, &Plain, &job, &[]), None, "agreed {seed}");
        assert_eq!(against_itself(&Library, &job, &Library.subset(&job, usize::MAX)), None, "agreed {seed}");
    }
}

#[test]
fn twists_disagree_with_themselves() {
    for what in ["room", "number", "head"] {
        let found = (0..2000).any(|seed| {
            let (job, twisted) = (agreed::model(seed).1.to_job(), Twisted { what });
            let answer = twisted.subset(&job, usize::MAX);
            against_itself(&twisted, &job, &answer).is_some()
        });
        assert!(found, "{what}");
    }
}

#[test]
fn agreed_jobs_are_in_the_domain_and_of_all_kinds() {
    let mut kinds = BTreeSet::new();
    for seed in 0..3000 {
        let (_, model) = agreed::model(seed);
        assert_eq!(domain::check(&model), Ok(()));
        let job = model.to_job();
        for fate in Plain.fates(&job) {
            kinds.insert(match fate.kind {
                FateKind::WrittenAt(_) => FateKind::WrittenAt(0),
                kind => kind,
            });
        }
    }
    use FateKind::{Covered, Empty, NotRetained, Refused, TooLong, WrittenAt};
    let all =
        [NotRetained, Empty, TooLong, Covered, WrittenAt(0), Refused(6), Refused(7), Refused(8), Refused(9)];
    assert_eq!(kinds.into_iter().collect::<Vec<_>>(), all);
}
