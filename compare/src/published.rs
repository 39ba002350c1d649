//! The crate itself, run as a program of its own.
//!
//! The program is not part of this repository. It takes `many` as its argument, reads jobs and writes
//! answers, each behind a 4-byte length; an answer is OK, NO or PANIC, a 4-byte length, and the table
//! or the reason.
use crate::job::Job;
use std::io::{Read, Write};
use std::path::PathBuf;
use std::process::{Command, Stdio};

/// What the crate answers.
#[derive(Clone, Debug, PartialEq, Eq)]
pub enum Reply {
    Table(Vec<u8>),
    No(String),
    Panic(String),
}

/// The crate's program, with arguments that stand before `many`.
pub struct Published {
    pub program: PathBuf,
    pub arguments: Vec<String>,
}

impl Published {
    /// The crate's replies to some jobs.
    pub fn ask(&self, jobs: &[Job]) -> Vec<Reply> {
        let input: Vec<u8> = jobs
            .iter()
            .map(Job::to_bytes)
            .flat_map(|job| [&(job.len() as u32).to_be_bytes()[..], &job].concat())
            .collect();
        let mut child = Command::new(&self.program)
            .args(&self.arguments)
            .arg("many")
            .stdin(Stdio::piped())
            .stdout(Stdio::piped())
            .spawn()
            .unwrap_or_else(|e| panic!("{}: {e}", self.program.display()));
        let mut stdin = child.stdin.take().expect("a pipe");
        let writer = std::thread::spawn(move || stdin.write_all(&input));
        let mut output = Vec::new();
        child.stdout.take().expect("a pipe").read_to_end(&mut output).expect("answers");
        writer.join().expect("a writer").expect("jobs are read");
        assert!(child.wait().expect("an end").success());
        let replies = replies(&output);
        assert_eq!(replies.len(), jobs.len());
        replies
    }
}

fn replies(mut output: &[u8]) -> Vec<Reply> {
    let mut list = Vec::new();
    while !output.is_empty() {
        let length = u32::from_be_bytes(output[..4].try_into().expect("a length")) as usize;
        list.push(reply(&output[4..4 + length]));
        output = &output[4 + length..];
    }
    list
}

fn reply(bytes: &[u8]) -> Reply {
    let text = |from: usize| String::from_utf8_lossy(&bytes[from + 4..]).into_owned();
    match bytes {
        [b'O', b'K', ..] => Reply::Table(bytes[6..].to_vec()),
        [b'N', b'O', ..] => Reply::No(text(2)),
        _ => Reply::Panic(text(5)),
    }
}
