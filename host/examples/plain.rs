//! Answers a job by the plain implementation alone; it needs neither the library nor the kit.
//!
//!     rustc --edition 2021 -O --out-dir target host/examples/plain.rs
//!     target/plain < examples/whole.job | xxd
//!
//! The module is taken by its path, since the package itself links the library.
#[allow(dead_code, clippy::manual_is_multiple_of)]
#[path = "../src/plain.rs"]
mod plain;

use std::io::{stdin, stdout, Read, Result, Write};

fn main() -> Result<()> {
    let mut job = Vec::new();
    stdin().read_to_end(&mut job)?;
    stdout().write_all(&plain::job(&job))
}
