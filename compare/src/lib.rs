//! Made-up jobs, given to an implementation of `docs/RULES.md` and to the crate, and compared.
// "mod 65,536" is written as the rules write it.
#![allow(clippy::manual_is_multiple_of)]

pub mod agreed;
pub mod aimed;
pub mod case;
pub mod domain;
pub mod job;
pub mod large;
pub mod model;
pub mod published;
pub mod rng;
pub mod sample;
pub mod shrink;
pub mod subsetter;
pub mod through;
pub mod verdict;
pub mod wild;
