//! Cases for the oracle: what a search or a sheet asks, the answers that docs/RULES.md gives, the files they are kept in
//! and the generator that makes them. The plain router here states docs/RULES.md a second time and shares no code with
//! the published Rust: it judges the refusals that the Rust lacks and is a second opinion on all others.

pub mod answers;
mod blocked;
pub mod cheapest;
pub mod conflict;
pub mod connected;
pub mod drawing;
pub mod examples;
pub mod files;
pub mod function;
pub mod generate;
pub mod laying;
pub mod limits;
pub mod lists;
pub mod nets;
pub mod parts;
pub mod plan;
pub mod reading;
pub mod repeaters;
pub mod rng;
pub mod room;
pub mod samples;
pub mod search;
pub mod sheet;
pub mod smallest;
pub mod stats;
pub mod strict;
pub mod text;
pub mod tree;
pub mod tree_why;
pub mod version;
pub mod why;

/// A refusal: its number and detail in docs/RULES.md, Numbers that come back.
#[derive(Clone, Copy, Debug, Eq, PartialEq)]
pub struct Refusal {
    pub number: u8,
    pub detail: u32,
}

impl Refusal {
    pub const fn new(number: u8, detail: u32) -> Self {
        Self { number, detail }
    }

    /// Numbers 1 to 6 say nothing more.
    pub const fn bare(number: u8) -> Self {
        Self::new(number, 0)
    }
}
