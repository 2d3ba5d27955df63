//! Sheets asked in strict mode. The published Rust has no such mode: the plain router alone answers.

use crate::sheet::{Sheet, TreeAnswer};
use crate::tree::Mode;

/// A sheet of which the tree is asked in strict mode.
#[derive(Clone, Debug, Eq, PartialEq)]
pub struct StrictSheet(pub Sheet);

impl StrictSheet {
    pub fn plain_answer(&self) -> TreeAnswer {
        self.0.plain_answer_in(Mode::Strict)
    }
}

/// How the answers of the two modes to a sheet differ.
#[derive(Clone, Copy, Debug, Eq, Ord, PartialEq, PartialOrd)]
pub enum Apart {
    Same,
    AnotherTree,
    /// A tree in the published mode alone.
    StrictRefuses,
    /// A tree in strict mode alone.
    StrictRoutes,
    AnotherRefusal,
}

impl Apart {
    pub fn of(published: &TreeAnswer, strict: &TreeAnswer) -> Self {
        match (published.number(), strict.number()) {
            _ if published == strict => Self::Same,
            (0, 0) => Self::AnotherTree,
            (0, _) => Self::StrictRefuses,
            (_, 0) => Self::StrictRoutes,
            _ => Self::AnotherRefusal,
        }
    }
}
