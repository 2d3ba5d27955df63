//! Sheets at any limits. They are sheets as others; a list of them is drawn by a generator of its own, so that the lists of version 1 alone
//! stay as they are.

use crate::sheet::{Sheet, TreeAnswer};

/// A sheet of version 2, or of version 1 beside it.
#[derive(Clone, Debug, Eq, PartialEq)]
pub struct LimitSheet(pub Sheet);

impl LimitSheet {
    pub fn plain_answer(&self) -> TreeAnswer {
        self.0.plain_answer()
    }
}
