//! What blocked Air is to the searches of a tree.

/// Chosen by the caller of a tree; a sheet doesn't carry it. Blocked are cells that other nets hold or keep clear, and reserved ones.
#[derive(Clone, Copy, Debug, Default, Eq, PartialEq)]
pub enum Mode {
    /// As the published router has it: blocked Air counts as Solid, so that wire may rest on another net's wire for free.
    #[default]
    Published,
    /// Blocked Air may be neither entered nor used as a support. A search's own start and goal are excepted.
    Strict,
}

impl Mode {
    /// The number that the archive takes for it: 0 is the published mode, any other number strict.
    pub(crate) fn number(self) -> u32 {
        match self {
            Self::Published => 0,
            Self::Strict => 1,
        }
    }
}
