//! Stand-in for `logic.rs`: the gates that `cells.rs` names. A placed node carries one; routing never looks at it.

#[derive(Clone, Copy, Debug, Eq, PartialEq)]
pub enum GateKind {
    Input,
    Output,
    Not,
    And,
    Or,
    Nand,
    Xor,
}
