//! Stand-in for `blocks.rs`, which says how each kind of block behaves. `materialize_multinet` ends with the shapes of wires, which ask for it;
//! they are left out of what is compared, and kinds and facings are done by then: so any behaviour serves here.

use crate::world::{BlockKind, BlockProperties};

pub struct BehaviorProfile {
    pub properties: BlockProperties,
}

pub const fn behavior_profile(_kind: BlockKind) -> BehaviorProfile {
    BehaviorProfile {
        properties: BlockProperties::support_only(true),
    }
}
