//! Stand-in for `blocks.rs`, which says how each kind of block behaves. Routing reads kinds only, never behaviour.

use crate::world::{BlockKind, BlockProperties};

pub struct BehaviorProfile {
    pub properties: BlockProperties,
}

pub const fn behavior_profile(_kind: BlockKind) -> BehaviorProfile {
    panic!("stand-in reached: behavior_profile is not published");
}
