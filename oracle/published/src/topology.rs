//! Stand-in for the crate `dustroute_physical`, which `connectivity.rs` hands a finished world's components to.

use crate::world::{Block, Pos};

#[derive(Clone, Copy)]
pub struct ComponentId(pub usize);

pub struct PhysicalComponent {
    pub id: ComponentId,
    pub pos: Pos,
    pub block: Block,
}

pub enum ConnectionKind {
    Dust,
    DustRise,
    DustFallThroughConductor,
    WeakPower,
    StrongPower,
    DirectionalInput,
    DirectionalOutput,
    DirectSource,
    Control,
}

pub struct PhysicalConnection {
    pub source: ComponentId,
    pub sink: ComponentId,
    pub kind: ConnectionKind,
}

pub struct VerifiedTopology;

impl VerifiedTopology {
    pub fn from_parts(
        _components: Vec<PhysicalComponent>,
        _connections: impl Iterator<Item = PhysicalConnection>,
    ) -> Self {
        panic!("stand-in reached: dustroute_physical is not published");
    }
}
