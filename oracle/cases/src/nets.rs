//! The whole answer to a list: its nets laid into the room, or the net that is refused.

use crate::laying::lay_all;
use crate::lists::{List, NetRefusal, Routed};
use crate::search::cells16;

/// What comes back for a list.
#[derive(Clone, Debug, Eq, PartialEq)]
pub enum ListAnswer {
    Refused(NetRefusal),
    Nets(LaidNets),
}

/// The nets of a list, and the room that they are laid into.
#[derive(Clone, Debug, Eq, PartialEq)]
pub struct LaidNets {
    /// Of each net in list order its branches in sheet order.
    pub nets: Vec<Vec<Vec<u16>>>,
    /// For each cell 0, or one more than the net that occupies it.
    pub owners: Vec<u32>,
    /// The planned repeaters of all nets, ascending.
    pub repeaters: Vec<u16>,
    pub kinds: Vec<u8>,
    pub facings: Vec<u8>,
}

impl ListAnswer {
    /// The number of a refusal; 0 for nets.
    pub fn number(&self) -> u8 {
        match self {
            Self::Refused(refused) => refused.refusal.number,
            Self::Nets(_) => 0,
        }
    }
}

impl LaidNets {
    pub fn branch_cells(&self) -> usize {
        self.nets.iter().flatten().map(Vec::len).sum()
    }
}

impl List {
    /// The answer by plain routing and plain laying.
    pub fn plain_answer(&self) -> ListAnswer {
        self.plain_nets()
            .map_or_else(ListAnswer::Refused, |routed| {
                ListAnswer::Nets(laid(&routed))
            })
    }
}

/// Routed nets laid into their room.
pub fn laid(routed: &Routed) -> LaidNets {
    let room = lay_all(&routed.room, &routed.list).expect("no two nets share a cell");
    assert_eq!(room.owners, routed.owners, "laid nets occupy what they did");
    let nets = routed.list.iter().map(|(_, net)| net);
    let mut repeaters: Vec<_> = nets.clone().flat_map(|net| &net.repeaters).collect();
    repeaters.sort_unstable();
    LaidNets {
        nets: nets
            .map(|net| net.branches.iter().map(|cells| cells16(cells)).collect())
            .collect(),
        owners: room.owners,
        repeaters: repeaters.into_iter().map(|cell| *cell as u16).collect(),
        kinds: room.kinds,
        facings: room.facings,
    }
}
