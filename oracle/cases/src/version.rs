//! docs/RULES.md, The job sheet: what the versions of a sheet differ in, as one value each. Whoever reads, judges or writes a sheet takes
//! the version; none asks for its number.

use crate::room::{Config, Ranges, Room};

/// The limits of a sheet that carries none: a run of twelve steps, a tail of eight.
pub const USUAL_RUN: u8 = 12;
pub const USUAL_TAIL: u8 = 8;
/// The greatest limit; the least is 1.
pub const MOST_LIMIT: u8 = 15;

#[derive(Clone, Copy, Debug, Eq, PartialEq)]
pub struct Version {
    /// The sheet's first byte.
    pub number: u8,
    /// Whether the run limit and the sinks' tail limits stand in the sheet.
    pub limits: bool,
    /// How many bytes a side and a coordinate have.
    pub coordinate: usize,
    pub ranges: Ranges,
}

impl Version {
    pub const ONE: Self = Self {
        number: 1,
        limits: false,
        coordinate: 1,
        ranges: Ranges::OLD,
    };

    pub const TWO: Self = Self {
        number: 2,
        limits: true,
        ..Self::ONE
    };

    /// For larger halls.
    pub const THREE: Self = Self {
        number: 3,
        coordinate: 2,
        ranges: Ranges::WIDE,
        ..Self::TWO
    };

    /// What the router reads, the lowest first.
    pub const KNOWN: &'static [Self] = &[Self::ONE, Self::TWO, Self::THREE];

    /// Where the lists begin: behind the head, the sides, node limit and costs, and the run limit.
    pub const fn lists_at(&self) -> usize {
        5 + self.position_bytes() + 4 * 4 + self.limits as usize
    }

    pub const fn position_bytes(&self) -> usize {
        3 * self.coordinate
    }

    pub const fn block_bytes(&self) -> usize {
        2 + self.position_bytes() + 2
    }

    pub const fn source_bytes(&self) -> usize {
        self.position_bytes() + 2
    }

    pub const fn sink_bytes(&self) -> usize {
        self.source_bytes() + self.limits as usize
    }

    /// The length of a sheet with so many records.
    pub const fn size(&self, blocks: usize, positions: usize, sinks: usize) -> usize {
        let least = self.lists_at() + 5 * 2 + self.source_bytes() + 1;
        let blocks = blocks * self.block_bytes();
        least + blocks + positions * self.position_bytes() + sinks * self.sink_bytes()
    }

    /// The lowest of these versions that holds a job; what is out of all ranges is left to the widest, which refuses it. Limits are the run
    /// limit and then each sink's tail limit.
    pub fn lowest(versions: &[Self], sides: [u32; 3], config: &Config, limits: &[u32]) -> Self {
        let widest = versions.last().expect("a version").ranges;
        let lowest = versions.iter().find(|version| {
            let ranges = &version.ranges;
            let is_wide = *ranges == widest || ranges.sides_in(sides) && config.is_within(ranges);
            is_wide && (version.limits || are_usual(limits))
        });
        *lowest.expect("the highest version carries limits")
    }

    /// Each cost and the node limit in the version's ranges, and their product in a room; else number 3.
    pub fn config_in(&self, config: &Config, room: &Room) -> bool {
        config.is_within(&self.ranges) && config.product_in(&self.ranges, room.cells())
    }
}

/// Whether a run limit and the tail limits behind it are those of a sheet that carries none.
fn are_usual(limits: &[u32]) -> bool {
    let tails = limits[1..].iter();
    limits[0] == USUAL_RUN.into() && tails.copied().all(|tail| tail == USUAL_TAIL.into())
}

/// Whether a limit is 1 to 15, else number 3.
pub fn is_limit(limit: u32) -> bool {
    (1..=u32::from(MOST_LIMIT)).contains(&limit)
}
