//! docs/RULES.md, The room: sides, cell numbers, kinds, facings, the twelve moves, and the costs with their ranges.

pub const MOST_SIDE: u16 = Ranges::WIDE.side;
pub const MOST_CELLS: usize = Ranges::WIDE.cells;
pub const MOST_NODES: u32 = Ranges::WIDE.nodes;

/// How large a room's sides, V, a cost and the node limit may be.
#[derive(Clone, Copy, Debug, Eq, PartialEq)]
pub struct Ranges {
    pub side: u16,
    pub cells: usize,
    pub cost: u32,
    pub nodes: u32,
    /// V times the sum of the support cost and the dearer step.
    pub product: u64,
}

impl Ranges {
    /// Of sheets of versions 1 and 2: the product follows from the others.
    pub const OLD: Self = Self {
        side: 64,
        cells: 16_384,
        cost: 100_000,
        nodes: 200_000,
        product: 16_384 * 200_000,
    };

    /// Of larger halls: of searches and whatever takes a room, and of sheets of version 3.
    pub const WIDE: Self = Self {
        side: 300,
        cells: 65_536,
        cost: 1_000_000,
        nodes: 800_000,
        product: 3_300_000_000,
    };

    /// Whether these are the sides of a room, else number 2.
    pub fn sides_in(&self, sides: [u32; 3]) -> bool {
        let cells: u128 = sides.iter().map(|side| u128::from(*side)).product();
        let side = |side: &u32| (1..=u32::from(self.side)).contains(side);
        sides.iter().all(side) && cells <= self.cells as u128
    }
}

/// Kinds by number, in the order of the Rust's `BlockKind`.
pub mod kind {
    pub const AIR: u8 = 0;
    pub const SOLID: u8 = 1;
    pub const TRANSPARENT: u8 = 2;
    pub const REDSTONE_WIRE: u8 = 3;
    pub const REDSTONE_TORCH: u8 = 4;
    pub const REPEATER: u8 = 5;
    pub const COMPARATOR: u8 = 6;
    pub const LEVER: u8 = 7;
    pub const BUTTON: u8 = 8;
    pub const PRESSURE_PLATE: u8 = 9;
    pub const REDSTONE_LAMP: u8 = 10;
    pub const REDSTONE_BLOCK: u8 = 11;
    pub const PISTON: u8 = 12;
    pub const LAST: u8 = PISTON;
}

/// Facings by number: 0 none, then North, East, South, West, Up, Down.
pub mod facing {
    pub const NONE: u8 = 0;
    pub const NORTH: u8 = 1;
    pub const EAST: u8 = 2;
    pub const SOUTH: u8 = 3;
    pub const WEST: u8 = 4;
    pub const LAST: u8 = 6;
}

/// Port kinds by number.
pub mod port {
    pub const WIRE: u8 = 0;
    pub const BLOCK_POWER: u8 = 1;
    pub const LAST: u8 = BLOCK_POWER;
}

/// The four flat directions in the order in which a search tries them.
pub const SIDEWAYS: [(i32, i32); 4] = [(1, 0), (-1, 0), (0, 1), (0, -1)];

/// The twelve moves in the order in which a search tries them.
pub fn moves() -> impl Iterator<Item = Offset> {
    SIDEWAYS
        .into_iter()
        .flat_map(|(dx, dz)| [-1, 0, 1].map(|dy| Offset(dx, dy, dz)))
}

#[derive(Clone, Copy, Debug, Eq, PartialEq)]
pub struct Offset(pub i32, pub i32, pub i32);

pub const UP: Offset = Offset(0, 1, 0);
pub const DOWN: Offset = Offset(0, -1, 0);

/// Where a horizontal facing points; none for no facing, Up and Down.
pub fn sideways(facing: u8) -> Option<Offset> {
    match facing {
        facing::NORTH => Some(Offset(0, 0, -1)),
        facing::EAST => Some(Offset(1, 0, 0)),
        facing::SOUTH => Some(Offset(0, 0, 1)),
        facing::WEST => Some(Offset(-1, 0, 0)),
        _ => None,
    }
}

/// A place in or around the room.
#[derive(Clone, Copy, Debug, Eq, PartialEq)]
pub struct Place {
    pub x: i32,
    pub y: i32,
    pub z: i32,
}

impl Place {
    pub const fn new(x: i32, y: i32, z: i32) -> Self {
        Self { x, y, z }
    }

    #[must_use]
    pub const fn plus(self, by: Offset) -> Self {
        Self::new(self.x + by.0, self.y + by.1, self.z + by.2)
    }

    pub const fn distance(self, other: Self) -> u32 {
        self.x.abs_diff(other.x) + self.y.abs_diff(other.y) + self.z.abs_diff(other.z)
    }
}

impl From<[u16; 3]> for Place {
    fn from([x, y, z]: [u16; 3]) -> Self {
        Self::new(x.into(), y.into(), z.into())
    }
}

#[derive(Clone, Copy, Debug, Eq, PartialEq)]
pub struct Room {
    sides: [i32; 3],
}

impl Room {
    /// A room of lawful sides and at most `most_cells` cells, else none: number 2.
    pub fn new(sides: [u16; 3], most_cells: usize) -> Option<Self> {
        Self::within(&Ranges::WIDE, sides).filter(|room| room.cells() <= most_cells)
    }

    /// A room in such ranges, else none: number 2.
    pub fn within(ranges: &Ranges, sides: [u16; 3]) -> Option<Self> {
        ranges.sides_in(sides.map(u32::from)).then(|| Self {
            sides: sides.map(i32::from),
        })
    }

    /// V, the number of cells.
    pub fn cells(&self) -> usize {
        self.sides.iter().map(|side| *side as usize).product()
    }

    pub fn sides(&self) -> [i32; 3] {
        self.sides
    }

    /// The cell's number, (xY + y)Z + z; none outside.
    pub fn cell(&self, place: Place) -> Option<usize> {
        let [x, y, z] = self.sides;
        let inside =
            (0..x).contains(&place.x) && (0..y).contains(&place.y) && (0..z).contains(&place.z);
        inside.then(|| ((place.x * y + place.y) * z + place.z) as usize)
    }

    pub fn place(&self, cell: usize) -> Place {
        let [_, y, z] = self.sides;
        let cell = cell as i32;
        Place::new(cell / z / y, cell / z % y, cell % z)
    }

    /// The cell that lies `by` from here; none outside.
    pub fn next(&self, cell: usize, by: Offset) -> Option<usize> {
        self.cell(self.place(cell).plus(by))
    }

    pub fn distance(&self, a: usize, b: usize) -> u32 {
        self.place(a).distance(self.place(b))
    }
}

/// The kind at a cell. Everything outside is Solid.
pub fn kind_at(kinds: &[u8], cell: Option<usize>) -> u8 {
    cell.map_or(kind::SOLID, |cell| kinds[cell])
}

/// Costs in tenths, and the node limit.
#[derive(Clone, Copy, Debug, Eq, PartialEq)]
pub struct Config {
    pub node_limit: u32,
    pub horizontal: u32,
    pub stair: u32,
    pub support: u32,
}

impl Config {
    pub const DEFAULT: Self = Self {
        node_limit: 30_000,
        horizontal: 10,
        stair: 25,
        support: 15,
    };

    /// Each cost and the node limit in range, and the product in a room of so many cells; else number 3.
    pub fn in_range(&self, cells: usize) -> bool {
        self.is_within(&Ranges::WIDE) && self.product_in(&Ranges::WIDE, cells)
    }

    /// Each single number in these ranges.
    pub fn is_within(&self, ranges: &Ranges) -> bool {
        self.node_limit <= ranges.nodes
            && [self.horizontal, self.stair, self.support]
                .iter()
                .all(|cost| *cost <= ranges.cost)
    }

    /// V times the sum of the support cost and the dearer step in these ranges.
    pub fn product_in(&self, ranges: &Ranges, cells: usize) -> bool {
        let dearest = u64::from(self.support) + u64::from(self.horizontal.max(self.stair));
        cells as u64 * dearest <= ranges.product
    }
}
