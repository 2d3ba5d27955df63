//! What stands in a random room.

use crate::rng::Rng;
use crate::room::{Place, Room, kind};

/// The kinds of a random room, one a cell.
pub fn random_terrain(rng: &mut Rng, room: &Room) -> Vec<u8> {
    let mut terrain = Terrain {
        room,
        kinds: vec![kind::AIR; room.cells()],
    };
    match rng.below(20) {
        0..3 => {}
        3..6 => terrain.pillars(rng),
        6..10 => terrain.hills(rng),
        10..12 => terrain.storeys(rng),
        12..14 => terrain.serpentine(rng),
        14..16 => terrain.maze(rng),
        _ => terrain.sprinkle_solid(rng),
    }
    if rng.percent(45) {
        let share = rng.pick(&[1, 3, 10, 30]);
        terrain.sprinkle_any(rng, share);
    }
    terrain.kinds
}

struct Terrain<'a> {
    room: &'a Room,
    kinds: Vec<u8>,
}

impl Terrain<'_> {
    fn set(&mut self, x: i32, y: i32, z: i32, kind: u8) {
        if let Some(cell) = self.room.cell(Place::new(x, y, z)) {
            self.kinds[cell] = kind;
        }
    }

    /// Calls `each` with every (x, z).
    fn columns(&mut self, mut each: impl FnMut(&mut Self, i32, i32)) {
        let [x, _, z] = self.room.sides();
        for x in 0..x {
            for z in 0..z {
                each(self, x, z);
            }
        }
    }

    /// A column of Solid from the floor up, `height` cells.
    fn column(&mut self, x: i32, z: i32, height: i32) {
        for y in 0..height {
            self.set(x, y, z, kind::SOLID);
        }
    }

    /// Solid ground and columns on it.
    fn pillars(&mut self, rng: &mut Rng) {
        let high = self.room.sides()[1];
        let ground = if high > 1 { 1 } else { 0 };
        let share = rng.pick(&[5, 15, 30]);
        self.columns(|terrain, x, z| {
            let tall = rng.percent(share);
            let height = if tall {
                rng.between(1, high as usize) as i32
            } else {
                ground
            };
            terrain.column(x, z, height);
        });
    }

    /// Ground that rises and falls by a step at a time.
    fn hills(&mut self, rng: &mut Rng) {
        let high = self.room.sides()[1];
        let slope = rng.between(1, 4) as i32;
        let (bend_x, bend_z) = (rng.between(3, 12) as i32, rng.between(3, 12) as i32);
        self.columns(|terrain, x, z| {
            let wave = |at: i32, bend: i32| (at % (2 * bend) - bend).abs();
            let height = (wave(x, bend_x) + wave(z, bend_z)) / slope;
            terrain.column(x, z, height.min(high - 2));
        });
    }

    /// Slabs with a few holes, two to four levels apart.
    fn storeys(&mut self, rng: &mut Rng) {
        let high = self.room.sides()[1];
        let apart = rng.between(2, 4) as i32;
        let slab = rng.pick(&[kind::SOLID, kind::SOLID, kind::TRANSPARENT]);
        let share = rng.pick(&[4, 12, 25]);
        self.columns(|terrain, x, z| {
            for y in (0..high).filter(|y| y % apart == 0) {
                if !rng.percent(share) {
                    terrain.set(x, y, z, slab);
                }
            }
        });
    }

    /// Walls across x with a gap at alternating ends.
    fn serpentine(&mut self, rng: &mut Rng) {
        let [_, high, deep] = self.room.sides();
        let apart = rng.between(2, 3) as i32;
        self.columns(|terrain, x, z| {
            let gap = if x / apart % 2 == 0 { 0 } else { deep - 1 };
            if x % apart == 1 && z != gap {
                terrain.column(x, z, high);
            }
        });
    }

    /// A perfect maze on the even columns: one way from each to each.
    fn maze(&mut self, rng: &mut Rng) {
        let [wide, high, deep] = self.room.sides();
        self.columns(|terrain, x, z| terrain.column(x, z, high));
        let floor = if high > 1 { rng.below(2) as i32 } else { 0 };
        let mut trail = vec![(0, 0)];
        self.dig(0, 0, floor);
        while let Some((x, z)) = trail.last().copied() {
            let mut ways = [(2, 0), (-2, 0), (0, 2), (0, -2)];
            rng.shuffle(&mut ways);
            let fresh = ways.into_iter().find(|(dx, dz)| {
                let (x, z) = (x + dx, z + dz);
                (0..wide).contains(&x) && (0..deep).contains(&z) && !self.dug(x, z, floor)
            });
            match fresh {
                None => {
                    trail.pop();
                }
                Some((dx, dz)) => {
                    self.dig(x + dx / 2, z + dz / 2, floor);
                    self.dig(x + dx, z + dz, floor);
                    trail.push((x + dx, z + dz));
                }
            }
        }
    }

    fn dig(&mut self, x: i32, z: i32, floor: i32) {
        for y in floor..self.room.sides()[1] {
            self.set(x, y, z, kind::AIR);
        }
    }

    fn dug(&self, x: i32, z: i32, floor: i32) -> bool {
        let cell = self.room.cell(Place::new(x, floor, z));
        cell.is_some_and(|cell| self.kinds[cell] == kind::AIR)
    }

    fn sprinkle_solid(&mut self, rng: &mut Rng) {
        let share = rng.pick(&[10, 20, 30, 45, 60]);
        for kind in &mut self.kinds {
            if rng.percent(share) {
                *kind = kind::SOLID;
            }
        }
    }

    /// Blocks of every kind, Air included.
    fn sprinkle_any(&mut self, rng: &mut Rng, share: usize) {
        for kind in &mut self.kinds {
            if rng.percent(share) {
                *kind = rng.below(usize::from(kind::LAST) + 1) as u8;
            }
        }
    }
}
