//! The conflict of a path by each of the three ways to say a stair's rule: at any kinds, joinable cells and list of cells.

use std::collections::BTreeSet;

use cases::conflict::{ConflictTest, StairRule};
use cases::reading::Reading;
use cases::rng::Rng;
use cases::room::{Room, kind, moves};

const SEED: u64 = 3;
const INPUTS: u64 = 300_000;

/// The ways that look for the path's cell at a clearance.
const LOOKING: [StairRule; 2] = [StairRule::AsWritten, StairRule::Published];

#[derive(Debug)]
struct Input {
    room: Room,
    kinds: Vec<u8>,
    joinable: BTreeSet<usize>,
    path: Vec<usize>,
}

impl Input {
    fn random(rng: &mut Rng) -> Self {
        let sides = [(); 3].map(|()| rng.between(1, 6) as u16);
        let room = Room::new(sides, 216).unwrap();
        let filled = rng.pick(&[0, 5, 20, 50]);
        let kinds = (0..room.cells())
            .map(|_| match rng.percent(filled) {
                true => rng.below(usize::from(kind::LAST) + 1) as u8,
                false => kind::AIR,
            })
            .collect();
        let share = rng.pick(&[0, 2, 5, 30]);
        let joinable = (0..room.cells()).filter(|_| rng.percent(share)).collect();
        let path = match rng.percent(80) {
            true => walk(rng, &room),
            false => any_cells(rng, &room),
        };
        Self {
            room,
            kinds,
            joinable,
            path,
        }
    }

    fn test(&self, rule: StairRule) -> ConflictTest<'_> {
        ConflictTest {
            room: &self.room,
            kinds: &self.kinds,
            rule,
            reading: Reading::PUBLISHED,
        }
    }

    fn conflict(&self, rule: StairRule) -> Option<usize> {
        self.test(rule).conflict(&self.joinable, &self.path)
    }

    fn conductors(&self) -> BTreeSet<usize> {
        self.joinable.iter().chain(&self.path).copied().collect()
    }

    fn has_pair(&self) -> bool {
        let test = self.test(StairRule::Shorter);
        test.first_pair(&self.conductors()).is_some()
    }

    /// What the stairs alone give, no pair having been looked for.
    fn along_stairs(&self, rule: StairRule) -> Option<usize> {
        let test = self.test(rule);
        test.along_stairs(&self.conductors(), &self.path)
    }
}

/// Some of the twelve moves one after another, as a search makes them.
fn walk(rng: &mut Rng, room: &Room) -> Vec<usize> {
    let mut path = vec![rng.below(room.cells())];
    let tried: Vec<_> = moves().collect();
    for _ in 0..rng.below(12) {
        let last = path[path.len() - 1];
        path.extend(room.next(last, rng.pick(&tried)));
    }
    path
}

/// Cells that need not be next to each other, as many as a short path has.
fn any_cells(rng: &mut Rng, room: &Room) -> Vec<usize> {
    (0..rng.below(7)).map(|_| rng.below(room.cells())).collect()
}

#[test]
fn all_ways_give_the_same_conflict() {
    let [mut pairs, mut stairs] = [0; 2];
    let mut apart = [0; 2];
    for index in 0..INPUTS {
        let input = Input::random(&mut Rng::for_case(SEED, index));
        let shorter = input.conflict(StairRule::Shorter);
        let alone = input.along_stairs(StairRule::Shorter);
        for (rule, apart) in LOOKING.into_iter().zip(&mut apart) {
            assert_eq!(input.conflict(rule), shorter, "{rule:?} of {input:?}");
            *apart += u64::from(input.along_stairs(rule) != alone);
        }
        let pair = input.has_pair();
        pairs += u64::from(pair);
        stairs += u64::from(!pair && shorter.is_some());
    }
    println!("{INPUTS} inputs: {pairs} have a pair of conductors, {stairs} a conflict at a stair");
    println!("without the look for pairs {apart:?} would differ, for {LOOKING:?}");
    // each part of the rule has been met, and it is the look for pairs that makes the ways one
    for met in [pairs, stairs, INPUTS - pairs - stairs, apart[0], apart[1]] {
        assert!(met >= INPUTS / 100, "only {met} of {INPUTS}");
    }
}
