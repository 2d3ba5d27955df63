//! The conflict of a path with the joinable cells. A stair's rule is said in three ways, which give the same conflict: by
//! the time that stairs are looked at, no conductor stands right above another.

use std::collections::BTreeSet;

use crate::reading::{Other, Reading};
use crate::room::{DOWN, Room, UP, kind};

/// What a stair gives by its clearance, before a conductor above the clearance is looked for.
#[derive(Clone, Copy, Debug, Eq, PartialEq)]
pub enum StairRule {
    /// Not Air gives the pair's second cell.
    Shorter,
    /// As the requirement has it written: not Air gives the path's cell there, else the pair's second cell.
    AsWritten,
    /// As the published Rust has it: not Air or a conductor gives the path's cell there, else the pair's second cell.
    Published,
}

/// What a path is tested in: the unblocked room.
#[derive(Clone, Copy)]
pub struct ConflictTest<'a> {
    pub room: &'a Room,
    pub kinds: &'a [u8],
    pub rule: StairRule,
    pub reading: Reading,
}

impl ConflictTest<'_> {
    /// The first conflict of a path with these cells. The path begins at the approach.
    pub fn conflict(&self, joinable: &BTreeSet<usize>, path: &[usize]) -> Option<usize> {
        let conductors = joinable.iter().chain(path).copied().collect();
        self.first_pair(&conductors)
            .or_else(|| self.along_stairs(&conductors, path))
    }

    /// The first conductor with a conductor right beneath.
    pub fn first_pair(&self, conductors: &BTreeSet<usize>) -> Option<usize> {
        let conducts = |cell: &usize| conductors.contains(cell);
        let beneath = |cell: &usize| self.room.next(*cell, DOWN).filter(conducts);
        let upper = conductors.iter().find(|cell| beneath(cell).is_some())?;
        let lower = beneath(upper).filter(|_| self.reading.is(Other::LowerOfPair));
        Some(lower.unwrap_or(*upper))
    }

    /// The first conflict along the path's stairs.
    pub fn along_stairs(&self, conductors: &BTreeSet<usize>, path: &[usize]) -> Option<usize> {
        let mut stairs = stairs(self.room, path);
        if self.reading.is(Other::StairsFromGoal) {
            stairs.reverse();
        }
        let conflict = |stair: &Stair| self.at_stair(conductors, path, stair);
        stairs.iter().find_map(conflict)
    }

    /// The conflict at one stair: by its clearance, then a conductor above the clearance gives that cell.
    fn at_stair(
        &self,
        conductors: &BTreeSet<usize>,
        path: &[usize],
        stair: &Stair,
    ) -> Option<usize> {
        let filled = self.at_clearance(conductors, path, stair);
        let conducts = |cell: &usize| conductors.contains(cell);
        let above = self.room.next(stair.clearance, UP).filter(conducts);
        match self.reading.is(Other::AboveClearanceFirst) {
            true => above.or(filled),
            false => filled.or(above),
        }
    }

    fn at_clearance(
        &self,
        conductors: &BTreeSet<usize>,
        path: &[usize],
        stair: &Stair,
    ) -> Option<usize> {
        let Stair { pair, clearance } = stair;
        let second = match self.reading.is(Other::SecondFromGoal) {
            true => pair[0],
            false => pair[1],
        };
        let filled = self.kinds[*clearance] != kind::AIR;
        let on_path = || path.iter().copied().find(|cell| cell == clearance);
        match self.rule {
            StairRule::Shorter => filled.then_some(second),
            StairRule::AsWritten => filled.then(|| on_path().unwrap_or(second)),
            StairRule::Published => {
                (filled || conductors.contains(clearance)).then(|| on_path().unwrap_or(second))
            }
        }
    }
}

/// Two cells of a path that follow each other at different heights, and the clearance, which lies above the lower one.
pub struct Stair {
    pub pair: [usize; 2],
    pub clearance: usize,
}

/// A path's stairs, from its beginning on.
pub fn stairs(room: &Room, path: &[usize]) -> Vec<Stair> {
    let height = |cell| room.place(cell).y;
    path.windows(2)
        .filter(|pair| height(pair[0]) != height(pair[1]))
        .filter_map(|pair| {
            let lower = *pair.iter().min_by_key(|cell| height(**cell))?;
            Some(Stair {
                pair: [pair[0], pair[1]],
                clearance: room.next(lower, UP)?,
            })
        })
        .collect()
}
