//! Routes drawn: the smallest inputs of each rule, and each refusal in its order.

use crate::drawing::{Drawing, DrawingAnswer, Repeater};
use crate::room::{facing, kind};

/// A path in a room of Air, with Solid supports and a list that just suffices.
fn drawing(sides: [u16; 3], run: u32, path: &[u32]) -> Drawing {
    Drawing {
        sides,
        support: kind::SOLID.into(),
        run,
        kinds: vec![kind::AIR; sides.iter().map(|side| usize::from(*side)).product()],
        path: path.to_vec(),
        cells: path.len() as u32,
        facings: path.len() as u32,
    }
}

/// Both are done: the room drawn, and the list; a repeater stands where one is listed.
fn done(kinds: &[u8], repeaters: &[(u16, u8)]) -> DrawingAnswer {
    let mut repeatered = kinds.to_vec();
    for (cell, _) in repeaters {
        repeatered[usize::from(*cell)] = kind::REPEATER;
    }
    let entry = |(cell, facing): &(u16, u8)| Repeater {
        cell: *cell,
        facing: *facing,
    };
    DrawingAnswer {
        laid: 0,
        kinds: kinds.to_vec(),
        listed: 0,
        repeatered,
        repeaters: repeaters.iter().map(entry).collect(),
    }
}

/// Both are refused with this number.
fn refused(number: u8, case: &Drawing) -> DrawingAnswer {
    DrawingAnswer {
        laid: number,
        kinds: case.kinds.clone(),
        listed: number,
        repeatered: case.kinds.clone(),
        repeaters: Vec::new(),
    }
}

const ROW: [u32; 5] = [0, 1, 2, 3, 4];

/// A row with a repeater, facing East, in each of these cells.
fn row(repeaters: &[u16]) -> DrawingAnswer {
    let entries: Vec<_> = repeaters.iter().map(|cell| (*cell, facing::EAST)).collect();
    done(&[kind::REDSTONE_WIRE; 5], &entries)
}

pub fn drawings() -> Vec<(&'static str, Drawing, DrawingAnswer)> {
    let mut list = rules();
    list.extend(order());
    list
}

fn rules() -> Vec<(&'static str, Drawing, DrawingAnswer)> {
    let upright = [2, 2, 1];
    let crossing = [3, 4, 5, 2, 1, 4, 7];
    let mut list = vec![
        (
            "a support lands on a later cell",
            drawing(upright, 12, &[1, 2, 0]),
            done(&[1, 3, 3, 0], &[]),
        ),
        (
            "wire lies on wire",
            drawing(upright, 12, &[0, 2, 1]),
            done(&[3, 3, 3, 0], &[]),
        ),
        ("no path", drawing(upright, 1, &[]), done(&[0; 4], &[])),
        (
            "a stair is passed over",
            drawing([6, 2, 1], 2, &[0, 2, 5, 7, 9, 11]),
            done(&[3, 0, 3, 0, 1, 3, 1, 3, 1, 3, 1, 3], &[(7, facing::EAST)]),
        ),
        (
            "a cell is listed twice",
            drawing([3, 1, 3], 1, &crossing),
            done(
                &[0, 3, 3, 3, 3, 3, 0, 3, 0],
                &[(4, facing::SOUTH), (4, facing::EAST)],
            ),
        ),
    ];
    for (run, repeaters) in [
        (0, &[1, 2, 3][..]),
        (1, &[1, 2, 3]),
        (2, &[2]),
        (3, &[3]),
        (4, &[]),
    ] {
        list.push((
            "a row at a run limit",
            drawing([5, 1, 1], run, &ROW),
            row(repeaters),
        ));
    }
    list
}

/// Of two faults the one that is judged first tells its number: 2, 6, 5, 4.
fn order() -> Vec<(&'static str, Drawing, DrawingAnswer)> {
    let faults: [(u8, fn(&mut Drawing)); 4] = [
        (2, |case| case.sides[1] = 0),
        (6, |case| case.kinds.truncate(4)),
        (5, |case| case.kinds[0] = kind::LAST + 1),
        (4, |case| case.path[4] = 5),
    ];
    let mut list = Vec::new();
    for (place, (number, fault)) in faults.iter().enumerate() {
        let mut case = drawing([5, 1, 1], 2, &ROW);
        fault(&mut case);
        faults[place..]
            .iter()
            .for_each(|(_, behind)| behind(&mut case));
        list.push(("two faults", case.clone(), refused(*number, &case)));
    }
    list.extend(one_sided());
    list
}

/// Faults that only one of the two looks at.
fn one_sided() -> Vec<(&'static str, Drawing, DrawingAnswer)> {
    let sound = drawing([5, 1, 1], 2, &ROW);
    let mut support = sound.clone();
    support.support = 256;
    let mut bare = done(&[kind::AIR; 5], &[(2, facing::EAST)]);
    bare.laid = 5;
    let mut short = sound.clone();
    short.facings = 4;
    let mut unlisted = row(&[]);
    unlisted.listed = 6;
    vec![
        ("no kind of support", support, bare),
        ("a short list", short, unlisted),
    ]
}

/// The examples without their answers.
pub fn drawing_cases() -> Vec<Drawing> {
    drawings().into_iter().map(|(_, case, _)| case).collect()
}
