//! Both modes of the plain router: the examples, and what must hold of every tree in strict mode.

use std::collections::{BTreeMap, BTreeSet};

use cases::examples;
use cases::generate::{Profile, strict_sheets};
use cases::room::{Config, DOWN, MOST_CELLS, Place, Room, kind};
use cases::search::{End, Question};
use cases::sheet::{Job, TreeAnswer};
use cases::strict::{Apart, StrictSheet};
use cases::tree::{Ends, Mode, realize};

#[test]
fn examples_of_both_modes() {
    for (name, sheet, published, strict) in examples::modes() {
        assert_eq!(sheet.plain_answer(), published, "{name}");
        assert_eq!(sheet.plain_answer_in(Mode::Published), published, "{name}");
        assert_eq!(sheet.plain_answer_in(Mode::Strict), strict, "{name}");
        assert_eq!(StrictSheet(sheet).plain_answer(), strict, "{name}");
    }
}

fn some_sheets() -> impl Iterator<Item = StrictSheet> {
    let tiny = strict_sheets(41, 3_000, Profile::Tiny);
    tiny.into_iter()
        .chain(strict_sheets(42, 1_200, Profile::Small))
}

/// Air that other nets or the job keep this net out of, by the lists alone; own ends and what is right beneath them excepted.
fn listed(job: &Job, room: &Room, ends: &Ends) -> BTreeSet<usize> {
    let lists = [
        &job.conductors,
        &job.clearances,
        &job.terminals,
        &job.reserved,
    ];
    let places = lists.into_iter().flatten().map(|at| Place::from(*at));
    let mut cells: BTreeSet<usize> = places.filter_map(|place| room.cell(place)).collect();
    for block in &job.blocks {
        cells.remove(&room.cell(Place::from(block.at)).unwrap());
    }
    for own in ends.own() {
        cells.remove(&own);
        room.next(own, DOWN).inspect(|cell| {
            cells.remove(cell);
        });
    }
    cells
}

/// In strict mode no wire lies on such a cell or in it. The published mode has wire on such cells.
#[test]
fn strict_wire_rests_on_no_cell_that_is_kept_clear() {
    let mut rests = BTreeMap::from([(false, 0), (true, 0)]);
    for sheet in some_sheets() {
        let Ok((job, room)) = sheet.0.judge(MOST_CELLS) else {
            continue;
        };
        let Ok(ends) = realize(&job, &room) else {
            continue;
        };
        let kept = listed(&job, &room, &ends);
        for (strict, mode) in [(false, Mode::Published), (true, Mode::Strict)] {
            let TreeAnswer::Tree { branches, .. } = sheet.0.plain_answer_in(mode) else {
                continue;
            };
            for cell in branches.concat().into_iter().map(usize::from) {
                let beneath = room.next(cell, DOWN);
                let on = beneath.is_some_and(|beneath| kept.contains(&beneath));
                assert!(!kept.contains(&cell));
                *rests.get_mut(&strict).unwrap() += usize::from(on);
            }
        }
    }
    assert!(rests[&false] > 50 && rests[&true] == 0, "{rests:?}");
}

/// For one search strict ways are old ways at the same price: a strict route costs at least what the published mode's does.
#[test]
fn strict_routes_are_routes_of_the_published_mode() {
    let mut routes = 0;
    for sheet in some_sheets() {
        let Ok((job, room)) = sheet.0.judge(MOST_CELLS) else {
            continue;
        };
        let mut kinds = vec![kind::AIR; room.cells()];
        for block in &job.blocks {
            kinds[room.cell(Place::from(block.at)).unwrap()] = block.kind;
        }
        let barred: Vec<bool> = (0..room.cells()).map(|cell| cell % 3 == 1).collect();
        let ends = [0, room.cells() - 1];
        let mut walled = kinds.clone();
        for cell in (0..room.cells()).filter(|cell| barred[*cell] && !ends.contains(cell)) {
            if walled[cell] == kind::AIR {
                walled[cell] = kind::SOLID;
            }
        }
        let search = |kinds: &[u8], barred: &[bool]| {
            let question = Question {
                room: &room,
                kinds,
                start: ends[0],
                goal: ends[1],
                config: &Config::DEFAULT,
                places: usize::MAX,
                barred,
            };
            question.search().end
        };
        if let End::Route { cost, .. } = search(&kinds, &barred) {
            let End::Route { cost: old, .. } = search(&walled, &[]) else {
                panic!("a strict way is an old way");
            };
            assert!(old <= cost);
            routes += 1;
        }
    }
    assert!(routes > 150, "{routes}");
}

/// A fifth is refused as it is read, and the modes differ in each way.
#[test]
fn the_generator_sets_the_modes_apart() {
    let (mut refused, mut apart) = (0, BTreeMap::new());
    for sheet in strict_sheets(43, 3_000, Profile::Mixed) {
        let published = sheet.0.plain_answer();
        let strict = sheet.plain_answer();
        refused += usize::from((1..=9).contains(&published.number()));
        *apart.entry(Apart::of(&published, &strict)).or_insert(0) += 1;
    }
    assert!((480..720).contains(&refused), "{refused}");
    for way in [
        Apart::AnotherTree,
        Apart::StrictRefuses,
        Apart::StrictRoutes,
        Apart::AnotherRefusal,
    ] {
        assert!(
            apart.get(&way).is_some_and(|count| *count >= 3),
            "{apart:?}"
        );
    }
}
