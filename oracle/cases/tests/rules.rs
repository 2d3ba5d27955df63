//! The plain router on the samples and on the examples of single rules.

use cases::room::{Config, Place, Room, kind, moves};
use cases::samples::{HEX_SHEET, HEX_SHEET_LINES, Sample, default_job, samples};
use cases::search::{Search, SearchAnswer, Totals};
use cases::sheet::{Job, Sheet};
use cases::text::{parse_hex, tree_answer_lines};
use cases::tree::ROUTE_MOST_CELLS;
use cases::{Refusal, examples};

#[test]
fn samples_of_document_01() {
    for (name, sample) in samples() {
        match sample {
            Sample::Search(case, answer) => assert_eq!(case.plain_answer(), answer, "{name}"),
            Sample::Sheet(case, answer) => assert_eq!(case.plain_answer(), answer, "{name}"),
        }
    }
}

#[test]
fn the_hex_sheet_is_printed() {
    let sheet = Sheet::of_route(parse_hex(HEX_SHEET).unwrap());
    let answer = sheet.plain_answer_within(ROUTE_MOST_CELLS);
    assert_eq!(tree_answer_lines(&answer), HEX_SHEET_LINES);
}

#[test]
fn examples_of_searches() {
    for (name, case, answer) in examples::searches() {
        assert_eq!(case.plain_answer(), answer, "{name}");
    }
}

#[test]
fn examples_of_sheets() {
    for (name, case, answer) in examples::sheets() {
        assert_eq!(case.plain_answer(), answer, "{name}");
    }
}

/// Over 4,096 cells program `route` says `refused 2 0` where 2 is judged: after 1, before 3.
#[test]
fn route_has_fewer_cells() {
    let printed = |job: &Job| {
        let answer = Sheet::of_route(job.bytes()).plain_answer_within(ROUTE_MOST_CELLS);
        tree_answer_lines(&answer)
    };
    assert_eq!(
        printed(&default_job([64, 1, 64], &[])),
        "net 0 1\nrepeaters\n"
    );
    let mut large = default_job([64, 2, 33], &[]);
    large.config.support = 100_001;
    assert_eq!(printed(&large), "refused 2 0\n");
    large.sinks = vec![large.source.into(); 17];
    assert_eq!(printed(&large), "refused 1 0\n");
}

/// The totals of the paths that the plain search answers: a support is new beneath each cell but the start that has Air there.
#[test]
fn totals_of_paths() {
    let asked = |sides: [u16; 3], levers: &[usize], start, goal, config| {
        let cells = sides.map(usize::from).iter().product();
        let mut kinds = vec![kind::AIR; cells];
        levers.iter().for_each(|cell| kinds[*cell] = kind::LEVER);
        let case = Search {
            sides,
            config,
            start,
            goal,
            queue: 12 * cells as u32,
            lent: cells as u32,
            kinds,
        };
        let SearchAnswer::Route { path, cost, .. } = case.plain_answer() else {
            panic!("there is a route");
        };
        let totals = case.totals(&path);
        assert_eq!(totals.steps + totals.supports, u64::from(cost));
        (path, totals)
    };
    let totals = |steps, supports, laid| Totals {
        steps,
        supports,
        laid,
    };
    let usual = Config::DEFAULT;
    let free = Config {
        support: 0,
        ..usual
    };
    assert_eq!(
        asked([1, 1, 1], &[], 0, 0, usual),
        (vec![0], totals(0, 0, 0))
    );
    assert_eq!(
        asked([2, 2, 1], &[], 1, 3, usual),
        (vec![1, 3], totals(10, 15, 1))
    );
    assert_eq!(
        asked([2, 2, 1], &[], 1, 3, free),
        (vec![1, 3], totals(10, 0, 1))
    );
    assert_eq!(
        asked([4, 4, 1], &[2, 10], 3, 5, usual),
        (vec![3, 6, 9, 5], totals(60, 45, 3))
    );
}

#[test]
fn cell_numbers() {
    let room = Room::new([3, 4, 5], 60).unwrap();
    let numbers =
        (0..3).flat_map(|x| (0..4).flat_map(move |y| (0..5).map(move |z| Place::new(x, y, z))));
    for (number, place) in numbers.enumerate() {
        assert_eq!(room.cell(place), Some(number));
        assert_eq!(room.place(number), place);
    }
    assert_eq!(room.cell(Place::new(0, -1, 0)), None);
    assert_eq!(room.cell(Place::new(3, 0, 0)), None);
}

#[test]
fn the_twelve_moves() {
    let moves: Vec<_> = moves()
        .map(|offset| (offset.0, offset.1, offset.2))
        .collect();
    assert_eq!(moves.len(), 12);
    assert_eq!(moves[..4], [(1, -1, 0), (1, 0, 0), (1, 1, 0), (-1, -1, 0)]);
    assert_eq!(moves[9..], [(0, -1, -1), (0, 0, -1), (0, 1, -1)]);
}

#[test]
fn a_refused_sheet_is_printed() {
    let answer = cases::sheet::TreeAnswer::Refused(Refusal::new(14, 7));
    assert_eq!(tree_answer_lines(&answer), "refused 14 7\n");
}
