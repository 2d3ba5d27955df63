//! The inputs of docs/DIFFERENCES.md that `oracle smallest` prints: each shows what it is there for.

use cases::room::{facing, kind};
use cases::samples::{block, default_job, wire};
use cases::sheet::Sheet;
use cases::smallest::signs::repeater_opposed;
use cases::smallest::space::rooms;
use cases::smallest::{Fewer, points};
use cases::text::tree_answer_lines;

#[test]
fn each_input_shows_its_point() {
    for point in points() {
        assert!(point.is_shown(), "{}", point.name);
    }
}

/// No job of fewer cells shows a point, as far as that is gone through in no time.
#[test]
fn no_job_of_one_or_two_cells_shows_a_point_of_more() {
    for point in points() {
        let jobs = matches!(point.fewer, Fewer::Jobs(_));
        for cells in (1..point.input.cells().min(3)).filter(|_| jobs) {
            let step = point.step(cells).expect("a walk");
            assert!(step.seen > 0 && step.shown.is_none(), "{}", point.name);
        }
    }
}

/// The same finding at the usual costs.
#[test]
fn a_repeater_is_opposed_at_the_usual_costs() {
    let sinks = [
        wire([0, 0, 1], facing::SOUTH),
        wire([0, 0, 1], facing::NORTH),
        wire([3, 0, 2], facing::EAST),
    ];
    let mut job = default_job([5, 1, 3], &sinks);
    job.source = wire([0, 0, 2], facing::NONE);
    for at in [[0, 0, 1], [1, 0, 1], [3, 0, 1], [3, 0, 2]] {
        job.blocks.push(block(0, at, kind::SOLID));
    }
    assert!(repeater_opposed(&job));
    assert_eq!(
        tree_answer_lines(&Sheet::of_route(job.bytes()).plain_answer()),
        "net 3 13\nbranch 2 1\nbranch 2 5 8 7 6 3 0 1\nbranch 6 9 12 13 14 11\nrepeaters 3\n"
    );
}

#[test]
fn rooms_of_so_many_cells() {
    assert_eq!(rooms(1), [[1, 1, 1]]);
    assert_eq!(rooms(4).len(), 6);
    assert_eq!(rooms(12).len(), 18);
}
