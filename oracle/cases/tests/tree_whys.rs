//! Why a sink wasn't reached: the examples, and what must hold of every verdict.

use std::collections::BTreeSet;

use cases::conflict::{ConflictTest, StairRule};
use cases::examples;
use cases::generate::{Profile, tree_whys};
use cases::reading::Reading;
use cases::room::{MOST_CELLS, Room, facing, kind, moves};
use cases::samples::{block, default_job, wire};
use cases::search::Question;
use cases::sheet::{Job, Sheet};
use cases::tree::Mode;
use cases::tree_why::{SinkReason, TreeWhy, Turn, cause, kept, verdict};
use cases::why::reason;

#[test]
fn examples_of_tree_whys() {
    for (name, case, answer) in examples::tree_whys() {
        assert_eq!(case.plain_answer(), answer, "{name}");
    }
}

fn some_tree_whys() -> impl Iterator<Item = TreeWhy> {
    let tiny = tree_whys(51, 5_000, Profile::Tiny);
    tiny.into_iter().chain(tree_whys(52, 2_500, Profile::Small))
}

/// Each case that stops with 13 or 14, with its turn and its reason.
fn each_turn(mut with: impl FnMut(&Turn, &SinkReason)) {
    for case in some_tree_whys() {
        let Ok((job, room)) = case.judge() else {
            continue;
        };
        let answer = case.plain_answer();
        match (case.turn(&job, &room, &answer.tree), &answer.reason) {
            (Some(turn), Some(reason)) => with(&turn, reason),
            (turn, reason) => assert!(turn.is_none() && reason.is_none()),
        }
    }
}

/// Shut in or with its approach taken, no first search finds a way; in the published mode, else one does.
#[test]
fn first_searches_agree_with_the_verdict() {
    let mut seen = [[0; 5]; 2];
    each_turn(|turn, told| {
        if turn.stopped.refusal.number == 13 {
            assert_eq!(told.verdict, verdict::CUT_SHORT);
            return;
        }
        let found = turn
            .stopped
            .joinable
            .iter()
            .any(|goal| turn.finds_a_way(*goal));
        let strict = turn.mode == Mode::Strict;
        match told.verdict {
            verdict::APPROACH_TAKEN | verdict::SHUT_IN => assert!(!found),
            verdict::CONFLICTS | verdict::CUT_SHORT => assert!(found || strict),
            other => panic!("no verdict: {other}"),
        }
        assert!(told.verdict != verdict::CONFLICTS || turn.is_ample());
        seen[usize::from(strict)][usize::from(told.verdict)] += 1;
    });
    for mode in seen {
        assert!(
            mode[1] > 100 && mode[2] > 400 && mode[3] > 100 && mode[4] > 50,
            "{seen:?}"
        );
    }
}

/// The cells reached hold the approach and no joinable cell; an allowed move leads to a cell that is reached. A cell is blocked exactly
/// where it has a cause, and a move is told to be kept free exactly where blocking alone stands against it.
#[test]
fn walls_and_causes() {
    let (mut reasons, mut bits) = (BTreeSet::new(), 0);
    each_turn(|turn, told| {
        if told.verdict != verdict::SHUT_IN {
            assert!(told.reached.is_empty() && told.causes.is_empty());
            return;
        }
        let reached: BTreeSet<usize> = told.reached.iter().map(|told| told.cell.into()).collect();
        assert!(reached.contains(&turn.stopped.approach()));
        assert!(reached.is_disjoint(&turn.stopped.joinable));
        let cells = turn.room.cells();
        let causes = told.causes_bytes(cells);
        let blocked: Vec<bool> = causes.iter().map(|bits| *bits != 0).collect();
        assert_eq!(blocked, turn.stopped.blocked);
        bits |= causes.iter().fold(0, |all, bits| all | bits);
        for told in &told.reached {
            for (given, offset) in told.moves.into_iter().zip(moves()) {
                let next = turn.room.next(told.cell.into(), offset);
                assert_eq!(next.is_none(), given == reason::OUTSIDE);
                let Some(next) = next else { continue };
                assert!(given != reason::ALLOWED || reached.contains(&next));
                assert!(given != kept::FREE || causes[next] != 0);
                assert!(given != kept::SUPPORT_FREE || turn.mode == Mode::Strict);
                reasons.insert(given);
            }
        }
    });
    assert_eq!(reasons, BTreeSet::from([0, 2, 3, 4, 5]));
    assert_eq!(bits, cause::ALL.iter().sum::<u8>());
}

/// A fifth is refused as it is read; of all, two in five have 14, and each verdict comes.
#[test]
fn the_generator_shuts_sinks_off() {
    let cases = tree_whys(53, 3_000, Profile::Mixed);
    let answers: Vec<_> = cases.iter().map(TreeWhy::plain_answer).collect();
    let count =
        |due: &dyn Fn(u8) -> bool| answers.iter().filter(|answer| due(answer.number())).count();
    let damaged = count(&|number| (1..=9).contains(&number));
    assert!((480..780).contains(&damaged), "{damaged}");
    let stopped = count(&|number| number == 14);
    assert!(stopped > 1_000, "{stopped}");
    for number in [0, 1, 2, 3, 4, 5, 6, 7, 13] {
        assert!(count(&|found| found == number) >= 10, "{number}");
    }
    for told in 1..=4 {
        let seen = answers
            .iter()
            .filter(|answer| answer.verdict() == told)
            .count();
        assert!(seen > 80, "verdict {told}: {seen}");
    }
}

/// Whether a lawful way that is free of conflicts leads from the approach to the source's cell, the only joinable one: by trying all.
fn has_a_good_way(turn: &Turn) -> bool {
    let goal = turn.stopped.ends.source;
    let question = Question {
        room: turn.room,
        kinds: &turn.stopped.kinds,
        start: turn.stopped.approach(),
        goal,
        config: &turn.job.config,
        places: 1,
        barred: &[],
    };
    let test = ConflictTest {
        room: turn.room,
        kinds: &turn.stopped.kinds,
        rule: StairRule::Shorter,
        reading: Reading::PUBLISHED,
    };
    // both ends must be fit for wire
    let fit = [question.start, goal]
        .iter()
        .all(|cell| question.kinds[*cell] == kind::AIR);
    let mut waiting = vec![vec![question.start]; usize::from(fit)];
    while let Some(path) = waiting.pop() {
        let last = path[path.len() - 1];
        if last == goal {
            if test.conflict(&turn.stopped.joinable, &path).is_none() {
                return true;
            }
            continue;
        }
        let steps = moves().filter_map(|offset| question.step(last, offset));
        let fresh = steps
            .map(|(next, _)| next)
            .filter(|next| !path.contains(next));
        waiting.extend(fresh.map(|next| [path.as_slice(), &[next]].concat()));
    }
    false
}

/// Each room of so many cells, with no block or with Solid in one cell, and each source and sink of it.
fn each_small_job(cells: u16, mut with: impl FnMut(&Job)) {
    let sides = (1..=cells)
        .flat_map(|x| (1..=cells).flat_map(move |y| (1..=cells).map(move |z| [x, y, z])));
    for sides in
        sides.filter(|[x, y, z]| u32::from(*x) * u32::from(*y) * u32::from(*z) == u32::from(cells))
    {
        let room = Room::new(sides, MOST_CELLS).unwrap();
        let at = |cell: usize| {
            let place = room.place(cell);
            [place.x, place.y, place.z].map(|part| part as u16)
        };
        let cells = || 0..room.cells();
        for (source, sink) in cells().flat_map(|source| cells().map(move |sink| (source, sink))) {
            let mut job = default_job(sides, &[wire(at(sink), facing::NONE)]);
            job.source = wire(at(source), facing::NONE);
            with(&job);
            for solid in cells() {
                job.blocks = vec![block(0, at(solid), kind::SOLID)];
                with(&job);
            }
        }
    }
}

/// 14 doesn't say that there is no way. With Solid in one cell it takes eight cells to show it, in an empty room twelve.
#[test]
fn fourteen_with_a_way() {
    let mut found = Vec::new();
    for cells in 1..=12 {
        each_small_job(cells, |job| {
            if cells > 8 && !job.blocks.is_empty() {
                return;
            }
            let case = TreeWhy::of(Sheet::of_route(job.bytes()), Mode::Published);
            let answer = case.plain_answer();
            let (job, room) = case.judge().unwrap();
            if let Some(turn) = case.turn(&job, &room, &answer.tree) {
                if has_a_good_way(&turn) {
                    assert_eq!(answer.verdict(), verdict::CONFLICTS);
                    found.push((cells, job.blocks.len(), job));
                }
            }
        });
    }
    let least = |blocks: usize| {
        found
            .iter()
            .filter(|(_, count, _)| *count == blocks)
            .map(|(cells, ..)| *cells)
            .min()
    };
    assert_eq!((least(1), least(0)), (Some(8), Some(12)));
    let is_there = |sides: [u16; 3], sink: [u16; 3]| {
        found.iter().any(|(_, _, job)| {
            job.sides == sides && job.source.at == [0; 3] && job.sinks[0].port.at == sink
        })
    };
    assert!(is_there([2, 2, 2], [0, 1, 1]) && is_there([2, 3, 2], [0, 2, 0]));
}
