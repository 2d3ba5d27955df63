//! Why a sink wasn't reached: the published Rust says `NoTreeConnection` and no more; its own search, asked goal by goal, tells whether
//! there is a way.

use cases::room::Room;
use cases::sheet::TreeAnswer;
use cases::text::tree_why_lines;
use cases::tree::Mode;
use cases::tree_why::{TreeWhy, TreeWhyAnswer, Turn, UNLIMITED, verdict};
use published::routing::astar_route;

use crate::Disagreement;
use crate::compare_tree::check_sheet;
use crate::published_side::{guarded, pos_of, router_config, world_of};

/// In rooms of up to so many cells the published Rust's own search is asked for a way to each goal.
const MOST_ASKED: usize = 64;

/// The answer to a sheet with its reason. In the published mode the published Rust and the plain router agree on the tree. In both, no
/// first search finds a way where the verdict says that the sink can't be reached; in the published mode, else some first search does.
pub fn check_tree_why(case: &TreeWhy) -> Result<TreeWhyAnswer, Disagreement> {
    let (job, room) = match case.judge() {
        Ok(judged) => judged,
        Err(refusal) => {
            let tree = TreeAnswer::Refused(refusal);
            return Ok(TreeWhyAnswer { tree, reason: None });
        }
    };
    let tree = match case.mode {
        Mode::Published => check_sheet(&case.sheet)?,
        Mode::Strict => case.sheet.plain_answer_in(Mode::Strict),
    };
    let turn = case.turn(&job, &room, &tree);
    let reason = turn.as_ref().map(Turn::reason);
    if let (Some(turn), Some(told)) = (&turn, &reason) {
        check_verdict(turn, told.verdict)
            .map_err(|what| Disagreement(format!("{}{what}\n", tree_why_lines(case))))?;
    }
    Ok(TreeWhyAnswer { tree, reason })
}

/// Whether first searches find ways as the verdict has it. Of 13, and of 14 in strict mode with another verdict, nothing is known.
fn check_verdict(turn: &Turn, told: u8) -> Result<(), String> {
    let goals = turn.stopped.joinable.iter();
    let unreachable = [verdict::APPROACH_TAKEN, verdict::SHUT_IN].contains(&told);
    let known = unreachable || turn.mode == Mode::Published && turn.stopped.refusal.number == 14;
    let mut found = None;
    for goal in goals.copied().filter(|_| known) {
        if finds_a_way(turn, goal)? {
            found = Some(goal);
            break;
        }
    }
    match found {
        Some(goal) if unreachable => Err(format!("verdict {told}, but there is a way to {goal}")),
        None if known && !unreachable => Err(format!("verdict {told}, but there is no way")),
        _ => Ok(()),
    }
}

/// By the plain search, and in small rooms of the published mode by the published Rust's too.
fn finds_a_way(turn: &Turn, goal: usize) -> Result<bool, String> {
    let plain = turn.finds_a_way(goal);
    let room: &Room = turn.room;
    if turn.mode == Mode::Strict || room.cells() > MOST_ASKED {
        return Ok(plain);
    }
    let world = world_of(room, &turn.walled(goal));
    let [from, to] = [turn.stopped.approach(), goal].map(|cell| pos_of(room, cell));
    let config = router_config(&UNLIMITED);
    let published = guarded(|| astar_route(&world, from, to, config).is_ok())?;
    if published != plain {
        return Err(format!(
            "a way to {goal}: plain {plain}, published {published}"
        ));
    }
    Ok(plain)
}
