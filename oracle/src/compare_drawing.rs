//! One route drawn: the published `materialize_route` and `insert_repeaters` beside the plain drawing.

use cases::drawing::{Drawing, DrawingAnswer, Repeater};
use cases::room::Room;
use cases::text::{drawing_answer_lines, drawing_lines};
use published::routing::{RouteResult, insert_repeaters, materialize_route};
use published::world::{Pos, World};

use crate::published_side::{facing_number, guarded, kind_of, kinds_in, pos_of, world_of};
use crate::{Disagreement, agreed};

/// The delay is stored in each repeater's block and does nothing else.
const DELAY: u8 = 1;

/// The answer to a drawing, on which the published Rust and the plain drawing agree. Refusals are the plain drawing's alone.
pub fn check_drawing(case: &Drawing) -> Result<DrawingAnswer, Disagreement> {
    let answer = case.plain_answer();
    let published = guarded(|| drawn(case, &answer));
    agreed(
        answer.clone(),
        &answer,
        published,
        || drawing_lines(case),
        drawing_answer_lines,
    )
}

/// What the published Rust makes of the room, for each of the two that isn't refused.
fn drawn(case: &Drawing, answer: &DrawingAnswer) -> DrawingAnswer {
    let mut drawn = answer.clone();
    if let Ok(room) = case.judge_laying() {
        let mut world = world_of(&room, &case.kinds);
        let route = RouteResult {
            path: positions(case, &room),
            cost: 0,
        };
        materialize_route(&mut world, &route, kind_of(case.support as u8));
        drawn.kinds = kinds_in(&room, &world);
    }
    if let Ok(room) = case.judge_listing() {
        let mut world = world_of(&room, &drawn.kinds);
        let path = positions(case, &room);
        let listed = insert_repeaters(&mut world, &path, case.run as usize, DELAY);
        drawn.repeatered = kinds_in(&room, &world);
        drawn.repeaters = entries(&room, &world, &listed, &answer.repeaters);
    }
    drawn
}

fn positions(case: &Drawing, room: &Room) -> Vec<Pos> {
    case.path
        .iter()
        .map(|cell| pos_of(room, *cell as usize))
        .collect()
}

/// The Rust lists cells alone, and the block has the facing of the last passage: of a cell that is listed again later on only the later
/// entry's facing is the Rust's, and the plain drawing's stands in for the others.
fn entries(room: &Room, world: &World, listed: &[Pos], plain: &[Repeater]) -> Vec<Repeater> {
    let entry = |(place, pos): (usize, &Pos)| {
        let again = listed[place + 1..].contains(pos);
        let facing = match plain.get(place) {
            Some(plain) if again => plain.facing,
            _ => facing_number(world.get(*pos).and_then(|block| block.facing)),
        };
        Repeater {
            cell: crate::cell_at(room, *pos).expect("the path is inside") as u16,
            facing,
        }
    };
    listed.iter().enumerate().map(entry).collect()
}
