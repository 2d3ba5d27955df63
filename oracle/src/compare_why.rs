//! Why wasn't it reached? The published Rust says `Exhausted` and no more; asked cell by cell, it tells what is reached.

use cases::room::{Config, MOST_NODES, Room, kind};
use cases::search::SearchAnswer;
use cases::text::why_lines;
use cases::why::{Why, WhyAnswer};
use published::routing::astar_route;

use crate::Disagreement;
use crate::compare_search::check_search;
use crate::published_side::{guarded, pos_of, router_config, world_of};

/// In rooms of up to so many cells the published Rust is asked for a route to each of them.
const MOST_ASKED: usize = 64;

/// The answer to a search with its reason. The published Rust and the plain search agree on the search, and in small rooms the
/// published Rust and the plain flood on what is reached.
pub fn check_why(case: &Why) -> Result<WhyAnswer, Disagreement> {
    let room = match case.judge() {
        Ok(room) => room,
        Err(refusal) => {
            return Ok(WhyAnswer {
                search: SearchAnswer::Refused(refusal),
                reached: Vec::new(),
            });
        }
    };
    let answer = case.explained(&room, check_search(&case.search)?);
    if answer.number() == 11 && room.cells() <= MOST_ASKED {
        check_reached(case, &room, &answer)
            .map_err(|what| Disagreement(format!("{}{what}\n", why_lines(case))))?;
    }
    Ok(answer)
}

/// The published Rust finds a route from the start to a cell of Air exactly if the flood reaches it. Where there is no way to the
/// goal no way leads through it, so it is of no account that another cell is the goal here.
fn check_reached(case: &Why, room: &Room, answer: &WhyAnswer) -> Result<(), String> {
    let start = case.search.start as usize;
    let mut reached = answer.reached_bytes(room.cells());
    reached[start] = 0;
    let world = world_of(room, &case.search.kinds);
    let config = router_config(&Config {
        node_limit: MOST_NODES,
        ..Config::DEFAULT
    });
    let found = |cell: usize| {
        if case.search.kinds[cell] != kind::AIR || cell == start {
            return Ok(0);
        }
        let [from, to] = [start, cell].map(|cell| pos_of(room, cell));
        guarded(|| u8::from(astar_route(&world, from, to, config).is_ok()))
    };
    let cells = 0..room.cells();
    let found: Vec<u8> = cells.map(found).collect::<Result<_, _>>()?;
    if found == reached {
        return Ok(());
    }
    Err(format!(
        "reached by the flood:\n{reached:?}\nby the published Rust:\n{found:?}"
    ))
}
