//! One search: the published `astar_route` against the plain search.

use cases::room::{Config, Room};
use cases::search::{Search, SearchAnswer, cells16};
use cases::text::{search_answer_lines, search_lines};
use published::routing::{RouteNotFound, astar_route};
use published::world::World;

use crate::published_side::{cell_at, guarded, pos_of, router_config, world_of};
use crate::{Disagreement, Refusal, agreed};

/// The answer to a search, or how the published Rust and the plain search differ on it.
pub fn check_search(case: &Search) -> Result<SearchAnswer, Disagreement> {
    let room = match case.judge() {
        Ok(room) => room,
        Err(refusal) => return Ok(SearchAnswer::Refused(refusal)),
    };
    let answer = case.plain_answer();
    // The Rust's queue has no end: where 13 is due, the two are compared with the plain search's queue unbounded.
    let expected = match &answer {
        SearchAnswer::Refused(Refusal { number: 13, .. }) => case.run(&room, usize::MAX).answer(),
        other => other.clone(),
    };
    let found = published_answer(case, &room, &expected);
    let lines = || search_lines(case);
    agreed(answer, &expected, found, lines, search_answer_lines)
}

/// The published answer. The Rust doesn't tell the expanded count of a success: the expected count is pinned by runs at
/// that node limit, which must give the same route, and at one less, which must be exhausted with that count.
fn published_answer(
    case: &Search,
    room: &Room,
    expected: &SearchAnswer,
) -> Result<SearchAnswer, String> {
    let world = world_of(room, &case.kinds);
    let answer = run(case, room, &world, case.config.node_limit)?;
    let (Published::Route { path, cost }, SearchAnswer::Route { expanded, .. }) =
        (&answer, expected)
    else {
        return answer.without_count();
    };
    if run(case, room, &world, *expanded)? != answer {
        return Err(format!("another answer at node limit {expanded}"));
    }
    if let Some(limit) = expanded.checked_sub(1) {
        let short = run(case, room, &world, limit)?;
        if short != Published::Refused(Refusal::new(12, *expanded)) {
            return Err(format!("not exhausted at node limit {limit}"));
        }
    }
    Ok(SearchAnswer::Route {
        path: path.clone(),
        cost: *cost,
        expanded: *expanded,
    })
}

/// What the Rust tells of a search.
#[derive(Eq, PartialEq)]
enum Published {
    Refused(Refusal),
    Route { path: Vec<u16>, cost: u32 },
}

impl Published {
    fn without_count(self) -> Result<SearchAnswer, String> {
        match self {
            Self::Refused(refusal) => Ok(SearchAnswer::Refused(refusal)),
            Self::Route { path, cost } => Err(format!("a route of cost {cost}: {path:?}")),
        }
    }
}

fn run(case: &Search, room: &Room, world: &World, node_limit: u32) -> Result<Published, String> {
    let [start, goal] = [case.start, case.goal].map(|cell| pos_of(room, cell as usize));
    let config = router_config(&Config {
        node_limit,
        ..case.config
    });
    let cell = |pos| cell_at(room, pos).ok_or(format!("{pos:?} is outside"));
    match guarded(|| astar_route(world, start, goal, config))? {
        Ok(route) => {
            let path: Vec<_> = route.path.into_iter().map(cell).collect::<Result<_, _>>()?;
            Ok(Published::Route {
                path: cells16(&path),
                cost: route.cost,
            })
        }
        Err(RouteNotFound::InvalidEndpoint(pos)) => {
            Ok(Published::Refused(Refusal::new(10, cell(pos)? as u32)))
        }
        // The Rust's `Exhausted` is both 11 and 12: the count above the limit tells them apart.
        Err(RouteNotFound::Exhausted { expanded, .. }) => {
            let number = if expanded > config.max_nodes { 12 } else { 11 };
            Ok(Published::Refused(Refusal::new(number, expanded as u32)))
        }
    }
}
