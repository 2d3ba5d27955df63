//! What an input may show: a finding, or that an open point matters.

use crate::reading::{Other, Reading};
use crate::room::{DOWN, MOST_CELLS, Room, moves};
use crate::search::{End, Question, Search, Searched};
use crate::sheet::{Job, Sheet, TreeAnswer};
use crate::tree::{
    Limits, Net, ROUTE_MOST_CELLS, realize, route_as_read, route_net_tree, sink_order,
};

fn searched(search: &Search) -> Option<Searched> {
    let room = search.judge().ok()?;
    Some(search.run(&room, usize::MAX))
}

/// The route costs more than the cheapest way.
pub fn dearer(search: &Search) -> bool {
    let answered = searched(search).map(|searched| searched.end);
    let Some(End::Route { cost, .. }) = answered else {
        return false;
    };
    cheapest(search).is_some_and(|least| least < cost)
}

/// The cost of a cheapest way: known costs are lowered along every step until nothing changes.
pub fn cheapest(search: &Search) -> Option<u64> {
    let room = search.judge().ok()?;
    let question = Question {
        room: &room,
        kinds: &search.kinds,
        start: search.start as usize,
        goal: search.goal as usize,
        config: &search.config,
        places: usize::MAX,
        barred: &[],
    };
    let mut least = vec![None; room.cells()];
    least[question.start] = Some(0);
    let mut changed = true;
    while changed {
        changed = false;
        for cell in 0..room.cells() {
            let Some(cost) = least[cell] else { continue };
            for (next, price) in moves().filter_map(|offset| question.step(cell, offset)) {
                let cost = cost + price.total();
                if least[next].is_none_or(|known| cost < known) {
                    least[next] = Some(cost);
                    changed = true;
                }
            }
        }
    }
    least[question.goal]
}

/// A cell is expanded again.
pub fn again(search: &Search) -> bool {
    searched(search).is_some_and(|searched| searched.again)
}

/// More cells are expanded than there are.
pub fn more_than_cells(search: &Search) -> bool {
    searched(search).is_some_and(|searched| searched.expanded as usize > search.kinds.len())
}

fn routed(job: &Job) -> Option<(Room, Net)> {
    let room = Room::new(job.sides, MOST_CELLS)?;
    let net = route_net_tree(job, &room, Limits::NONE).ok()?;
    Some((room, net))
}

/// A branch holds a cell twice, and V + 1 cells.
pub fn cell_twice(job: &Job) -> bool {
    routed(job).is_some_and(|(room, net)| {
        let mut lengths = net.branches.iter().map(Vec::len);
        lengths.any(|length| length == room.cells() + 1)
    })
}

/// The tree has one conductor right above another.
pub fn one_above_another(job: &Job) -> bool {
    routed(job).is_some_and(|(room, net)| {
        let beneath = |cell: &usize| room.next(*cell, DOWN);
        let mut lower = net.occupied.iter().filter_map(beneath);
        lower.any(|cell| net.occupied.contains(&cell))
    })
}

/// On the path from the source a repeater has that neighbour behind it which lies before it on the branch that brought
/// its cell.
pub fn repeater_opposed(job: &Job) -> bool {
    let Some((room, net)) = routed(job) else {
        return false;
    };
    let ends = realize(job, &room).expect("a routed job");
    let order = sink_order(&room, &ends);
    let before = crate::repeaters::from_source(ends.source, &net.branches);
    net.repeaters.iter().any(|repeater| {
        let branches = order.iter().map(|sink| &net.branches[*sink]);
        let place = |branch: &Vec<usize>| branch.iter().position(|cell| cell == repeater);
        let found = branches
            .filter_map(|branch| Some((branch, place(branch)?)))
            .next();
        let (branch, place) = found.expect("a branch brought the repeater's cell");
        branch.get(place + 1) == before.get(repeater)
    })
}

/// Program `route` gives number 13.
pub fn fills_queue(job: &Job) -> bool {
    number_in_route(job) == 13
}

/// Program `route` gives number 15.
pub fn overflows_branches(job: &Job) -> bool {
    number_in_route(job) == 15
}

fn number_in_route(job: &Job) -> u8 {
    let sheet = Sheet::of_route(job.bytes());
    sheet.plain_answer_within(ROUTE_MOST_CELLS).number()
}

/// The answer with an open point read otherwise; neither queue nor branch buffer has an end.
pub fn read_otherwise(job: &Job, other: Other) -> TreeAnswer {
    answer(job, Reading::but(other))
}

fn answer(job: &Job, reading: Reading) -> TreeAnswer {
    match job.judge(MOST_CELLS) {
        Err(refusal) => TreeAnswer::Refused(refusal),
        Ok(room) => route_as_read(job, &room, Limits::NONE, reading)
            .map_or_else(TreeAnswer::Refused, |net| net.answer()),
    }
}

/// The two readings answer differently.
pub fn matters(job: &Job, other: Other) -> bool {
    answer(job, Reading::PUBLISHED) != read_otherwise(job, other)
}
