//! What answered cases hold, by count.

use std::collections::{BTreeMap, BTreeSet};
use std::fmt::Display;

use crate::conflict::stairs;
use crate::drawing::{Drawing, DrawingAnswer};
use crate::function::{Function, FunctionAnswer};
use crate::lists::{List, sheets};
use crate::nets::{LaidNets, ListAnswer};
use crate::parts::{Parts, PartsAnswer, SINK};
use crate::plan::{Plan, PlanAnswer};
use crate::repeaters::from_source;
use crate::room::{MOST_CELLS, Room, kind, port, sideways};
use crate::search::{Search, SearchAnswer};
use crate::sheet::{Job, MOST_BYTES, MOST_SINKS, Sheet, Sink, TreeAnswer};
use crate::strict::{Apart, StrictSheet};
use crate::tree::{Mode, realize};
use crate::tree_why::{TreeWhy, TreeWhyAnswer, cause, kept, verdict};
use crate::version::Version;
use crate::why::{MOVES, Why, WhyAnswer, reason};

/// Counts under names, printed in the order of the names.
#[derive(Default)]
pub struct Tally(BTreeMap<String, usize>);

impl Tally {
    fn add(&mut self, name: impl Display) {
        self.add_if(name, true);
    }

    fn add_if(&mut self, name: impl Display, holds: bool) {
        *self.0.entry(name.to_string()).or_default() += usize::from(holds);
    }

    pub fn lines(&self) -> String {
        let lines = self.0.iter();
        lines
            .map(|(name, count)| format!("{count:>8}  {name}\n"))
            .collect()
    }
}

fn size(room: &Room) -> &'static str {
    match room.cells() {
        0..=64 => "room: V up to 64",
        65..=512 => "room: V up to 512",
        513..=4_096 => "room: V up to 4,096",
        4_097..16_384 => "room: V above 4,096",
        16_384 => "room: V = 16,384",
        16_385..MOST_CELLS => "room: V above 16,384",
        _ => "room: V = 65,536",
    }
}

fn has_stairs(room: &Room, path: &[u16]) -> bool {
    let path: Vec<_> = path.iter().map(|cell| usize::from(*cell)).collect();
    !stairs(room, &path).is_empty()
}

/// Counts a function file, written or read.
pub fn count_function(tally: &mut Tally, case: &Function, answer: &FunctionAnswer) {
    let asked = match case {
        Function::Write(_) => "written",
        Function::Read(_) => "read",
    };
    tally.add("functions");
    match answer.number() {
        0 => tally.add(format!("{asked}, number  0")),
        number => tally.add(format!("{asked}, number {number:>2}")),
    }
    if let Some(room) = Room::new(case.sides(), MOST_CELLS) {
        tally.add(size(&room));
    }
}

/// Counts the parts of a job.
pub fn count_parts(tally: &mut Tally, case: &Parts, answer: &PartsAnswer) {
    tally.add("writes");
    match answer.number() {
        0 => tally.add("number  0: a sheet"),
        number => tally.add(format!("number {number:>2}")),
    }
    tally.add_if("over 60,000 bytes", case.size() > MOST_BYTES);
    let PartsAnswer::Sheet(bytes) = answer else {
        return;
    };
    tally.add(match bytes.len() {
        0..=99 => "sheet: up to 99 bytes",
        100..=999 => "sheet: 100 to 999 bytes",
        1_000..=9_999 => "sheet: 1,000 to 9,999 bytes",
        10_000..MOST_BYTES => "sheet: 10,000 bytes and more",
        _ => "sheet: 60,000 bytes",
    });
    tally.add(format!("sheet: version {}", bytes[0]));
    tally.add_if(
        "sheet: sixteen sinks",
        case.sinks.len() == MOST_SINKS * SINK,
    );
    let just = bytes.len() == case.lent as usize;
    tally.add_if("sheet: an output of just its length", just);
}

/// Counts a net of which repeaters are asked.
pub fn count_plan(tally: &mut Tally, case: &Plan, answer: &PlanAnswer) {
    tally.add("plans");
    tally.add(format!("number {}", answer.number()));
    let (Ok(planned), PlanAnswer::Repeaters(repeaters)) = (case.judge(), answer) else {
        return;
    };
    tally.add(size(&planned.room));
    tally.add(match repeaters.len() {
        0 => "no repeater",
        1 => "1 repeater",
        _ => "2 or more repeaters",
    });
    let ends = realize(&planned.job, &planned.room).expect("it is judged");
    let joined = from_source(ends.source, &planned.branches);
    let is_apart = |terminal: usize| terminal != ends.source && !joined.contains_key(&terminal);
    let apart = ends.sinks.iter().any(|sink| is_apart(sink.terminal));
    tally.add_if("a sink that no chain joins", apart);
    let steps: BTreeSet<_> = planned
        .branches
        .iter()
        .flat_map(|branch| branch.windows(2))
        .map(|step| [step[0].min(step[1]), step[0].max(step[1])])
        .collect();
    let cells: BTreeSet<_> = steps.iter().flatten().collect();
    tally.add_if("rings", steps.len() >= cells.len() && !steps.is_empty());
}

/// Counts a list of nets.
pub fn count_list(tally: &mut Tally, case: &List, answer: &ListAnswer) {
    tally.add("lists");
    let mode = match case.mode {
        Mode::Published => "published",
        Mode::Strict => "strict",
    };
    let laid = match answer {
        ListAnswer::Refused(refused) => {
            tally.add(format!("number {:>2}", refused.refusal.number));
            tally.add_if("refused: not net 0", refused.net > 0);
            return;
        }
        ListAnswer::Nets(laid) => laid,
    };
    tally.add("number  0: nets");
    tally.add(format!("number  0: {mode}"));
    tally.add(match laid.nets.len() {
        count @ 1..=8 => format!("nets: {count}"),
        _ => "nets: 9 and more".into(),
    });
    let versions: BTreeSet<u8> = sheets(&case.bytes).iter().map(|sheet| sheet[0]).collect();
    tally.add_if("nets: sheets of several versions", versions.len() > 1);
    let judged = case.judge().expect("it has nets");
    tally.add(size(&judged.room));
    count_laid(tally, &judged.room, laid);
}

/// Counts what a laid room of nets shows.
fn count_laid(tally: &mut Tally, room: &Room, laid: &LaidNets) {
    let branches: Vec<_> = laid.nets.concat();
    tally.add_if("laid: stairs", any_stairs(room, &branches));
    tally.add_if("laid: planned repeaters", !laid.repeaters.is_empty());
    let repeaters = laid.kinds.iter().zip(&laid.owners);
    let repeaters = repeaters.filter(|(held, owner)| **held == kind::REPEATER && **owner > 0);
    tally.add_if(
        "laid: a BlockPower sink's repeater",
        repeaters.count() > laid.repeaters.len(),
    );
    let bare = |net: u32| {
        let mut held = (0..room.cells()).filter(|cell| laid.owners[*cell] == net);
        held.all(|cell| matches!(laid.kinds[cell], kind::SOLID | kind::TRANSPARENT))
    };
    let bare = (1..=laid.nets.len() as u32).any(bare);
    tally.add_if("laid: a net whose cells hold supports alone", bare);
}

/// Counts a drawing.
pub fn count_drawing(tally: &mut Tally, case: &Drawing, answer: &DrawingAnswer) {
    tally.add("drawings");
    tally.add(format!("laid: number {}", answer.laid));
    tally.add(format!("listed: number {}", answer.listed));
    let Ok(room) = case.judge_laying() else {
        return;
    };
    tally.add(size(&room));
    tally.add_if("a limit of 0", case.run == 0);
    let path = case.path.iter().map(|cell| *cell as usize);
    let unwired =
        |cell: usize| case.kinds[cell] == kind::AIR && answer.kinds[cell] != kind::REDSTONE_WIRE;
    tally.add_if(
        "a path cell of Air got a support instead of wire",
        path.clone().any(unwired),
    );
    tally.add_if(
        "a path cell held a block",
        path.clone().any(|cell| case.kinds[cell] != kind::AIR),
    );
    tally.add(match answer.repeaters.len() {
        0 => "no repeater",
        1 => "1 repeater",
        _ => "2 or more repeaters",
    });
    let mut cells: Vec<_> = answer.repeaters.iter().map(|entry| entry.cell).collect();
    cells.sort_unstable();
    tally.add_if(
        "a cell is listed twice",
        cells.windows(2).any(|pair| pair[0] == pair[1]),
    );
}

/// Counts a search of which the reason is asked.
pub fn count_why(tally: &mut Tally, case: &Why, answer: &WhyAnswer) {
    tally.add("whys");
    match answer.number() {
        0 => tally.add("number  0: a route"),
        number => tally.add(format!("number {number:>2}")),
    }
    let Ok(room) = case.judge() else { return };
    tally.add(size(&room));
    if answer.number() != 11 {
        return;
    }
    tally.add_if("11: V up to 64", room.cells() <= 64);
    tally.add(match answer.reached.len() {
        1 => "11: 1 cell reached",
        2..=9 => "11: 2 to 9 cells reached",
        10..=99 => "11: 10 to 99 cells reached",
        _ => "11: 100 or more cells reached",
    });
    for (given, words) in [
        (reason::OUTSIDE, "11: a move outside"),
        (reason::TAKEN, "11: a move to a cell that is taken"),
        (reason::BAD_SUPPORT, "11: a move to a cell without support"),
    ] {
        let holds = |moves: &[u8; MOVES]| moves.contains(&given);
        tally.add_if(words, answer.reached.iter().any(|told| holds(&told.moves)));
    }
}

/// Counts a sheet of which it is asked why a sink wasn't reached.
pub fn count_tree_why(tally: &mut Tally, case: &TreeWhy, answer: &TreeWhyAnswer) {
    tally.add("tree-whys");
    match answer.number() {
        0 => tally.add("number  0: a tree"),
        number => tally.add(format!("number {number:>2}")),
    }
    if let Ok((_, room)) = case.judge() {
        tally.add(size(&room));
    }
    let Some(told) = &answer.reason else { return };
    let mode = match case.mode {
        Mode::Published => "published",
        Mode::Strict => "strict",
    };
    tally.add(format!("{}: {mode}", answer.number()));
    let verdict = match told.verdict {
        verdict::APPROACH_TAKEN => "approach taken",
        verdict::SHUT_IN => "shut in",
        verdict::CONFLICTS => "conflicts",
        _ => "cut short",
    };
    tally.add(format!("{}, {mode}: {verdict}", answer.number()));
    for (given, words) in [
        (reason::OUTSIDE, "outside"),
        (reason::TAKEN, "taken"),
        (reason::BAD_SUPPORT, "bad support"),
        (kept::FREE, "kept free"),
        (kept::SUPPORT_FREE, "support kept free"),
    ] {
        let holds = told.reached.iter().any(|told| told.moves.contains(&given));
        tally.add_if(format!("shut in, a move: {words}"), holds);
    }
    for (bit, words) in cause::ALL.into_iter().zip(CAUSE_WORDS) {
        let holds = told.causes.iter().any(|(_, bits)| bits & bit != 0);
        tally.add_if(format!("shut in, a cause: {words}"), holds);
    }
}

const CAUSE_WORDS: [&str; 7] = [
    "another net's conductor",
    "its keepout",
    "its clearance",
    "its terminal",
    "reserved",
    "a block's keepout",
    "this net's own clearance",
];

pub fn count_search(tally: &mut Tally, case: &Search, answer: &SearchAnswer) {
    tally.add("searches");
    match answer {
        SearchAnswer::Refused(refusal) => tally.add(format!("number {:>2}", refusal.number)),
        SearchAnswer::Route { path, .. } => {
            tally.add("number  0: a route");
            count_route(tally, case, path);
        }
    }
    if let Ok(room) = case.judge() {
        tally.add(size(&room));
    }
}

fn count_route(tally: &mut Tally, case: &Search, path: &[u16]) {
    let Ok(room) = case.judge() else { return };
    let config = &case.config;
    let wire = [case.start, case.goal]
        .iter()
        .any(|end| case.kinds[*end as usize] == kind::REDSTONE_WIRE);
    tally.add_if("route: with stairs", has_stairs(&room, path));
    tally.add_if("route: of one cell", path.len() == 1);
    tally.add_if("route: over 20 cells", path.len() > 20);
    tally.add_if("route: RedstoneWire at an end", wire);
    let below = config.horizontal < 10 || config.stair < 20;
    tally.add_if("route: costs below 10 or 20", below);
}

pub fn count_sheet(tally: &mut Tally, case: &Sheet, answer: &TreeAnswer) {
    tally.add("sheets");
    match answer {
        TreeAnswer::Refused(refusal) => tally.add(format!("number {:>2}", refusal.number)),
        TreeAnswer::Tree { .. } => tally.add("number  0: a tree"),
    }
    let Ok((job, room)) = case.judge(MOST_CELLS) else {
        return;
    };
    tally.add("well formed");
    tally.add(size(&room));
    count_job(tally, &job);
    if let TreeAnswer::Tree {
        branches,
        repeaters,
        ..
    } = answer
    {
        count_tree(tally, &room, branches, repeaters);
    }
}

/// Counts a sheet in strict mode, and how its answer differs from that of the published mode.
pub fn count_strict(tally: &mut Tally, case: &StrictSheet, answer: &TreeAnswer) {
    count_sheet(tally, &case.0, answer);
    tally.add("strict-sheets");
    tally.add(match Apart::of(&case.0.plain_answer(), answer) {
        Apart::Same => "modes: the same answer",
        Apart::AnotherTree => "modes: another tree",
        Apart::StrictRefuses => "modes: a tree in the published mode alone",
        Apart::StrictRoutes => "modes: a tree in strict mode alone",
        Apart::AnotherRefusal => "modes: another refusal",
    });
}

fn count_job(tally: &mut Tally, job: &Job) {
    let sinks = &job.sinks;
    if job.version != Version::ONE {
        tally.add(format!("well formed: version {}", job.version.number));
        tally.add_if(
            "well formed: a version above 1 with limits of 12 and 8",
            job.has_usual_limits(),
        );
    }
    tally.add_if(
        "well formed: with other nets' conductors",
        !job.conductors.is_empty(),
    );
    tally.add_if(
        "well formed: source BlockPower",
        job.source.kind == port::BLOCK_POWER,
    );
    let block_power = sinks.iter().any(|sink| sink.port.kind == port::BLOCK_POWER);
    tally.add_if("well formed: a sink BlockPower", block_power);
    let approached =
        |sink: &Sink| sink.port.kind == port::WIRE && sideways(sink.port.facing).is_some();
    let wire = sinks.iter().any(approached);
    tally.add_if("well formed: a Wire sink with an approach", wire);
}

fn count_tree(tally: &mut Tally, room: &Room, branches: &[Vec<u16>], repeaters: &[u16]) {
    let sinks = match branches.len() {
        0 => "tree: no sinks",
        1 => "tree: 1 sink",
        2..=4 => "tree: 2 to 4 sinks",
        5..=8 => "tree: 5 to 8 sinks",
        _ => "tree: 9 to 16 sinks",
    };
    tally.add(sinks);
    tally.add_if("tree: with repeaters", !repeaters.is_empty());
    tally.add_if("tree: with 2 or more repeaters", repeaters.len() > 1);
    tally.add_if("tree: with stairs", any_stairs(room, branches));
    tally.add_if(
        "tree: 2 or more sinks, stairs and repeaters",
        rich(room, branches, repeaters),
    );
}

fn any_stairs(room: &Room, branches: &[Vec<u16>]) -> bool {
    branches.iter().any(|branch| has_stairs(room, branch))
}

/// A tree that meets most of the rules: two or more sinks, stairs and repeaters.
fn rich(room: &Room, branches: &[Vec<u16>], repeaters: &[u16]) -> bool {
    branches.len() > 1 && !repeaters.is_empty() && any_stairs(room, branches)
}

/// Whether the sheet's answer is such a tree.
pub fn has_rich_tree(case: &Sheet, answer: &TreeAnswer) -> bool {
    let TreeAnswer::Tree {
        branches,
        repeaters,
        ..
    } = answer
    else {
        return false;
    };
    case.judge(MOST_CELLS)
        .is_ok_and(|(_, room)| rich(&room, branches, repeaters))
}
