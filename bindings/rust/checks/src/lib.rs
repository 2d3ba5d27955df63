//! The oracle's cases as the wrapper takes them, memory full of rubbish for them, and what their answers leave in it: "Numbers 1 to 6
//! touch nothing; 7 to 15 leave every lent writable buffer zero. A success writes the answer, zeros behind it, and zeroes work memory."
//! On 11 the two outputs of `why` hold the reason, on 13 and 14 two values and three outputs that of a tree. The wrapper's tests and
//! the oracle's driver share this.

mod nets;

pub use nets::{Short, nets_fault};

use cases::Refusal;
use cases::cheapest::Cheapest;
use cases::drawing::{Drawing, DrawingAnswer};
use cases::function::{Function, FunctionAnswer};
use cases::parts::PartsAnswer;
use cases::plan::{Plan, PlanAnswer};
use cases::room::MOST_CELLS;
use cases::search::{Search, SearchAnswer};
use cases::sheet::{Sheet, TreeAnswer};
use cases::tree::realize;
use cases::tree_why::{TreeWhy, TreeWhyAnswer};
use cases::why::WhyAnswer;
use dustroute::draw::{self, LIST_VALUES, ROUTE_VALUES};
use dustroute::lent::{
    PLAN_VALUES, PlainMemory, PlanMemory, ReadMemory, SearchMemory, SheetMemory, TREE_VALUES, TreeMemory, TreeWhyMemory, WhyMemory,
    WriteMemory,
};
use dustroute::{Config, Net, Parts, Room};

pub fn room_of(sides: [u16; 3]) -> Room {
    let [wide, high, deep] = sides;
    Room { wide, high, deep }
}

pub fn config_of(config: &cases::room::Config) -> Config {
    Config {
        limit: config.node_limit,
        horizontal: config.horizontal,
        stair: config.stair,
        support: config.support,
    }
}

fn words_of(byte: u8) -> (u32, u64) {
    (u32::from_ne_bytes([byte; 4]), u64::from_ne_bytes([byte; 8]))
}

/// The memory with this in every byte.
pub fn dirty_search(mut memory: SearchMemory, byte: u8) -> SearchMemory {
    let (word, long) = words_of(byte);
    for buffer in [&mut memory.path, &mut memory.known, &mut memory.previous] {
        buffer.fill(word);
    }
    memory.classes.fill(byte);
    for buffer in [&mut memory.queue, &mut memory.values] {
        buffer.fill(long);
    }
    memory
}

/// The memory with this in every byte.
pub fn dirty_why(memory: WhyMemory, byte: u8) -> WhyMemory {
    let WhyMemory {
        search,
        mut reached,
        mut walls,
    } = memory;
    reached.fill(byte);
    walls.fill(byte);
    WhyMemory {
        search: dirty_search(search, byte),
        reached,
        walls,
    }
}

/// The memory with this in every byte.
pub fn dirty_plain(mut memory: PlainMemory, byte: u8) -> PlainMemory {
    let (word, long) = words_of(byte);
    for buffer in [&mut memory.path, &mut memory.known, &mut memory.previous] {
        buffer.fill(word);
    }
    memory.classes.fill(byte);
    memory.values.fill(long);
    memory
}

/// The memory with this in every byte.
pub fn dirty_tree(mut memory: TreeMemory, byte: u8) -> TreeMemory {
    let (word, long) = words_of(byte);
    for buffer in [
        &mut memory.branches,
        &mut memory.known,
        &mut memory.previous,
        &mut memory.path,
        &mut memory.best,
    ] {
        buffer.fill(word);
    }
    for buffer in [
        &mut memory.occupied,
        &mut memory.repeaters,
        &mut memory.kinds,
        &mut memory.blocked,
        &mut memory.classes,
        &mut memory.joinable,
    ] {
        buffer.fill(byte);
    }
    for buffer in [&mut memory.queue, &mut memory.values] {
        buffer.fill(long);
    }
    memory
}

/// The memory with this in every byte.
pub fn dirty_tree_why(mut memory: TreeWhyMemory, byte: u8) -> TreeWhyMemory {
    memory.tree = dirty_tree(memory.tree, byte);
    for buffer in [&mut memory.reached, &mut memory.walls, &mut memory.causes] {
        buffer.fill(byte);
    }
    memory
}

/// Puts cells at the front of a buffer.
fn put(buffer: &mut [u32], cells: &[u16]) {
    for (place, cell) in buffer[..cells.len()].iter_mut().zip(cells) {
        *place = u32::from(*cell);
    }
}

fn mark(buffer: &mut [u8], cells: &[u16]) {
    cells.iter().for_each(|cell| buffer[usize::from(*cell)] = 1);
}

/// The memory as this answer to a search leaves it, given what it was before. The totals are counted by the plain router.
pub fn search_due(before: &SearchMemory, search: &Search, answer: &SearchAnswer) -> SearchMemory {
    let mut due = dirty_search(before.clone(), 0);
    match answer {
        SearchAnswer::Refused(Refusal { number: 1..=6, .. }) => return before.clone(),
        SearchAnswer::Refused(refusal) => due.values[0] = refusal.detail.into(),
        SearchAnswer::Route { path, cost, expanded } => {
            put(&mut due.path, path);
            due.values[1] = path.len() as u64;
            due.values[2] = u64::from(*cost);
            due.values[3] = u64::from(*expanded);
            let totals = search.totals(path);
            let behind = [totals.steps, totals.supports, totals.laid];
            due.values[4..].iter_mut().zip(behind).for_each(|(value, total)| *value = total);
        }
    }
    due
}

/// The memory as this answer to a search leaves it, in a room of so many cells, given what it was before.
pub fn why_due(before: &WhyMemory, search: &Search, cells: usize, answer: &WhyAnswer) -> WhyMemory {
    if (1..=6).contains(&answer.number()) {
        return before.clone();
    }
    let mut due = dirty_why(before.clone(), 0);
    due.search = search_due(&before.search, search, &answer.search);
    due.reached[..cells].copy_from_slice(&answer.reached_bytes(cells));
    let walls = answer.walls_bytes(cells);
    due.walls[..walls.len()].copy_from_slice(&walls);
    due
}

/// What the plain engine left in memory is not as due, if it is not. Which of the cheapest paths it wrote is free: it must be lawful
/// and add up, and then determines the rest.
pub fn plain_fault(case: &Search, due: &Cheapest, number: u32, before: &PlainMemory, after: &PlainMemory) -> Option<&'static str> {
    if number != u32::from(due.number()) {
        return Some("number");
    }
    let mut memory = dirty_plain(before.clone(), 0);
    match due {
        Cheapest::Refused(Refusal { number: 1..=6, .. }) => memory = before.clone(),
        Cheapest::Refused(refusal) => memory.values[0] = refusal.detail.into(),
        Cheapest::Cost(cost) => {
            let Some(path) = after.path.get(..after.values[1] as usize) else {
                return Some("length");
            };
            if case.lawful_cost(path) != Some(*cost) {
                return Some("path");
            }
            memory.path[..path.len()].copy_from_slice(path);
            memory.values[1] = path.len() as u64;
            memory.values[2] = *cost;
        }
    }
    (*after != memory).then_some("memory")
}

/// What is not as due of both drawings in turn, if anything is not: over lent lists and values with this in every byte, so many values
/// longer than they need be; then with too few values, which nothing may touch.
pub fn drawing_fault(case: &Drawing, due: &DrawingAnswer, byte: u8, longer: usize) -> Option<&'static str> {
    let (word, long) = words_of(byte);
    let room = room_of(case.sides);
    let mut kinds = case.kinds.clone();
    let mut values = vec![long; ROUTE_VALUES + longer];
    let number = draw::call_materialize(room, case.support, &mut kinds, &case.path, &mut values);
    let zero = |values: &[u64]| values.iter().all(|value| *value == 0);
    let kept = |values: &[u64]| values.iter().all(|value| *value == long);
    if number != u32::from(due.laid) || kinds != due.kinds {
        return Some("the route");
    }
    if !(if number == 0 { zero(&values) } else { kept(&values) }) {
        return Some("the route's values");
    }
    let (mut cells, mut facings) = (vec![word; case.cells as usize], vec![byte; case.facings as usize]);
    let mut values = vec![long; LIST_VALUES + longer];
    let number = draw::call_insert(room, case.run, &mut kinds, &case.path, &mut cells, &mut facings, &mut values);
    if number != u32::from(due.listed) || kinds != due.repeatered {
        return Some("the repeaters");
    }
    let list = list_due(case, due, word, byte);
    if [cells.clone(), facings.iter().map(|facing| u32::from(*facing)).collect()] != list {
        return Some("the list");
    }
    let told = values[0] == 0 && values[1] == due.repeaters.len() as u64 && zero(&values[2..]);
    if !(if number == 0 { told } else { kept(&values) }) {
        return Some("the list's values");
    }
    few_values_fault(case, due, &mut kinds, &mut cells, &mut facings)
}

/// The two slices of the list, facings as wide as cells.
fn list_due(case: &Drawing, due: &DrawingAnswer, word: u32, byte: u8) -> [Vec<u32>; 2] {
    if due.listed != 0 {
        return [vec![word; case.cells as usize], vec![byte.into(); case.facings as usize]];
    }
    let mut list = [vec![0; case.cells as usize], vec![0; case.facings as usize]];
    for (place, entry) in due.repeaters.iter().enumerate() {
        list[0][place] = entry.cell.into();
        list[1][place] = entry.facing.into();
    }
    list
}

/// Fewer values than an answer comes to: 6, unless 2 is due, and nothing is touched.
fn few_values_fault(
    case: &Drawing,
    due: &DrawingAnswer,
    kinds: &mut Vec<u8>,
    cells: &mut Vec<u32>,
    facings: &mut Vec<u8>,
) -> Option<&'static str> {
    let room = room_of(case.sides);
    let before = (kinds.clone(), cells.clone(), facings.clone());
    let few = |number: u8| if number == 2 { 2 } else { 6 };
    let laid = draw::call_materialize(room, case.support, kinds, &case.path, &mut []);
    let mut values = [7; LIST_VALUES - 1];
    let listed = draw::call_insert(room, case.run, kinds, &case.path, cells, facings, &mut values);
    let touched = values != [7; LIST_VALUES - 1] || before != (kinds.clone(), cells.clone(), facings.clone());
    (laid != few(due.laid) || listed != few(due.listed) || touched).then_some("too few values")
}

/// The memory as this answer to a sheet leaves it, given what it was before.
pub fn tree_due(before: &TreeMemory, sheet: &Sheet, answer: &TreeAnswer) -> TreeMemory {
    let mut due = dirty_tree(before.clone(), 0);
    match answer {
        TreeAnswer::Refused(Refusal { number: 1..=6, .. }) => return before.clone(),
        TreeAnswer::Refused(refusal) => due.values[0] = refusal.detail.into(),
        TreeAnswer::Tree {
            branches,
            occupied,
            repeaters,
        } => {
            put(&mut due.branches, &branches.concat());
            mark(&mut due.occupied, &branches.concat());
            mark(&mut due.occupied, &[source_of(sheet)]);
            mark(&mut due.repeaters, repeaters);
            due.values[1] = branches.len() as u64;
            due.values[2] = u64::from(*occupied);
            due.values[3] = repeaters.len() as u64;
            for (length, branch) in due.values[4..].iter_mut().zip(branches) {
                *length = branch.len() as u64;
            }
        }
    }
    due
}

/// The memory as this answer to a sheet leaves it, in a room of so many cells, given what it was before.
pub fn tree_why_due(before: &TreeWhyMemory, case: &TreeWhy, cells: usize, answer: &TreeWhyAnswer) -> TreeWhyMemory {
    if (1..=6).contains(&answer.number()) {
        return before.clone();
    }
    let mut due = dirty_tree_why(before.clone(), 0);
    due.tree = tree_due(&before.tree, &case.sheet, &answer.tree);
    if let Some(reason) = &answer.reason {
        due.tree.values[TREE_VALUES] = u64::from(reason.place);
        due.tree.values[TREE_VALUES + 1] = u64::from(reason.verdict);
        due.reached[..cells].copy_from_slice(&reason.reached_bytes(cells));
        due.walls[..12 * cells].copy_from_slice(&reason.walls_bytes(cells));
        due.causes[..cells].copy_from_slice(&reason.causes_bytes(cells));
    }
    due
}

/// The source's terminal, of a sheet that has a tree.
fn source_of(sheet: &Sheet) -> u16 {
    let (job, room) = sheet.judge(MOST_CELLS).expect("it has a tree");
    realize(&job, &room).expect("it has a tree").source as u16
}

/// What a call over a function file is lent, by what is asked.
#[derive(Clone, Debug, Eq, PartialEq)]
pub enum FunctionMemory {
    Write(WriteMemory),
    Read(ReadMemory),
}

/// Memory of the lengths of a case and so much more, with so many values and this in every byte.
pub fn function_memory(case: &Function, extra: usize, values: usize, byte: u8) -> FunctionMemory {
    let values = vec![words_of(byte).1; values];
    match case {
        Function::Write(case) => FunctionMemory::Write(WriteMemory {
            text: vec![byte; case.lent as usize + extra],
            values,
        }),
        Function::Read(case) => FunctionMemory::Read(ReadMemory {
            kinds: vec![byte; case.kinds as usize + extra],
            facings: vec![byte; case.facings as usize + 2 * extra],
            values,
        }),
    }
}

/// Asks a case over memory: the number comes back.
pub fn ask_function(case: &Function, memory: &mut FunctionMemory) -> u32 {
    let room = room_of(case.sides());
    match (case, memory) {
        (Function::Write(case), FunctionMemory::Write(memory)) => memory.call(room, &case.kinds, &case.facings),
        (Function::Read(case), FunctionMemory::Read(memory)) => memory.call(room, &case.text),
        _ => panic!("memory of the other function"),
    }
}

/// The bytes, and zeros behind them.
fn bytes_due(bytes: &[u8], length: usize) -> Vec<u8> {
    let mut due = bytes.to_vec();
    due.resize(length, 0);
    due
}

/// What an answer leaves in memory.
pub fn function_due(before: &FunctionMemory, answer: &FunctionAnswer) -> FunctionMemory {
    let mut due = before.clone();
    let (detail, count, text, kinds, facings): (u32, usize, &[u8], &[u8], &[u8]) = match answer {
        FunctionAnswer::Refused(refusal) if refusal.number <= 6 => return due,
        FunctionAnswer::Refused(refusal) => (refusal.detail, 0, &[], &[], &[]),
        FunctionAnswer::Text(text) => (0, text.len(), text, &[], &[]),
        FunctionAnswer::Room(laid) => (0, laid.lines as usize, &[], &laid.kinds, &laid.facings),
    };
    let values = match &mut due {
        FunctionMemory::Write(memory) => {
            memory.text = bytes_due(text, memory.text.len());
            &mut memory.values
        }
        FunctionMemory::Read(memory) => {
            memory.kinds = bytes_due(kinds, memory.kinds.len());
            memory.facings = bytes_due(facings, memory.facings.len());
            &mut memory.values
        }
    };
    values.fill(0);
    values[..2].copy_from_slice(&[detail.into(), count as u64]);
    due
}

/// The parts of a case as the wrapper takes them.
pub fn parts_of(case: &cases::parts::Parts) -> Parts {
    let [conductors, clearances, terminals, reserved] = case.lists.clone();
    Parts {
        sides: case.sides.map(|side| side as usize),
        config: config_of(&case.config),
        run: case.run,
        blocks: case.blocks.clone(),
        conductors,
        clearances,
        terminals,
        reserved,
        source: case.source.clone(),
        sinks: case.sinks.clone(),
    }
}

/// Memory for a sheet of so many bytes, with so many values and this in every byte.
pub fn sheet_memory(bytes: usize, values: usize, byte: u8) -> SheetMemory {
    SheetMemory {
        sheet: vec![byte; bytes],
        values: vec![words_of(byte).1; values],
    }
}

/// What the answer of a writer leaves in memory: a sheet and its length, zeros behind both; a refusal touches nothing.
pub fn sheet_due(before: &SheetMemory, answer: &PartsAnswer) -> SheetMemory {
    let mut due = before.clone();
    if let PartsAnswer::Sheet(bytes) = answer {
        due.sheet = bytes_due(bytes, before.sheet.len());
        due.values.fill(0);
        due.values[1] = bytes.len() as u64;
    }
    due
}

/// The net of a case as the wrapper takes it.
fn net_of(case: &Plan) -> Net {
    Net {
        sides: case.sides.map(usize::from),
        run: case.run,
        source: case.source.clone(),
        sinks: case.sinks.clone(),
        branches: case.branches.clone(),
        lengths: case.lengths.clone(),
    }
}

/// Memory of the lengths of a case, with so many values and this in every byte. What is long enough is longer by so much.
fn plan_memory(case: &Plan, longer: usize, values: usize, byte: u8) -> PlanMemory {
    let (word, long) = words_of(byte);
    let cells: usize = case.sides.iter().map(|side| usize::from(*side)).product();
    let more = |length: u32| match length as usize {
        length if length < cells => length,
        length => length + longer,
    };
    let [classes, known, previous, path] = case.work.map(more);
    PlanMemory {
        repeaters: vec![byte; more(case.marks)],
        classes: vec![byte; classes],
        known: vec![word; known],
        previous: vec![word; previous],
        path: vec![word; path],
        values: vec![long; values],
    }
}

/// What an answer leaves in memory.
fn plan_due(before: &PlanMemory, answer: &PlanAnswer) -> PlanMemory {
    let mut due = before.clone();
    if (1..=6).contains(&answer.number()) {
        return due;
    }
    for buffer in [&mut due.repeaters, &mut due.classes] {
        buffer.fill(0);
    }
    for buffer in [&mut due.known, &mut due.previous, &mut due.path] {
        buffer.fill(0);
    }
    due.values.fill(0);
    match answer {
        PlanAnswer::Refused(refusal) => due.values[0] = refusal.detail.into(),
        PlanAnswer::Repeaters(cells) => {
            mark(&mut due.repeaters, cells);
            due.values[1] = cells.len() as u64;
        }
    }
    due
}

/// What is not as due of one call for repeaters, if anything is not: over lent memory with this in every byte, so much longer than need be; then with
/// too few values, which is 6 where that is due, and touches nothing.
pub fn plan_fault(case: &Plan, due: &PlanAnswer, byte: u8, longer: usize) -> Option<&'static str> {
    let net = net_of(case);
    let few = match due {
        PlanAnswer::Refused(refusal) if refusal.number < 6 => due.clone(),
        _ => PlanAnswer::Refused(Refusal::bare(6)),
    };
    let calls = [(PLAN_VALUES + longer, due), (usize::from(byte) % PLAN_VALUES, &few)];
    for (values, due) in calls {
        let before = plan_memory(case, longer, values, byte);
        let mut after = before.clone();
        if after.call(&net) != u32::from(due.number()) {
            return Some("number");
        }
        if after != plan_due(&before, due) {
            return Some("memory");
        }
    }
    None
}
