//! Random function files: the proved functions against the plain writer and reader, with all lent memory, and each room out and back.

use cases::function::{Function, FunctionAnswer, LINE_BYTES, Laid, Reading};
use cases::generate::random_function;
use cases::stats::{Tally, count_function};
use cases::text::{function_answer_lines, function_lines};
use checks::{ask_function, function_due, function_memory};
use dustroute::lent::FUNCTION_VALUES;
use oracle::{Refusal, Rng};

use crate::compare::{Differences, Draw, extra};

/// Compares `count` random function files and prints a summary; false if anything differs.
pub fn compare(draw: &Draw) -> bool {
    let mut tally = Tally::default();
    let mut differences = Differences::default();
    let mut back = 0_u64;
    for index in 0..draw.count {
        let case = random_function(&mut Rng::for_case(draw.seed, index), draw.profile);
        let due = case.plain_answer();
        count_function(&mut tally, &case, &due);
        let found = differs(&case, &due, index as u8).and_then(|()| {
            back += u64::from(matches!(due, FunctionAnswer::Text(_)));
            out_and_back(&case, &due)
        });
        if let Err(what) = found {
            differences.add(&draw.name(index), &what, &function_lines(&case));
        }
    }
    print!("{}", tally.lines());
    println!(
        "{} function files of seed {}, {back} rooms out and back",
        draw.count, draw.seed
    );
    differences.told()
}

/// How an answer differs from what is due, if it does: through memory of just the lengths of the case, through longer memory, and
/// with too few values. All memory is full of rubbish before. A text that is too long for 18's buffer may fit a longer one.
fn differs(case: &Function, due: &FunctionAnswer, salt: u8) -> Result<(), String> {
    asked(case, due, 0, FUNCTION_VALUES, salt)?;
    let more = match due.number() {
        18 => 0,
        number => extra(number, salt),
    };
    asked(case, due, more, FUNCTION_VALUES + more, salt)?;
    let few = if due.number() == 2 { 2 } else { 6 };
    let refused = FunctionAnswer::Refused(Refusal::bare(few));
    asked(case, &refused, 0, usize::from(salt) % FUNCTION_VALUES, salt)
}

fn asked(
    case: &Function,
    due: &FunctionAnswer,
    extra: usize,
    values: usize,
    salt: u8,
) -> Result<(), String> {
    let before = function_memory(case, extra, values, salt | 1);
    let mut after = before.clone();
    let number = ask_function(case, &mut after);
    if number == u32::from(due.number()) && after == function_due(&before, due) {
        return Ok(());
    }
    let due = function_answer_lines(due);
    Err(format!("number {number}, memory {after:?}, due\n{due}"))
}

/// A text that was written lays the room again, and has a line of at most 76 bytes for each block.
fn out_and_back(case: &Function, due: &FunctionAnswer) -> Result<(), String> {
    let (Function::Write(room), FunctionAnswer::Text(text)) = (case, due) else {
        return Ok(());
    };
    let lines = room.kinds.iter().filter(|kind| **kind != 0).count();
    if text.len() > LINE_BYTES * lines {
        return Err(format!("{} bytes for {lines} blocks", text.len()));
    }
    let cells = room.kinds.len() as u32;
    let read = Function::Read(Reading {
        sides: room.sides,
        text: text.clone(),
        kinds: cells,
        facings: cells,
    });
    let laid = FunctionAnswer::Room(Laid {
        kinds: room.kinds.clone(),
        facings: room.facings.clone(),
        lines: lines as u32,
    });
    asked(&read, &laid, 0, FUNCTION_VALUES, cells as u8)
}
