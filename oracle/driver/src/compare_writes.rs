//! Random parts of jobs: the proved writer against the plain one, with all lent memory, and each sheet read back by the plain reader.

use cases::generate::random_parts;
use cases::parts::{Parts, PartsAnswer};
use cases::room::MOST_CELLS;
use cases::sheet::Job;
use cases::stats::{Tally, count_parts};
use cases::text::{parts_answer_lines, parts_lines};
use checks::{parts_of, sheet_due, sheet_memory};
use dustroute::lent::{SheetMemory, WRITE_VALUES};
use oracle::{Refusal, Rng};

use crate::compare::{Differences, Draw, extra};

/// Compares `count` random parts of jobs and prints a summary; false if anything differs.
pub fn compare(draw: &Draw) -> bool {
    let mut tally = Tally::default();
    let mut differences = Differences::default();
    let mut back = 0_u64;
    for index in 0..draw.count {
        let case = random_parts(&mut Rng::for_case(draw.seed, index), draw.profile);
        let due = case.plain_answer();
        count_parts(&mut tally, &case, &due);
        match differs(&case, &due, index as u8) {
            Ok(was_read) => back += u64::from(was_read),
            Err(what) => differences.add(&draw.name(index), &what, &parts_lines(&case)),
        }
    }
    print!("{}", tally.lines());
    println!(
        "{} jobs of seed {}, {back} sheets read back",
        draw.count, draw.seed
    );
    differences.told()
}

/// How an answer differs from what is due, if it does: through memory of just the lengths of the case, through longer memory, with an
/// output one byte short of the sheet, and with too few values. All memory is full of rubbish before. Else whether a sheet was written
/// and read back.
fn differs(case: &Parts, due: &PartsAnswer, salt: u8) -> Result<bool, String> {
    let lent = case.lent as usize;
    let written = asked(case, due, lent, WRITE_VALUES, salt)?;
    let more = extra(due.number(), salt);
    asked(case, due, lent + more, WRITE_VALUES + more, salt)?;
    let short = match due.number() {
        0 => PartsAnswer::Refused(Refusal::bare(6)),
        _ => due.clone(),
    };
    asked(case, &short, lent.min(case.size() - 1), WRITE_VALUES, salt)?;
    asked(case, &short, lent, usize::from(salt) % WRITE_VALUES, salt)?;
    match due {
        PartsAnswer::Sheet(_) => read_back(case, &written).map(|()| true),
        PartsAnswer::Refused(_) => Ok(false),
    }
}

fn asked(
    case: &Parts,
    due: &PartsAnswer,
    lent: usize,
    values: usize,
    salt: u8,
) -> Result<SheetMemory, String> {
    let before = sheet_memory(lent, values, salt | 1);
    let mut after = before.clone();
    let number = after.call(&parts_of(case));
    if number == u32::from(due.number()) && after == sheet_due(&before, due) {
        return Ok(after);
    }
    let due = parts_answer_lines(due);
    Err(format!("number {number}, memory {after:?}, due\n{due}"))
}

/// The plain reader takes out of what was written what went in.
fn read_back(case: &Parts, written: &SheetMemory) -> Result<(), String> {
    let bytes = &written.sheet[..written.values[1] as usize];
    let job = Job::read(bytes).map_err(|refusal| format!("not read: {refusal:?}"))?;
    if let Err(refusal) = job.judge(MOST_CELLS) {
        return Err(format!("read, and refused: {refusal:?}"));
    }
    if job.version != case.version() {
        return Err(format!("written in version {}", job.version.number));
    }
    let lent = case.lent;
    let parts = Parts {
        lent,
        ..Parts::of(&job)
    };
    if parts == *case {
        return Ok(());
    }
    Err(format!("read as\n{}", parts_lines(&parts)))
}
