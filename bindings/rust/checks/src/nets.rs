//! Lists of nets over lent memory full of rubbish: of just the lengths that a case names, longer, and too short in each buffer. Every byte counts.

use cases::lists::{LENGTHS, List, sheets};
use cases::nets::{LaidNets, ListAnswer};
use cases::rng::Rng;
use cases::room::{MOST_CELLS, Room};
use cases::sheet::Job;
use cases::tree::Mode;
use dustroute::lent::{NETS_VALUES, NetsMemory};

use crate::{put, words_of};

/// Buffers that have something for each cell, in the order of the call.
const EACH: usize = 15;

/// How long each lent buffer is, in elements.
#[derive(Clone, Copy)]
struct Lent {
    branches: usize,
    lengths: usize,
    /// Those that have something for each cell.
    each: [usize; EACH],
    /// Two a place.
    queue: usize,
    values: usize,
}

/// How many of the faults that make memory too short are tried.
#[derive(Clone, Copy, Eq, PartialEq)]
pub enum Short {
    /// Two of the buffers that have something for each cell, by turns.
    Some,
    /// Each of them.
    All,
}

/// What is not as due of a list, if anything is not: the number, and every byte that is lent. `salt` is for the rubbish and for all that is drawn.
pub fn nets_fault(case: &List, due: &ListAnswer, salt: u64, short: Short) -> Option<String> {
    if !is_possible(case, due) {
        return Some("no list has this answer".into());
    }
    let found = |asked: Vec<Asked>| {
        asked.into_iter().find_map(|(name, lent, due)| {
            let fault = fault_over(case, &due, lent, salt)?;
            Some(format!("{name}: {fault}"))
        })
    };
    found(vec![("exact memory", exact(case), due.clone())])
        .or_else(|| found(vec![("longer memory", longer(case, due, salt), due.clone())]))
        .or_else(|| found(shortened(case, salt, short)))
        .or_else(|| found(other_lengths(case, salt)))
        .or_else(|| found(branch_buffers(case, due, salt)))
}

type Asked = (&'static str, Lent, ListAnswer);

/// Whether nets fit their room and what is lent, and what they list ascends.
fn is_possible(case: &List, due: &ListAnswer) -> bool {
    let ListAnswer::Nets(laid) = due else {
        return true;
    };
    let cells = cells_of(case);
    let told = [laid.owners.len(), laid.kinds.len(), laid.facings.len()];
    let inside = |cell: &u16| usize::from(*cell) < cells;
    told == [cells; 3]
        && laid.nets.len() <= case.lengths as usize / LENGTHS
        && laid.nets.iter().all(|branches| branches.len() <= LENGTHS)
        && laid.branch_cells() <= case.branch as usize
        && laid.repeaters.iter().all(inside)
        && laid.repeaters.is_sorted_by(|one, other| one < other)
}

fn exact(case: &List) -> Lent {
    Lent {
        branches: case.branch as usize,
        lengths: case.lengths as usize,
        each: [case.lent as usize; EACH],
        queue: 2 * case.queue as usize,
        values: NETS_VALUES,
    }
}

/// Each buffer longer by an amount of its own. That must not turn a refusal by 6 or 15 into an answer; one number more is no place of the queue.
fn longer(case: &List, due: &ListAnswer, salt: u64) -> Lent {
    let mut rng = Rng::new(salt);
    let mut more = |length: usize, refused: &[u8]| match refused.contains(&due.number()) {
        true => length,
        false => length + rng.below(40),
    };
    let Lent {
        branches,
        lengths,
        each,
        queue,
        values,
    } = exact(case);
    Lent {
        branches: more(branches, &[6, 15]),
        lengths: more(lengths, &[6]),
        each: each.map(|length| more(length, &[6])),
        queue: queue + 1,
        values: more(values, &[]),
    }
}

/// Something that is judged with net 0 is too short: that is its 6, unless one of its 1 to 5 is due.
fn shortened(case: &List, salt: u64, short: Short) -> Vec<Asked> {
    let mut rng = Rng::new(!salt);
    let without_queue = List { queue: 0, ..case.clone() };
    let due = without_queue.plain_answer();
    let (exact, cells) = (exact(case), cells_of(case));
    let mut asked = Vec::new();
    for place in 0..EACH {
        if short == Short::All || (place as u64 + salt) % (EACH as u64 / 2) == 0 {
            let mut lent = exact;
            lent.each[place] = rng.pick(&[cells - 1, 0, rng_below(salt, cells)]);
            asked.push(("a buffer under V", lent, due.clone()));
        }
    }
    let queue = rng.below(2);
    asked.push(("no queue place", Lent { queue, ..exact }, due.clone()));
    let values = rng.below(NETS_VALUES);
    asked.push(("too few values", Lent { values, ..exact }, due));
    asked
}

fn rng_below(salt: u64, bound: usize) -> usize {
    Rng::new(salt ^ 1).below(bound)
}

/// The number of cells of the first sheet's room; 1 without one.
fn cells_of(case: &List) -> usize {
    let first = sheets(&case.bytes)[0];
    let room = Job::read(first).ok().and_then(|job| Room::new(job.sides, MOST_CELLS));
    room.map_or(1, |room| room.cells())
}

/// Fewer lengths than sixteen a net.
fn other_lengths(case: &List, salt: u64) -> Vec<Asked> {
    let mut rng = Rng::new(salt ^ 2);
    let nets = sheets(&case.bytes).len();
    let just = LENGTHS * rng.between(1, nets) - 1;
    let lengths = rng.pick(&[just, rng_below(salt, LENGTHS * nets)]);
    let case = List {
        lengths: lengths as u32,
        ..case.clone()
    };
    vec![("lengths", exact(&case), case.plain_answer())]
}

/// A branch buffer that is just full, one cell short, and of any length below.
fn branch_buffers(case: &List, due: &ListAnswer, salt: u64) -> Vec<Asked> {
    let ListAnswer::Nets(laid) = due else {
        return Vec::new();
    };
    let used = laid.branch_cells();
    let full = Lent {
        branches: used,
        ..exact(case)
    };
    let mut asked = vec![("a full branch buffer", full, due.clone())];
    if used > 0 {
        let mut lengths = vec![used - 1];
        if salt % 4 == 0 {
            lengths.push(rng_below(salt, used));
        }
        for branch in lengths {
            let branch = branch as u32;
            let case = List { branch, ..case.clone() };
            asked.push(("a short branch buffer", exact(&case), case.plain_answer()));
        }
    }
    asked
}

/// Memory of such lengths with this in every byte.
fn lend(lent: Lent, byte: u8) -> NetsMemory {
    let (word, long) = words_of(byte);
    let bytes = |place: usize| vec![byte; lent.each[place]];
    let words = |place: usize| vec![word; lent.each[place]];
    NetsMemory {
        branches: vec![word; lent.branches],
        lengths: vec![word; lent.lengths],
        owners: words(0),
        repeaters: bytes(1),
        kinds: bytes(2),
        facings: bytes(3),
        occupied: bytes(4),
        planned_work: bytes(5),
        before_work: bytes(6),
        room_work: bytes(7),
        blocked: bytes(8),
        classes: bytes(9),
        joinable: bytes(10),
        known: words(11),
        previous: words(12),
        path: words(13),
        best: words(14),
        queue: vec![long; lent.queue],
        values: vec![long; lent.values],
    }
}

/// The number that stands for a mode: for strict any but 0.
fn strict(mode: Mode, salt: u64) -> u32 {
    match mode {
        Mode::Published => 0,
        Mode::Strict => 1 << (salt % 32),
    }
}

fn fault_over(case: &List, due: &ListAnswer, lent: Lent, salt: u64) -> Option<String> {
    let byte = salt as u8 | 1;
    let mut found = lend(lent, byte);
    let number = found.call(strict(case.mode, salt), &case.bytes);
    let mut memory = lend(lent, byte);
    leave(&mut memory, due);
    let same = [
        ("number", number == u32::from(due.number())),
        ("branches", found.branches == memory.branches),
        ("lengths", found.lengths == memory.lengths),
        ("owners", found.owners == memory.owners),
        ("repeaters", found.repeaters == memory.repeaters),
        ("kinds", found.kinds == memory.kinds),
        ("facings", found.facings == memory.facings),
        ("occupied", found.occupied == memory.occupied),
        ("planned_work", found.planned_work == memory.planned_work),
        ("before_work", found.before_work == memory.before_work),
        ("room_work", found.room_work == memory.room_work),
        ("blocked", found.blocked == memory.blocked),
        ("classes", found.classes == memory.classes),
        ("joinable", found.joinable == memory.joinable),
        ("known", found.known == memory.known),
        ("previous", found.previous == memory.previous),
        ("path", found.path == memory.path),
        ("best", found.best == memory.best),
        ("queue", found.queue == memory.queue),
        ("values", found.values == memory.values),
    ];
    let apart: Vec<_> = same.iter().filter(|(_, same)| !same).map(|(name, _)| *name).collect();
    (!apart.is_empty()).then(|| {
        let (told, due_values) = (&found.values, &memory.values);
        let due = due.number();
        format!(
            "{} differ: number {number}, values {told:?}, due {due}, {due_values:?}",
            apart.join(", ")
        )
    })
}

/// What an answer leaves in memory.
fn leave(memory: &mut NetsMemory, due: &ListAnswer) {
    let told = match due {
        ListAnswer::Refused(refused) => [refused.refusal.detail.into(), refused.net as u64, 0],
        ListAnswer::Nets(laid) => [0, 0, laid.nets.len() as u64],
    };
    if !(1..=6).contains(&due.number()) {
        clear(memory);
    }
    if memory.values.len() >= NETS_VALUES {
        memory.values[..NETS_VALUES].copy_from_slice(&told);
    }
    if let ListAnswer::Nets(laid) = due {
        leave_nets(memory, laid);
    }
}

fn clear(memory: &mut NetsMemory) {
    for buffer in [
        &mut memory.branches,
        &mut memory.lengths,
        &mut memory.owners,
        &mut memory.known,
        &mut memory.previous,
        &mut memory.path,
        &mut memory.best,
    ] {
        buffer.fill(0);
    }
    for buffer in [
        &mut memory.repeaters,
        &mut memory.kinds,
        &mut memory.facings,
        &mut memory.occupied,
        &mut memory.planned_work,
        &mut memory.before_work,
        &mut memory.room_work,
        &mut memory.blocked,
        &mut memory.classes,
        &mut memory.joinable,
    ] {
        buffer.fill(0);
    }
    for buffer in [&mut memory.queue, &mut memory.values] {
        buffer.fill(0);
    }
}

fn leave_nets(memory: &mut NetsMemory, laid: &LaidNets) {
    put(&mut memory.branches, &laid.nets.concat().concat());
    for (lengths, branches) in memory.lengths.chunks_mut(LENGTHS).zip(&laid.nets) {
        for (length, branch) in lengths.iter_mut().zip(branches) {
            *length = branch.len() as u32;
        }
    }
    let cells = laid.kinds.len();
    memory.owners[..cells].copy_from_slice(&laid.owners);
    crate::mark(&mut memory.repeaters, &laid.repeaters);
    memory.kinds[..cells].copy_from_slice(&laid.kinds);
    memory.facings[..cells].copy_from_slice(&laid.facings);
}
