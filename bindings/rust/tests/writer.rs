//! Sheets written: jobs out and back, each reason of a refusal, every stored sheet taken apart and written again, and the stored parts,
//! of which each byte counts.

use cases::answers::{LIMIT_SHEETS, SHEETS, STRICT_SHEETS, TREE_WHYS, WRITES};
use cases::examples;
use cases::files;
use cases::limits::LimitSheet;
use cases::parts::PartsAnswer;
use cases::room::MOST_CELLS;
use cases::sheet;
use cases::strict::StrictSheet;
use cases::tree_why::TreeWhy;
use cases::version::Version;
use checks::{parts_of, sheet_due, sheet_memory};
use dustroute::lent::{SheetMemory, WRITE_VALUES};
use dustroute::{Block, Config, Endpoint, Facing, Job, Kind, Parts, Port, Position, Refusal, Room, Sheet, Sink, write_sheet};

fn at(x: u16, y: u16, z: u16) -> Position {
    Position { x, y, z }
}

fn end(at: Position, port: Port, facing: Facing) -> Endpoint {
    Endpoint { at, port, facing }
}

/// A job with a record in every list, and in some two.
fn full_job() -> Job {
    let block = |node, at, kind, facing| Block { node, at, kind, facing };
    Job {
        room: Room { wide: 5, high: 2, deep: 3 },
        config: Config::default(),
        run: Job::USUAL_RUN,
        blocks: vec![
            block(0x0102, at(3, 0, 0), Kind::Solid, Facing::None),
            block(0xFFFF, at(1, 1, 1), Kind::Repeater, Facing::East),
        ],
        conductors: vec![at(4, 1, 0)],
        clearances: vec![at(0, 1, 0)],
        terminals: vec![at(1, 1, 0)],
        reserved: vec![at(2, 1, 0), at(2, 1, 0)],
        source: end(at(0, 0, 1), Port::Wire, Facing::None),
        sinks: vec![
            end(at(4, 0, 1), Port::Wire, Facing::None).into(),
            end(at(2, 0, 2), Port::BlockPower, Facing::West).into(),
        ],
    }
}

/// Its sheet, byte for byte, order and repeats kept.
#[test]
fn a_job_with_a_record_in_every_list() {
    let (_, case, answer) = examples::parts().swap_remove(1);
    let PartsAnswer::Sheet(bytes) = answer else {
        panic!("an example that is written")
    };
    assert_eq!(full_job().parts(), parts_of(&case));
    assert_eq!(full_job().sheet(), Ok(Sheet::from_bytes(bytes)));
}

#[test]
fn examples_of_parts() {
    for (name, case, answer) in examples::parts() {
        assert!(is_answered_so(&case, &answer, 0), "{name}");
    }
}

/// What a job can have wrong: the number is the one that the router would refuse its sheet with.
#[test]
fn jobs_that_are_not_written() {
    type Spoil = fn(&mut Job);
    let cases: [(Refusal, Spoil); 16] = [
        (Refusal::Sheet, |job| job.sinks = vec![job.sinks[0]; 17]),
        (Refusal::Sheet, |job| job.reserved = vec![at(0, 0, 0); 20_000]),
        (Refusal::Sheet, |job| job.reserved = vec![at(0, 0, 0); 65_536]),
        (Refusal::Sides, |job| job.room.high = 0),
        (Refusal::Sides, |job| {
            job.room = Room {
                wide: 64,
                high: 17,
                deep: 64,
            }
        }),
        (Refusal::Config, |job| job.config.limit = 800_001),
        (Refusal::Config, |job| job.config.support = u32::MAX),
        (Refusal::Config, |job| job.run = 0),
        (Refusal::Config, |job| job.run = 16),
        (Refusal::Config, |job| job.sinks[0].tail = 0),
        (Refusal::Config, |job| job.sinks[1].tail = 255),
        // a sink's 3 before a later one's 4
        (Refusal::Config, |job| {
            job.sinks[0].tail = 16;
            job.sinks[1].end.at.z = 3;
        }),
        (Refusal::Position, |job| job.blocks[1].at.x = 5),
        (Refusal::Position, |job| job.sinks[1].end.at.z = 255),
        (Refusal::Code, |job| job.blocks[0].kind = Kind::Air),
        // a block's 5 before a later record's 4
        (Refusal::Code, |job| {
            job.blocks[0].kind = Kind::Air;
            job.reserved[0].y = 2;
        }),
    ];
    for (place, (refusal, spoil)) in cases.into_iter().enumerate() {
        let mut job = full_job();
        spoil(&mut job);
        assert_eq!(job.sheet(), Err(refusal), "case {place}");
    }
    assert!(Refusal::Sheet.to_string().contains("too long"));
}

#[test]
fn the_longest_sheet() {
    let mut job = full_job();
    job.sinks = vec![job.sinks[0]; 16];
    // 136 bytes without reserved cells and its second block
    job.blocks.truncate(1);
    job.reserved = vec![at(4, 1, 2); (Sheet::MAX_BYTES - 136) / 3];
    let sheet = job.sheet().unwrap();
    assert!(sheet.bytes().len() > Sheet::MAX_BYTES - 3 && sheet.bytes().len() == job.parts().sheet_bytes());
    let read = sheet::Job::read(sheet.bytes()).unwrap();
    assert_eq!(parts_of(&cases::parts::Parts::of(&read)), job.parts());
    job.reserved.push(at(0, 0, 0));
    assert_eq!(job.sheet(), Err(Refusal::Sheet));
}

/// Version 3 for a larger room, a dearer cost or a higher node limit; else version 1 just where the run limit is 12 and every tail limit 8, else
/// version 2. What is read of it is what went in.
#[test]
fn the_lowest_version_that_holds_the_job() {
    type Change = fn(&mut Job);
    let cases: [(u8, Change); 13] = [
        (1, |job| job.room.wide = 64),
        (3, |job| job.room.wide = 65),
        (3, |job| (job.room.deep, job.run) = (300, 11)),
        (1, |job| job.config.limit = 200_000),
        (3, |job| job.config.limit = 200_001),
        (1, |job| job.config.stair = 100_000),
        (3, |job| job.config.support = 100_001),
        (1, |_| ()),
        (1, |job| job.sinks.clear()),
        (2, |job| job.run = 11),
        (2, |job| (job.run, job.sinks) = (15, Vec::new())),
        (2, |job| job.sinks[1].tail = 1),
        (2, |job| {
            job.sinks[0] = Sink {
                tail: 15,
                ..job.sinks[0]
            }
        }),
    ];
    for (version, change) in cases {
        let mut job = full_job();
        change(&mut job);
        let sheet = job.sheet().unwrap();
        assert_eq!((sheet.bytes()[0], sheet.bytes().len()), (version, job.parts().sheet_bytes()));
        let read = sheet::Job::read(sheet.bytes()).unwrap();
        assert_eq!(parts_of(&cases::parts::Parts::of(&read)), job.parts());
    }
}

/// Parts may say what no job can: sides past 32 bits, numbers past a byte, a list cut short.
#[test]
fn parts_that_no_job_has() {
    type Spoil = fn(&mut Parts);
    let cases: [(Refusal, Spoil); 8] = [
        (Refusal::Config, |parts| parts.run = 256 + 12),
        (Refusal::Config, |parts| parts.sinks[5] = 256 + 8),
        (Refusal::Sides, |parts| parts.sides[0] = usize::MAX),
        (Refusal::Sides, |parts| parts.sides = [1 << 32; 3]),
        (Refusal::Sides, |parts| parts.sides[1] = (1 << 32) + 2),
        (Refusal::Position, |parts| parts.blocks[1] = 300),
        (Refusal::Code, |parts| parts.blocks[4] = 300),
        (Refusal::Sheet, |parts| parts.source.truncate(4)),
    ];
    for (refusal, spoil) in cases {
        let mut parts = full_job().parts();
        spoil(&mut parts);
        assert_eq!(write_sheet(&parts), Err(refusal));
    }
}

#[test]
fn memory_that_is_lent() {
    let parts = full_job().parts();
    let length = parts.sheet_bytes();
    assert_eq!(SheetMemory::for_parts(&parts).sheet.len(), length);
    assert_eq!(SheetMemory::new(length - 1).write(&parts), Err(Refusal::Buffer));
    let mut few = SheetMemory::new(length);
    few.values.truncate(WRITE_VALUES - 1);
    assert_eq!(few.write(&parts), Err(Refusal::Buffer));
    // kept from one call to the next, a longer sheet's bytes behind a shorter one are zeros again
    let mut kept = SheetMemory::new(length + 9);
    assert_eq!(kept.write(&parts), full_job().sheet());
    let short = Job {
        blocks: Vec::new(),
        ..full_job()
    };
    assert_eq!(kept.write(&short.parts()), short.sheet());
    assert!(kept.sheet[length - 14..].iter().all(|byte| *byte == 0));
}

/// A stored sheet of its job's version gives its own bytes back, any other that is accepted the same job.
#[test]
fn stored_sheets_at_any_limits_are_given_back() {
    let stored = files::read::<LimitSheet>(&LIMIT_SHEETS.bytes()).unwrap();
    let (mut own, mut other) = (0, 0);
    for (LimitSheet(case), _) in stored {
        let Ok((job, _)) = case.judge(MOST_CELLS) else {
            continue;
        };
        let written = write_sheet(&parts_of(&cases::parts::Parts::of(&job))).unwrap();
        let version = job.lowest(Version::KNOWN);
        assert_eq!(written.bytes() == case.bytes, version == job.version);
        own += usize::from(version == job.version);
        other += usize::from(version != job.version);
        let job = sheet::Job { version, ..job };
        assert_eq!(sheet::Job::read(written.bytes()), Ok(job));
    }
    assert!(own > 250 && other > 20, "{own} {other}");
}

/// Every sheet of the stored files that is accepted, taken apart by the plain reader and written, is the same bytes.
#[test]
fn stored_sheets_give_their_own_bytes() {
    let sheets = files::read::<sheet::Sheet>(&SHEETS.bytes()).unwrap().into_iter();
    let strict = files::read::<StrictSheet>(&STRICT_SHEETS.bytes()).unwrap();
    let whys = files::read::<TreeWhy>(&TREE_WHYS.bytes()).unwrap();
    let all = sheets
        .map(|(case, _)| case)
        .chain(strict.into_iter().map(|(case, _)| case.0))
        .chain(whys.into_iter().map(|(case, _)| case.sheet));
    let mut accepted = 0;
    for case in all {
        if let Ok((job, _)) = case.judge(MOST_CELLS) {
            let parts = parts_of(&cases::parts::Parts::of(&job));
            assert_eq!(write_sheet(&parts), Ok(Sheet::from_bytes(case.bytes)));
            accepted += 1;
        }
    }
    assert!(accepted > 1_500, "{accepted}");
}

/// Whether a case is answered so, over memory that is `longer`: the number, and every byte of it.
fn is_answered_so(case: &cases::parts::Parts, answer: &PartsAnswer, longer: usize) -> bool {
    let before = sheet_memory(case.lent as usize + longer, WRITE_VALUES + longer, 0xA5);
    let mut after = before.clone();
    let number = after.call(&parts_of(case));
    let fits = !matches!(answer, PartsAnswer::Sheet(bytes) if bytes.len() > case.lent as usize);
    fits && number == u32::from(answer.number()) && after == sheet_due(&before, answer)
}

type Stored = Vec<(cases::parts::Parts, PartsAnswer)>;

fn stored() -> Stored {
    let cases = files::read::<cases::parts::Parts>(&WRITES.bytes()).unwrap();
    cases.into_iter().map(|(case, answer)| (case, answer.unwrap())).collect()
}

#[test]
fn stored_writes() {
    let stored = stored();
    assert!(stored.len() > 400, "{}", stored.len());
    for (index, (case, answer)) in stored.iter().enumerate() {
        assert!(is_answered_so(case, answer, 0), "case {index}");
        // longer memory may suffice where 6 was due
        if answer.number() != 6 {
            assert!(is_answered_so(case, answer, 9), "case {index}, longer");
        }
    }
}

/// Each byte of a stored answer counts: with any one changed, the file is no such file, or the replay says no.
#[test]
fn a_changed_byte_of_a_stored_answer_is_seen() {
    let mut changed = 0;
    for (index, (case, answer)) in stored().into_iter().enumerate() {
        let bare = files::write_bare(std::slice::from_ref(&case)).len();
        let bytes = files::write_answered(&[(case, answer)]);
        for place in bare..bytes.len() {
            let mut bytes = bytes.clone();
            bytes[place] ^= 1 << ((index + place) % 8);
            let seen = match files::read::<cases::parts::Parts>(&bytes).as_deref() {
                Ok([(case, Some(answer))]) => !is_answered_so(case, answer, 0),
                _ => true,
            };
            assert!(seen, "byte {place} of case {index}");
            changed += 1;
        }
    }
    assert!(changed > 10_000, "{changed}");
}
