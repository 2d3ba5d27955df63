//! Parts of jobs: sheets written by hand, each reason of each number, and the order in which numbers are judged.

use super::{Mend, but};
use crate::Refusal;
use crate::parts::{Parts, PartsAnswer};
use crate::room::{Config, Ranges};
use crate::samples::{HEX_SHEET, TAIL_SHEET, default_job, wire};
use crate::sheet::MOST_SINKS;
use crate::text::parse_hex;
use crate::version::USUAL_RUN;

pub type Example = (&'static str, Parts, PartsAnswer);

/// Two records in two lists, one in the others; a position twice, a node of two bytes.
const FULL_SHEET: &str = "01 0000004A 050203 00007530 0000000A 00000019 0000000F \
    0002 0102 030000 01 00 FFFF 010101 05 02 0001 040100 0001 000100 0001 010100 0002 020100 020100 \
    000001 00 00 02 040001 00 00 020002 01 04";

/// The same with a tail limit of 1 in its last sink: version 2.
const LAST_TAIL_SHEET: &str = "02 0000004D 050203 00007530 0000000A 00000019 0000000F 0C \
    0002 0102 030000 01 00 FFFF 010101 05 02 0001 040100 0001 000100 0001 010100 0002 020100 020100 \
    000001 00 00 02 040001 00 00 08 020002 01 04 01";

fn full() -> Parts {
    Parts {
        sides: [5, 2, 3],
        config: Config::DEFAULT,
        run: USUAL_RUN.into(),
        blocks: vec![0x0102, 3, 0, 0, 1, 0, 0xFFFF, 1, 1, 1, 5, 2],
        lists: [
            vec![4, 1, 0],
            vec![0, 1, 0],
            vec![1, 1, 0],
            vec![2, 1, 0, 2, 1, 0],
        ],
        source: vec![0, 0, 1, 0, 0],
        sinks: vec![4, 0, 1, 0, 0, 8, 2, 0, 2, 1, 4, 8],
        lent: 79,
    }
}

pub fn parts() -> Vec<Example> {
    let mut list = written();
    list.extend(limited());
    list.extend(refused());
    list.extend(in_order());
    list
}

/// The examples, without their answers.
pub fn parts_cases() -> Vec<Parts> {
    parts().into_iter().map(|(_, case, _)| case).collect()
}

fn sheet(hex: &str) -> PartsAnswer {
    PartsAnswer::Sheet(parse_hex(hex).expect("hex digits"))
}

fn written() -> Vec<Example> {
    let row = Parts::of(&default_job([10, 1, 1], &[wire([9, 0, 0], 0)]));
    let bare = Parts::of(&default_job([1, 1, 1], &[]));
    let least = "01 00000023 010101 00007530 0000000A 00000019 0000000F \
        0000 0000 0000 0000 0000 0000000000 00";
    let limits = but(bare.clone(), |case| {
        case.sides = [64, 4, 64];
        case.config = Config {
            node_limit: Ranges::OLD.nodes,
            horizontal: Ranges::OLD.cost,
            stair: 0,
            support: Ranges::OLD.cost,
        };
        case.source = vec![63, 3, 63, 1, 6];
        case.lent = 41;
    });
    let most = "01 00000023 400440 00030D40 000186A0 00000000 000186A0 \
        0000 0000 0000 0000 0000 3F033F0106 00";
    vec![
        ("the row of ten cells", row, sheet(HEX_SHEET)),
        ("a record in every list", full(), sheet(FULL_SHEET)),
        ("the least sheet", bare, sheet(least)),
        ("limits, and zeros behind", limits, sheet(most)),
    ]
}

/// Version 2, and just where it is due: a run other than 12, or any tail other than 8.
fn limited() -> Vec<Example> {
    let row = Parts::of(&default_job([10, 1, 1], &[wire([9, 0, 0], 0)]));
    let tail = but(row.clone(), |case| {
        case.sinks[5] = 3;
        case.lent = 47;
    });
    let bare = but(Parts::of(&default_job([1, 1, 1], &[])), |case| {
        case.run = 15;
        case.lent = 42;
    });
    let run = "02 00000024 010101 00007530 0000000A 00000019 0000000F 0F \
        0000 0000 0000 0000 0000 0000000000 00";
    let last = but(full(), |case| {
        case.sinks[11] = 1;
        case.lent = 82;
    });
    let one_short = but(last.clone(), |case| case.lent = 81);
    vec![
        ("a tail of three", tail, sheet(TAIL_SHEET)),
        ("a run of fifteen, no sinks", bare, sheet(run)),
        ("the last tail alone", last, sheet(LAST_TAIL_SHEET)),
        ("a byte short of version 2", one_short, refusal(6)),
    ]
}

/// A full job with one fault, which this number names.
fn refused() -> Vec<Example> {
    let faults: [(&'static str, u8, Mend<Parts>); 46] = [
        ("five numbers and a block", 1, |case| {
            case.blocks.truncate(11)
        }),
        ("a block and a number", 1, |case| case.blocks.push(0)),
        ("conductors", 1, |case| case.lists[0].push(0)),
        ("clearances", 1, |case| case.lists[1].truncate(2)),
        ("terminals", 1, |case| case.lists[2].truncate(1)),
        ("reserved", 1, |case| case.lists[3].push(0)),
        ("no source", 1, |case| case.source.clear()),
        ("four numbers of a source", 1, |case| {
            case.source.truncate(4)
        }),
        ("two sources", 1, |case| case.source = [0; 10].to_vec()),
        ("sinks", 1, |case| case.sinks.truncate(11)),
        ("sinks of five numbers", 1, |case| {
            case.sinks = [0; 10].to_vec()
        }),
        ("seventeen sinks", 1, |case| {
            case.sinks = vec![0; 6 * (MOST_SINKS + 1)]
        }),
        ("as many sinks as a byte has no room for", 1, |case| {
            case.sinks = vec![0; 6 * 257]
        }),
        ("no side", 2, |case| case.sides[0] = 0),
        ("a side of 301", 2, |case| case.sides[1] = 301),
        ("a side whose low byte is one", 2, |case| {
            case.sides[2] = 512 + 3
        }),
        ("a side whose low half is one", 2, |case| {
            case.sides[0] = (1 << 16) + 5
        }),
        ("65,600 cells", 2, |case| case.sides = [41, 40, 40]),
        ("cells that wrap", 2, |case| case.sides = [u32::MAX; 3]),
        ("node limit", 3, |case| {
            case.config.node_limit = Ranges::WIDE.nodes + 1
        }),
        ("flat step", 3, |case| {
            case.config.horizontal = Ranges::WIDE.cost + 1
        }),
        ("stair", 3, |case| case.config.stair = u32::MAX),
        ("support", 3, |case| {
            case.config.support = Ranges::WIDE.cost + 1
        }),
        ("the product", 3, |case| {
            case.sides = [13, 127, 1];
            case.config.stair = Ranges::WIDE.cost;
            case.config.support = Ranges::WIDE.cost;
        }),
        ("a block's x", 4, |case| case.blocks[1] = 5),
        ("a block at x = 300", 4, |case| case.blocks[7] = 300),
        ("x whose low byte is inside", 4, |case| {
            case.blocks[1] = 256 + 3
        }),
        ("a conductor's y", 4, |case| case.lists[0][1] = 2),
        ("a later reserved cell's z", 4, |case| {
            case.lists[3][5] = 256
        }),
        ("the source's z", 4, |case| case.source[2] = 3),
        ("the second sink's x", 4, |case| case.sinks[6] = 0xFF02),
        ("a block of Air", 5, |case| case.blocks[4] = 0),
        ("kind 300", 5, |case| case.blocks[10] = 300),
        ("a kind whose low byte is Solid", 5, |case| {
            case.blocks[4] = 257
        }),
        ("a block's facing", 5, |case| case.blocks[5] = 7),
        ("the source's port", 5, |case| case.source[3] = 2),
        ("a port whose low byte is one", 5, |case| {
            case.sinks[9] = 256
        }),
        ("the second sink's facing", 5, |case| {
            case.sinks[10] = 256 + 4
        }),
        ("no run", 3, |case| case.run = 0),
        ("a run of 16", 3, |case| case.run = 16),
        ("a run whose low byte is one", 3, |case| case.run = 256 + 12),
        ("a run whose low half is one", 3, |case| {
            case.run = (1 << 16) + 12
        }),
        ("no tail", 3, |case| case.sinks[5] = 0),
        ("a tail of 16", 3, |case| case.sinks[5] = 16),
        ("a block-power sink's tail", 3, |case| case.sinks[11] = 0),
        ("a tail whose low byte is one", 3, |case| {
            case.sinks[11] = 256 + 8
        }),
    ];
    let mut list: Vec<Example> = Vec::new();
    for (name, number, fault) in faults {
        list.push((name, but(full(), fault), refusal(number)));
    }
    for (name, lent) in [("one byte short", 78), ("no output", 0)] {
        list.push((name, but(full(), |case| case.lent = lent), refusal(6)));
    }
    list
}

fn refusal(number: u8) -> PartsAnswer {
    PartsAnswer::Refused(Refusal::bare(number))
}

/// All faults at once, mended one by one: what is left is refused with the next number.
fn in_order() -> Vec<Example> {
    let mut case = but(full(), |case| {
        case.sinks.push(9);
        case.sides[0] = 301;
        case.config.stair = u32::MAX;
        case.blocks[2] = 2;
        case.blocks[4] = 13;
        case.lists[0][0] = 300;
        case.lists[3][5] = 3;
        case.source[3] = 2;
        case.run = 0;
        case.sinks[0] = 5;
        case.sinks[4] = 7;
        case.sinks[5] = 0;
        case.sinks[6] = 5;
        case.lent = 3;
    });
    let mends: [(&'static str, u8, Mend<Parts>); 13] = [
        ("1 before all", 1, |case| case.sinks.truncate(12)),
        ("2 before 3", 2, |case| case.sides[0] = 5),
        ("3 before a block's 4", 3, |case| case.config.stair = 25),
        ("the run's 3 before a block's 4", 3, |case| case.run = 12),
        ("a block's 4 before its 5", 4, |case| case.blocks[2] = 0),
        ("a block's 5 before a conductor's 4", 5, |case| {
            case.blocks[4] = 1
        }),
        ("a conductor's 4", 4, |case| case.lists[0][0] = 4),
        ("a reserved cell's 4 before the source's 5", 4, |case| {
            case.lists[3][5] = 0
        }),
        ("the source's 5 before a sink's 4", 5, |case| {
            case.source[3] = 0
        }),
        ("a sink's 4 before its 5", 4, |case| case.sinks[0] = 4),
        ("a sink's 5 before its 3", 5, |case| case.sinks[4] = 0),
        ("a sink's 3 before the next one's 4", 3, |case| {
            case.sinks[5] = 8
        }),
        ("the next one's 4 before 6", 4, |case| case.sinks[6] = 2),
    ];
    let mut list: Vec<Example> = Vec::new();
    for (name, number, mend) in mends {
        list.push((name, case.clone(), refusal(number)));
        mend(&mut case);
    }
    list.push(("6 last", case.clone(), refusal(6)));
    case.lent = 79;
    list.push(("all mended", case, sheet(FULL_SHEET)));
    list
}
