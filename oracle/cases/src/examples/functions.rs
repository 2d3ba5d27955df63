//! Function files: the table of docs/MORE-RULES.md line by line for the cell at (10, 0, 7), each way in which a line is bad, and the
//! order in which refusals are judged.

use crate::Refusal;
use crate::function::{Function, FunctionAnswer, Laid, Reading, Writing};
use crate::room::kind;

/// What stands behind the position, by kind and facing.
const TABLE: [(u8, u8, &str); 31] = [
    (1, 0, "stone"),
    (2, 0, "glass"),
    (3, 0, "redstone_wire"),
    (4, 0, "redstone_torch"),
    (4, 1, "redstone_wall_torch[facing=north]"),
    (4, 2, "redstone_wall_torch[facing=east]"),
    (4, 3, "redstone_wall_torch[facing=south]"),
    (4, 4, "redstone_wall_torch[facing=west]"),
    (5, 1, "repeater[facing=south]"),
    (5, 2, "repeater[facing=west]"),
    (5, 3, "repeater[facing=north]"),
    (5, 4, "repeater[facing=east]"),
    (6, 1, "comparator[facing=south]"),
    (6, 2, "comparator[facing=west]"),
    (6, 3, "comparator[facing=north]"),
    (6, 4, "comparator[facing=east]"),
    (7, 0, "lever[face=floor]"),
    (7, 1, "lever[face=wall,facing=north]"),
    (7, 2, "lever[face=wall,facing=east]"),
    (8, 0, "stone_button[face=floor]"),
    (8, 3, "stone_button[face=wall,facing=south]"),
    (8, 4, "stone_button[face=wall,facing=west]"),
    (9, 0, "stone_pressure_plate"),
    (10, 0, "redstone_lamp"),
    (11, 0, "redstone_block"),
    (12, 1, "piston[facing=north]"),
    (12, 2, "piston[facing=east]"),
    (12, 3, "piston[facing=south]"),
    (12, 4, "piston[facing=west]"),
    (12, 5, "piston[facing=up]"),
    (12, 6, "piston[facing=down]"),
];

/// A room of 11x1x8 with one block in its last cell.
const SIDES: [u16; 3] = [11, 1, 8];
const CELLS: usize = 88;

fn one_block(block: u8, facing: u8) -> Laid {
    let mut laid = Laid {
        kinds: vec![kind::AIR; CELLS],
        facings: vec![0; CELLS],
        lines: 1,
    };
    laid.kinds[CELLS - 1] = block;
    laid.facings[CELLS - 1] = facing;
    laid
}

fn write(sides: [u16; 3], kinds: &[u8], facings: &[u8], lent: usize) -> Function {
    Function::Write(Writing {
        sides,
        kinds: kinds.to_vec(),
        facings: facings.to_vec(),
        lent: lent as u32,
    })
}

fn read(sides: [u16; 3], text: &[u8], lent: usize) -> Function {
    Function::Read(Reading {
        sides,
        text: text.to_vec(),
        kinds: lent as u32,
        facings: lent as u32,
    })
}

fn text(text: &str) -> FunctionAnswer {
    FunctionAnswer::Text(text.as_bytes().to_vec())
}

fn refused(number: u8, detail: u32) -> FunctionAnswer {
    FunctionAnswer::Refused(Refusal::new(number, detail))
}

type Example = (&'static str, Function, FunctionAnswer);

/// Each line of the table, out and back; it is just as long as the text that is lent.
fn table() -> Vec<Example> {
    let lines = TABLE.into_iter().flat_map(|(block, facing, state)| {
        let line = format!("setblock ~10 ~ ~7 minecraft:{state} replace\n");
        let laid = one_block(block, facing);
        let out = write(SIDES, &laid.kinds, &laid.facings, line.len());
        let back = read(SIDES, line.as_bytes(), CELLS);
        [
            (state, out, text(&line)),
            (state, back, FunctionAnswer::Room(laid)),
        ]
    });
    lines.collect()
}

/// A row of three cells, wire in the first and the last.
const ROW: [u16; 3] = [3, 1, 1];
const FIRST: &str = "setblock ~ ~ ~ minecraft:redstone_wire replace\n";
const LAST: &str = "setblock ~2 ~ ~ minecraft:redstone_wire replace\n";

/// Second lines that are bad behind `FIRST`.
const BAD: [(&str, &str); 22] = [
    (
        "a zero",
        "setblock ~2 ~0 ~ minecraft:redstone_wire replace\n",
    ),
    (
        "a zero in front",
        "setblock ~02 ~ ~ minecraft:redstone_wire replace\n",
    ),
    (
        "no tilde",
        "setblock 2 ~ ~ minecraft:redstone_wire replace\n",
    ),
    (
        "a slash",
        "/setblock ~2 ~ ~ minecraft:redstone_wire replace\n",
    ),
    ("no replace", "setblock ~2 ~ ~ minecraft:redstone_wire\n"),
    (
        "two blanks",
        "setblock ~2 ~  ~ minecraft:redstone_wire replace\n",
    ),
    (
        "a blank behind",
        "setblock ~2 ~ ~ minecraft:redstone_wire replace \n",
    ),
    (
        "a carriage return",
        "setblock ~2 ~ ~ minecraft:redstone_wire replace\r\n",
    ),
    ("a comment", "# wire\n"),
    ("an empty line", "\n"),
    ("Air", "setblock ~2 ~ ~ minecraft:air replace\n"),
    (
        "the cell before",
        "setblock ~ ~ ~ minecraft:stone replace\n",
    ),
    ("outside", "setblock ~3 ~ ~ minecraft:stone replace\n"),
    ("outside, up", "setblock ~2 ~1 ~ minecraft:stone replace\n"),
    (
        "no newline",
        "setblock ~2 ~ ~ minecraft:redstone_wire replace",
    ),
    ("zeros behind", "\0\0"),
    ("no namespace", "setblock ~2 ~ ~ redstone_wire replace\n"),
    (
        "a default state",
        "setblock ~2 ~ ~ minecraft:repeater[facing=west,delay=1] replace\n",
    ),
    (
        "a repeater up",
        "setblock ~2 ~ ~ minecraft:repeater[facing=up] replace\n",
    ),
    ("no facing", "setblock ~2 ~ ~ minecraft:repeater replace\n"),
    (
        "a button on the ceiling",
        "setblock ~2 ~ ~ minecraft:stone_button[face=ceiling] replace\n",
    ),
    (
        "destroy",
        "setblock ~2 ~ ~ minecraft:redstone_wire destroy\n",
    ),
];

fn bad_lines() -> Vec<Example> {
    let bad = BAD.into_iter();
    bad.map(|(name, line)| {
        let both = format!("{FIRST}{line}");
        (name, read(ROW, both.as_bytes(), 3), refused(19, 2))
    })
    .collect()
}

fn order() -> Vec<Example> {
    let wires = [3, 0, 3];
    let both = format!("{FIRST}{LAST}");
    let long = both.len();
    let row = Laid {
        kinds: wires.to_vec(),
        facings: vec![0; 3],
        lines: 2,
    };
    vec![
        ("a row", write(ROW, &wires, &[0; 3], long), text(&both)),
        (
            "a row, one byte more",
            write(ROW, &wires, &[0; 3], long + 1),
            text(&both),
        ),
        (
            "a row, a byte short",
            write(ROW, &wires, &[0; 3], long - 1),
            refused(18, 0),
        ),
        ("only Air", write(ROW, &[0; 3], &[0; 3], 0), text("")),
        (
            "no text for a block",
            write(ROW, &wires, &[0; 3], 0),
            refused(18, 0),
        ),
        (
            "5 before 18",
            write(ROW, &[13, 0, 3], &[0; 3], 0),
            refused(5, 0),
        ),
        (
            "a wire that faces",
            write(ROW, &wires, &[1, 0, 0], long),
            refused(5, 0),
        ),
        (
            "Air that faces",
            write(ROW, &wires, &[0, 1, 0], long),
            refused(5, 0),
        ),
        (
            "a torch that faces up",
            write(ROW, &[4, 0, 0], &[5, 0, 0], 100),
            refused(5, 0),
        ),
        (
            "a repeater that faces nowhere",
            write(ROW, &[5, 0, 0], &[0; 3], 100),
            refused(5, 0),
        ),
        (
            "6 before 5",
            write(ROW, &[13, 0], &[0; 3], long),
            refused(6, 0),
        ),
        (
            "kinds too long",
            write(ROW, &[0; 4], &[0; 3], long),
            refused(6, 0),
        ),
        (
            "facings too short",
            write(ROW, &wires, &[0; 2], long),
            refused(6, 0),
        ),
        ("2 before 6", write([0, 1, 1], &[13], &[], 0), refused(2, 0)),
        (
            "65,600 cells",
            write([41, 40, 40], &[0; 65], &[0; 65], 0),
            refused(2, 0),
        ),
        (
            "back",
            read(ROW, both.as_bytes(), 3),
            FunctionAnswer::Room(row),
        ),
        ("nothing to read", read(ROW, b"", 9), {
            FunctionAnswer::Room(Laid {
                kinds: vec![0; 3],
                facings: vec![0; 3],
                lines: 0,
            })
        }),
        ("6 before 19", read(ROW, b"#", 2), refused(6, 0)),
        (
            "2 before 6, reading",
            read([255, 2, 129], b"#", 0),
            refused(2, 0),
        ),
        (
            "the first of two bad lines",
            read(ROW, b"#\n#\n", 3),
            refused(19, 1),
        ),
        (
            "the wrong order",
            read(ROW, format!("{LAST}{FIRST}").as_bytes(), 3),
            refused(19, 2),
        ),
    ]
}

pub fn functions() -> Vec<Example> {
    [table(), bad_lines(), order()].concat()
}

pub fn function_cases() -> Vec<Function> {
    functions().into_iter().map(|(_, case, _)| case).collect()
}
