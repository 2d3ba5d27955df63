//! Function files: the wrapper's calls, refusals, what a repeater faces, and the stored answers, of which each byte counts.

use cases::answers::FUNCTIONS;
use cases::files;
use cases::function::{Function, FunctionAnswer};
use checks::{ask_function, function_due, function_memory};
use dustroute::lent::{FUNCTION_VALUES, LINE_BYTES, ReadMemory, WriteMemory};
use dustroute::{Facing, Kind, LaidRoom, Refusal, Room, read_function, write_function};

const ROW: Room = Room { wide: 3, high: 1, deep: 1 };

const WIRES: &[u8] = b"setblock ~ ~ ~ minecraft:redstone_wire replace\nsetblock ~2 ~ ~ minecraft:redstone_wire replace\n";

#[test]
fn a_row_out_and_back() {
    let kinds = [Kind::RedstoneWire, Kind::Air, Kind::RedstoneWire];
    assert_eq!(write_function(ROW, &kinds, &[Facing::None; 3]).as_deref(), Ok(WIRES));
    let laid = LaidRoom {
        kinds: vec![3, 0, 3],
        facings: vec![0; 3],
        lines: 2,
    };
    assert_eq!(read_function(ROW, WIRES), Ok(laid));
    assert_eq!(write_function(ROW, &[0_u8; 3], &[0_u8; 3]).as_deref(), Ok(&b""[..]));
}

/// A signal runs from cell 0 over the repeater in cell 1 to cell 2, to the east: in the game it faces west.
#[test]
fn a_repeater_faces_its_input() {
    let kinds = [Kind::RedstoneWire, Kind::Repeater, Kind::RedstoneWire];
    let facings = [Facing::None, Facing::East, Facing::None];
    let text = String::from_utf8(write_function(ROW, &kinds, &facings).unwrap()).unwrap();
    assert_eq!(text.lines().nth(1), Some("setblock ~1 ~ ~ minecraft:repeater[facing=west] replace"));
}

#[test]
fn refusals() {
    let high = Room { high: 301, ..ROW };
    assert_eq!(write_function(high, &[0_u8; 3], &[0_u8; 3]), Err(Refusal::Sides));
    assert_eq!(read_function(high, WIRES), Err(Refusal::Sides));
    assert_eq!(write_function(ROW, &[0_u8; 2], &[0_u8; 3]), Err(Refusal::Buffer));
    // a standing torch has no facing
    let torch = [Kind::RedstoneTorch, Kind::Air, Kind::Air];
    let up = [Facing::Up, Facing::None, Facing::None];
    assert_eq!(write_function(ROW, &torch, &up), Err(Refusal::Code));
    assert!(write_function(ROW, &torch, &[Facing::None; 3]).is_ok());
    let bad = read_function(ROW, &WIRES[..WIRES.len() - 1]).unwrap_err();
    assert_eq!(bad, Refusal::BadLine { line: 2 });
    assert_eq!((bad.number(), bad.detail(), bad.line().as_str()), (19, 2, "refused 19 2"));
    let short = WriteMemory::new(WIRES.len() - 1).write(ROW, &[3_u8, 0, 3], &[0_u8; 3]);
    assert_eq!(short, Err(Refusal::TextShort));
    assert_eq!((Refusal::TextShort.number(), Refusal::TextShort.detail()), (18, 0));
    assert!(bad.to_string().contains("line 2") && Refusal::TextShort.to_string().contains("longer"));
    assert_eq!(ReadMemory::new(2).read(ROW, WIRES), Err(Refusal::Buffer));
}

#[test]
fn so_many_bytes_a_line_suffice() {
    let kinds = vec![Kind::Button; 64];
    let facings = vec![Facing::North; 64];
    let room = Room { wide: 64, ..ROW };
    let text = write_function(room, &kinds, &facings).unwrap();
    assert!(text.len() <= LINE_BYTES * 64 && text.ends_with(b"replace\n"));
}

/// Whether a case is answered so, over memory that is `longer`: the number, and every byte of it.
fn is_answered_so(case: &Function, answer: &FunctionAnswer, longer: usize) -> bool {
    let before = function_memory(case, longer, FUNCTION_VALUES + longer, 0xA5);
    let mut after = before.clone();
    let number = ask_function(case, &mut after);
    number == u32::from(answer.number()) && after == function_due(&before, answer)
}

#[test]
fn the_stored_answers() {
    let stored = files::read::<Function>(&FUNCTIONS.bytes()).unwrap();
    assert!(stored.len() > 300);
    for (index, (case, answer)) in stored.iter().enumerate() {
        let answer = answer.as_ref().unwrap();
        // longer memory may do where just this was too short
        let longer = if matches!(answer.number(), 6 | 18) { 0 } else { 9 };
        assert!(is_answered_so(case, answer, 0), "case {index}");
        assert!(is_answered_so(case, answer, longer), "case {index}");
    }
}

/// The test can fail: another answer is told apart.
#[test]
fn another_answer_is_told_apart() {
    let stored = files::read::<Function>(&FUNCTIONS.bytes()).unwrap();
    let mut seen = 0;
    for (case, answer) in stored {
        let changed = match answer.unwrap() {
            FunctionAnswer::Text(mut text) if !text.is_empty() => {
                *text.last_mut().unwrap() ^= 1;
                FunctionAnswer::Text(text)
            }
            FunctionAnswer::Room(mut laid) => {
                laid.facings[0] ^= 1;
                FunctionAnswer::Room(laid)
            }
            _ => continue,
        };
        assert!(!is_answered_so(&case, &changed, 0));
        seen += 1;
    }
    assert!(seen > 100);
}
