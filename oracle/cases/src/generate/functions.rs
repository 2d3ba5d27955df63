//! Random function files: rooms of all kinds that can be written, texts that are read, and both damaged.

use super::{Profile, random_room};
use crate::function::{Function, Reading, Writing, blocks, line, text_of};
use crate::rng::Rng;
use crate::room::{Room, kind};

/// One in two is written, the others are read; one in five is one that 2, 5 or 6 refuse, mostly.
pub fn random_function(rng: &mut Rng, profile: Profile) -> Function {
    let room = random_room(rng, profile, [60, 34, 5, 1]);
    let (kinds, facings) = random_blocks(rng, &room);
    let damaged = rng.percent(20);
    if rng.percent(50) {
        let mut case = writing(rng, &room, kinds, facings);
        if damaged {
            damage_writing(rng, &mut case);
        }
        return Function::Write(case);
    }
    let mut case = reading(rng, &room, text_of(&room, &kinds, &facings));
    if damaged {
        damage_reading(rng, &room, &mut case);
    }
    Function::Read(case)
}

fn sides_of(room: &Room) -> [u16; 3] {
    room.sides().map(|side| side as u16)
}

/// Known blocks, Air among them as often as it may be.
fn random_blocks(rng: &mut Rng, room: &Room) -> (Vec<u8>, Vec<u8>) {
    let all: Vec<(u8, u8)> = blocks().collect();
    let air = rng.pick(&[0, 30, 60, 90, 100]);
    let block = |_| {
        if rng.percent(air) {
            (kind::AIR, 0)
        } else {
            rng.pick(&all)
        }
    };
    (0..room.cells()).map(block).unzip()
}

fn writing(rng: &mut Rng, room: &Room, kinds: Vec<u8>, facings: Vec<u8>) -> Writing {
    let length = text_of(room, &kinds, &facings).len();
    let lent = match rng.below(10) {
        0..4 => length,
        4..6 => length + rng.below(200),
        6 => length + 1,
        7 => length.saturating_sub(1),
        8 => rng.below(length + 1),
        _ => 0,
    };
    Writing {
        sides: sides_of(room),
        kinds,
        facings,
        lent: lent as u32,
    }
}

/// One fault, and now and then a second one.
fn damage_writing(rng: &mut Rng, case: &mut Writing) {
    for _ in 0..rng.pick(&[1, 1, 1, 2]) {
        match rng.below(8) {
            0 => damage_sides(rng, &mut case.sides),
            1 => case.kinds.truncate(case.kinds.len().saturating_sub(1)),
            2 => case.facings.push(0),
            3 => case.facings.truncate(rng.below(case.facings.len() + 1)),
            4 => put_one(rng, &mut case.kinds, |rng| rng.between(13, 255) as u8),
            5 => put_one(rng, &mut case.facings, |rng| rng.between(7, 255) as u8),
            // a kind or a facing of another block: refused, or not
            6 => put_one(rng, &mut case.facings, |rng| rng.below(7) as u8),
            _ => put_one(rng, &mut case.kinds, |rng| rng.below(13) as u8),
        }
    }
}

fn put_one(rng: &mut Rng, bytes: &mut [u8], byte: impl Fn(&mut Rng) -> u8) {
    if !bytes.is_empty() {
        let at = rng.below(bytes.len());
        bytes[at] = byte(rng);
    }
}

fn damage_sides(rng: &mut Rng, sides: &mut [u16; 3]) {
    let axis = rng.below(3);
    sides[axis] = rng.pick(&[0, 65, 200, 255]);
    if rng.percent(30) {
        *sides = rng.pick(&[[64, 64, 5], [41, 40, 40], [255, 129, 2]]);
    }
}

/// The text, mostly damaged.
fn reading(rng: &mut Rng, room: &Room, text: Vec<u8>) -> Reading {
    let text = if rng.percent(80) {
        damaged(rng, room, text)
    } else {
        text
    };
    let cells = room.cells() as u32;
    Reading {
        sides: sides_of(room),
        text,
        kinds: cells + rng.pick(&[0, 0, 1, 50]),
        facings: cells + rng.pick(&[0, 0, 1, 50]),
    }
}

fn damage_reading(rng: &mut Rng, room: &Room, case: &mut Reading) {
    let cells = room.cells() as u32;
    match rng.below(4) {
        0 => damage_sides(rng, &mut case.sides),
        1 => case.kinds = rng.pick(&[0, cells - 1]),
        2 => case.facings = rng.pick(&[0, cells - 1]),
        // another room: lines may stand outside it, or at another cell
        _ => case.sides.rotate_left(1),
    }
}

/// Lines that are none, or are none of this room.
const LINES: [&str; 14] = [
    "\n",
    "# wire\n",
    "setblock ~ ~ ~ minecraft:air replace\n",
    "/setblock ~ ~ ~ minecraft:stone replace\n",
    "setblock ~ ~ ~ minecraft:stone replace\r\n",
    "setblock ~ ~ ~ minecraft:stone\n",
    "setblock ~0 ~ ~ minecraft:stone replace\n",
    "setblock ~64 ~ ~ minecraft:stone replace\n",
    "setblock ~ ~ ~999 minecraft:stone replace\n",
    "setblock ~ ~ ~1000 minecraft:stone replace\n",
    "setblock ~ ~ ~ minecraft:repeater[facing=up] replace\n",
    "setblock ~ ~ ~ minecraft:redstone_wall_torch replace\n",
    "setblock ~ ~ ~ minecraft:lever[face=ceiling] replace\n",
    "setblock ~ ~ ~ minecraft:piston replace\n",
];

/// What stands in for one part of the text, where it is found.
const CHANGES: [(&str, &str); 14] = [
    ("~", "~0"),
    ("~1", "~01"),
    ("~", ""),
    (" ", "  "),
    (" replace", ""),
    ("\n", "\r\n"),
    ("\n", " \n"),
    ("minecraft:", ""),
    ("facing=north", "facing=up"),
    ("facing=east", "facing=none"),
    ("face=wall", "face=floor"),
    ("[face=floor]", ""),
    ("stone", "stone_button"),
    ("setblock", "SETBLOCK"),
];

/// One or two faults. Some leave a text that is good again, as when a line goes.
fn damaged(rng: &mut Rng, room: &Room, mut text: Vec<u8>) -> Vec<u8> {
    for _ in 0..rng.pick(&[1, 1, 2]) {
        text = match rng.below(12) {
            0..3 => with_bytes(rng, text),
            3..6 => with_lines(rng, text),
            6..9 => with_change(rng, text),
            9 => with_block(rng, room, text),
            10 => cut(rng, text),
            _ => [text, rng.pick(&LINES).as_bytes().to_vec()].concat(),
        };
    }
    text
}

fn with_bytes(rng: &mut Rng, mut text: Vec<u8>) -> Vec<u8> {
    let at = rng.below(text.len() + 1);
    let any = rng.below(256) as u8;
    let byte = rng.pick(&[0, b'\n', b' ', b'~', b'0', b'1', b'a', b'[', 255, any]);
    match rng.below(3) {
        0 => text.insert(at, byte),
        1 if at < text.len() => text[at] = byte,
        _ if at < text.len() => {
            text.remove(at);
        }
        _ => text.push(byte),
    }
    text
}

/// Lines that change places, come twice, go, or are none.
fn with_lines(rng: &mut Rng, text: Vec<u8>) -> Vec<u8> {
    let mut lines: Vec<&[u8]> = text.split_inclusive(|byte| *byte == b'\n').collect();
    if lines.is_empty() {
        return rng.pick(&LINES).as_bytes().to_vec();
    }
    let (one, other) = (rng.below(lines.len()), rng.below(lines.len()));
    match rng.below(4) {
        0 => lines.swap(one, other),
        1 => lines.insert(one, lines[other]),
        2 => {
            lines.remove(one);
        }
        _ => lines.insert(one, rng.pick(&LINES).as_bytes()),
    }
    lines.concat()
}

fn with_change(rng: &mut Rng, text: Vec<u8>) -> Vec<u8> {
    let (old, new) = rng.pick(&CHANGES);
    let places: Vec<usize> = text
        .windows(old.len())
        .enumerate()
        .filter(|(_, part)| *part == old.as_bytes())
        .map(|(at, _)| at)
        .collect();
    if places.is_empty() {
        return text;
    }
    let at = rng.pick(&places);
    [&text[..at], new.as_bytes(), &text[at + old.len()..]].concat()
}

/// A block's line somewhere between the lines: good where the cell is free and the order kept.
fn with_block(rng: &mut Rng, room: &Room, text: Vec<u8>) -> Vec<u8> {
    let all: Vec<(u8, u8)> = blocks().collect();
    let (block, facing) = rng.pick(&all);
    let cell = rng.below(room.cells());
    let new = line(room.place(cell), block, facing).expect("a known block");
    let mut lines: Vec<&[u8]> = text.split_inclusive(|byte| *byte == b'\n').collect();
    lines.insert(rng.below(lines.len() + 1), new.as_bytes());
    lines.concat()
}

fn cut(rng: &mut Rng, mut text: Vec<u8>) -> Vec<u8> {
    let length = text.len();
    text.truncate(if rng.percent(50) {
        length.saturating_sub(1)
    } else {
        rng.below(length + 1)
    });
    text
}
