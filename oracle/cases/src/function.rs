//! docs/MORE-RULES.md, A function file: a room as lines of `setblock`, written and read by the rules a second time. Lines are made of
//! strings and taken apart at their blanks; the proved functions do neither.

use crate::Refusal;
use crate::room::{MOST_CELLS, Place, Room, kind};

/// No line is longer.
pub const LINE_BYTES: usize = 76;

/// A room that is written, and how long the lent text is.
#[derive(Clone, Debug, Eq, PartialEq)]
pub struct Writing {
    pub sides: [u16; 3],
    pub kinds: Vec<u8>,
    pub facings: Vec<u8>,
    pub lent: u32,
}

/// A text that is read, and how long the lent kinds and facings are.
#[derive(Clone, Debug, Eq, PartialEq)]
pub struct Reading {
    pub sides: [u16; 3],
    pub text: Vec<u8>,
    pub kinds: u32,
    pub facings: u32,
}

#[derive(Clone, Debug, Eq, PartialEq)]
pub enum Function {
    Write(Writing),
    Read(Reading),
}

/// The room that a text lays: a kind and a facing for each cell, and how many lines there were.
#[derive(Clone, Debug, Eq, PartialEq)]
pub struct Laid {
    pub kinds: Vec<u8>,
    pub facings: Vec<u8>,
    pub lines: u32,
}

#[derive(Clone, Debug, Eq, PartialEq)]
pub enum FunctionAnswer {
    Text(Vec<u8>),
    Room(Laid),
    Refused(Refusal),
}

impl FunctionAnswer {
    pub fn number(&self) -> u8 {
        match self {
            Self::Text(_) | Self::Room(_) => 0,
            Self::Refused(refusal) => refusal.number,
        }
    }
}

const SIDES: [&str; 7] = ["", "north", "east", "south", "west", "up", "down"];

/// Where a repeater's input is: the side that the game says it faces.
const BEHIND: [&str; 5] = ["", "south", "west", "north", "east"];

/// What the game calls a block; none for a kind that there is none of, and for a facing that its kind can't have.
pub fn state(block: u8, facing: u8) -> Option<String> {
    let side = *SIDES.get(usize::from(facing))?;
    let unfaced = |name: &str| (facing == 0).then(|| name.to_string());
    let input = |name: &str| {
        let behind = BEHIND
            .get(usize::from(facing))
            .filter(|side| !side.is_empty())?;
        Some(format!("{name}[facing={behind}]"))
    };
    let mounted = |name: &str| match facing {
        0 => Some(format!("{name}[face=floor]")),
        1..=4 => Some(format!("{name}[face=wall,facing={side}]")),
        _ => None,
    };
    match (block, facing) {
        (kind::SOLID, _) => unfaced("stone"),
        (kind::TRANSPARENT, _) => unfaced("glass"),
        (kind::REDSTONE_WIRE, _) => unfaced("redstone_wire"),
        (kind::REDSTONE_TORCH, 0) => unfaced("redstone_torch"),
        (kind::REDSTONE_TORCH, 1..=4) => Some(format!("redstone_wall_torch[facing={side}]")),
        (kind::REPEATER, _) => input("repeater"),
        (kind::COMPARATOR, _) => input("comparator"),
        (kind::LEVER, _) => mounted("lever"),
        (kind::BUTTON, _) => mounted("stone_button"),
        (kind::PRESSURE_PLATE, _) => unfaced("stone_pressure_plate"),
        (kind::REDSTONE_LAMP, _) => unfaced("redstone_lamp"),
        (kind::REDSTONE_BLOCK, _) => unfaced("redstone_block"),
        (kind::PISTON, 1..=6) => Some(format!("piston[facing={side}]")),
        _ => None,
    }
}

/// Each block that has a line.
pub fn blocks() -> impl Iterator<Item = (u8, u8)> {
    let all = (1..=kind::LAST).flat_map(|block| (0..=6).map(move |facing| (block, facing)));
    all.filter(|(block, facing)| state(*block, *facing).is_some())
}

fn is_known(block: u8, facing: u8) -> bool {
    (block, facing) == (kind::AIR, 0) || state(block, facing).is_some()
}

fn relative(at: i32) -> String {
    match at {
        0 => "~".to_string(),
        at => format!("~{at}"),
    }
}

/// The line of a block, its newline included.
pub fn line(place: Place, block: u8, facing: u8) -> Option<String> {
    let [x, y, z] = [place.x, place.y, place.z].map(relative);
    let state = state(block, facing)?;
    Some(format!("setblock {x} {y} {z} minecraft:{state} replace\n"))
}

/// The text of a room whose blocks are known.
pub fn text_of(room: &Room, kinds: &[u8], facings: &[u8]) -> Vec<u8> {
    let cells = kinds.iter().zip(facings).enumerate();
    let lines = cells.filter_map(|(cell, (block, facing))| line(room.place(cell), *block, *facing));
    lines.collect::<String>().into_bytes()
}

impl Writing {
    pub fn plain_answer(&self) -> FunctionAnswer {
        let refused = |number| FunctionAnswer::Refused(Refusal::bare(number));
        let Some(room) = Room::new(self.sides, MOST_CELLS) else {
            return refused(2);
        };
        if [self.kinds.len(), self.facings.len()] != [room.cells(); 2] {
            return refused(6);
        }
        let mut blocks = self.kinds.iter().zip(&self.facings);
        if !blocks.all(|(block, facing)| is_known(*block, *facing)) {
            return refused(5);
        }
        let text = text_of(&room, &self.kinds, &self.facings);
        if text.len() > self.lent as usize {
            return refused(18);
        }
        FunctionAnswer::Text(text)
    }
}

impl Reading {
    pub fn plain_answer(&self) -> FunctionAnswer {
        let refused = |number, detail| FunctionAnswer::Refused(Refusal::new(number, detail));
        let Some(room) = Room::new(self.sides, MOST_CELLS) else {
            return refused(2, 0);
        };
        if (self.kinds.min(self.facings) as usize) < room.cells() {
            return refused(6, 0);
        }
        match laid(&room, &self.text) {
            Ok(laid) => FunctionAnswer::Room(laid),
            Err(bad) => refused(19, bad),
        }
    }
}

impl Function {
    pub fn sides(&self) -> [u16; 3] {
        match self {
            Self::Write(case) => case.sides,
            Self::Read(case) => case.sides,
        }
    }

    pub fn plain_answer(&self) -> FunctionAnswer {
        match self {
            Self::Write(case) => case.plain_answer(),
            Self::Read(case) => case.plain_answer(),
        }
    }
}

/// The room that a text lays, or the number of its first bad line, from 1.
pub fn laid(room: &Room, text: &[u8]) -> Result<Laid, u32> {
    let mut laid = Laid {
        kinds: vec![kind::AIR; room.cells()],
        facings: vec![0; room.cells()],
        lines: 0,
    };
    let mut free = 0;
    for line in text.split_inclusive(|byte| *byte == b'\n') {
        let good = block_of(room, line).filter(|(cell, _, _)| *cell >= free);
        let (cell, block, facing) = good.ok_or(laid.lines + 1)?;
        laid.kinds[cell] = block;
        laid.facings[cell] = facing;
        laid.lines += 1;
        free = cell + 1;
    }
    Ok(laid)
}

/// The block of a line and its cell, by the words between its blanks.
fn block_of(room: &Room, line: &[u8]) -> Option<(usize, u8, u8)> {
    let line = std::str::from_utf8(line.strip_suffix(b"\n")?).ok()?;
    let words: Vec<&str> = line.split(' ').collect();
    let ["setblock", x, y, z, name, "replace"] = words[..] else {
        return None;
    };
    let place = Place::new(coordinate(x)?, coordinate(y)?, coordinate(z)?);
    let name = name.strip_prefix("minecraft:")?;
    let (block, facing) =
        blocks().find(|(block, facing)| state(*block, *facing).as_deref() == Some(name))?;
    Some((room.cell(place)?, block, facing))
}

/// A number behind its `~`: none for 0, and no zero in front.
fn coordinate(word: &str) -> Option<i32> {
    let digits = word.strip_prefix('~')?;
    let all_digits = digits.bytes().all(|byte| byte.is_ascii_digit());
    if digits.is_empty() {
        return Some(0);
    }
    (all_digits && !digits.starts_with('0') && digits.len() <= 4).then(|| digits.parse().ok())?
}
