//! Commands, and how a string of them is read.
use crate::operands::{decimal, operands, whole, Operand};
use crate::settings::SEARCH;

#[derive(Clone, Copy)]
pub enum Volume {
    Increments(u32),
    Nanolitres(u32),
}

#[derive(Clone, Copy)]
pub enum Kind {
    To,
    Aspirate,
    Dispense,
}

#[derive(Clone, Copy)]
pub enum Command {
    Initialise { increments_a_second: u32 },
    Move(Kind, Volume),
    Top { tenths: u32 },
    Start { tenths: u32 },
    Cutoff { tenths: u32 },
    Slopes([u32; 2]),
    Backlash(u32),
    Rate(u32),
    Delay { milliseconds: u32 },
    Open,
    Close { passes: u32 },
    Eject { without_asking: bool },
    Find { from_here: bool },
    Search { which: usize, value: u32 },
}

/// Why a string isn't read: the number, and the column counted from 1.
#[derive(Clone, Copy)]
pub struct Wrong {
    pub number: u8,
    pub column: u32,
}

fn volume(text: &[u8]) -> Option<Volume> {
    let [first, unit] = operands(text)?;
    match whole(unit, 0..=1, 0)? {
        0 => whole(first, 0..=44_000, 0).map(Volume::Increments),
        _ => decimal(first, 3, 0..=1_100_000).map(|n| Volume::Nanolitres(n.unwrap_or(0))),
    }
}

/// A speed in tenths of an increment a second. `most` is in increments, `most_ul` in microlitres.
fn speed(text: &[u8], most: u32, most_ul: u32, default: u32) -> Option<u32> {
    let [first, unit] = operands(text)?;
    match whole(unit, 0..=1, 0)? {
        0 => decimal(first, 1, 100_000..=1000 * most).map(|n| n.map_or(default, |n| n / 100)),
        _ => decimal(first, 3, 2_500..=1000 * most_ul).map(|n| n.map_or(default, tenths_of_nanolitres)),
    }
}

/// "n nL/s is 2n/5 tenths, rounded to nearest"
fn tenths_of_nanolitres(n: u32) -> u32 {
    (2 * n + 2) / 5
}

fn single(text: &[u8], range: std::ops::RangeInclusive<u32>, default: u32) -> Option<u32> {
    let [only] = operands(text)?;
    whole(only, range, default)
}

fn slopes(text: &[u8]) -> Option<Command> {
    let [first, second] = operands(text)?;
    Some(Command::Slopes([whole(first, 1..=80, 20)?, whole(second, 1..=80, 20)?]))
}

fn rate(text: &[u8]) -> Option<Command> {
    let [first, down] = operands(text)?;
    let b = whole(first, 0..=350, 0)?;
    Some(Command::Rate(if whole(down, 0..=1, 0)? == 1 { 40_000 - b } else { 40_000 + b }))
}

fn search(text: &[u8]) -> Option<Command> {
    let [which, value] = operands(text)?;
    let which: Operand = Some(which?);
    let which = whole(which, 0..=6, 0)? as usize;
    let (least, most, default) = SEARCH[which];
    Some(Command::Search { which, value: whole(value, least..=most, default)? })
}

/// A command by its letter and operand text: None where the letter is none, Some(None) where the operands are wrong.
fn command(letter: u8, text: &[u8]) -> Option<Option<Command>> {
    Some(match letter {
        b'W' => single(text, 100..=20_000, 6_000).map(|n| Command::Initialise { increments_a_second: n }),
        b'A' => volume(text).map(|v| Command::Move(Kind::To, v)),
        b'P' => volume(text).map(|v| Command::Move(Kind::Aspirate, v)),
        b'D' => volume(text).map(|v| Command::Move(Kind::Dispense, v)),
        b'V' => speed(text, 80_000, 2_000, 80_000).map(|tenths| Command::Top { tenths }),
        b'c' => speed(text, 80_000, 2_000, 80_000).map(|tenths| Command::Cutoff { tenths }),
        b'v' => speed(text, 12_000, 300, 10_000).map(|tenths| Command::Start { tenths }),
        b'L' => slopes(text),
        b'K' => single(text, 0..=500, 0).map(Command::Backlash),
        b'b' => rate(text),
        b'M' => single(text, 1..=30_000, 10).map(|n| Command::Delay { milliseconds: n }),
        b'g' => text.is_empty().then_some(Command::Open),
        b'G' => single(text, 0..=50_000, 0).map(|n| Command::Close { passes: n }),
        b'E' => single(text, 0..=1, 0).map(|n| Command::Eject { without_asking: n == 1 }),
        b'B' => single(text, 0..=1, 0).map(|n| Command::Find { from_here: n == 1 }),
        b'p' => search(text),
        _ => return None,
    })
}

fn in_operand(b: u8) -> bool {
    b.is_ascii_digit() || b == b'.' || b == b','
}

/// The commands of a string without its final R; the first wrong place decides.
pub fn read(string: &[u8]) -> Result<Vec<Command>, Wrong> {
    let mut commands = Vec::new();
    let mut at = 0;
    while at < string.len() {
        let begin = at + 1;
        let end = (begin..string.len()).find(|&i| !in_operand(string[i])).unwrap_or(string.len());
        match command(string[at], &string[begin..end]) {
            None => return Err(Wrong { number: 2, column: at as u32 + 1 }),
            Some(None) => return Err(Wrong { number: 3, column: begin as u32 + 1 }),
            Some(Some(command)) => commands.push(command),
        }
        at = end;
    }
    Ok(commands)
}

/// Whether loops are right: each G closes an open g, none is left open, and at most four lie round a place.
pub fn loops_right<'a>(commands: impl Iterator<Item = &'a Command>) -> bool {
    let mut depth = 0;
    for command in commands {
        match command {
            Command::Open if depth == 4 => return false,
            Command::Open => depth += 1,
            Command::Close { .. } if depth == 0 => return false,
            Command::Close { .. } => depth -= 1,
            _ => {}
        }
    }
    depth == 0
}
