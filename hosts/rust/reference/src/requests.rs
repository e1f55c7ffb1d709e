//! What the data of a frame asks for.
use crate::commands::{read, Command, Wrong};

pub enum Request {
    /// Q, ? or f with its number, 0 where none stands there; None where it isn't so written.
    Report(u8, Option<u32>),
    Run,
    Stop,
    Repeat,
    Clear,
    Reset,
    /// Commands, how many characters they have, and whether a final R stood behind them.
    String {
        commands: Vec<Command>,
        length: usize,
        runs: bool,
    },
}

/// "nothing (read as 0) or a whole number of 1 to 6 digits"
fn report_number(text: &[u8]) -> Option<u32> {
    if text.len() > 6 || !text.iter().all(u8::is_ascii_digit) {
        return None;
    }
    Some(text.iter().fold(0, |n, d| 10 * n + u32::from(d - b'0')))
}

/// The data without its spaces.
pub fn request(data: &[u8]) -> Result<Request, Wrong> {
    Ok(match data {
        b"" => Request::Report(b'Q', Some(0)),
        [letter @ (b'Q' | b'?'), number @ ..] => Request::Report(*letter, report_number(number)),
        [b'f', rest @ ..] => Request::Report(b'f', rest.is_empty().then_some(0)),
        b"R" => Request::Run,
        b"T" => Request::Stop,
        b"X" => Request::Repeat,
        b"C" => Request::Clear,
        b"!R" => Request::Reset,
        [string @ .., b'R'] => Request::String { commands: read(string)?, length: string.len(), runs: true },
        string => Request::String { commands: read(string)?, length: string.len(), runs: false },
    })
}
