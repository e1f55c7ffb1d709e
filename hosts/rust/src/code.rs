//! The numbers that come back.
use core::fmt;

/// Why a call was refused. Nothing has changed then.
#[derive(Clone, Copy, Debug, PartialEq, Eq, Hash)]
pub enum Error {
    /// The buffer lent for the answer is shorter than 32 bytes.
    S1,
    /// The address is none of 1 to 9.
    S2,
    /// A run of more than 60000 ticks was asked for.
    S3,
    /// The memory holds no controller.
    Broken,
}

impl fmt::Display for Error {
    fn fmt(&self, f: &mut fmt::Formatter<'_>) -> fmt::Result {
        f.write_str(match self {
            Error::S1 => "S1: the buffer for the answer is shorter than 32 bytes",
            Error::S2 => "S2: the address is none of 1 to 9",
            Error::S3 => "S3: a run of more than 60000 ticks",
            Error::Broken => "the memory holds no controller",
        })
    }
}

#[cfg(feature = "std")]
impl std::error::Error for Error {}

/// Why a frame was refused or a run failed: the last error.
#[derive(Clone, Copy, Debug, PartialEq, Eq, Hash)]
pub enum Failure {
    /// 2: this letter is not allowed here.
    Letter,
    /// 3: a number, a report or the loops are wrong; in a run, a move that can't be made.
    Number,
    /// 5: the reading was outside -32767 to 32767 while B was in progress.
    Pressure,
    /// 6: B went its whole way and found no liquid.
    NoLiquid,
    /// 7: a move, B or E1 before W has initialised the plunger.
    Uninitialised,
    /// 8: the tip was still there in the tick after E.
    TipStays,
    /// 10: E or E0, and there was no tip.
    NoTip,
    /// 14: there is nothing to run.
    NothingToRun,
    /// 15: too long, or busy.
    FullOrBusy,
    /// 1, 4, 9, 11, 12 or 13: no call gives these, but an image from elsewhere may hold one as its last error.
    Other(u8),
}

impl Failure {
    /// Its number, 1 to 15: the low four bits of an answer's status byte.
    pub fn number(self) -> u8 {
        match self {
            Failure::Letter => 2,
            Failure::Number => 3,
            Failure::Pressure => 5,
            Failure::NoLiquid => 6,
            Failure::Uninitialised => 7,
            Failure::TipStays => 8,
            Failure::NoTip => 10,
            Failure::NothingToRun => 14,
            Failure::FullOrBusy => 15,
            Failure::Other(n) => n,
        }
    }

    /// The failure of a number; 0 is none.
    pub(crate) fn of(number: u8) -> Option<Failure> {
        Some(match number {
            0 => return None,
            2 => Failure::Letter,
            3 => Failure::Number,
            5 => Failure::Pressure,
            6 => Failure::NoLiquid,
            7 => Failure::Uninitialised,
            8 => Failure::TipStays,
            10 => Failure::NoTip,
            14 => Failure::NothingToRun,
            15 => Failure::FullOrBusy,
            n => Failure::Other(n),
        })
    }
}

impl fmt::Display for Failure {
    fn fmt(&self, f: &mut fmt::Formatter<'_>) -> fmt::Result {
        let why = match self {
            Failure::Letter => "this letter is not allowed here",
            Failure::Number => "a number, a report, the loops or a move is wrong",
            Failure::Pressure => "too much pressure",
            Failure::NoLiquid => "no liquid found",
            Failure::Uninitialised => "not initialised",
            Failure::TipStays => "the tip is still there",
            Failure::NoTip => "there is no tip",
            Failure::NothingToRun => "there is nothing to run",
            Failure::FullOrBusy => "too long, or busy",
            Failure::Other(_) => "a number that isn't used",
        };
        write!(f, "{}: {}", self.number(), why)
    }
}

/// What the library returned: below 2^63 a value, from there on a refusal.
pub(crate) fn told(code: u64) -> Result<u64, Error> {
    const TOP: u64 = 1 << 63;
    match code.checked_sub(TOP) {
        None => Ok(code),
        Some(1) => Err(Error::S1),
        Some(2) => Err(Error::S2),
        Some(3) => Err(Error::S3),
        Some(_) => Err(Error::Broken),
    }
}
