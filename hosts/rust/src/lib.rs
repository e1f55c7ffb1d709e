//! A proved pipettor controller, called from Rust.
//!
//! The controller is the library `libhost.a`, written in Rattle and proved there (`crates/host`); this crate lends it memory and
//! reads what it returns. It needs x86-64-v2 and the System V calls. Users write no `unsafe`.
//!
//! A [`Pipettor`] takes the bytes of a serial line and tells the bytes to answer, and takes a tick every 10 ms with what the host
//! senses: whether a tip is on, and the pressure. Where the plunger is to be it says after every tick.
//!
//! ```no_run
//! use pipettor::{Framing, Pipettor, Sense};
//! # fn send(_: &[u8]) {}
//! # fn main() -> Result<(), pipettor::Error> {
//! let mut pipettor = Pipettor::new(Framing::Dt, 1)?;
//! let mut buffer = [0; pipettor::ANSWER];
//! for &b in b"/1WA1000R\r" {
//!     if let Some(answer) = pipettor.byte(b, &mut buffer)? {
//!         send(answer);
//!     }
//! }
//! while !pipettor.ready()? {
//!     pipettor.tick(Sense { tip: false, reading: 0 })?;
//! }
//! assert_eq!(pipettor.plunger()?, 1000);
//! # Ok(())
//! # }
//! ```
//!
//! The controller's memory is 760 bytes, in the [`Pipettor`] itself. No call allocates, blocks, or keeps what is lent to it.
#![cfg_attr(not(feature = "std"), no_std)]
#![deny(missing_docs)]

mod code;
mod image;
mod raw;

pub use code::{Error, Failure};
pub use image::IMAGE;

use code::told;
use image::Image;

/// The shortest buffer that may be lent for an answer. No answer is longer.
pub const ANSWER: usize = 32;

/// The most ticks that may be asked of [`Pipettor::run`].
pub const RUN: u32 = 60_000;

/// How frames look on the line.
#[derive(Clone, Copy, Debug, PartialEq, Eq, Hash)]
pub enum Framing {
    /// `/`, address, data, CR.
    Dt,
    /// 02h, address, sequence, data, 03h, and the exclusive-or of all of it.
    Oem,
}

/// What the host senses at a tick.
#[derive(Clone, Copy, Debug, Default, PartialEq, Eq, Hash)]
pub struct Sense {
    /// Whether a tip is on.
    pub tip: bool,
    /// The pressure, in counts of the sensor. Outside -32767 to 32767 it is too much for B.
    pub reading: i32,
}

/// What ticks tell the host.
#[derive(Clone, Copy, Debug, Default, PartialEq, Eq, Hash)]
pub struct News {
    /// Why a run failed in one of them, if one did. It is the last error then, and the text is erased.
    pub failure: Option<Failure>,
    /// Whether the host is to drop the tip now. In the next tick it must be gone, or the run fails.
    pub eject: bool,
}

/// What a run tells the host.
#[derive(Clone, Copy, Debug, Default, PartialEq, Eq, Hash)]
pub struct Ran {
    /// How many ticks were used until ready: at most as many as were asked for, 0 if it was ready at once.
    pub ticks: u32,
    /// What they tell.
    pub news: News,
}

impl News {
    fn of(value: u64) -> News {
        News { failure: Failure::of((value >> 32 & 15) as u8), eject: value >> 36 & 1 == 1 }
    }
}

/// A controller. It is plain memory: it may be moved, copied and sent to another thread.
///
/// Every call can answer [`Error::Broken`], and none does as long as nothing else writes into this memory: what calls leave is
/// always a controller again. A host that meets it has lost its controller and must make a new one.
#[derive(Clone, Debug, PartialEq, Eq)]
pub struct Pipettor {
    image: Image,
}

impl Pipettor {
    /// A fresh controller: plunger and exact position at 0, not initialised, no tip seen.
    ///
    /// # Errors
    /// [`Error::S2`] where the address is none of 1 to 9.
    pub fn new(framing: Framing, address: u32) -> Result<Pipettor, Error> {
        let framing = match framing {
            Framing::Dt => 0,
            Framing::Oem => 1,
        };
        let mut image = Image::EMPTY;
        told(raw::make(&mut image, framing, address))?;
        Ok(Pipettor { image })
    }

    /// Takes one byte from the line: the bytes to answer, if it completed a frame that is answered. They stand at the front of the
    /// buffer; what is behind them stays as it was.
    ///
    /// # Errors
    /// [`Error::S1`] where the buffer is shorter than [`ANSWER`]; the byte isn't heard then.
    pub fn byte<'a>(&mut self, b: u8, buffer: &'a mut [u8]) -> Result<Option<&'a [u8]>, Error> {
        let n = told(raw::byte(&mut self.image, b, buffer))?;
        Ok(if n == 0 { None } else { buffer.get(..n as usize) })
    }

    /// Takes bytes from the line up to one that completes a frame, and says how many it took. If there are more, the next one goes to
    /// [`byte`](Pipettor::byte), which has the buffer. For whoever receives many bytes at once.
    ///
    /// # Errors
    /// None but [`Error::Broken`].
    pub fn listen(&mut self, bytes: &[u8]) -> Result<usize, Error> {
        told(raw::listen(&mut self.image, bytes)).map(|n| n as usize)
    }

    /// A tick: 10 ms have passed.
    ///
    /// # Errors
    /// None but [`Error::Broken`]. A run that fails is news, not an error.
    pub fn tick(&mut self, sense: Sense) -> Result<News, Error> {
        told(raw::tick(&mut self.image, sense)).map(News::of)
    }

    /// Exactly `n` ticks, ready or not, with one tip and one reading for all of them.
    ///
    /// # Errors
    /// None but [`Error::Broken`].
    pub fn advance(&mut self, n: u32, sense: Sense) -> Result<News, Error> {
        told(raw::advance(&mut self.image, n, sense)).map(News::of)
    }

    /// Ticks until ready, at most `n`, with one tip and one reading for all of them.
    ///
    /// # Errors
    /// [`Error::S3`] where `n` is more than [`RUN`].
    pub fn run(&mut self, n: u32, sense: Sense) -> Result<Ran, Error> {
        told(raw::run(&mut self.image, n, sense)).map(|value| Ran { ticks: value as u32, news: News::of(value) })
    }

    /// The host's stop: does what a T from the line does, without a frame. The last error stays.
    ///
    /// # Errors
    /// None but [`Error::Broken`].
    pub fn stop(&mut self) -> Result<(), Error> {
        told(raw::stop(&mut self.image)).map(|_| ())
    }

    /// Where the plunger is, 0 to 44000 increments: what the drive is to follow.
    ///
    /// # Errors
    /// None but [`Error::Broken`].
    pub fn plunger(&self) -> Result<u32, Error> {
        told(raw::plunger(&self.image)).map(|n| n as u32)
    }

    /// The exact position, in millionths of an increment.
    ///
    /// # Errors
    /// None but [`Error::Broken`].
    pub fn exact(&self) -> Result<u64, Error> {
        told(raw::exact(&self.image))
    }

    /// Whether it is ready: no run is going on.
    ///
    /// # Errors
    /// None but [`Error::Broken`].
    pub fn ready(&self) -> Result<bool, Error> {
        told(raw::ready(&self.image)).map(|n| n == 1)
    }

    /// The last error, as a report's status shows it.
    ///
    /// # Errors
    /// None but [`Error::Broken`].
    pub fn last_error(&self) -> Result<Option<Failure>, Error> {
        told(raw::error(&self.image)).map(|n| Failure::of(n as u8))
    }

    /// Tests all of the memory, where the other calls look only at what they use.
    ///
    /// # Errors
    /// [`Error::Broken`] where it isn't a controller.
    pub fn check(&self) -> Result<(), Error> {
        told(raw::check(&self.image)).map(|_| ())
    }

    /// All of the controller as bytes, to be kept over a restart. The same on every machine.
    pub fn to_image(&self) -> [u8; IMAGE] {
        self.image.to_bytes()
    }

    /// The controller of such bytes. Any bytes may be handed in.
    ///
    /// # Errors
    /// [`Error::Broken`] where they aren't those of a controller.
    pub fn from_image(bytes: &[u8; IMAGE]) -> Result<Pipettor, Error> {
        let pipettor = Pipettor { image: Image::from_bytes(bytes) };
        pipettor.check()?;
        Ok(pipettor)
    }
}
