//! For tests only: the proved library behind the calls that the player and the comparison make.
#![forbid(unsafe_code)]
#![deny(missing_docs)]

use pipettor::{Error, Failure, Framing, News, Pipettor, Sense};
use reference::{Calls, Refusal, Told};

/// The library's controller.
pub struct Proved(Pipettor);

fn refusal(error: Error) -> Refusal {
    match error {
        Error::S1 => Refusal::S1,
        Error::S2 => Refusal::S2,
        Error::S3 => Refusal::S3,
        Error::Broken => Refusal::Broken,
    }
}

fn told(news: News) -> Told {
    Told { failure: news.failure.map_or(0, Failure::number), eject: news.eject }
}

impl Calls for Proved {
    fn make(oem: bool, address: u32) -> Result<Proved, Refusal> {
        let framing = if oem { Framing::Oem } else { Framing::Dt };
        Pipettor::new(framing, address).map(Proved).map_err(refusal)
    }

    fn byte(&mut self, b: u8, buffer: &mut [u8]) -> Result<usize, Refusal> {
        self.0.byte(b, buffer).map(|answer| answer.map_or(0, <[u8]>::len)).map_err(refusal)
    }

    fn listen(&mut self, bytes: &[u8]) -> Result<usize, Refusal> {
        self.0.listen(bytes).map_err(refusal)
    }

    fn tick(&mut self, tip: bool, reading: i32) -> Result<Told, Refusal> {
        self.0.tick(Sense { tip, reading }).map(told).map_err(refusal)
    }

    fn advance(&mut self, n: u32, tip: bool, reading: i32) -> Result<Told, Refusal> {
        self.0.advance(n, Sense { tip, reading }).map(told).map_err(refusal)
    }

    fn run(&mut self, n: u32, tip: bool, reading: i32) -> Result<(u32, Told), Refusal> {
        self.0.run(n, Sense { tip, reading }).map(|ran| (ran.ticks, told(ran.news))).map_err(refusal)
    }

    fn stop(&mut self) -> Result<(), Refusal> {
        self.0.stop().map_err(refusal)
    }

    fn plunger(&self) -> Result<u32, Refusal> {
        self.0.plunger().map_err(refusal)
    }

    fn exact(&self) -> Result<u64, Refusal> {
        self.0.exact().map_err(refusal)
    }

    fn ready(&self) -> Result<bool, Refusal> {
        self.0.ready().map_err(refusal)
    }

    fn last_error(&self) -> Result<u8, Refusal> {
        self.0.last_error().map(|error| error.map_or(0, Failure::number)).map_err(refusal)
    }

    /// All of its memory is a controller's, and the same one when it is written to bytes and read back.
    fn sound(&self) -> bool {
        self.0.check().is_ok() && Pipettor::from_image(&self.0.to_image()).as_ref() == Ok(&self.0)
    }
}
