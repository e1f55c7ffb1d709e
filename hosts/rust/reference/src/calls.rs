//! What a host can ask of a controller: the proved one and the second one answer the same calls.

/// Why a call was refused.
#[derive(Clone, Copy, Debug, PartialEq, Eq)]
pub enum Refusal {
    /// The answer buffer is shorter than 32 bytes.
    S1,
    /// The address is none of 1 to 9.
    S2,
    /// A run of more than 60000 ticks.
    S3,
    /// The memory holds no controller.
    Broken,
}

/// What ticks tell.
#[derive(Clone, Copy, Debug, Default, PartialEq, Eq)]
pub struct Told {
    /// The number with which a run failed, 0 where none did.
    pub failure: u8,
    /// Whether a tick asked the host to drop the tip.
    pub eject: bool,
}

/// A controller as a host sees it.
pub trait Calls: Sized {
    /// A fresh one, of an address.
    fn make(oem: bool, address: u32) -> Result<Self, Refusal>;
    /// A byte from the line: how many bytes are answered, 0 for none.
    fn byte(&mut self, b: u8, buffer: &mut [u8]) -> Result<usize, Refusal>;
    /// Bytes up to one that completes a frame: how many were taken.
    fn listen(&mut self, bytes: &[u8]) -> Result<usize, Refusal>;
    /// A tick, with a tip and a reading.
    fn tick(&mut self, tip: bool, reading: i32) -> Result<Told, Refusal>;
    /// Exactly n ticks.
    fn advance(&mut self, n: u32, tip: bool, reading: i32) -> Result<Told, Refusal>;
    /// Up to n ticks, until ready: how many were used.
    fn run(&mut self, n: u32, tip: bool, reading: i32) -> Result<(u32, Told), Refusal>;
    /// The host's stop.
    fn stop(&mut self) -> Result<(), Refusal>;
    /// The plunger, in increments.
    fn plunger(&self) -> Result<u32, Refusal>;
    /// The exact position, in millionths of an increment.
    fn exact(&self) -> Result<u64, Refusal>;
    /// Whether it is ready.
    fn ready(&self) -> Result<bool, Refusal>;
    /// The number of the last error, 0 for none.
    fn last_error(&self) -> Result<u8, Refusal>;
    /// Whether its memory is a controller's. True where nothing could tell.
    fn sound(&self) -> bool {
        true
    }
}
