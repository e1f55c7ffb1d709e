//! The comparison finds controllers that are wrong in one small thing, and meets everything with ones that aren't.
use reference::{compare, Calls, Controller, Refusal, Told};

/// A controller that is wrong in one thing.
struct Wrong<const THING: u32>(Controller);

/// It doesn't see the tip.
const BLIND: u32 = 0;
/// It hears a byte that it refuses for a short buffer.
const EARS: u32 = 1;
/// It writes behind the end of an answer.
const UNTIDY: u32 = 2;
/// A run uses a tick too few.
const HASTY: u32 = 3;
/// It forgets that no liquid was found.
const FORGETFUL: u32 = 4;
/// Listening stops at any CR.
const EARLY: u32 = 5;

impl<const THING: u32> Calls for Wrong<THING> {
    fn make(oem: bool, address: u32) -> Result<Self, Refusal> {
        Controller::make(oem, address).map(Wrong)
    }
    fn byte(&mut self, b: u8, buffer: &mut [u8]) -> Result<usize, Refusal> {
        if THING == EARS && buffer.len() < 32 {
            self.0.byte(b, &mut [0; 32])?;
            return Err(Refusal::S1);
        }
        let n = self.0.byte(b, buffer)?;
        if THING == UNTIDY && n > 0 && n < buffer.len() {
            buffer[n] ^= 1;
        }
        Ok(n)
    }
    fn listen(&mut self, bytes: &[u8]) -> Result<usize, Refusal> {
        let cr = bytes.iter().position(|&b| b == b'\r').filter(|_| THING == EARLY);
        self.0.listen(&bytes[..cr.unwrap_or(bytes.len())])
    }
    fn tick(&mut self, tip: bool, reading: i32) -> Result<Told, Refusal> {
        self.0.tick(tip && THING != BLIND, reading)
    }
    fn advance(&mut self, n: u32, tip: bool, reading: i32) -> Result<Told, Refusal> {
        self.0.advance(n, tip, reading)
    }
    fn run(&mut self, n: u32, tip: bool, reading: i32) -> Result<(u32, Told), Refusal> {
        self.0.run(if THING == HASTY && n == 60_000 { 59_999 } else { n }, tip, reading)
    }
    fn stop(&mut self) -> Result<(), Refusal> {
        self.0.stop()
    }
    fn plunger(&self) -> Result<u32, Refusal> {
        self.0.plunger()
    }
    fn exact(&self) -> Result<u64, Refusal> {
        self.0.exact()
    }
    fn ready(&self) -> Result<bool, Refusal> {
        self.0.ready()
    }
    fn last_error(&self) -> Result<u8, Refusal> {
        self.0.last_error().map(|n| if THING == FORGETFUL && n == 6 { 0 } else { n })
    }
}

fn found<const THING: u32>() -> bool {
    compare::<Wrong<THING>, Controller>(200_000, 1).is_err()
}

#[test]
fn a_wrong_controller_is_found() {
    assert!(found::<BLIND>());
    assert!(found::<EARS>());
    assert!(found::<UNTIDY>());
    assert!(found::<HASTY>());
    assert!(found::<FORGETFUL>());
    assert!(found::<EARLY>());
}

#[test]
fn everything_is_met() {
    let met = compare::<Controller, Controller>(200_000, 1).expect("it is like itself");
    assert!(met.everything(), "{met}");
}
