//! Two controllers, the same random calls, every answer and everything that a host can ask after each call.
use crate::calls::{Calls, Refusal, Told};
use crate::frames;
use crate::random::Random;
use std::fmt;

/// Where two controllers differ: the call and what each said.
#[derive(Debug)]
pub struct Difference(pub String);

/// How often what was met.
#[derive(Clone, Debug, Default)]
pub struct Met {
    /// Calls in all, bytes among them.
    pub calls: u64,
    controllers: u64,
    bytes: u64,
    listened: u64,
    ticks: u64,
    advances: u64,
    runs: u64,
    stops: u64,
    silent_frames: u64,
    answers: [u64; 16],
    busy: u64,
    failures: [u64; 16],
    ejects: u64,
    refusals: [u64; 3],
    lengths: Vec<usize>,
}

fn numbered(counts: &[u64; 16]) -> String {
    let met: Vec<String> = counts.iter().enumerate().filter(|(_, &n)| n > 0).map(|(number, n)| format!("{number}: {n}")).collect();
    met.join(", ")
}

impl fmt::Display for Met {
    fn fmt(&self, f: &mut fmt::Formatter<'_>) -> fmt::Result {
        writeln!(f, "{} calls on {} controllers", self.calls, self.controllers)?;
        writeln!(
            f,
            "  {} bytes, {} listens, {} ticks, {} advances, {} runs, {} stops",
            self.bytes, self.listened, self.ticks, self.advances, self.runs, self.stops
        )?;
        writeln!(
            f,
            "  answers by number  {} ({} of them busy); frames without an answer {}",
            numbered(&self.answers),
            self.busy,
            self.silent_frames
        )?;
        writeln!(f, "  failed runs by number  {}; ejects {}", numbered(&self.failures), self.ejects)?;
        let [s1, s2, s3] = self.refusals;
        write!(f, "  S1 {s1}, S2 {s2}, S3 {s3}; buffers of {} lengths", self.lengths.len())
    }
}

impl Met {
    /// Whether every number that 01 knows came up, in an answer or in a run, and every refusal and length of buffer.
    pub fn everything(&self) -> bool {
        let answered = [0, 2, 3, 5, 6, 7, 8, 10, 14, 15].iter().all(|&n| self.answers[n] > 0);
        let failed = [3, 5, 6, 7, 8, 10].iter().all(|&n| self.failures[n] > 0);
        answered && failed && self.busy > 0 && self.ejects > 0 && self.refusals.iter().all(|&n| n > 0) && self.lengths.len() == 65
    }

    fn refused(&mut self, refusal: Refusal) {
        match refusal {
            Refusal::S1 => self.refusals[0] += 1,
            Refusal::S2 => self.refusals[1] += 1,
            Refusal::S3 => self.refusals[2] += 1,
            Refusal::Broken => {}
        }
    }

    fn told(&mut self, told: Told) {
        if told.failure > 0 {
            self.failures[usize::from(told.failure & 15)] += 1;
        }
        self.ejects += u64::from(told.eject);
    }

    fn answered(&mut self, status: u8) {
        self.answers[usize::from(status & 15)] += 1;
        self.busy += u64::from(status & 0x20 == 0);
    }
}

/// Plunger, exact position, ready, last error, and whether the memory is a controller's.
type Seen = (Result<u32, Refusal>, Result<u64, Refusal>, Result<bool, Refusal>, Result<u8, Refusal>, bool);

fn seen(c: &impl Calls) -> Seen {
    (c.plunger(), c.exact(), c.ready(), c.last_error(), c.sound())
}

/// What the host of both has in hand.
struct Pair<'a, A, B> {
    one: A,
    other: B,
    oem: bool,
    address: u8,
    tip: bool,
    reading: i32,
    /// A run has failed, and nobody has asked why.
    failed: bool,
    random: &'a mut Random,
    met: &'a mut Met,
}

fn same<T: PartialEq + fmt::Debug>(call: impl Fn() -> String, one: T, other: T) -> Result<T, Difference> {
    if one == other {
        Ok(one)
    } else {
        Err(Difference(format!("{}: {one:?} and {other:?}", call())))
    }
}

impl<A: Calls, B: Calls> Pair<'_, A, B> {
    /// What a host can ask is the same in both.
    fn alike(&mut self, call: impl Fn() -> String) -> Result<(), Difference> {
        self.met.calls += 1;
        same(|| call() + ", then", seen(&self.one), seen(&self.other)).map(|_| ())
    }

    /// A byte, with a buffer of a length and of random contents.
    fn byte(&mut self, b: u8, length: usize) -> Result<Result<usize, Refusal>, Difference> {
        let mut lent: Vec<u8> = (0..length).map(|_| self.random.any() as u8).collect();
        let mut copy = lent.clone();
        let call = || format!("byte {b:02X} with {length}");
        let said = same(call, self.one.byte(b, &mut lent), self.other.byte(b, &mut copy))?;
        same(|| call() + ", buffer", &lent, &copy)?;
        self.met.bytes += 1;
        if !self.met.lengths.contains(&length) {
            self.met.lengths.push(length);
        }
        match said {
            Ok(0) => {}
            Ok(_) => self.met.answered(lent[2]),
            Err(refusal) => self.met.refused(refusal),
        }
        self.alike(call)?;
        Ok(said)
    }

    /// A byte that is to be heard: sometimes a short buffer first.
    fn heard(&mut self, b: u8) -> Result<usize, Difference> {
        if self.random.once_in(64) {
            let short = self.random.below(32) as usize;
            self.byte(b, short)?.expect_err("a short buffer is refused by both");
        }
        let length = 32 + self.random.below(33) as usize;
        Ok(self.byte(b, length)?.expect("both have heard it"))
    }

    /// A frame, by single bytes or by `listen` in pieces.
    fn send(&mut self) -> Result<(), Difference> {
        let bytes = if std::mem::take(&mut self.failed) {
            frames::question(self.oem, self.address)
        } else {
            frames::frame(self.random, self.oem, self.address)
        };
        let mut answers = 0;
        let mut rest = &bytes[..];
        let pieces = self.random.below(4) > 0;
        while let Some((&b, behind)) = rest.split_first() {
            if pieces {
                let most = 1 + self.random.below(rest.len() as u64) as usize;
                let call = || format!("listen to {:02X?}", &rest[..most]);
                let taken = same(call, self.one.listen(&rest[..most]), self.other.listen(&rest[..most]))?.expect("both listen");
                self.met.listened += 1;
                self.alike(call)?;
                rest = &rest[taken..];
                if taken == most {
                    continue;
                }
                answers += self.heard(rest[0])?;
                rest = &rest[1..];
            } else {
                answers += self.heard(b)?;
                rest = behind;
            }
        }
        self.met.silent_frames += u64::from(answers == 0);
        Ok(())
    }

    fn tell(&mut self, told: Told) {
        self.met.told(told);
        self.failed |= told.failure > 0;
    }

    fn sense(&mut self) {
        if self.random.once_in(3) {
            self.tip = self.random.once_in(2);
        }
        if self.random.once_in(3) {
            self.reading = match self.random.below(12) {
                0 => *self.random.one(&[32_767, 32_768, -32_767, -32_768, i32::MAX, i32::MIN]),
                1 => self.random.any() as i32,
                2..=4 => self.random.below(65_535) as i32 - 32_767,
                _ => self.random.below(60) as i32 - 30,
            };
        }
    }

    fn tick(&mut self) -> Result<(), Difference> {
        let (tip, reading) = (self.tip, self.reading);
        let call = || format!("tick {tip} {reading}");
        let told = same(call, self.one.tick(tip, reading), self.other.tick(tip, reading))?.expect("both tick");
        self.met.ticks += 1;
        self.tell(told);
        self.alike(call)
    }

    fn advance(&mut self) -> Result<(), Difference> {
        let (tip, reading) = (self.tip, self.reading);
        let n = match self.random.below(16) {
            0 => 0,
            1 => self.random.below(100_000) as u32,
            _ => self.random.below(600) as u32,
        };
        let call = || format!("advance {n} {tip} {reading}");
        let told = same(call, self.one.advance(n, tip, reading), self.other.advance(n, tip, reading))?.expect("both advance");
        self.met.advances += 1;
        self.tell(told);
        self.alike(call)
    }

    fn run(&mut self) -> Result<(), Difference> {
        let (tip, reading) = (self.tip, self.reading);
        let n = match self.random.below(16) {
            0 => *self.random.one(&[0, 60_000, 60_001, u32::MAX]),
            1 => self.random.any() as u32,
            _ => self.random.below(3000) as u32,
        };
        let call = || format!("run {n} {tip} {reading}");
        self.met.runs += 1;
        match same(call, self.one.run(n, tip, reading), self.other.run(n, tip, reading))? {
            Ok((_, told)) => self.tell(told),
            Err(refusal) => self.met.refused(refusal),
        }
        self.alike(call)
    }

    fn stop(&mut self) -> Result<(), Difference> {
        same(|| "stop".to_string(), self.one.stop(), self.other.stop())?.expect("both stop");
        self.met.stops += 1;
        self.alike(|| "stop".to_string())
    }

    /// Something that a host does.
    fn turn(&mut self) -> Result<(), Difference> {
        match self.random.below(32) {
            0..=12 => self.send(),
            13 => {
                let (b, length) = (self.random.any() as u8, self.random.below(65) as usize);
                self.byte(b, length).map(|_| ())
            }
            14 if self.random.once_in(4) => self.stop(),
            15..=18 => {
                self.sense();
                self.run()
            }
            19..=22 => {
                self.sense();
                self.advance()
            }
            _ => {
                for _ in 0..=self.random.below(12) {
                    self.sense();
                    self.tick()?;
                }
                Ok(())
            }
        }
    }
}

fn session<A: Calls, B: Calls>(random: &mut Random, met: &mut Met, most: u64) -> Result<(), Difference> {
    let oem = random.once_in(3);
    let address = if random.once_in(16) { random.below(14) as u32 } else { 1 + random.below(9) as u32 };
    let call = || format!("make {oem} {address}");
    met.calls += 1;
    let (one, other) = match (A::make(oem, address), B::make(oem, address)) {
        (Ok(one), Ok(other)) => (one, other),
        (one, other) => {
            let refusal = same(call, one.err(), other.err())?;
            refusal.into_iter().for_each(|refusal| met.refused(refusal));
            return Ok(());
        }
    };
    met.controllers += 1;
    let mut pair = Pair { one, other, oem, address: b'0' + address as u8, tip: false, reading: 0, failed: false, random, met };
    for _ in 0..pair.random.below(400) {
        if pair.met.calls >= most {
            break;
        }
        pair.turn()?;
    }
    Ok(())
}

/// At least so many calls, on as many controllers as they last for.
///
/// # Errors
/// The first difference.
pub fn compare<A: Calls, B: Calls>(calls: u64, seed: u64) -> Result<Met, Difference> {
    let mut random = Random(seed);
    let mut met = Met::default();
    while met.calls < calls {
        let number = met.controllers;
        session::<A, B>(&mut random, &mut met, calls).map_err(|Difference(what)| Difference(format!("controller {number}, {what}")))?;
    }
    Ok(met)
}
