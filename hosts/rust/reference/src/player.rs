//! Plays the lines of the bench program and of the training rig over any controller, and prints what they print.
use crate::calls::{Calls, Refusal, Told};
use std::io::{self, BufRead, Write};

/// Whose lines are taken.
#[derive(Clone, Copy, Debug, PartialEq, Eq)]
pub enum Desk {
    /// The bench program's two forms.
    Bench,
    /// Those and the host's part.
    Rig,
}

impl Desk {
    /// As the program's first argument names it; ends the program where it names none.
    pub fn of_arguments() -> Desk {
        match std::env::args().nth(1).as_deref() {
            Some("bench") => Desk::Bench,
            Some("rig") => Desk::Rig,
            _ => {
                eprintln!("say whose lines are taken: bench or rig");
                std::process::exit(2);
            }
        }
    }
}

/// Plays standard input to standard output, each line as soon as it is complete.
///
/// # Errors
/// Where reading or writing fails.
pub fn play_input<C: Calls>(desk: Desk) -> io::Result<()> {
    let mut player: Player<C> = Player::new(desk).expect("address 1 is one");
    let mut input = io::stdin().lock();
    let mut output = io::stdout().lock();
    let mut line = Vec::new();
    while input.read_until(b'\n', &mut line)? > 0 {
        if line.last() == Some(&b'\n') {
            line.pop();
        }
        let mut printed = player.line(&line);
        printed.push(b'\n');
        output.write_all(&printed)?;
        line.clear();
    }
    output.flush()
}

/// A controller and what its host has set.
pub struct Player<C> {
    desk: Desk,
    controller: C,
    oem: bool,
    lent: usize,
    tip: bool,
    reading: i32,
}

/// What a line asks for.
enum Asked<'a> {
    Send(&'a [u8]),
    Ticks(u32),
    Run(u32),
    Stop,
    Raw(Vec<u8>),
    Lend(usize),
    New { oem: bool, address: u32 },
    Tip(bool),
    Press(i32),
}

/// "written without leading zeros, at most 6 digits"
fn count(text: &[u8]) -> Option<u32> {
    let leading = text.len() > 1 && text[0] == b'0';
    if text.is_empty() || text.len() > 6 || leading || !text.iter().all(u8::is_ascii_digit) {
        return None;
    }
    Some(text.iter().fold(0, |n, d| 10 * n + u32::from(d - b'0')))
}

fn reading(text: &[u8]) -> Option<i32> {
    let (minus, digits) = match text.strip_prefix(b"-") {
        Some(digits) => (true, digits),
        None => (false, text),
    };
    let n = count(digits).filter(|&n| n <= 40_000 && !(minus && n == 0))? as i32;
    Some(if minus { -n } else { n })
}

fn hex_digit(b: u8) -> Option<u8> {
    match b {
        b'0'..=b'9' => Some(b - b'0'),
        b'A'..=b'F' => Some(b - b'A' + 10),
        _ => None,
    }
}

/// "two capital hex digits each", one space between
fn raw(text: &[u8]) -> Option<Vec<u8>> {
    text.split(|&b| b == b' ')
        .map(|pair| match pair {
            [high, low] => Some(hex_digit(*high)? * 16 + hex_digit(*low)?),
            _ => None,
        })
        .collect()
}

fn host_part(line: &[u8]) -> Option<Asked<'_>> {
    if line == b"stop" {
        return Some(Asked::Stop);
    }
    let space = line.iter().position(|&b| b == b' ')?;
    let (word, rest) = (&line[..space], &line[space + 1..]);
    match word {
        b"x" => raw(rest).map(Asked::Raw),
        b"run" => count(rest).map(Asked::Run),
        b"lend" => count(rest).filter(|&n| n <= 64).map(|n| Asked::Lend(n as usize)),
        b"new" => count(rest).map(|address| Asked::New { oem: false, address }),
        b"oem" => count(rest).map(|address| Asked::New { oem: true, address }),
        b"tip" => count(rest).filter(|&n| n <= 1).map(|n| Asked::Tip(n == 1)),
        b"press" => reading(rest).map(Asked::Press),
        _ => None,
    }
}

fn asked(desk: Desk, line: &[u8]) -> Option<Asked<'_>> {
    if line.len() > 400 || !line.iter().all(|b| (0x20..=0x7E).contains(b)) {
        return None;
    }
    if let Some(text) = line.strip_prefix(b"> ") {
        return Some(Asked::Send(text));
    }
    if let Some(n) = line.strip_prefix(b"t ") {
        return count(n).filter(|n| (1..=60_000).contains(n)).map(Asked::Ticks);
    }
    match desk {
        Desk::Bench => None,
        Desk::Rig => host_part(line),
    }
}

fn name(refusal: Refusal) -> String {
    match refusal {
        Refusal::S1 => "S1",
        Refusal::S2 => "S2",
        Refusal::S3 => "S3",
        Refusal::Broken => "BROKEN",
    }
    .to_string()
}

fn hex(bytes: &[u8]) -> String {
    bytes.iter().map(|b| format!("{b:02X}")).collect::<Vec<_>>().join(" ")
}

impl<C: Calls> Player<C> {
    /// With a fresh controller of address 1, DT, a buffer of 32 bytes, no tip and no pressure.
    pub fn new(desk: Desk) -> Result<Player<C>, Refusal> {
        Ok(Player { desk, controller: C::make(false, 1)?, oem: false, lent: 32, tip: false, reading: 0 })
    }

    /// What one line prints.
    pub fn line(&mut self, line: &[u8]) -> Vec<u8> {
        let printed = match asked(self.desk, line) {
            None => Ok(b"?".to_vec()),
            Some(Asked::Send(text)) => self.send(text),
            Some(asked) => self.host(asked).map(String::into_bytes),
        };
        printed.unwrap_or_else(|refusal| name(refusal).into_bytes())
    }

    fn host(&mut self, asked: Asked<'_>) -> Result<String, Refusal> {
        match asked {
            Asked::Send(_) => unreachable!("a frame is sent"),
            Asked::Ticks(n) => {
                let told = self.controller.advance(n, self.tip, self.reading)?;
                self.standing(told)
            }
            Asked::Run(n) => {
                let (used, told) = self.controller.run(n, self.tip, self.reading)?;
                Ok(format!("{used} {}", self.standing(told)?))
            }
            Asked::Stop => {
                self.controller.stop()?;
                self.standing(Told::default())
            }
            Asked::Raw(bytes) => Ok(self.raw(&bytes)),
            Asked::Lend(n) => {
                self.lent = n;
                Ok("ok".to_string())
            }
            Asked::New { oem, address } => {
                self.controller = C::make(oem, address)?;
                self.oem = oem;
                Ok("ok".to_string())
            }
            Asked::Tip(tip) => {
                self.tip = tip;
                Ok("ok".to_string())
            }
            Asked::Press(reading) => {
                self.reading = reading;
                Ok("ok".to_string())
            }
        }
    }

    fn standing(&self, told: Told) -> Result<String, Refusal> {
        let eject = if told.eject && self.desk == Desk::Rig { " eject" } else { "" };
        Ok(format!("{} {}{}", self.controller.plunger()?, self.controller.exact()?, eject))
    }

    /// Each byte with a buffer of its own.
    fn raw(&mut self, bytes: &[u8]) -> String {
        let mut printed = Vec::new();
        for &b in bytes {
            let mut buffer = vec![0; self.lent];
            match self.controller.byte(b, &mut buffer) {
                Ok(0) => {}
                Ok(n) => printed.push(hex(&buffer[..n])),
                Err(refusal) => printed.push(name(refusal)),
            }
        }
        if printed.is_empty() {
            printed.push("-".to_string());
        }
        printed.join(" | ")
    }

    /// The first byte goes over by itself, with the buffer that is lent; the rest as it would come from a line, and the answer that its
    /// last byte gets is printed.
    fn send(&mut self, text: &[u8]) -> Result<Vec<u8>, Refusal> {
        let frame = match self.frame(text) {
            Some(frame) => frame,
            None => return Ok(b"?".to_vec()),
        };
        let mut buffer = vec![0; self.lent];
        self.controller.byte(frame[0], &mut buffer)?;
        let mut rest = &frame[1..];
        let mut answered = 0;
        while !rest.is_empty() {
            let taken = self.controller.listen(rest)?;
            rest = &rest[taken..];
            answered = 0;
            if let Some((&b, behind)) = rest.split_first() {
                answered = self.controller.byte(b, &mut buffer)?;
                rest = behind;
            }
        }
        let tail = if self.oem { 2 } else { 3 };
        Ok(if answered == 0 { b"-".to_vec() } else { buffer[2..answered - tail].to_vec() })
    }

    fn frame(&self, text: &[u8]) -> Option<Vec<u8>> {
        if !self.oem {
            return Some([b"/", text, b"\r"].concat());
        }
        let (address, data) = text.split_first()?;
        let mut frame = [&[0x02, *address, 0x30], data, &[0x03]].concat();
        frame.push(frame.iter().fold(0, |sum, b| sum ^ b));
        Some(frame)
    }
}
