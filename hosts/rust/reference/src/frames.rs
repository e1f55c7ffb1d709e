//! Random frames: most of them mean something, some are nearly right, some are noise.
use crate::commands::read;
use crate::random::Random;

fn choose(r: &mut Random, of: &[&str]) -> String {
    r.one(of).to_string()
}

/// A number near what a command takes, or near its limits.
fn operand(r: &mut Random, limits: &[u32]) -> String {
    match r.below(8) {
        0 => String::new(),
        1..=3 => r.one(limits).to_string(),
        4 => (*r.one(limits) + 1).to_string(),
        5 => format!("0{}", r.one(limits)),
        _ => {
            let most = u64::from(*limits.iter().max().expect("there are limits"));
            r.below(most + 1).to_string()
        }
    }
}

fn volume(r: &mut Random) -> String {
    match r.below(6) {
        0 => operand(r, &[0, 1, 100, 2_000, 44_000]),
        1 => format!("{},{}", operand(r, &[0, 5, 44_000]), r.below(3)),
        2 => format!("{}.{:03},1", r.below(3), r.below(1000)),
        3 => format!("0.0{},1", r.below(100)),
        4 => format!("{}.{},1", r.below(1101), r.below(1000)),
        _ => r.below(3000).to_string(),
    }
}

fn speed(r: &mut Random, most: u64) -> String {
    match r.below(6) {
        0 => String::new(),
        1 => format!("{}.{}", 95 + r.below(most), r.below(10)),
        2 => format!("{}.{:03},1", 2 + r.below(most / 40), r.below(1000)),
        3 => format!(",{}", r.below(3)),
        4 => most.to_string(),
        _ => (1000 + r.below(most)).to_string(),
    }
}

fn search(r: &mut Random) -> String {
    match r.below(8) {
        0 => format!("p{}", r.below(8)),
        1 => format!("p,{}", r.below(9)),
        2 => format!("p0,{}", operand(r, &[1, 5, 1000])),
        3 => format!("p1,{}", operand(r, &[1, 10, 30, 100])),
        4 => format!("p2,{}", operand(r, &[0, 10, 500, 44_000])),
        5 => format!("p3,{}", operand(r, &[100, 500, 1000])),
        6 => format!("p4,{}", operand(r, &[500, 600, 44_000])),
        _ => format!("p{},{}", 5 + r.below(2), operand(r, &[0, 1, 20])),
    }
}

fn command(r: &mut Random) -> String {
    match r.below(32) {
        0..=3 => format!("A{}", volume(r)),
        4..=6 => format!("P{}", volume(r)),
        7..=9 => format!("D{}", volume(r)),
        10..=11 => format!("W{}", operand(r, &[100, 6_000, 20_000])),
        12..=13 => format!("V{}", speed(r, 80_000)),
        14 => format!("v{}", speed(r, 12_000)),
        15 => format!("c{}", speed(r, 80_000)),
        16 => format!("L{},{}", operand(r, &[1, 80]), operand(r, &[1, 80])),
        17 => format!("K{}", operand(r, &[0, 500])),
        18 => format!("b{},{}", operand(r, &[0, 350]), operand(r, &[0, 1])),
        19..=20 => format!("M{}", operand(r, &[1, 9, 14, 15, 100, 30_000])),
        21..=23 => format!("E{}", operand(r, &[0, 1])),
        24..=26 => format!("B{}", operand(r, &[0, 1])),
        27..=29 => search(r),
        30 => "g".to_string(),
        _ => format!("G{}", operand(r, &[0, 1, 2, 50_000])),
    }
}

/// One that can be read: else nearly every long string would hold a wrong one.
fn right_command(r: &mut Random) -> String {
    loop {
        let command = command(r);
        if read(command.as_bytes()).is_ok() && command != "g" && !command.starts_with('G') {
            return command;
        }
    }
}

/// A loop of a few commands, perhaps with one inside.
fn looped(r: &mut Random, depth: u64) -> String {
    let mut text = "g".to_string();
    for _ in 0..r.below(3) {
        text += &if depth > 0 && r.once_in(3) { looped(r, depth - 1) } else { right_command(r) };
    }
    text + &format!("G{}", r.below(5))
}

/// A search that will come to its end soon, one way or the other.
fn short_search(r: &mut Random) -> String {
    format!("p4,{}p3,1000p1,{}p5,{}p2,{}B{}", 500 + r.below(90), 10 * (1 + r.below(10)), r.below(2), r.below(900), r.below(2))
}

fn string(r: &mut Random) -> String {
    let mut text = if r.once_in(2) { "W".to_string() } else { String::new() };
    let most = if r.once_in(24) { 90 } else { 6 };
    let careful = r.below(4) > 0;
    for _ in 0..=r.below(most) {
        text += &match r.below(16) {
            0..=1 => looped(r, 5),
            2 => short_search(r),
            _ if careful => right_command(r),
            _ => command(r),
        };
    }
    if r.below(5) > 0 {
        text.push('R');
    }
    text
}

fn report(r: &mut Random) -> String {
    match r.below(6) {
        0 => format!("Q{}", r.below(5)),
        1 => choose(r, &["Q", "", "f", "f1", "?", "Q01", "?000007", "?0000007", "?1R", "QR", "?,"]),
        2 => format!("?{}", 29 + r.below(12)),
        _ => format!("?{}", r.below(70)),
    }
}

/// One or a few characters that are changed, left out or put in.
fn mangled(r: &mut Random, text: String) -> String {
    let mut bytes = text.into_bytes();
    for _ in 0..=r.below(2) {
        let at = r.below(bytes.len() as u64 + 1) as usize;
        let b = *r.one(b"0123456789.,, RTXC!QfgGEBpWAPDVvcLKbM?ZUu-");
        match r.below(3) {
            0 if at < bytes.len() => bytes[at] = b,
            1 if at < bytes.len() => {
                bytes.remove(at);
            }
            _ => bytes.insert(at, b),
        }
    }
    String::from_utf8_lossy(&bytes).into_owned()
}

fn data(r: &mut Random) -> String {
    match r.below(20) {
        0..=3 => report(r),
        4..=5 => choose(r, &["R", "R", "T", "X", "C", "!R", "TA1", "RR", "! R"]),
        6..=7 => {
            let text = string(r);
            mangled(r, text)
        }
        8 => " ".repeat(r.below(3) as usize) + &string(r),
        9 if r.once_in(4) => "P1".repeat(120 + r.below(50) as usize),
        _ => string(r),
    }
}

fn noise(r: &mut Random) -> Vec<u8> {
    (0..r.below(20)).map(|_| if r.once_in(3) { *r.one(b"/\r\x02\x031") } else { r.any() as u8 }).collect()
}

fn oem_frame(address: u8, sequence: u8, data: &[u8]) -> Vec<u8> {
    let mut bytes = [&[0x02, address, sequence], data, &[0x03]].concat();
    bytes.push(bytes.iter().fold(0, |sum, b| sum ^ b));
    bytes
}

fn dt_frame(address: u8, data: &[u8]) -> Vec<u8> {
    [&[b'/', address], data, b"\r"].concat()
}

/// Q, to an address.
pub fn question(oem: bool, address: u8) -> Vec<u8> {
    if oem {
        oem_frame(address, b'0', b"Q")
    } else {
        dt_frame(address, b"Q")
    }
}

/// The bytes of a frame in a framing, mostly to an address, sometimes damaged, sometimes to somebody else, sometimes not a frame at all.
pub fn frame(r: &mut Random, oem: bool, address: u8) -> Vec<u8> {
    if r.once_in(40) {
        return noise(r);
    }
    let address = if r.once_in(30) { b'0' + r.below(11) as u8 } else { address };
    let data = data(r).into_bytes();
    let mut bytes = if oem {
        let sequence = if r.once_in(30) { 0x2F + r.below(10) as u8 } else { 0x30 + r.below(8) as u8 };
        oem_frame(address, sequence, &data)
    } else {
        dt_frame(address, &data)
    };
    if r.once_in(30) {
        let at = r.below(bytes.len() as u64) as usize;
        bytes[at] = r.any() as u8;
    }
    bytes
}
