//! What reports tell: 01, "Reports", and the requests'.
use crate::controller::Controller;

/// "increments a second one decimal"
fn a_second(tenths: u32) -> String {
    format!("{}.{}", tenths / 10, tenths % 10)
}

/// "µL three"
fn microlitres(nanolitres: u64) -> String {
    format!("{}.{:03}", nanolitres / 1000, nanolitres % 1000)
}

/// "5/2 nL/s per tenth, half up"
fn microlitres_a_second(tenths: u32) -> String {
    microlitres((5 * u64::from(tenths) + 1) / 2)
}

/// "plunger × 1,000,000 / C nL, nearest, half up"
fn volume(plunger: u32, rate: u32) -> String {
    let (twice, rate) = (2_000_000 * u64::from(plunger), u64::from(rate));
    microlitres((twice + rate) / (2 * rate))
}

fn flag(yes: bool) -> String {
    u8::from(yes).to_string()
}

/// The data of a report, or None where there is none of that number.
pub fn report(c: &Controller, letter: u8, number: u32) -> Option<String> {
    match letter {
        b'Q' => status(c, number),
        b'f' => Some(char::from(c.address).to_string()),
        _ => asked(c, number),
    }
}

fn status(c: &Controller, number: u32) -> Option<String> {
    Some(match number {
        0 => String::new(),
        1 => char::from(0x40 + c.error).to_string(),
        2 => c.column.to_string(),
        _ => return None,
    })
}

fn asked(c: &Controller, number: u32) -> Option<String> {
    let s = &c.settings;
    Some(match number {
        0 => c.goal().to_string(),
        1 => c.plunger.to_string(),
        3 => volume(c.plunger, s.rate),
        4 => s.backlash.to_string(),
        6 => a_second(s.start),
        7 => a_second(s.top),
        8 => a_second(s.cutoff),
        9 => s.slopes[0].to_string(),
        10 => s.slopes[1].to_string(),
        16 => "44000".to_string(),
        17 => "1100".to_string(),
        18 => microlitres_a_second(s.start),
        19 => microlitres_a_second(s.top),
        20 => microlitres_a_second(s.cutoff),
        29 => flag(!c.buffer.ready()),
        31 => flag(c.tip),
        35 => a_second(s.search_tenths()),
        32..=38 => s.search[number as usize - 32].to_string(),
        67 => flag(c.buffer.waiting()),
        _ => return None,
    })
}
