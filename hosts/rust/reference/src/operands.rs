//! Operand texts: 01, "Reading the data".
use std::ops::RangeInclusive;

/// A number as written: its value in thousandths, and how many decimals stand there.
#[derive(Clone, Copy)]
pub struct Number {
    thousandths: u32,
    decimals: usize,
}

/// What stands in one place of an operand text, or nothing.
pub type Operand = Option<Number>;

/// "1 to 6 digits, then optionally a point with 1 to 3 digits"
fn number(text: &[u8]) -> Option<Number> {
    let point = text.iter().position(|&b| b == b'.');
    let (whole, decimals) = match point {
        Some(at) => (&text[..at], &text[at + 1..]),
        None => (text, &text[text.len()..]),
    };
    if !(1..=6).contains(&whole.len()) || decimals.len() > 3 || (point.is_some() && decimals.is_empty()) {
        return None;
    }
    let mut padded = decimals.to_vec();
    padded.resize(3, b'0');
    let digits = [whole, &padded].concat();
    if !digits.iter().all(u8::is_ascii_digit) {
        return None;
    }
    let thousandths = digits.iter().fold(0, |n, d| 10 * n + u32::from(d - b'0'));
    Some(Number { thousandths, decimals: decimals.len() })
}

/// The operands of a text, at most `places` of them with commas between; None where it isn't so written. What isn't there is absent.
pub fn operands<const PLACES: usize>(text: &[u8]) -> Option<[Operand; PLACES]> {
    let mut read = [None; PLACES];
    for (place, part) in text.split(|&b| b == b',').enumerate() {
        if place >= PLACES {
            return None;
        }
        if !part.is_empty() {
            read[place] = Some(number(part)?);
        }
    }
    Some(read)
}

/// A whole number without a point, in a range; the default isn't tested.
pub fn whole(operand: Operand, range: RangeInclusive<u32>, default: u32) -> Option<u32> {
    match operand {
        None => Some(default),
        Some(n) => (n.decimals == 0 && range.contains(&(n.thousandths / 1000))).then_some(n.thousandths / 1000),
    }
}

/// The same with at most so many decimals; range and result in thousandths.
pub fn decimal(operand: Operand, decimals: usize, range: RangeInclusive<u32>) -> Option<Option<u32>> {
    match operand {
        None => Some(None),
        Some(n) => (n.decimals <= decimals && range.contains(&n.thousandths)).then_some(Some(n.thousandths)),
    }
}
