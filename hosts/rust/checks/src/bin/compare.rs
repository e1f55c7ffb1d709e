//! `compare [CALLS [SEED]]`: the library against the second controller. Prints what was met; ends with 1 at the first difference.
use checks::Proved;
use reference::{compare, Controller};
use std::process::exit;

fn argument(n: usize, default: u64) -> u64 {
    match std::env::args().nth(n).map(|word| word.parse()) {
        None => default,
        Some(Ok(number)) => number,
        Some(Err(_)) => {
            eprintln!("compare [CALLS [SEED]]");
            exit(2);
        }
    }
}

fn main() {
    match compare::<Proved, Controller>(argument(1, 1_000_000), argument(2, 1)) {
        Err(difference) => {
            eprintln!("compare: the library and the second controller differ: {}", difference.0);
            exit(1);
        }
        Ok(met) if !met.everything() => {
            println!("compare: {met}");
            eprintln!("compare: not everything was met");
            exit(1);
        }
        Ok(met) => println!("compare: {met}"),
    }
}
