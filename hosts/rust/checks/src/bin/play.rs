//! `play bench` or `play rig`: plays standard input over the library, line by line.
use checks::Proved;
use reference::{play_input, Desk};

fn main() -> std::io::Result<()> {
    play_input::<Proved>(Desk::of_arguments())
}
