//! `second bench` or `second rig`: plays standard input over the second controller, line by line.
use reference::{play_input, Controller, Desk};

fn main() -> std::io::Result<()> {
    play_input::<Controller>(Desk::of_arguments())
}
