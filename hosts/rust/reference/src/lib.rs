//! For tests only, no part of the product: a second controller, written from the requirements (01, 02 and the decisions in `docs/`)
//! and not from the proved one; a player that takes the lines of the bench program and of the training rig; and a comparison of two
//! controllers, random call by random call.
//!
//! It is plain and slow on purpose: commands are kept as they were read, frames as they came, every tick is one step.
#![forbid(unsafe_code)]
#![deny(missing_docs)]

mod answers;
mod buffer;
mod calls;
mod commands;
mod compare;
mod controller;
mod frames;
mod motion;
mod operands;
mod player;
mod random;
mod requests;
mod settings;
mod wire;

pub use calls::{Calls, Refusal, Told};
pub use compare::{compare, Difference, Met};
pub use controller::Controller;
pub use player::{play_input, Desk, Player};
pub use random::Random;
