//! What is moved from one form of a saved sheet to the other, made from a seed, and what is lent with it.
//!
//! - `programs` makes programs at the edges of what 24 judges, and one with every standing that an old
//!   sheet has room for.
//! - `sheets` does damage to old sheets, and `frames` to frames.

pub mod frames;
pub mod programs;
pub mod sheets;

use crate::generate::programs::program_of_shape;
use crate::generate::random::Random;
use crate::generate::shapes::Shape;
use crate::model::saved::{Saved, OLD_SHEET};

/// How long frames can be: those of as many standings as an old sheet has bytes.
pub const MOST_FRAMES: usize = 180_231;

/// Lengths of an output where so many bytes are needed: those around the need, none, half, and such as
/// some other call would need.
pub fn output_lengths(need: usize) -> [usize; 9] {
    [
        need - 1,
        need,
        need + 1,
        0,
        need / 2,
        OLD_SHEET - 1,
        OLD_SHEET,
        MOST_FRAMES,
        MOST_FRAMES + 100,
    ]
}

/// Some length of an output, long enough or not.
pub fn output_length(random: &mut Random, need: usize) -> usize {
    let any = random.pick(&output_lengths(need));
    random.pick(&[need - 1, need, need + 1, any])
}

/// The saved sheet of some other program.
fn other_program(random: &mut Random) -> Saved {
    let shape = random.pick(&[Shape::Tiny, Shape::Layered]);
    let program = program_of_shape(random, shape);
    Saved::of(&program).expect("such programs are former ones")
}
