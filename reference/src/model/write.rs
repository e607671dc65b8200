//! Writing a program as a file. Its rule is written as lines, whether it was read from lines or from
//! rows.

use crate::model::kinds::{END, FORBIDDEN, ROUTINE, RULE, SIZES, START, STEP};
use crate::model::lines::{text_of, two_numbers};
use crate::model::program::Program;

/// The longest file that is written, and so the least length of an output.
pub const OUTPUT_SIZE: usize = 7712;

/// The program's file.
pub fn write(program: &Program) -> Vec<u8> {
    let sizes = [program.routines(), program.states, program.actions];
    let mut frames = vec![frame(SIZES, &sizes)];
    for (routine, &places) in program.places.iter().enumerate() {
        frames.push(frame(ROUTINE, &[routine as u8, places]));
    }
    for step in &program.steps {
        frames.push(frame(STEP, &step.numbers()));
    }
    for line in &program.rule {
        frames.push(frame(RULE, &line.numbers()));
    }
    for &state in &program.starts {
        frames.push(frame(START, &[state]));
    }
    for &state in &program.forbidden {
        frames.push(frame(FORBIDDEN, &[state]));
    }
    frames.push(end(frames.len()));
    text_of(&frames)
}

/// The numbers of a frame, its kind first.
pub fn frame(kind: u8, numbers: &[u8]) -> Vec<u8> {
    [&[kind], numbers].concat()
}

/// The end frame after so many others.
pub fn end(count: usize) -> Vec<u8> {
    frame(END, &two_numbers(count))
}

#[cfg(test)]
mod tests {
    use super::*;
    use crate::cases::sample;

    #[test]
    fn the_sample_is_written_as_it_was_read() {
        assert_eq!(write(&sample::program()), sample::FILE);
    }
}
