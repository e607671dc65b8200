//! Inputs of `bench`, made from a seed.

use crate::generate::damage::damage;
use crate::generate::edits;
use crate::generate::files::file_of_seed;
use crate::generate::programs::{program_by_shares, program_of_shape};
use crate::generate::random::Random;
use crate::generate::shapes::{shape_by_shares, Shape};
use crate::generate::tables::{complete_file, file_with_rows_of_seed};
use crate::model::analysis::own_sheet;
use crate::model::bench::MOST_INPUT;
use crate::model::edit::edited_by_line;
use crate::model::file::read;
use crate::model::kinds::END;
use crate::model::lines::{lines, starts_with_kind};
use crate::model::program::Program;
use crate::model::write::write;

/// A program's file and so many edits.
pub fn file_with_edits(random: &mut Random, home: &Program, count: usize) -> Vec<u8> {
    with_edits(random, write(home), home, count)
}

/// A file of a program and so many edits, each for the program as the others leave it. Some are no
/// lines of their own, and the last may lack its 0A.
pub fn with_edits(random: &mut Random, file: Vec<u8>, home: &Program, count: usize) -> Vec<u8> {
    let mut input = file;
    let mut now = home.clone();
    for _ in 0..count {
        let line = edits::line(random, home, &now, &own_sheet(&now));
        if !is_one_line(&line) && random.percent(80) {
            continue;
        }
        if let Ok(after) = edited_by_line(&now, &line) {
            now = after;
        }
        input.extend(line);
    }
    if random.percent(20) {
        input.pop();
    }
    input
}

/// The input that belongs to a seed.
pub fn input_of_seed(seed: u64) -> Vec<u8> {
    let random = &mut Random::new(seed);
    let shape = shape_by_shares(
        random,
        &[
            (40, Shape::Tiny),
            (20, Shape::Recursive),
            (20, Shape::Layered),
            (8, Shape::Mixed),
            (11, Shape::Crowded),
            (1, Shape::Full),
        ],
    );
    let home = program_of_shape(random, shape);
    let most = if shape == Shape::Full { 3 } else { 24 };
    let count = random.below(most);
    let input = file_with_edits(random, &home, count);
    match random.below(100) {
        0..=9 => damage(random, &input),
        10..=14 => [file_of_seed(seed), input].concat(),
        15..=24 => file_of_seed(seed),
        25..=26 => filled(random, input),
        _ => input,
    }
}

/// The input with empty lines after it, up to about as many bytes as there may be.
fn filled(random: &mut Random, input: Vec<u8>) -> Vec<u8> {
    let length = random.pick(&[MOST_INPUT - 1, MOST_INPUT, MOST_INPUT + 1]);
    let lines = vec![b'\n'; length.saturating_sub(input.len())];
    [input, lines].concat()
}

/// The input that begins with a file with rows and belongs to a seed.
pub fn input_with_rows_of_seed(seed: u64) -> Vec<u8> {
    let random = &mut Random::new(seed);
    let file = match random.below(100) {
        0..=39 => complete_table(random),
        _ => file_with_rows_of_seed(seed),
    };
    let count = random.below(16);
    let input = match read(&file) {
        Ok(home) => with_edits(random, file, &home, count),
        Err(_) if random.percent(30) => [&file[..], b"2B00000001\n"].concat(),
        Err(_) => file,
    };
    match random.below(100) {
        0..=7 => damage(random, &input),
        8..=9 => filled(random, input),
        10..=12 => without_end(&input),
        _ => input,
    }
}

/// The lines of an input before its end frame.
fn without_end(input: &[u8]) -> Vec<u8> {
    let lines = lines(input).into_iter();
    let before = lines.take_while(|line| !starts_with_kind(line, END));
    before.collect::<Vec<_>>().concat()
}

/// A file with a complete table, of a program in which much can happen.
fn complete_table(random: &mut Random) -> Vec<u8> {
    let shares = [
        (40, Shape::Tiny),
        (25, Shape::Recursive),
        (25, Shape::Layered),
        (10, Shape::Crowded),
    ];
    let program = program_by_shares(random, &shares);
    complete_file(random, &program)
}

/// Whether a text can stand as a line of its own among others.
fn is_one_line(text: &[u8]) -> bool {
    lines(text).len() == 1 && text.ends_with(b"\n")
}

#[cfg(test)]
mod tests {
    use super::*;
    use crate::generate::met::Met;
    use crate::model::bench::file_and_edits;
    use crate::model::refusals::{BAD_LINE, FILE_END, PAIR_MET_TWICE, PAIR_NOT_MET};

    /// How often the files of inputs of so many seeds are refused, by number.
    fn met(seeds: u64, input: fn(u64) -> Vec<u8>) -> Met {
        let mut met = Met::default();
        for seed in 0..seeds {
            let input = input(seed);
            let (file, _) = file_and_edits(&input);
            met.note(read(&file).map_or_else(|refusal| refusal.number(), |_| 0));
        }
        println!("{met:?}");
        met
    }

    #[test]
    fn inputs_with_rows_meet_every_refusal_of_a_file() {
        let met = met(600, input_with_rows_of_seed);
        met.check(BAD_LINE..=FILE_END, 2);
        met.check([PAIR_NOT_MET, PAIR_MET_TWICE], 10);
        met.check([0], 250);
    }
}
