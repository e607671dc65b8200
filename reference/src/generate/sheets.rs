//! Sheets made from a seed: such as a program could have left, and such as none could.

use crate::generate::programs::program_of_seed;
use crate::generate::random::Random;
use crate::model::analysis::own_sheet;
use crate::model::program::Program;
use crate::model::standing::{marked, MOST_SHEET};

/// A length that a sheet or a working buffer may not have, where this is the right one.
pub fn wrong_length(random: &mut Random, right: usize) -> usize {
    let near = [right - 1, right + 1, right / 2, 2 * right];
    let far = [0, 1, MOST_SHEET, MOST_SHEET + 1, 20_000];
    let (near, far) = (random.pick(&near), random.pick(&far));
    match random.pick(&[near, near, far]) {
        length if length == right => right + 1,
        length => length,
    }
}

/// Lengths of a sheet and a working buffer, at least one of them a wrong one.
pub fn wrong_lengths(random: &mut Random, right: usize) -> (usize, usize) {
    let (one, other) = (wrong_length(random, right), wrong_length(random, right));
    random.pick(&[(one, other), (one, right), (right, one)])
}

/// How many ways there are to make a foreign sheet.
pub const FOREIGN: usize = 7;

/// A sheet that is not the program's own, made in one of the ways; None where this way gives none.
pub fn foreign(random: &mut Random, program: &Program, own: &[u8], way: usize) -> Option<Vec<u8>> {
    let of_byte = |wanted: u8| (0..own.len()).filter(move |&at| own[at] == wanted);
    let marked: Vec<usize> = of_byte(1).collect();
    let empty: Vec<usize> = of_byte(0).collect();
    let without_place = numbers_without_place(program);
    let mut sheet = own.to_vec();
    match way {
        0 => {
            let at = random.below(own.len());
            sheet[at] ^= random.between(1, 255) as u8;
        }
        1 if !marked.is_empty() => sheet[random.pick(&marked)] = 2,
        2 if !marked.is_empty() => sheet[random.pick(&marked)] = 0,
        3 if !empty.is_empty() => sheet[random.pick(&empty)] = 1,
        4 => sheet.fill(0),
        5 => {
            sheet = own_sheet(&program_of_seed(random.number()));
            sheet.resize(own.len(), 0);
        }
        6 if !without_place.is_empty() => sheet[random.pick(&without_place)] = 1,
        _ => {}
    }
    if sheet == own {
        None
    } else {
        Some(sheet)
    }
}

/// The numbers at places that a shorter routine of the program does not have.
pub fn numbers_without_place(program: &Program) -> Vec<usize> {
    let sizes = program.sizes();
    let lacks = |&number: &usize| {
        let at = sizes.standing(number);
        at.place >= program.places[usize::from(at.routine)]
    };
    (0..sizes.length()).filter(lacks).collect()
}

/// How many ways there are to make a sheet for the keeping.
pub const ANY: usize = 9;

/// A sheet made in one of the ways, of a program's own or of nothing.
pub fn any(random: &mut Random, own: &[u8], way: usize) -> Vec<u8> {
    match way {
        0 => own.to_vec(),
        1 => vec![1; own.len()],
        2 => vec![random.between(2, 255) as u8; own.len()],
        3 => with_gaps(random, &vec![1; own.len()]),
        4 => with_gaps(random, own),
        5 => with_other_bytes(random, own),
        6 => with_more_marks(random, own),
        7 => {
            let gaps = with_gaps(random, own);
            let more = with_more_marks(random, &gaps);
            with_other_bytes(random, &more)
        }
        _ => random.content(own.len()),
    }
}

/// The sheet without some of its marks: one, a few or many.
fn with_gaps(random: &mut Random, sheet: &[u8]) -> Vec<u8> {
    let mut sheet = sheet.to_vec();
    let marks = marked(&sheet);
    if marks.is_empty() {
        return sheet;
    }
    let some = random.between(1, 4);
    let share = random.between(2, 20);
    for _ in 0..random.pick(&[1, some, 1 + marks.len() / share]) {
        sheet[random.pick(&marks)] = 0;
    }
    sheet
}

/// The sheet with some marks more, most of them near those it has.
fn with_more_marks(random: &mut Random, sheet: &[u8]) -> Vec<u8> {
    let mut sheet = sheet.to_vec();
    let marks = marked(&sheet);
    for _ in 0..random.pick(&[1, 5, 50, 500]) {
        let near = match marks.len() {
            0 => 0,
            _ => (random.pick(&marks) ^ random.below(256)) % sheet.len(),
        };
        let any = random.below(sheet.len());
        sheet[random.pick(&[near, near, near, any])] = 1;
    }
    sheet
}

/// The same marks, some of them by another byte than 1.
fn with_other_bytes(random: &mut Random, sheet: &[u8]) -> Vec<u8> {
    let share = random.pick(&[10, 50, 100]);
    let mut other = |byte: u8| match byte {
        0 => 0,
        _ if random.percent(share) => random.between(2, 255) as u8,
        _ => byte,
    };
    sheet.iter().map(|&byte| other(byte)).collect()
}
