//! Calls of lists, made from a seed.

use crate::generate::random::Random;
use crate::generate::sheets::wrong_length;
use crate::generate::{edits, exchanges};
use crate::model::calls::repairs::{lengths, Function};
use crate::model::change::Form;
use crate::model::lists::Call;
use crate::model::program::Program;
use crate::model::standing::MOST_SHEET;
use crate::model::write::OUTPUT_SIZE;

/// A call of this function for a program as it is now, with its sheet, which at home was another:
/// mostly one that is accepted.
pub fn call(
    random: &mut Random,
    function: Function,
    home: &Program,
    now: &Program,
    sheet: &[u8],
) -> Call {
    let text = text(random, function.form(), home, now, sheet);
    let [work, second] = some_lengths(random, function.form(), now, &text);
    let output = output_length(random);
    Call {
        function,
        text,
        output: random.content(output),
        work: random.content(work),
        second: random.content(second),
    }
}

/// The length of an output, mostly a sufficient one.
fn output_length(random: &mut Random) -> usize {
    let short = random.pick(&[0, 1, 5328, OUTPUT_SIZE - 1, OUTPUT_SIZE - 1]);
    let longer = random.pick(&[OUTPUT_SIZE, OUTPUT_SIZE, OUTPUT_SIZE + 1, 8000, MOST_SHEET]);
    if random.percent(5) {
        short
    } else {
        longer
    }
}

/// Lengths of a working buffer and of a second one, mostly the right ones. The others are any, or those
/// of the wrong sheet: the old one's where the new one's is needed, and the reverse.
fn some_lengths(random: &mut Random, form: Form, now: &Program, text: &[u8]) -> [usize; 2] {
    let right = lengths(form, now, text);
    let [mut work, mut second] = right;
    let of_sheets = [now.sizes().length(), right[1]];
    let wrong = wrong_length(random, right[0]);
    if random.percent(5) {
        work = wrong;
    }
    if form == Form::Edit {
        return [work, second];
    }
    let wrong = wrong_length(random, right[1]);
    if random.percent(16) {
        work = random.pick(&of_sheets);
    }
    match random.below(100) {
        0..=2 => second = 0,
        3..=7 => second = wrong,
        8..=13 => second = random.pick(&[of_sheets[0], right[0]]),
        _ => {}
    }
    [work, second]
}

/// A text of this form for such a program.
pub fn text(
    random: &mut Random,
    form: Form,
    home: &Program,
    now: &Program,
    sheet: &[u8],
) -> Vec<u8> {
    match form {
        Form::Edit => edits::line(random, home, now, sheet),
        Form::Exchange => exchanges::text(random, home, now, sheet),
    }
}
