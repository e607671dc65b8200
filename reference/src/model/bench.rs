//! What the program `bench` prints, as a function of what it reads. The repair that it uses does not
//! show.

use crate::model::analysis::analyze;
use crate::model::edit::edited_by_line;
use crate::model::file::read;
use crate::model::kinds::{COUNTS, END, FINDING, REFUSED};
use crate::model::lines::{line_of, lines, starts_with_kind, two_numbers};
use crate::model::program::Program;
use crate::model::refusals::INPUT_LONG;
use crate::model::write::frame;

/// How many bytes of input there may be.
pub const MOST_INPUT: usize = 16_384;

/// All that is printed for an input.
pub fn bench(input: &[u8]) -> Vec<u8> {
    if input.len() > MOST_INPUT {
        return line_of(&[REFUSED, INPUT_LONG as u8]);
    }
    let (file, edits) = file_and_edits(input);
    match read(&file) {
        Err(refusal) => {
            let [high, low] = two_numbers(refusal.line as usize);
            line_of(&[REFUSED, refusal.number() as u8, high, low])
        }
        Ok(program) => bench_program(program, &edits),
    }
}

/// The file goes through the first line that starts with 45, and is all of the input if there is no
/// such line. Each line after it is an edit.
pub fn file_and_edits(input: &[u8]) -> (Vec<u8>, Vec<&[u8]>) {
    let mut lines = lines(input);
    let end = lines.iter().position(|line| starts_with_kind(line, END));
    let edits = match end {
        Some(end) => lines.split_off(end + 1),
        None => Vec::new(),
    };
    (lines.concat(), edits)
}

fn bench_program(mut program: Program, edits: &[&[u8]]) -> Vec<u8> {
    let mut printed = block(&program);
    for line in edits {
        match edited_by_line(&program, line) {
            Ok(after) => {
                program = after;
                printed.extend(block(&program));
            }
            Err(refusal) => printed.extend(line_of(&[REFUSED, refusal as u8])),
        }
    }
    printed
}

/// The findings of a program, ascending, then how many standings and findings there are.
fn block(program: &Program) -> Vec<u8> {
    let analysis = analyze(program);
    let mut printed = Vec::new();
    for &finding in &analysis.findings {
        let at = program.sizes().standing(finding as usize);
        printed.extend(line_of(&frame(FINDING, &at.numbers())));
    }
    let [high, low] = two_numbers(analysis.standings() as usize);
    let [findings_high, findings_low] = two_numbers(analysis.findings.len());
    let counts = [COUNTS, high, low, findings_high, findings_low];
    printed.extend(line_of(&counts));
    printed
}

#[cfg(test)]
mod tests {
    use super::*;
    use crate::cases;

    #[test]
    fn named_inputs_print_what_they_should() {
        for case in cases::inputs::all() {
            let printed = String::from_utf8(bench(&case.input)).expect("digits");
            assert_eq!(printed, case.printed, "{}", case.name);
        }
    }
}
