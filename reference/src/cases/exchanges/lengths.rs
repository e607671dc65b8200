//! The sizes that exchanges leave, worked out by hand.

use crate::cases::files::of_sizes;
use crate::cases::sample;
use crate::model::calls::sizes::SizesOfExchange;
use crate::model::calls::Answer;
use crate::model::refusals::SHEET_TOO_LARGE;

/// A file, the text of an exchange, and what is answered to the question for its sizes.
pub struct LengthCase {
    pub name: &'static str,
    pub file: Vec<u8>,
    pub text: &'static str,
    pub answer: Answer<SizesOfExchange>,
}

pub fn all() -> Vec<LengthCase> {
    let mut cases = given();
    cases.extend(refused());
    cases
}

fn case(
    name: &'static str,
    file: &[u8],
    text: &'static str,
    [places, second, work]: [u32; 3],
) -> LengthCase {
    let sizes = SizesOfExchange {
        places,
        second,
        work,
    };
    LengthCase {
        name,
        file: file.to_vec(),
        text,
        answer: Answer::from(Ok(sizes)),
    }
}

/// The sample has two routines and three states, and so 18 bytes for each place of the longest routine.
fn given() -> Vec<LengthCase> {
    let sample = sample::FILE;
    let large = &of_sizes(&[2, 40, 2, 40], 10);
    vec![
        case("for itself", sample, "520102\n5301000001\n", [3, 54, 54]),
        case("longer", sample, "520104\n", [4, 72, 72]),
        case("the longest", sample, "520040\n", [64, 1152, 1152]),
        case("shorter", sample, "520002\n", [2, 36, 54]),
        case("not the longest", sample, "520103\n", [3, 54, 54]),
        case("of 16,000", large, "520028\n", [40, 16_000, 16_000]),
        case("one of two long", large, "520102\n", [40, 16_000, 16_000]),
    ]
}

fn refused() -> Vec<LengthCase> {
    let large = of_sizes(&[2, 40, 2, 40], 10);
    let too_large = of_sizes(&[2, 41, 2, 40], 10);
    let case = |name, file: &[u8], text, refusal, line| LengthCase {
        name,
        file: file.to_vec(),
        text,
        answer: Answer::refused(refusal, line),
    };
    vec![
        case("no file", b"", "520102\n", 8, 1),
        case(
            "a file too large",
            &too_large,
            "520102\n",
            SHEET_TOO_LARGE,
            0,
        ),
        case("no text", sample::FILE, "", 12, 0),
        case("65 places", sample::FILE, "520141\n", 13, 0),
        case("a step first", sample::FILE, "5301000001\n", 21, 0),
        case("a 41st place", &large, "520029\n", SHEET_TOO_LARGE, 0),
    ]
}
