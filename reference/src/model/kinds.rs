//! The kinds of lines: what a line's first number says that it is.

/// A kind, and how many numbers follow it on its line.
#[derive(Clone, Copy, Debug, PartialEq, Eq)]
pub struct Kind {
    pub number: u8,
    pub follow: usize,
}

pub const fn kind(number: u8, follow: usize) -> Kind {
    Kind { number, follow }
}

pub const SIZES: u8 = 0x50;
pub const ROUTINE: u8 = 0x52;
pub const STEP: u8 = 0x53;
pub const RULE: u8 = 0x54;
pub const ROW: u8 = 0x55;
pub const START: u8 = 0x49;
pub const FORBIDDEN: u8 = 0x46;
pub const END: u8 = 0x45;

/// The kinds of frames, for so many states: more than 8 need a second number of bits in a row.
pub const fn frames(states: u8) -> [Kind; 8] {
    let of_row = if states > 8 { 7 } else { 6 };
    [
        kind(SIZES, 3),
        kind(ROUTINE, 2),
        kind(STEP, 4),
        kind(RULE, 3),
        kind(ROW, of_row),
        kind(START, 1),
        kind(FORBIDDEN, 1),
        kind(END, 2),
    ]
}

/// The kinds of frames while no sizes are known.
pub const FRAMES: [Kind; 8] = frames(0);

/// The order in which the kinds of frames stand in a file. Rows stand where the rule lines would.
const PLACES: [&[u8]; 7] = [
    &[SIZES],
    &[ROUTINE],
    &[STEP],
    &[RULE, ROW],
    &[START],
    &[FORBIDDEN],
    &[END],
];

pub const ADD: u8 = 0x2B;
pub const DROP: u8 = 0x2D;
pub const REPLACE: u8 = 0x3D;

/// The kinds of edit lines.
pub const EDITS: [Kind; 3] = [kind(ADD, 4), kind(DROP, 4), kind(REPLACE, 5)];

/// The kinds of lines in the text of an exchange.
pub const EXCHANGES: [Kind; 2] = [kind(ROUTINE, 2), kind(STEP, 4)];

pub const STANDING: u8 = 0x4D;

/// The kinds of lines in the frames of a saved sheet.
pub const SAVED: [Kind; 2] = [kind(STANDING, 4), kind(END, 2)];

/// The kinds of lines that `bench` prints.
pub const FINDING: u8 = 0x58;
pub const COUNTS: u8 = 0x5A;
pub const REFUSED: u8 = 0x21;

/// How many numbers follow a kind; None if it is none of these.
pub fn count_of_numbers(kinds: &[Kind], number: u8) -> Option<usize> {
    let known = kinds.iter().find(|kind| kind.number == number);
    known.map(|kind| kind.follow)
}

/// Where a kind of frame stands in the order of a file; None if there is no such kind.
pub fn place_of_frame(number: u8) -> Option<usize> {
    PLACES.iter().position(|kinds| kinds.contains(&number))
}
