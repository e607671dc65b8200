//! Classes of files by the first faulty pair of their table, and counts of them, so that it shows which
//! were met.

use crate::generate::classes::rows;
use crate::generate::met::{holding, Times};
use crate::generate::tables::has_rows;
use crate::model::file::Reading;
use crate::model::lines::{lines, numbers_of_line};
use crate::model::program::{MOST_ACTIONS, MOST_STATES};
use crate::model::refusals::{FileRefusal, FILE_END, PAIR_NOT_MET, SHEET_TOO_LARGE};
use crate::model::table::{line_of_pair, pairs, Pair};

#[derive(Clone, Copy, Debug, PartialEq, Eq, PartialOrd, Ord)]
pub enum PairClass {
    /// Accepted, without rows and with rows.
    InLines,
    InRows,
    /// With rows, and refused for a line or for its sizes.
    BadLine,
    TooLarge,
    /// One faulty pair: met by no row, and by more than one.
    OneNotMet,
    OneTwice,
    /// Several faulty pairs; and by action, then state, another would be the first.
    Several,
    ByState,
    /// The first pair of all, and the last.
    FirstPair,
    LastPair,
    /// The state is 8 or above, and the action 16 or above.
    HighState,
    HighAction,
    /// A table of 9 to 16 states, and the largest.
    TwoNumbers,
    MostPairs,
}

use PairClass::*;

/// All that files with rows have to meet.
const ALL: [PairClass; 13] = [
    InRows, BadLine, TooLarge, OneNotMet, OneTwice, Several, ByState, FirstPair, LastPair,
    HighState, HighAction, TwoNumbers, MostPairs,
];

/// How many files of each class were met.
#[derive(Clone, Debug, Default)]
pub struct MetPairs {
    times: Times<PairClass>,
}

impl MetPairs {
    pub fn note(&mut self, file: &[u8], reading: &Reading) {
        self.times.note(match reading {
            Ok(_) => holding(&[(has_rows(file), InRows), (!has_rows(file), InLines)]),
            Err(refusal) => refused(file, refusal),
        });
    }

    pub fn times(&self, class: PairClass) -> usize {
        self.times.of(class)
    }

    /// Each class of files with rows has to be met so many times at the least.
    pub fn check(&self, least: usize) {
        self.times.check(ALL, least);
    }
}

fn refused(file: &[u8], refusal: &FileRefusal) -> Vec<PairClass> {
    match refusal.pair {
        Some(pair) => faulty(file, refusal.number(), pair),
        None => holding(&[
            (has_rows(file) && refusal.number() <= FILE_END, BadLine),
            (
                has_rows(file) && refusal.number() == SHEET_TOO_LARGE,
                TooLarge,
            ),
        ]),
    }
}

/// The classes of a file whose table has this faulty pair first.
fn faulty(file: &[u8], refusal: u32, pair: Pair) -> Vec<PairClass> {
    let lines = lines(file);
    let sizes = numbers_of_line(lines[0]).expect("no line is faulty");
    let (states, actions) = (sizes[2], sizes[3]);
    let rows = rows(&lines, states);
    let is_faulty = |&pair: &Pair| line_of_pair(&rows, pair).is_err();
    let count = pairs(states, actions).filter(is_faulty).count();
    let mut turned = pairs(actions, states).map(|(action, state)| (state, action));
    holding(&[
        (count == 1 && refusal == PAIR_NOT_MET, OneNotMet),
        (count == 1 && refusal != PAIR_NOT_MET, OneTwice),
        (count > 1, Several),
        (turned.find(is_faulty) != Some(pair), ByState),
        (pair == (0, 0), FirstPair),
        (pair == (states - 1, actions - 1), LastPair),
        (pair.0 >= 8, HighState),
        (pair.1 >= 16, HighAction),
        (states > 8, TwoNumbers),
        ((states, actions) == (MOST_STATES, MOST_ACTIONS), MostPairs),
    ])
}
