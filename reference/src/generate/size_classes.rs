//! Classes of files by their sizes, and counts of them, so that it shows which were met.
//!
//! Of an accepted file the program counts; of a refused one the line that decides, or its sizes.

use crate::generate::met::{holding, Times};
use crate::generate::shapes::room_for_places;
use crate::model::file::Reading;
use crate::model::kinds::{ROUTINE, RULE, SIZES};
use crate::model::lines::{lines, numbers_of_line};
use crate::model::program::{Program, MOST_PLACES, MOST_RULE_LINES, MOST_STATES};
use crate::model::refusals::{FileRefusal, RANGE, SHEET_TOO_LARGE, TABLE_FULL};
use crate::model::standing::MOST_SHEET;

#[derive(Clone, Copy, Debug, PartialEq, Eq, PartialOrd, Ord)]
pub enum SizeClass {
    /// Accepted: one routine of two places and one state, and other small sheets.
    Smallest,
    Small,
    /// More than were admitted before programs had sizes of their own, and as many as there may be.
    ManyPlaces,
    MostPlaces,
    ManyStates,
    MostStates,
    ManyRuleLines,
    MostRuleLines,
    /// The longest sheet there can be.
    MostBytes,
    /// Some routine is shorter than the longest.
    Uneven,
    /// 23, and with one place less there would be none.
    TooLarge,
    OnePlaceTooMany,
    /// 5 for 17 states and for 65 places, 6 for a 513th rule line.
    States17,
    Places65,
    Line513,
}

use SizeClass::*;

/// All that have to be met.
const ALL: [SizeClass; 15] = [
    Smallest,
    Small,
    ManyPlaces,
    MostPlaces,
    ManyStates,
    MostStates,
    ManyRuleLines,
    MostRuleLines,
    MostBytes,
    Uneven,
    TooLarge,
    OnePlaceTooMany,
    States17,
    Places65,
    Line513,
];

/// Those of accepted files.
const ACCEPTED: [SizeClass; 10] = [
    Smallest,
    Small,
    ManyPlaces,
    MostPlaces,
    ManyStates,
    MostStates,
    ManyRuleLines,
    MostRuleLines,
    MostBytes,
    Uneven,
];

/// How many files of each class were met.
#[derive(Clone, Debug, Default)]
pub struct MetSizes {
    times: Times<SizeClass>,
}

impl MetSizes {
    pub fn note(&mut self, file: &[u8], reading: &Reading) {
        self.times.note(match reading {
            Ok(program) => accepted(program),
            Err(refusal) => refused(file, refusal),
        });
    }

    /// Each class has to be met so many times at the least.
    pub fn check(&self, least: usize) {
        self.times.check(ALL, least);
    }

    /// Each class of accepted files has to be met so many times at the least.
    pub fn check_accepted(&self, least: usize) {
        self.times.check(ACCEPTED, least);
    }
}

fn accepted(program: &Program) -> Vec<SizeClass> {
    let (sizes, lines) = (program.sizes(), program.rule.len());
    let is_shorter = |&places: &u8| places < sizes.places;
    holding(&[
        (sizes.length() == 2, Smallest),
        (sizes.length() <= 100, Small),
        (sizes.places > 16, ManyPlaces),
        (sizes.places == MOST_PLACES, MostPlaces),
        (sizes.states > 8, ManyStates),
        (sizes.states == MOST_STATES, MostStates),
        (lines > 256, ManyRuleLines),
        (lines == MOST_RULE_LINES, MostRuleLines),
        (sizes.length() == MOST_SHEET, MostBytes),
        (program.places.iter().any(is_shorter), Uneven),
    ])
}

fn refused(file: &[u8], refusal: &FileRefusal) -> Vec<SizeClass> {
    let lines = lines(file);
    let numbers = |at: usize| {
        let numbers = lines.get(at).and_then(|line| numbers_of_line(line));
        numbers.unwrap_or_default()
    };
    let last = numbers((refusal.line as usize).saturating_sub(1));
    match (refusal.number(), &last[..]) {
        (SHEET_TOO_LARGE, _) => too_large(&numbers(0), &lines),
        (RANGE, [SIZES, _, 17, _]) => vec![States17],
        (RANGE, [ROUTINE, _, 65]) => vec![Places65],
        (TABLE_FULL, [RULE, ..]) => vec![Line513],
        _ => Vec::new(),
    }
}

/// The classes of a file with these sizes whose routines leave too long a sheet.
fn too_large(sizes: &[u8], lines: &[&[u8]]) -> Vec<SizeClass> {
    let frames = lines.iter().filter_map(|line| numbers_of_line(line));
    let routines = frames.filter(|frame| frame[0] == ROUTINE);
    let places = routines.map(|frame| usize::from(frame[2])).max();
    let room = room_for_places(sizes[1].into(), sizes[2].into());
    holding(&[
        (true, TooLarge),
        (places == Some(room + 1), OnePlaceTooMany),
    ])
}
