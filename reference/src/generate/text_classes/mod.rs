//! Classes of exchanges, and counts of them, so that it shows which were met.
//!
//! A call's classes are read off what it got and what was answered, whatever its text was made for.
//! Each class belongs to one answer: `refused` has those of the refusals, and `accepted` the others.

mod accepted;
mod refused;

use crate::generate::met::Times;
use crate::model::calls::repairs::Function;
use crate::model::exchange::{exchange_of_text, exchanged, frame_in_range, ranges_of_text};
use crate::model::file::Frame;
use crate::model::kinds::{EXCHANGES, ROUTINE, STEP};
use crate::model::lines::{lines, numbers_of_kind};
use crate::model::program::{Program, Step, MOST_STEPS};
use crate::model::ranges::Ranges;
use crate::model::refusals::{
    BAD_EDIT, EDIT_RANGE, EXCHANGE_ORDER, FOREIGN_SHEET, SHEET_TOO_LARGE, STEPS_FULL,
};
use crate::model::standing::{Sizes, Standing};
use std::collections::BTreeSet;

/// The answers that have classes: those to an exchange whose text was judged.
pub const JUDGED: [u32; 7] = [
    0,
    BAD_EDIT,
    EDIT_RANGE,
    EXCHANGE_ORDER,
    STEPS_FULL,
    SHEET_TOO_LARGE,
    FOREIGN_SHEET,
];

fn classes_of(refusal: u32) -> &'static [Class] {
    match refusal {
        0 => &accepted::ALL,
        BAD_EDIT => &refused::NO_FRAME,
        EDIT_RANGE => &refused::OUT_OF_RANGE,
        EXCHANGE_ORDER => &refused::OUT_OF_ORDER,
        STEPS_FULL => &refused::TOO_MANY,
        SHEET_TOO_LARGE => &refused::TOO_LARGE,
        FOREIGN_SHEET => &refused::FOREIGN,
        _ => &[],
    }
}

/// A name, and what an exchange of this class is like.
type Class = (&'static str, fn(&Exchanging) -> bool);

/// How often each class was met, by the function that was called and its answer.
#[derive(Clone, Debug, Default)]
pub struct MetTexts {
    times: Times<(Function, u32, &'static str)>,
}

impl MetTexts {
    /// Notes a call of a function with this answer, if its text was judged.
    pub fn note(&mut self, function: Function, refusal: u32, exchanging: &Exchanging) {
        let classes = classes_of(refusal).iter();
        let holding = classes.filter(|(_, holds)| holds(exchanging));
        let met = holding.map(|&(name, _)| (function, refusal, name));
        self.times.note(met);
    }

    /// Each class of these answers has to be met so many times at the least, by each of the functions.
    pub fn check(&self, functions: &[Function], refusals: &[u32], least: usize) {
        for &function in functions {
            for &refusal in refusals {
                let names = classes_of(refusal).iter().map(|&(name, _)| name);
                let classes = names.map(|name| (function, refusal, name));
                self.times.check(classes, least);
            }
        }
    }
}

/// An exchange to be classed: the program and the text that the call got, and the sheet that it got and
/// the one that there is after it, of the new program if it is accepted.
pub struct Exchanging<'a> {
    program: &'a Program,
    lent: &'a [u8],
    left: &'a [u8],
    /// What both mark, where they have the lengths of the two programs.
    old: BTreeSet<Standing>,
    new: BTreeSet<Standing>,
    lines: Vec<&'a [u8]>,
    /// The frames of the lines that have one.
    frames: Vec<Frame>,
    ranges: Ranges,
    /// The program after it, where it is not refused before 17.
    after: Option<Program>,
}

impl Exchanging<'_> {
    pub fn new<'a>(
        program: &'a Program,
        text: &'a [u8],
        lent: &'a [u8],
        left: &'a [u8],
    ) -> Exchanging<'a> {
        let lines = lines(text);
        let frames = lines.iter();
        let frames = frames.flat_map(|line| numbers_of_kind(&EXCHANGES, line));
        let frames: Vec<Frame> = frames.collect();
        let exchange = exchange_of_text(program, text);
        let after = exchange.and_then(|new| exchanged(program, &new)).ok();
        let sizes_after = after.as_ref().unwrap_or(program).sizes();
        Exchanging {
            program,
            lent,
            left,
            old: standings(program.sizes(), lent),
            new: standings(sizes_after, left),
            ranges: ranges_of_text(program, &frames),
            after,
            lines,
            frames,
        }
    }

    /// The lines that have no frame.
    fn bad_lines(&self) -> impl Iterator<Item = &[u8]> + '_ {
        let lines = self.lines.iter().copied();
        lines.filter(|line| numbers_of_kind(&EXCHANGES, line).is_err())
    }

    /// The routine and the count of a leading 52.
    fn leading(&self) -> Option<(u8, u8)> {
        let first = self.frames.first()?;
        Some((first[1], first[2])).filter(|_| first[0] == ROUTINE)
    }

    /// The routine that the first frame names.
    fn routine(&self) -> u8 {
        self.frames.first().map_or(0, |first| first[1])
    }

    /// The routines and the counts of the 52 frames that are not the first.
    fn later_routines(&self) -> impl Iterator<Item = (u8, u8)> + '_ {
        let later = self.frames.iter().skip(1);
        let later = later.filter(|frame| frame[0] == ROUTINE);
        later.map(|frame| (frame[1], frame[2]))
    }

    fn steps(&self) -> impl Iterator<Item = Step> + '_ {
        let steps = self.frames.iter().filter(|frame| frame[0] == STEP);
        steps.map(|frame| Step::of_numbers(&frame[1..]))
    }

    /// The steps of the routine that the first frame names, and those of others.
    fn own_steps(&self) -> impl Iterator<Item = Step> + '_ {
        self.steps().filter(|step| step.routine == self.routine())
    }

    fn others_steps(&self) -> impl Iterator<Item = Step> + '_ {
        self.steps().filter(|step| step.routine != self.routine())
    }

    /// How many places a routine has before the exchange; 0 where there is no such routine.
    fn old_places(&self, routine: u8) -> u8 {
        let places = self.program.places.get(usize::from(routine));
        places.copied().unwrap_or(0)
    }

    /// How many steps the program has in other routines than the one that the first frame names.
    fn others(&self) -> usize {
        let own = self.program.steps_of(self.routine()).count();
        self.program.steps.len() - own
    }

    /// Where the frames stand that are out of range.
    fn out_of_range(&self) -> Vec<usize> {
        let frames = 0..self.frames.len();
        frames
            .filter(|&at| !frame_in_range(&self.ranges, &self.frames[at]))
            .collect()
    }

    /// Whether there are more steps than there is room for, in order or not.
    fn has_too_many(&self) -> bool {
        self.others() + self.steps().count() > MOST_STEPS
    }

    fn is_long(&self) -> bool {
        self.lines.len() > 1_000
    }
}

/// What a sheet marks; nothing where it does not have the length for these sizes.
fn standings(sizes: Sizes, sheet: &[u8]) -> BTreeSet<Standing> {
    match sheet.len() == sizes.length() {
        true => sizes.standings(sheet),
        false => BTreeSet::new(),
    }
}

/// The highest place that a step has.
fn last_place(step: &Step) -> u8 {
    step.from.max(step.to)
}
