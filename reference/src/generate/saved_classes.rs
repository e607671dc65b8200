//! Classes of what moves saved sheets, and counts of them, so that it shows which were met: of programs by
//! what 24 judges and by how much they have to save, of outputs by their length, and of the refusals that
//! one call meets together.

use crate::generate::met::{holding, Times};
use crate::generate::saved::MOST_FRAMES;
use crate::generate::tables::has_rows;
use crate::model::calls::saved::Known;
use crate::model::file::Reading;
use crate::model::program::Program;
use crate::model::refusals::{
    FileRefusal, FOREIGN_SAVED, NOT_FORMER, OUTPUT_SHORT, SHEET_LENGTH, WORK_LENGTH,
};
use crate::model::saved::{Saved, Way, FORMER_RULE_LINES, FORMER_SIZES, OLD_SHEET, WAYS};

#[derive(Clone, Copy, Debug, PartialEq, Eq, PartialOrd, Ord)]
pub enum SavedClass {
    /// Not 24, with as much as there could once be.
    Places16,
    States8,
    Lines256,
    /// Not 24, with a rule put down in rows, and with a table that makes 256 lines.
    InRows,
    Table256,
    /// Nothing occurs, or so much that the count needs its high number.
    NoStanding,
    ManyStandings,
    /// More than half of an old sheet is marked, and all of it.
    MostStandings,
    EveryStanding,
    /// The old numbers are those of today.
    NumbersOfToday,
    /// 24 by one thing alone, one too many of it.
    Places17,
    States9,
    Lines257,
    /// 24, and only main is too long, or only another routine.
    LongMain,
    LongOther,
    /// 24 by two things or three.
    Several,
}

use SavedClass::*;
use Way::*;

/// Those of programs with as much of something as there could once be, or more.
const OF_EDGES: [SavedClass; 11] = [
    Places16, States8, Lines256, InRows, Table256, Places17, States9, Lines257, LongMain,
    LongOther, Several,
];

/// Those by how much there is to save, and those of the largest programs.
const OF_STANDINGS: [SavedClass; 2] = [NoStanding, ManyStandings];
const OF_LARGE: [SavedClass; 3] = [MostStandings, EveryStanding, NumbersOfToday];

/// How many programs of each class were met.
#[derive(Clone, Debug, Default)]
pub struct MetSaved {
    times: Times<SavedClass>,
}

impl MetSaved {
    pub fn note(&mut self, file: &[u8], program: &Program, saved: &Option<Saved>) {
        self.times.note(match saved {
            Some(saved) => former(file, saved),
            None => too_much(program),
        });
    }

    /// Each class of programs at the edges has to be met so many times at the least.
    pub fn check_edges(&self, least: usize) {
        self.times.check(OF_EDGES, least);
    }

    /// Programs with nothing to save and with much have to be met so many times at the least.
    pub fn check_standings(&self, least: usize) {
        self.times.check(OF_STANDINGS, least);
    }

    /// Each class of the largest programs has to be met.
    pub fn check_large(&self) {
        self.times.check(OF_LARGE, 1);
    }
}

fn former(file: &[u8], saved: &Saved) -> Vec<SavedClass> {
    let (sizes, count) = (saved.program.sizes(), saved.standings.len());
    let is_full = saved.program.rule.len() == FORMER_RULE_LINES;
    holding(&[
        (sizes.places == FORMER_SIZES.places, Places16),
        (sizes.states == FORMER_SIZES.states, States8),
        (is_full, Lines256),
        (has_rows(file), InRows),
        (has_rows(file) && is_full, Table256),
        (count == 0, NoStanding),
        (count > 255, ManyStandings),
        (count > OLD_SHEET / 2, MostStandings),
        (count == OLD_SHEET, EveryStanding),
        (sizes == FORMER_SIZES, NumbersOfToday),
    ])
}

fn too_much(program: &Program) -> Vec<SavedClass> {
    let sizes = program.sizes();
    let is_long = |places: &u8| *places > FORMER_SIZES.places;
    let (main, others) = program.places.split_at(1);
    let (main, others) = (main.iter().any(is_long), others.iter().any(is_long));
    let lines = program.rule.len();
    let ways = [
        sizes.places > FORMER_SIZES.places,
        sizes.states > FORMER_SIZES.states,
        lines > FORMER_RULE_LINES,
    ];
    let alone = ways.iter().filter(|&&way| way).count() == 1;
    holding(&[
        (alone && sizes.places == FORMER_SIZES.places + 1, Places17),
        (alone && sizes.states == FORMER_SIZES.states + 1, States9),
        (alone && lines == FORMER_RULE_LINES + 1, Lines257),
        (alone && main && !others, LongMain),
        (alone && others && !main, LongOther),
        (!alone, Several),
    ])
}

/// A call that moves a saved sheet: what is known of its file, the old sheet or the frames that it is given,
/// and how long its output and its working buffer are.
pub struct Moving<'a> {
    pub way: Way,
    pub reading: &'a Reading,
    pub known: &'a Known,
    pub given: &'a [u8],
    pub output: usize,
    pub work: usize,
}

impl Moving<'_> {
    /// Every refusal that the call meets, whichever decides, in the order of judging. What is asked of a
    /// program is not met where there is none. Here 25 is met by all but the program's own.
    pub fn refusals(&self) -> Vec<u32> {
        let of_file = self.reading.as_ref().err();
        let program = self.reading.as_ref().ok();
        let other_length = self.way == Over && self.given.len() != OLD_SHEET;
        let is_foreign = |saved: &Saved| self.given != saved.forms(self.way)[0];
        let is_short = |needed| self.output < needed;
        holding(&[
            (of_file.is_some(), of_file.map_or(0, FileRefusal::number)),
            (matches!(self.known, Ok(None)), NOT_FORMER),
            (other_length, SHEET_LENGTH),
            (
                program.map_or(false, |program| self.work != program.sizes().length()),
                WORK_LENGTH,
            ),
            (
                !other_length && self.saved().map_or(false, is_foreign),
                FOREIGN_SAVED,
            ),
            (self.needed().map_or(false, is_short), OUTPUT_SHORT),
        ])
    }

    fn saved(&self) -> Option<&Saved> {
        self.known.as_ref().ok().and_then(Option::as_ref)
    }

    /// How long the output has to be, as far as there is an answer.
    fn needed(&self) -> Option<usize> {
        match self.way {
            Over => self.saved().map(|saved| saved.frames.len()),
            Back => Some(OLD_SHEET),
        }
    }
}

/// Outputs of calls that nothing but 10 could refuse.
#[derive(Clone, Copy, Debug, PartialEq, Eq, PartialOrd, Ord)]
pub enum OutputClass {
    NoBytes,
    OneShort,
    Exact,
    OneLonger,
    /// As long as the longest frames, where fewer bytes are needed, and longer.
    MostFrames,
    Longest,
}

use OutputClass::*;

const OUTPUTS: [OutputClass; 6] = [NoBytes, OneShort, Exact, OneLonger, MostFrames, Longest];

/// The refusals of which a call has to meet both, the first of which decides.
const TOGETHER: [(Way, u32, u32); 12] = [
    (Over, NOT_FORMER, SHEET_LENGTH),
    (Over, NOT_FORMER, WORK_LENGTH),
    (Over, SHEET_LENGTH, WORK_LENGTH),
    (Over, SHEET_LENGTH, OUTPUT_SHORT),
    (Over, WORK_LENGTH, FOREIGN_SAVED),
    (Over, WORK_LENGTH, OUTPUT_SHORT),
    (Over, FOREIGN_SAVED, OUTPUT_SHORT),
    (Back, NOT_FORMER, WORK_LENGTH),
    (Back, NOT_FORMER, OUTPUT_SHORT),
    (Back, WORK_LENGTH, FOREIGN_SAVED),
    (Back, WORK_LENGTH, OUTPUT_SHORT),
    (Back, FOREIGN_SAVED, OUTPUT_SHORT),
];

/// How many calls were met that meet two refusals, by both, and how many with an output of each class.
#[derive(Clone, Debug, Default)]
pub struct MetMoving {
    together: Times<(Way, u32, u32)>,
    outputs: Times<(Way, OutputClass)>,
}

impl MetMoving {
    pub fn note(&mut self, moving: &Moving) {
        let refusals = moving.refusals();
        if let Some((&first, later)) = refusals.split_first() {
            let both = later.iter().map(|&other| (moving.way, first, other));
            self.together.note(both);
        }
        if refusals.iter().all(|&refusal| refusal == OUTPUT_SHORT) {
            let classes = output_classes(moving).into_iter();
            self.outputs.note(classes.map(|class| (moving.way, class)));
        }
    }

    /// Each class of outputs has to be met so many times at the least.
    pub fn check_outputs(&self, least: usize) {
        for way in WAYS {
            self.outputs.check(OUTPUTS.map(|class| (way, class)), least);
        }
    }

    /// Whatever a call can meet of an accepted file has to be met together so many times at the least.
    pub fn check_together(&self, least: usize) {
        self.together.check(TOGETHER, least);
    }

    /// Each of these refusals of a file has to be met with all that can be asked without its program.
    pub fn check_of_files(&self, refusals: impl IntoIterator<Item = u32>, least: usize) {
        for refusal in refusals {
            let both = [(Over, refusal, SHEET_LENGTH), (Back, refusal, OUTPUT_SHORT)];
            self.together.check(both, least);
        }
    }
}

fn output_classes(moving: &Moving) -> Vec<OutputClass> {
    let (needed, length) = (moving.needed().unwrap_or(0), moving.output);
    holding(&[
        (length == 0, NoBytes),
        (length + 1 == needed, OneShort),
        (length == needed, Exact),
        (length == needed + 1, OneLonger),
        (length == MOST_FRAMES && needed < length, MostFrames),
        (length > MOST_FRAMES, Longest),
    ])
}

#[cfg(test)]
mod tests {
    use super::*;
    use crate::cases::sample;
    use crate::model::file::read;

    #[test]
    fn all_refusals_of_a_call_are_seen() {
        let of = |file: &[u8], way, given: &[u8], [output, work]: [usize; 2]| {
            let reading = read(file);
            let known = reading.as_ref().map(Saved::of).map_err(FileRefusal::clone);
            Moving {
                way,
                reading: &reading,
                known: &known,
                given,
                output,
                work,
            }
            .refusals()
        };
        let saved = Saved::of(&sample::program()).expect("a former program");
        let (file, need) = (sample::FILE, saved.frames.len());
        let (sheet, frames) = (&saved.sheet[..], &saved.frames[..]);
        let empty = &[0; OLD_SHEET][..];
        assert_eq!(of(file, Over, sheet, [need, 54]), []);
        assert_eq!(of(file, Back, frames, [OLD_SHEET, 54]), []);
        assert_eq!(of(file, Over, b"", [need - 1, 53]), [9, 11, 10]);
        assert_eq!(of(file, Over, empty, [0, 0]), [11, 25, 10]);
        assert_eq!(of(file, Back, b"450000\n", [0, 54]), [25, 10]);
        assert_eq!(of(b"", Over, b"", [0, 0]), [8, 9]);
        assert_eq!(of(b"", Back, b"", [0, 0]), [8, 10]);
        let long = b"50010101\n520011\n450002\n";
        assert_eq!(of(long, Over, b"", [0, 0]), [24, 9, 11]);
        assert_eq!(of(long, Back, b"", [0, 17]), [24, 10]);
    }
}
