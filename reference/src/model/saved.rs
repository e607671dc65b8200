//! Saved sheets. The old form is a sheet by the sizes that all programs once had; the new form is frames,
//! one for each standing, ascending, and an end frame with their count.
//!
//! Frames are judged here by what may be wrong with them, one thing after the other, and not by what the
//! program's own look like: that this comes to the same is for the tests to show.

use crate::model::fresh::work_in;
use crate::model::kinds::{END, SAVED, STANDING};
use crate::model::lines::{lines, numbers_of_kind, text_of, two_numbers};
use crate::model::program::Program;
use crate::model::refusals::{BAD_LINE, UNKNOWN_KIND};
use crate::model::standing::{Sizes, Standing};
use crate::model::write::{end, frame};
use std::collections::BTreeSet;

/// The sizes that every program was numbered by: as many as there could be of everything.
pub const FORMER_SIZES: Sizes = Sizes {
    routines: 16,
    places: 16,
    states: 8,
};

/// How many rule lines a program could have then.
pub const FORMER_RULE_LINES: usize = 256;

/// How many bytes an old sheet has, whatever the program.
pub const OLD_SHEET: usize = 16_384;

/// Whether a program could be put down when these were its sizes.
pub fn is_former(program: &Program) -> bool {
    let own = program.sizes();
    own.places <= FORMER_SIZES.places
        && own.states <= FORMER_SIZES.states
        && program.rule.len() <= FORMER_RULE_LINES
}

/// Which way a saved sheet is moved.
#[derive(Clone, Copy, Debug, PartialEq, Eq, PartialOrd, Ord)]
pub enum Way {
    /// From an old sheet to frames.
    Over,
    /// From frames to an old sheet.
    Back,
}

use Way::*;

pub const WAYS: [Way; 2] = [Over, Back];

/// A program with its saved sheet in both forms.
#[derive(Clone, Debug)]
pub struct Saved {
    pub program: Program,
    pub standings: BTreeSet<Standing>,
    pub sheet: Vec<u8>,
    pub frames: Vec<u8>,
}

/// What can be wrong with frames.
#[derive(Clone, Copy, Debug, PartialEq, Eq, PartialOrd, Ord)]
pub enum Fault {
    /// A line is empty, has an odd count of digits or another character, or no 0A.
    BadLine,
    OtherKind,
    WrongCount,
    /// A standing is not above the one before.
    Order,
    OutOfRange,
    /// A standing is in range, and cannot occur.
    TooMany,
    /// A standing that can occur is not there.
    TooFew,
    NoEnd,
    /// The end frame's count is not that of the standings before it.
    EndCount,
    AfterEnd,
}

use Fault::*;

pub const FAULTS: [Fault; 10] = [
    BadLine, OtherKind, WrongCount, Order, OutOfRange, TooMany, TooFew, NoEnd, EndCount, AfterEnd,
];

impl Saved {
    /// What there is to save of a program; None where it meets 24, and so has no old sheet.
    pub fn of(program: &Program) -> Option<Saved> {
        if !is_former(program) {
            return None;
        }
        let fresh = work_in(FORMER_SIZES, program);
        let standings: BTreeSet<Standing> = fresh.by_parts().into_keys().collect();
        Some(Saved {
            program: program.clone(),
            sheet: fresh.marked.into_iter().map(u8::from).collect(),
            frames: frames_of(&standings),
            standings,
        })
    }

    /// The form that is moved this way, and the one that it is moved to.
    pub fn forms(&self, way: Way) -> [&[u8]; 2] {
        match way {
            Over => [&self.sheet, &self.frames],
            Back => [&self.frames, &self.sheet],
        }
    }

    /// Everything that is wrong with a text as this program's frames. Of what follows an end frame
    /// nothing is asked but that there is none.
    pub fn faults(&self, text: &[u8]) -> BTreeSet<Fault> {
        let mut faults = BTreeSet::new();
        let mut standings: Vec<Standing> = Vec::new();
        let mut lines = lines(text).into_iter();
        let ended = lines.any(|line| match numbers_of_kind(&SAVED, line) {
            Err(refusal) => {
                faults.insert(fault_of_line(refusal));
                false
            }
            Ok(frame) if frame[0] == END => {
                faults.extend(fault_of_end(standings.len(), &frame));
                true
            }
            Ok(frame) => {
                let at = Standing::of_numbers(&frame[1..]);
                faults.extend(self.faults_of_standing(standings.last(), at));
                standings.push(at);
                false
            }
        });
        faults.extend((!ended).then_some(NoEnd));
        faults.extend(lines.next().map(|_| AfterEnd));
        faults.extend(self.fault_of_all(standings));
        faults
    }

    /// What is wrong with a text where nothing else is.
    pub fn only_fault(&self, text: &[u8]) -> Option<Fault> {
        let faults = self.faults(text);
        faults.iter().find(|_| faults.len() == 1).copied()
    }

    /// What is wrong with a standing after another, or as the first.
    fn faults_of_standing(&self, before: Option<&Standing>, at: Standing) -> Vec<Fault> {
        let mut faults = Vec::new();
        if before.map_or(false, |before| *before >= at) {
            faults.push(Order);
        }
        if !self.in_range(at) {
            faults.push(OutOfRange);
        } else if !self.standings.contains(&at) {
            faults.push(TooMany);
        }
        faults
    }

    /// Whether the program has such a routine, such a place in it, and such states.
    pub fn in_range(&self, at: Standing) -> bool {
        let (places, states) = (&self.program.places, self.program.states);
        let places = places.get(usize::from(at.routine));
        places.map_or(false, |&places| at.place < places) && at.root < states && at.state < states
    }

    /// What is wrong with all standings of a text together.
    fn fault_of_all(&self, standings: Vec<Standing>) -> Option<Fault> {
        let given: BTreeSet<Standing> = standings.into_iter().collect();
        (!given.is_superset(&self.standings)).then_some(TooFew)
    }
}

/// The frames of these standings, as text.
pub fn frames_of(standings: &BTreeSet<Standing>) -> Vec<u8> {
    let standings = standings.iter();
    let mut frames: Vec<Vec<u8>> = standings.map(|at| frame(STANDING, &at.numbers())).collect();
    frames.push(end(frames.len()));
    text_of(&frames)
}

/// What 1, 2 and 3 of a file's line are for a line of frames.
fn fault_of_line(refusal: u32) -> Fault {
    match refusal {
        BAD_LINE => BadLine,
        UNKNOWN_KIND => OtherKind,
        _ => WrongCount,
    }
}

fn fault_of_end(count: usize, frame: &[u8]) -> Option<Fault> {
    (frame[1..] != two_numbers(count)).then_some(EndCount)
}

#[cfg(test)]
mod tests {
    use super::*;
    use crate::cases::{self, sample};
    use crate::generate::damage::one_byte_wrong;
    use crate::generate::met::Times;
    use crate::generate::programs::program_of_seed;
    use crate::generate::random::Random;
    use crate::generate::saved::frames::{damaged, FramesDamage, FRAMES_DAMAGES};
    use crate::model::analysis::own_sheet;
    use crate::model::file::read;
    use crate::model::standing::marked;

    fn saved_of(file: &[u8]) -> Option<Saved> {
        Saved::of(&read(file).expect("the file is accepted"))
    }

    #[test]
    fn cases_worked_out_by_hand() {
        assert_eq!(FORMER_SIZES.length(), OLD_SHEET);
        for case in cases::saved::all() {
            let saved = saved_of(&case.file).expect("a former program");
            assert_eq!(marked(&saved.sheet), case.marks, "{}", case.name);
            assert!(saved.sheet.iter().all(|&byte| byte <= 1), "{}", case.name);
            assert_eq!(saved.frames, case.frames, "{}", case.name);
        }
    }

    /// A part of the sample's frames, what is put in its place, and the one fault that this makes.
    const CHANGES: [(&str, &str, Fault); 13] = [
        ("4D00020001", " 4D00020001", BadLine),
        ("4D00020001", "5300020001 4D00020001", OtherKind),
        ("4D00020001", "4D000200 4D00020001", WrongCount),
        ("4D00010001 4D00020001", "4D00020001 4D00010001", Order),
        ("4D01010001 450005", "4D01010001 4D01010001 450006", Order),
        (
            "4D01010001 450005",
            "4D01010001 4D01020001 450006",
            OutOfRange,
        ),
        ("4D01010001 450005", "4D01010001 4D01010002 450006", TooMany),
        ("4D01010001 450005", "450004", TooFew),
        ("450005 ", "", NoEnd),
        ("450005", "450004", EndCount),
        ("450005", "450105", EndCount),
        ("450005 ", "450005 450005 ", AfterEnd),
        ("450005 ", "450005  ", AfterEnd),
    ];

    #[test]
    fn each_fault_can_be_the_only_one() {
        let saved = saved_of(sample::FILE).expect("a former program");
        let own = "4D00000000 4D00010001 4D00020001 4D01000000 4D01010001 450005 ";
        let lines = |text: &str| text.replace(' ', "\n").into_bytes();
        assert_eq!(saved.faults(&lines(own)), BTreeSet::new());
        for (part, other, fault) in CHANGES {
            let text = own.replace(part, other);
            assert_eq!(saved.only_fault(&lines(&text)), Some(fault), "{text}");
        }
    }

    /// Frames have a fault exactly where they are not the one text that is the program's own.
    fn check(saved: &Saved, text: &[u8], name: &str) {
        let is_accepted = saved.faults(text).is_empty();
        let input = text.escape_ascii();
        assert_eq!(is_accepted, text == saved.frames, "{name}: {input}");
    }

    #[test]
    fn frames_have_no_fault_where_they_are_the_one_text_and_nowhere_else() {
        let (mut alone, mut done) = (Times::<Fault>::default(), Times::<FramesDamage>::default());
        for seed in 0..400 {
            let random = &mut Random::new(seed);
            let saved = match Saved::of(&program_of_seed(seed)) {
                Some(saved) if saved.standings.len() < 2_000 => saved,
                _ => continue,
            };
            check(&saved, &saved.frames, &format!("seed {seed}"));
            for damage in FRAMES_DAMAGES {
                if let Some(text) = damaged(random, &saved, damage) {
                    check(&saved, &text, &format!("{damage:?}, seed {seed}"));
                    done.note([damage]);
                    alone.note(saved.only_fault(&text));
                }
            }
        }
        println!("{done:?}, {alone:?}");
        done.check(FRAMES_DAMAGES, 50);
        alone.check(FAULTS, 50);
    }

    #[test]
    fn one_byte_makes_a_fault() {
        for case in cases::saved::all() {
            let saved = saved_of(&case.file).expect("a former program");
            for (name, text) in one_byte_wrong(&saved.frames, b"0145DFd\n\r\0") {
                check(&saved, &text, name);
            }
        }
    }

    /// An old sheet marks what today's sheet marks, by other numbers, and nothing else.
    #[test]
    fn both_sheets_mark_the_same_standings() {
        let (mut former, mut others) = (0, 0);
        for seed in 0..400 {
            let program = program_of_seed(seed);
            let saved = match Saved::of(&program) {
                Some(saved) => saved,
                None => {
                    others += 1;
                    continue;
                }
            };
            let today = program.sizes().standings(&own_sheet(&program));
            assert_eq!(FORMER_SIZES.standings(&saved.sheet), today, "seed {seed}");
            assert_eq!(saved.standings, today, "seed {seed}");
            assert_eq!(saved.frames.len(), 11 * today.len() + 7, "seed {seed}");
            former += 1;
        }
        assert!(former >= 200 && others >= 20, "{former}, {others}");
    }
}
