//! Exchanges: a whole routine replaced, by a text that says how many places it has now and all its
//! steps.

use crate::model::file::{check_sizes, Frame};
use crate::model::kinds::{EXCHANGES, ROUTINE, STEP};
use crate::model::lines::{lines, numbers_of_kind, text_of};
use crate::model::program::{Program, Step, MOST_STEPS};
use crate::model::ranges::Ranges;
use crate::model::refusals::{refuse_if, BAD_EDIT, EDIT_RANGE, EXCHANGE_ORDER, STEPS_FULL};
use crate::model::write::frame;
use std::collections::BTreeSet;

/// What a routine becomes: its count of places, and all its steps.
#[derive(Clone, Debug, PartialEq, Eq)]
pub struct Exchange {
    pub routine: u8,
    pub places: u8,
    pub steps: BTreeSet<Step>,
}

impl Exchange {
    /// The exchange of a routine for itself, as this program has it.
    pub fn for_itself(program: &Program, routine: u8) -> Exchange {
        Exchange {
            routine,
            places: program.places[usize::from(routine)],
            steps: program.steps_of(routine).copied().collect(),
        }
    }

    pub fn frames(&self) -> Vec<Frame> {
        let routine = frame(ROUTINE, &[self.routine, self.places]);
        let steps = self.steps.iter();
        let steps = steps.map(|step| frame(STEP, &step.numbers()));
        std::iter::once(routine).chain(steps).collect()
    }

    pub fn text(&self) -> Vec<u8> {
        text_of(&self.frames())
    }

    /// The exchange that frames say which are in order.
    fn of_frames(frames: &[Frame]) -> Exchange {
        let steps = frames[1..].iter();
        Exchange {
            routine: frames[0][1],
            places: frames[0][2],
            steps: steps.map(|frame| Step::of_numbers(&frame[1..])).collect(),
        }
    }
}

/// The exchange that a text says for this program; or 12, 13 or 21. Each is judged over the whole
/// text before the next, so it does not matter which line comes first.
pub fn exchange_of_text(program: &Program, text: &[u8]) -> Result<Exchange, u32> {
    let frames = frames_of_text(text)?;
    let ranges = ranges_of_text(program, &frames);
    let in_range = |frame: &Frame| frame_in_range(&ranges, frame);
    refuse_if(!frames.iter().all(in_range), EDIT_RANGE)?;
    refuse_if(!in_order(&frames), EXCHANGE_ORDER)?;
    Ok(Exchange::of_frames(&frames))
}

/// The frames of a text; or 12, which is met by a text without a line too, as there is no first frame
/// to judge.
fn frames_of_text(text: &[u8]) -> Result<Vec<Frame>, u32> {
    let lines = lines(text);
    refuse_if(lines.is_empty(), BAD_EDIT)?;
    let frames = lines.into_iter();
    let frames = frames.map(|line| numbers_of_kind(&EXCHANGES, line).map_err(|_| BAD_EDIT));
    frames.collect()
}

/// What the numbers of a text are held against: for the routine that a leading 52 names, that frame's
/// count of places, and for every other the program's. A later 52 lends its count to no step.
pub fn ranges_of_text(program: &Program, frames: &[Frame]) -> Ranges {
    let mut ranges = Ranges::of_program(program);
    if let Some([ROUTINE, routine, places]) = frames.first().map(|first| &first[..]) {
        if let Some(count) = ranges.places.get_mut(usize::from(*routine)) {
            *count = *places;
        }
    }
    ranges
}

/// Whether a frame does not meet 13.
pub fn frame_in_range(ranges: &Ranges, frame: &Frame) -> bool {
    match frame[0] {
        ROUTINE => ranges.has_routine(frame[1], frame[2]),
        _ => ranges.has_step(Step::of_numbers(&frame[1..])),
    }
}

/// Whether frames do not meet 21: a 52 comes first, and then nothing but its routine's steps, ascending.
pub fn in_order(frames: &[Frame]) -> bool {
    let (first, steps) = match frames.split_first() {
        Some(split) => split,
        None => return false,
    };
    let belongs = |frame: &Frame| frame[0] == STEP && frame[1] == first[1];
    let ascends = |pair: &[Frame]| pair[0] < pair[1];
    first[0] == ROUTINE && steps.iter().all(belongs) && steps.windows(2).all(ascends)
}

/// The program without any step of a routine.
pub fn emptied(program: &Program, routine: u8) -> Program {
    let mut emptied = program.clone();
    emptied.steps.retain(|step| step.routine != routine);
    emptied
}

/// The program after an exchange; or 16, or 23 for the sizes that it would have.
pub fn exchanged(program: &Program, exchange: &Exchange) -> Result<Program, u32> {
    let mut after = emptied(program, exchange.routine);
    let count = after.steps.len() + exchange.steps.len();
    refuse_if(count > MOST_STEPS, STEPS_FULL)?;
    after.places[usize::from(exchange.routine)] = exchange.places;
    after.steps.extend(&exchange.steps);
    check_sizes(&after)?;
    Ok(after)
}

#[cfg(test)]
mod tests {
    use super::*;
    use crate::cases::{self, sample};
    use crate::generate::exchanges;
    use crate::generate::met::Met;
    use crate::generate::programs::program_of_seed;
    use crate::generate::random::Random;
    use crate::model::analysis::own_sheet;
    use crate::model::change::{changed_by_text, Form};
    use crate::model::file::read;
    use crate::model::lines::{line_of, numbers_of_line};
    use crate::model::refusals::{FileRefusal, RANGE, SHEET_TOO_LARGE, TABLE_FULL};
    use crate::model::write::{end, write};

    fn exchanged_by_text(program: &Program, text: &[u8]) -> Result<Program, u32> {
        changed_by_text(Form::Exchange, program, text)
    }

    #[test]
    fn named_texts_get_the_answers_worked_out_by_hand() {
        for case in cases::exchanges::texts::all() {
            let program = read(&case.file).expect("the file is accepted");
            let after = exchanged_by_text(&program, &case.text);
            assert_eq!(after.err().unwrap_or(0), case.refusal, "{}", case.name);
        }
    }

    #[test]
    fn an_exchange_is_read_from_its_own_text() {
        for seed in 0..500 {
            let program = program_of_seed(seed);
            for routine in 0..program.routines() {
                let itself = Exchange::for_itself(&program, routine);
                let read = exchange_of_text(&program, &itself.text());
                assert_eq!(read, Ok(itself), "seed {seed}");
            }
        }
    }

    #[test]
    fn a_routine_exchanged_for_itself_leaves_the_file() {
        let sample = sample::program();
        for routine in 0..2 {
            let text = Exchange::for_itself(&sample, routine).text();
            let after = exchanged_by_text(&sample, &text).expect("accepted");
            assert_eq!(write(&after), sample::FILE);
        }
    }

    #[test]
    fn the_count_of_places_and_the_steps_change_and_nothing_else() {
        let sample = sample::program();
        let after = |text: &[u8]| write(&exchanged_by_text(&sample, text).expect("accepted"));
        let main = ["5300004102", "5300020101"];
        let longer = ["520103", main[0], main[1], "5301000002", "5301020101"];
        let text = b"520103\n5301000002\n5301020101\n";
        assert_eq!(after(text), sample::rewritten(3, 6, &longer));
        let shorter = ["520002", "520102", "5300004101", "5301000001"];
        let text = b"520002\n5300004101\n";
        assert_eq!(after(text), sample::rewritten(2, 6, &shorter));
        assert_eq!(after(b"520102\n"), sample::rewritten(6, 6, &[]));
        let bare_main = ["520010", "520102", "5301000001"];
        assert_eq!(after(b"520010\n"), sample::rewritten(2, 6, &bare_main));
    }

    #[test]
    fn every_label_is_judged_as_in_a_file() {
        let lines: Vec<&[u8]> = lines(sample::FILE).into_iter().take(2).collect();
        for label in 0..=255 {
            let text = [vec![0x52, 1, 5], vec![0x53, 1, 0, label, 4]];
            let text = text_of(&text);
            let file = [&lines.concat()[..], &text, &line_of(&end(4))].concat();
            let given = exchange_of_text(&sample::program(), &text).is_ok();
            assert_eq!(given, read(&file).is_ok(), "label {label}");
        }
    }

    /// The program's file with the frames of a text in the place of the routine's own.
    fn file_with(program: &Program, frames: &[Frame]) -> Vec<u8> {
        let routine = frames[0][1];
        let file = write(&emptied(program, routine));
        let all = lines(&file).into_iter().flat_map(numbers_of_line);
        let mut all: Vec<Frame> = all.collect();
        all[1 + usize::from(routine)] = frames[0].clone();
        let first = 1 + program.places.len();
        let steps = all[first..].iter();
        let lower = steps.take_while(|frame| frame[0] == STEP && frame[1] < routine);
        let at = first + lower.count();
        all.splice(at..at, frames[1..].iter().cloned());
        all.pop();
        all.push(end(all.len()));
        text_of(&all)
    }

    /// A text that is in order is as good as the file that would say the same: 5 is 13 there, 6 is 16, and
    /// 23 is itself. In a file the first faulty line decides, so 6 may stand before 5.
    #[test]
    fn a_text_in_order_is_judged_as_the_file_that_says_the_same() {
        let mut met = Met::default();
        for seed in 0..3000 {
            let random = &mut Random::new(seed);
            let program = program_of_seed(seed);
            let own = own_sheet(&program);
            let text = exchanges::text(random, &program, &program, &own);
            let frames = match frames_of_text(&text) {
                Ok(frames) if in_order(&frames) && frames[0][1] < program.routines() => frames,
                _ => continue,
            };
            let reading = read(&file_with(&program, &frames));
            let in_file = reading.as_ref().map_err(FileRefusal::number);
            let given = exchanged_by_text(&program, &text);
            met.note(given.clone().err().unwrap_or(0));
            match given {
                Ok(after) => assert_eq!(in_file, Ok(&after), "seed {seed}"),
                Err(EDIT_RANGE) => assert!([Err(RANGE), Err(TABLE_FULL)].contains(&in_file)),
                Err(STEPS_FULL) => assert_eq!(in_file, Err(TABLE_FULL), "seed {seed}"),
                Err(refusal) => assert_eq!(in_file, Err(refusal), "seed {seed}"),
            }
        }
        println!("{met:?}");
        met.check([0], 1500);
        met.check([EDIT_RANGE, STEPS_FULL], 50);
        met.check([SHEET_TOO_LARGE], 20);
    }
}
