//! Classes of files by the labels of their rule lines and steps, and counts of them, so that it shows
//! which were met.
//!
//! Of an accepted file the rule counts; of a refused one the line that decides.

use crate::generate::met::{holding, Times};
use crate::model::file::Reading;
use crate::model::kinds::{FRAMES, RULE, SIZES, STEP};
use crate::model::lines::{lines, numbers_of_kind};
use crate::model::program::{Event, Program, FIRST_CALL, FIRST_RETURN, MOST_RULE_LINES};
use crate::model::refusals::{FileRefusal, ORDER, RANGE, TABLE_FULL};

#[derive(Clone, Copy, Debug, PartialEq, Eq, PartialOrd, Ord)]
pub enum LabelClass {
    /// Accepted, with a line for a call, for a return, for that of the last routine, and with 512
    /// lines of which some are for these.
    CallLine,
    ReturnLine,
    LastCall,
    LastReturn,
    FullRule,
    /// 5 at a rule line: the label is the first that is no action, no call, or no return, or it is
    /// just below the calls, just below the returns, or far above them.
    ActionA,
    CallR,
    ReturnR,
    Label3F,
    Label5F,
    Label7F,
    /// 5 at a step: a return's label, of the first routine or of another.
    StepReturn0,
    StepReturnOther,
    /// 4 at a rule line for a call or a return: it comes again, and it stands below the one before.
    Repeated,
    Descending,
    /// 6 at a rule line for a call or a return.
    Line513,
}

use LabelClass::*;

/// All that have to be met.
const ALL: [LabelClass; 16] = [
    CallLine,
    ReturnLine,
    LastCall,
    LastReturn,
    FullRule,
    ActionA,
    CallR,
    ReturnR,
    Label3F,
    Label5F,
    Label7F,
    StepReturn0,
    StepReturnOther,
    Repeated,
    Descending,
    Line513,
];

/// How many files of each class were met.
#[derive(Clone, Debug, Default)]
pub struct MetLabels {
    times: Times<LabelClass>,
}

impl MetLabels {
    pub fn note(&mut self, file: &[u8], reading: &Reading) {
        self.times.note(match reading {
            Ok(program) => accepted(program),
            Err(refusal) => refused(file, refusal),
        });
    }

    /// Each class has to be met so many times at the least.
    pub fn check(&self, least: usize) {
        self.times.check(ALL, least);
    }
}

fn accepted(program: &Program) -> Vec<LabelClass> {
    let has = |wanted: &dyn Fn(Event) -> bool| program.rule.iter().any(|line| wanted(line.event));
    let last = program.routines() - 1;
    let has_heard = has(&|event| !matches!(event, Event::Action(_)));
    holding(&[
        (has(&|event| matches!(event, Event::Call(_))), CallLine),
        (has(&|event| matches!(event, Event::Return(_))), ReturnLine),
        (has(&|event| event == Event::Call(last)), LastCall),
        (has(&|event| event == Event::Return(last)), LastReturn),
        (has_heard && program.rule.len() == MOST_RULE_LINES, FullRule),
    ])
}

/// The classes of a refused file whose deciding line is a well-formed rule line or step.
fn refused(file: &[u8], refusal: &FileRefusal) -> Vec<LabelClass> {
    let lines = lines(file);
    let numbers = |at: usize| {
        let line = lines.get(at)?;
        numbers_of_kind(&FRAMES, line).ok()
    };
    let sizes = numbers(0).filter(|sizes| sizes[0] == SIZES);
    let at = (refusal.line as usize).saturating_sub(1);
    match (sizes, numbers(at)) {
        (Some(sizes), Some(last)) if last[0] == RULE => {
            let before = numbers(at.saturating_sub(1));
            let before = before.filter(|before| before[0] == RULE);
            of_rule_line(refusal.number(), &sizes, before, &last)
        }
        (Some(sizes), Some(last)) if last[0] == STEP && refusal.number() == RANGE => {
            let label = last[3];
            let past = FIRST_RETURN.saturating_add(sizes[1]);
            holding(&[
                (label == FIRST_RETURN, StepReturn0),
                (label > FIRST_RETURN && label < past, StepReturnOther),
            ])
        }
        _ => Vec::new(),
    }
}

fn of_rule_line(
    refusal: u32,
    sizes: &[u8],
    before: Option<Vec<u8>>,
    last: &[u8],
) -> Vec<LabelClass> {
    let (routines, actions, label) = (sizes[1], sizes[3], last[2]);
    let is_heard = !matches!(Event::of_number(label), Event::Action(_));
    match refusal {
        RANGE => holding(&[
            (label == actions, ActionA),
            (label == FIRST_CALL.saturating_add(routines), CallR),
            (label == FIRST_RETURN.saturating_add(routines), ReturnR),
            (label == 0x3F, Label3F),
            (label == 0x5F, Label5F),
            (label == 0x7F, Label7F),
        ]),
        ORDER if is_heard => match before {
            Some(before) => holding(&[
                (last == &before[..], Repeated),
                (last < &before[..], Descending),
            ]),
            None => Vec::new(),
        },
        TABLE_FULL if is_heard => vec![Line513],
        _ => Vec::new(),
    }
}

#[cfg(test)]
mod tests {
    use super::*;
    use crate::generate::files::file_of_seed;
    use crate::model::file::read;

    #[test]
    fn the_files_of_the_seeds_meet_every_class() {
        let mut met = MetLabels::default();
        for seed in 0..8000 {
            let file = file_of_seed(seed);
            met.note(&file, &read(&file));
        }
        println!("{met:?}");
        met.check(5);
    }
}
