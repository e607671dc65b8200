//! Edits: one line that adds a step, drops one, or gives one another label.

use crate::model::kinds::{ADD, DROP, EDITS, REPLACE};
use crate::model::lines::{line_of, lines, numbers_of_kind};
use crate::model::program::{Label, Program, Step, MOST_STEPS};
use crate::model::ranges::Ranges;
use crate::model::refusals::{
    refuse_if, BAD_EDIT, EDIT_RANGE, NOT_THERE, STEPS_FULL, THERE_ALREADY,
};

#[derive(Clone, Copy, Debug, PartialEq, Eq)]
pub enum Edit {
    Add(Step),
    Drop(Step),
    /// The step as it is, and the label that it gets.
    Replace(Step, Label),
}

impl Edit {
    /// The step that leaves the program.
    pub fn leaves(self) -> Option<Step> {
        match self {
            Edit::Add(_) => None,
            Edit::Drop(step) | Edit::Replace(step, _) => Some(step),
        }
    }

    /// The step that joins the program.
    pub fn joins(self) -> Option<Step> {
        match self {
            Edit::Add(step) => Some(step),
            Edit::Drop(_) => None,
            Edit::Replace(step, label) => Some(Step { label, ..step }),
        }
    }

    /// The routine whose steps are edited.
    pub fn routine(self) -> u8 {
        match self {
            Edit::Add(step) | Edit::Drop(step) | Edit::Replace(step, _) => step.routine,
        }
    }

    /// The edit as a line, with its 0A.
    pub fn line(self) -> Vec<u8> {
        let numbers = |kind, step: Step| [&[kind], &step.numbers()[..]].concat();
        line_of(&match self {
            Edit::Add(step) => numbers(ADD, step),
            Edit::Drop(step) => numbers(DROP, step),
            Edit::Replace(step, label) => [numbers(REPLACE, step), vec![label.number()]].concat(),
        })
    }

    /// The edit that the numbers of a line say, its kind first.
    fn of_numbers(numbers: &[u8]) -> Edit {
        let step = Step::of_numbers(&numbers[1..]);
        match numbers[0] {
            ADD => Edit::Add(step),
            DROP => Edit::Drop(step),
            _ => Edit::Replace(step, Label::of_number(numbers[5])),
        }
    }
}

/// The edit that a line says for this program; or 12 or 13, which do not look at the steps.
pub fn edit_of_line(program: &Program, line: &[u8]) -> Result<Edit, u32> {
    refuse_if(lines(line).len() != 1, BAD_EDIT)?;
    let numbers = numbers_of_kind(&EDITS, line).map_err(|_| BAD_EDIT)?;
    let edit = Edit::of_numbers(&numbers);
    let ranges = Ranges::of_program(program);
    let mut steps = edit.leaves().into_iter().chain(edit.joins());
    refuse_if(!steps.all(|step| ranges.has_step(step)), EDIT_RANGE)?;
    Ok(edit)
}

/// The program after an edit, or the lowest of 14 to 16 that the edit meets.
pub fn edited(program: &Program, edit: Edit) -> Result<Program, u32> {
    let there = |step: Step| program.steps.contains(&step);
    let is_full = program.steps.len() >= MOST_STEPS;
    refuse_if(edit.leaves().map(there) == Some(false), NOT_THERE)?;
    refuse_if(edit.joins().map(there) == Some(true), THERE_ALREADY)?;
    refuse_if(matches!(edit, Edit::Add(_)) && is_full, STEPS_FULL)?;
    let mut after = program.clone();
    if let Some(step) = edit.leaves() {
        after.steps.remove(&step);
    }
    after.steps.extend(edit.joins());
    Ok(after)
}

/// The program after the edit that a line says, or the lowest of 12 to 16 that the line meets.
pub fn edited_by_line(program: &Program, line: &[u8]) -> Result<Program, u32> {
    edited(program, edit_of_line(program, line)?)
}

/// The program after an edit that it accepts.
pub fn after(program: &Program, edit: Edit) -> Program {
    edited(program, edit).expect("the edit is accepted")
}

#[cfg(test)]
mod tests {
    use super::*;
    use crate::cases::{self, sample};
    use crate::model::file::read;
    use crate::model::write::write;

    #[test]
    fn named_edits_get_the_answers_worked_out_by_hand() {
        for case in cases::edits::all() {
            let program = read(&case.file).expect("the file is accepted");
            let after = edited_by_line(&program, &case.text);
            assert_eq!(after.err().unwrap_or(0), case.refusal, "{}", case.name);
        }
    }

    #[test]
    fn an_edit_is_read_from_its_own_line() {
        let program = sample::program();
        for &step in &program.steps {
            let label = Label::Call(1);
            for edit in [
                Edit::Add(step),
                Edit::Drop(step),
                Edit::Replace(step, label),
            ] {
                assert_eq!(edit_of_line(&program, &edit.line()), Ok(edit));
            }
        }
    }

    #[test]
    fn every_label_is_judged_as_in_a_file() {
        for label in 0..=255 {
            let step = [0x53, 1, 0, label, 0];
            let lines: Vec<&[u8]> = lines(sample::FILE).into_iter().take(3).collect();
            let file = [lines.concat(), line_of(&step), line_of(&[0x45, 0, 4])].concat();
            let program = sample::program();
            let line = line_of(&[ADD, 1, 0, label, 0]);
            let given = edit_of_line(&program, &line).is_ok();
            assert_eq!(given, read(&file).is_ok(), "label {label}");
            let line = line_of(&[REPLACE, 1, 0, 0, 1, label]);
            let given = edit_of_line(&program, &line).is_ok();
            assert_eq!(given, read(&file).is_ok(), "new label {label}");
        }
    }

    #[test]
    fn the_three_edits_change_the_set_and_nothing_else() {
        let program = sample::program();
        let after = |line: &[u8]| write(&edited_by_line(&program, line).expect("accepted"));
        let added = sample::rewritten(4, 4, &["5300000102", "5300004102"]);
        assert_eq!(after(b"2B00000102\n"), added);
        assert_eq!(after(b"2D00020101\n"), sample::rewritten(5, 5, &[]));
        assert_eq!(after(b"3D0002010141\n"), sample::replaced(5, "5300024101"));
    }
}
