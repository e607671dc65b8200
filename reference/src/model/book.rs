//! The plain book: a program, its steps a set, and what each call does to it. It keeps no sheet and
//! no file, and of a call it is told whether it is an exchange, the text and the lengths of output,
//! working buffer and, for an exchange, second buffer only.

use crate::model::calls::{check_output, check_sheet, check_work, work_of_exchange};
use crate::model::change::{Change, Form};
use crate::model::edit::Edit;
use crate::model::exchange::Exchange;
use crate::model::program::{Program, Step, MOST_STEPS};
use crate::model::refusals::{refuse_if, NOT_THERE, SHEET_TOO_LARGE, STEPS_FULL, THERE_ALREADY};
use crate::model::standing::{Sizes, MOST_SHEET};
use std::collections::BTreeSet;

/// The lengths of what is lent to a call. The last is not asked for a repair of a step.
#[derive(Clone, Copy, Debug)]
pub struct Lengths {
    pub output: usize,
    pub work: usize,
    pub second: usize,
}

/// Of the program only the set of steps changes, and by an exchange a routine's count of places.
pub struct Book {
    pub program: Program,
}

impl Book {
    /// Notes a call: the change that was made, or the first refusal that the call meets with this
    /// program, of those after the old sheet's length and before 17.
    pub fn call(&mut self, form: Form, text: &[u8], lengths: Lengths) -> Result<Change, u32> {
        check_output(lengths.output)?;
        if form == Form::Edit {
            check_work(lengths.work, self.program.sizes().length())?;
        }
        let change = Change::of_text(form, &self.program, text)?;
        match &change {
            Change::Edit(edit) => self.edit(*edit)?,
            Change::Exchange(exchange) => self.exchange(exchange, lengths)?,
        }
        Ok(change)
    }

    fn edit(&mut self, edit: Edit) -> Result<(), u32> {
        match edit {
            Edit::Add(step) => self.add(step),
            Edit::Drop(step) => self.drop(step),
            Edit::Replace(step, label) => self.replace(step, Step { label, ..step }),
        }
    }

    fn has(&self, step: Step) -> bool {
        self.program.steps.contains(&step)
    }

    fn add(&mut self, step: Step) -> Result<(), u32> {
        refuse_if(self.has(step), THERE_ALREADY)?;
        refuse_if(self.program.steps.len() == MOST_STEPS, STEPS_FULL)?;
        self.program.steps.insert(step);
        Ok(())
    }

    fn drop(&mut self, step: Step) -> Result<(), u32> {
        refuse_if(!self.has(step), NOT_THERE)?;
        self.program.steps.remove(&step);
        Ok(())
    }

    fn replace(&mut self, step: Step, wanted: Step) -> Result<(), u32> {
        refuse_if(!self.has(step), NOT_THERE)?;
        refuse_if(self.has(wanted), THERE_ALREADY)?;
        self.program.steps.remove(&step);
        self.program.steps.insert(wanted);
        Ok(())
    }

    fn exchange(&mut self, exchange: &Exchange, lengths: Lengths) -> Result<(), u32> {
        let steps = self.program.steps.iter().copied();
        let others = steps.filter(|step| step.routine != exchange.routine);
        let steps: BTreeSet<Step> = others.chain(exchange.steps.iter().copied()).collect();
        refuse_if(steps.len() > MOST_STEPS, STEPS_FULL)?;
        let mut places = self.program.places.clone();
        places[usize::from(exchange.routine)] = exchange.places;
        let before = self.program.sizes();
        let longest = places.iter().copied().max();
        let after = Sizes {
            places: longest.unwrap_or(0),
            ..before
        };
        refuse_if(after.length() > MOST_SHEET, SHEET_TOO_LARGE)?;
        check_sheet(lengths.second, after.length())?;
        check_work(lengths.work, work_of_exchange(before, after))?;
        self.program.steps = steps;
        self.program.places = places;
        Ok(())
    }
}

#[cfg(test)]
mod tests {
    use super::*;
    use crate::cases;
    use crate::generate::calls::text;
    use crate::generate::programs::program_of_seed;
    use crate::generate::random::Random;
    use crate::model::analysis::own_sheet;
    use crate::model::calls::repairs::lengths;
    use crate::model::file::read;
    use crate::model::groups::{own_standings, roots_given};
    use crate::model::moves::Moves;
    use crate::model::program::EXIT;
    use crate::model::refusals::{OUTPUT_SHORT, SHEET_LENGTH, WORK_LENGTH};
    use crate::model::standing::Standing;
    use crate::model::write::OUTPUT_SIZE;

    /// The lengths that a text of this form needs.
    fn right_lengths(form: Form, program: &Program, text: &[u8]) -> Lengths {
        let [work, second] = lengths(form, program, text);
        Lengths {
            output: OUTPUT_SIZE,
            work,
            second,
        }
    }

    #[test]
    fn named_texts_get_the_answers_worked_out_by_hand() {
        for form in [Form::Edit, Form::Exchange] {
            for case in cases::named_texts(form) {
                let program = read(&case.file).expect("the file is accepted");
                let mut book = Book {
                    program: program.clone(),
                };
                let right = right_lengths(form, &program, &case.text);
                let short = Lengths {
                    output: OUTPUT_SIZE - 1,
                    work: 0,
                    second: 0,
                };
                let noted = book.call(form, &case.text, short);
                assert_eq!(noted, Err(OUTPUT_SHORT), "{}", case.name);
                let noted = book.call(form, &case.text, right);
                let given = noted.map(|change| change.after(&program));
                let refusal = given.clone().err().unwrap_or(0);
                assert_eq!(refusal, case.refusal, "{}", case.name);
                assert_eq!(book.program, given.unwrap_or(program), "{}", case.name);
            }
        }
    }

    /// The lengths of an exchange are judged after its text, those of an edit before.
    #[test]
    fn lengths_are_judged_in_their_place() {
        for form in [Form::Edit, Form::Exchange] {
            for case in cases::named_texts(form) {
                let program = read(&case.file).expect("the file is accepted");
                let mut book = Book { program };
                let right = right_lengths(form, &book.program, &case.text);
                let work = right.work + 1;
                let mut refusal = |lengths| book.call(form, &case.text, lengths).err();
                let long = refusal(Lengths { work, ..right });
                let second = right.second + 1;
                let both = refusal(Lengths {
                    work,
                    second,
                    ..right
                });
                let after_text = |own| if case.refusal == 0 { own } else { case.refusal };
                let wanted = match form {
                    Form::Edit => [WORK_LENGTH; 2],
                    Form::Exchange => [WORK_LENGTH, SHEET_LENGTH].map(after_text),
                };
                assert_eq!([long, both], wanted.map(Some), "{}", case.name);
            }
        }
    }

    type Occurring = BTreeSet<Standing>;

    /// The pairs of a routine, and the states in which it calls the others, which are those after the
    /// call's move.
    fn outside(program: &Program, set: &Occurring, routine: u8) -> (Occurring, BTreeSet<(u8, u8)>) {
        let moves = Moves::of(program);
        let own = set.iter().filter(|at| at.routine == routine);
        let calls = own.clone();
        let calls = calls
            .flat_map(|at| roots_given(program, &moves, at))
            .collect();
        (own.copied().filter(|at| at.place == EXIT).collect(), calls)
    }

    fn others(set: &Occurring, routine: u8) -> Occurring {
        set.iter()
            .copied()
            .filter(|at| at.routine != routine)
            .collect()
    }

    /// How many changes did not show outside their routine, though they changed it inside, and how
    /// many did.
    #[derive(Debug, Default)]
    struct Shown {
        unseen: usize,
        seen: usize,
    }

    /// A change that does not show outside its routine leaves the others alone.
    fn check_outside(form: Form, seed: u64, shown: &mut Shown) {
        let before = program_of_seed(seed);
        let mut book = Book {
            program: before.clone(),
        };
        let own = own_sheet(&before);
        let text = text(&mut Random::new(seed), form, &before, &before, &own);
        let lengths = right_lengths(form, &before, &text);
        let change = match book.call(form, &text, lengths) {
            Ok(change) => change,
            Err(_) => return,
        };
        let routine = change.routine();
        let old = before.sizes().standings(&own);
        let new = own_standings(&book.program);
        if outside(&before, &old, routine) == outside(&book.program, &new, routine) {
            assert_eq!(others(&old, routine), others(&new, routine), "seed {seed}");
            shown.unseen += usize::from(old != new);
        } else {
            shown.seen += 1;
        }
    }

    #[test]
    fn an_edit_that_does_not_show_outside_leaves_the_others_alone() {
        let mut shown = Shown::default();
        for seed in 0..3000 {
            check_outside(Form::Edit, seed, &mut shown);
        }
        println!("{shown:?}");
        assert!(shown.unseen >= 100 && shown.seen >= 300, "{shown:?}");
    }

    #[test]
    fn an_exchange_that_does_not_show_outside_leaves_the_others_alone() {
        let mut shown = Shown::default();
        for seed in 0..2000 {
            check_outside(Form::Exchange, seed, &mut shown);
        }
        println!("{shown:?}");
        assert!(shown.unseen >= 100 && shown.seen >= 300, "{shown:?}");
    }
}
