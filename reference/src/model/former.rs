//! Working afresh as it was before the rule could hear calls and returns.
//!
//! Here the rule sees actions only, a root is the state at the call, and an exit wakes by the caller's
//! state. It is kept because old files are to be safe: a program whose rule has no line for a call or a
//! return has the sheet, the findings and the takings that it always had, and that can only be shown
//! beside the procedure that gave them. Nothing but comparisons may use it, and it asks nothing of
//! `moves`, so that a fault there cannot hide here.

use crate::model::fresh::Fresh;
use crate::model::program::{Event, Label, Program, EXIT};
use crate::model::standing::{Sizes, Standing};
use std::collections::BTreeSet;

/// Works a program's standings afresh, as if its rule had no line for a call or a return, with numbers
/// by these sizes.
pub fn work_in(sizes: Sizes, program: &Program) -> Fresh {
    let mut working = Working::new(sizes, program);
    for &state in &program.starts {
        working.mark(Standing::entry(0, state));
    }
    while let Some(&lowest) = working.waiting.iter().next() {
        working.take(sizes.standing(lowest));
    }
    Fresh {
        sizes,
        marked: working.marked,
        taken: working.taken,
    }
}

/// Everything that the procedure remembers between two takings.
struct Working<'a> {
    program: &'a Program,
    sizes: Sizes,
    marked: Vec<bool>,
    waiting: BTreeSet<usize>,
    taken: Vec<u32>,
    /// The known pairs: (f, r, q) once the exit (f, 1, r, q) has been taken.
    known: BTreeSet<(u8, u8, u8)>,
}

impl Working<'_> {
    fn new(sizes: Sizes, program: &Program) -> Working<'_> {
        Working {
            program,
            sizes,
            marked: vec![false; sizes.length()],
            waiting: BTreeSet::new(),
            taken: vec![0; sizes.length()],
            known: BTreeSet::new(),
        }
    }

    /// What is newly marked waits; what was marked before is left as it is.
    fn mark(&mut self, standing: Standing) {
        let number = self.sizes.number(standing);
        if !self.marked[number] {
            self.marked[number] = true;
            self.waiting.insert(number);
        }
    }

    fn take(&mut self, standing: Standing) {
        let number = self.sizes.number(standing);
        self.waiting.remove(&number);
        self.taken[number] += 1;
        if standing.place == EXIT {
            self.take_exit(standing);
            return;
        }
        for result in self.results(standing) {
            self.mark(result);
        }
    }

    /// Everything that the steps from a standing mark.
    fn results(&self, standing: Standing) -> Vec<Standing> {
        let mut results = Vec::new();
        for step in self.program.steps_from(standing.routine, standing.place) {
            match step.label {
                Label::Action(action) => results.extend(self.acted(standing, action, step.to)),
                Label::Call(callee) => results.extend(self.called(standing, callee, step.to)),
            }
        }
        results
    }

    /// The pair becomes known, and every marked standing that could have made this call waits.
    fn take_exit(&mut self, exit: Standing) {
        self.known.insert((exit.routine, exit.root, exit.state));
        for step in &self.program.steps {
            if step.label != Label::Call(exit.routine) {
                continue;
            }
            for root in 0..self.program.states {
                let caller = Standing {
                    routine: step.routine,
                    place: step.from,
                    root,
                    state: exit.root,
                };
                let number = self.sizes.number(caller);
                if self.marked[number] {
                    self.waiting.insert(number);
                }
            }
        }
    }

    fn acted(&self, standing: Standing, action: u8, to: u8) -> Vec<Standing> {
        let wanted = (standing.state, Event::Action(action));
        let lines = self.program.rule.iter();
        let allowed = lines.filter(|line| (line.from, line.event) == wanted);
        allowed.map(|line| standing.at(to, line.to)).collect()
    }

    fn called(&self, standing: Standing, callee: u8, to: u8) -> Vec<Standing> {
        let mut results = vec![Standing::entry(callee, standing.state)];
        for state in 0..self.program.states {
            if self.known.contains(&(callee, standing.state, state)) {
                results.push(standing.at(to, state));
            }
        }
        results
    }
}

#[cfg(test)]
mod tests {
    use super::*;
    use crate::generate::hearing::hears_nothing;
    use crate::generate::programs::{program_of_seed, program_of_shape};
    use crate::generate::random::Random;
    use crate::generate::shapes::SHAPES;
    use crate::generate::{edits, tables};
    use crate::model::analysis::{analysis_of, analyze, own_sheet, Analysis};
    use crate::model::edit::edited_by_line;
    use crate::model::file::read;
    use crate::model::fresh;
    use crate::model::saved::{is_former, FORMER_SIZES};

    fn formerly(program: &Program) -> Analysis {
        analysis_of(program, &work_in(program.sizes(), program))
    }

    /// The program with no more than the actions of its rule.
    fn deafened(program: &Program) -> Program {
        let mut deaf = program.clone();
        deaf.rule
            .retain(|line| matches!(line.event, Event::Action(_)));
        deaf
    }

    fn check(name: &str, program: &Program) {
        assert!(hears_nothing(program), "{name}");
        let (given, wanted) = (analyze(program), formerly(program));
        assert_eq!(given.takings, wanted.takings, "{name}");
        assert!(given == wanted, "{name}");
    }

    /// Sheet, findings and takings of a program whose rule hears no call and no return are what they
    /// always were.
    #[test]
    fn a_rule_that_hears_nothing_is_worked_as_formerly() {
        let mut own = 0;
        for seed in 0..2000 {
            let program = program_of_seed(seed);
            own += usize::from(hears_nothing(&program));
            check(&format!("seed {seed}"), &deafened(&program));
        }
        assert!(own >= 500, "only {own} hear nothing by themselves");
        for shape in SHAPES {
            for seed in 0..4 {
                let program = program_of_shape(&mut Random::new(seed), shape);
                check(&format!("{shape:?}, seed {seed}"), &deafened(&program));
            }
        }
    }

    #[test]
    fn files_with_rows_are_worked_as_formerly_before_and_after_edits() {
        for seed in 0..300 {
            let random = &mut Random::new(seed);
            let file = tables::complete_file(random, &program_of_seed(seed));
            let program = read(&file).expect("a complete table is accepted");
            check(&format!("seed {seed}"), &program);
            let line = edits::line(random, &program, &program, &own_sheet(&program));
            if let Ok(after) = edited_by_line(&program, &line) {
                check(&format!("seed {seed}, edited"), &after);
            }
        }
    }

    /// The findings of a working, by their parts, each with how often it was taken.
    fn findings(program: &Program, fresh: &Fresh) -> Vec<(Standing, u32)> {
        let taken = fresh.by_parts().into_iter();
        let is_finding = |one: &(Standing, u32)| program.forbidden.contains(&one.0.state);
        taken.filter(is_finding).collect()
    }

    /// A program keeps its standings, its findings and its takings, each standing's by itself, whether
    /// its numbers go by its own sizes or by the former ones.
    #[test]
    fn a_former_program_is_worked_alike_by_its_own_sizes() {
        let (mut former, mut found) = (0, 0);
        for seed in 0..1500 {
            let program = program_of_seed(seed);
            if !is_former(&program) {
                continue;
            }
            let formerly = fresh::work_in(FORMER_SIZES, &program);
            let given = fresh::work_afresh(&program);
            assert_eq!(given.by_parts(), formerly.by_parts(), "seed {seed}");
            let wanted = findings(&program, &formerly);
            assert_eq!(findings(&program, &given), wanted, "seed {seed}");
            let deaf = deafened(&program);
            let formerly = work_in(FORMER_SIZES, &deaf).by_parts();
            assert_eq!(
                fresh::work_afresh(&deaf).by_parts(),
                formerly,
                "seed {seed}"
            );
            former += 1;
            found += usize::from(!wanted.is_empty());
        }
        println!("former programs: {former}, with findings: {found}");
        assert!(former >= 1000 && found >= 300);
    }

    /// Where a rule hears something, it often makes a difference, to the sheet and to the takings.
    #[test]
    fn what_a_rule_hears_makes_a_difference() {
        let (mut sheets, mut takings_only) = (0, 0);
        for seed in 0..1000 {
            let program = program_of_seed(seed);
            let (given, former) = (analyze(&program), formerly(&program));
            let same_sheet = given.sheet == former.sheet;
            sheets += usize::from(!same_sheet);
            takings_only += usize::from(same_sheet && given.takings != former.takings);
        }
        println!("other sheets: {sheets}, other takings only: {takings_only}");
        assert!(sheets >= 200 && takings_only >= 5);
    }
}
