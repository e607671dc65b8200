//! Programs in which calls and returns are acted out, so that the former procedure, which knows nothing
//! of what a rule hears, can be held against the present one.
//!
//! Each step that calls f becomes three: an action that moves as the call of f does, to a new place;
//! the call, from a state that is then the root; and an action that moves as the return of f does. What
//! the new actions do is put down here once more, line by line. The standings at the old places have to
//! be the same, and those at the new ones say what lies between.

use crate::model::program::{Event, Label, Program, RuleLine, Step};
use crate::model::standing::Standing;
use std::collections::BTreeSet;

/// The program with its calls and returns acted out; None where a routine would have too many places to
/// be counted. There are more of everything than a file could have.
pub fn acted_out(program: &Program) -> Option<Program> {
    let mut acted = Program {
        steps: BTreeSet::new(),
        rule: BTreeSet::new(),
        ..program.clone()
    };
    for step in &program.steps {
        match step.label {
            Label::Action(_) => drop(acted.steps.insert(*step)),
            Label::Call(callee) => act_out(&mut acted, *step, callee)?,
        }
    }
    for line in &program.rule {
        let event = Event::Action(action_of(program, line.event));
        acted.rule.insert(RuleLine { event, ..*line });
    }
    for routine in 0..program.routines() {
        for event in [Event::Call(routine), Event::Return(routine)] {
            acted.rule.extend(unheard_lines(program, event));
        }
    }
    Some(acted)
}

/// The action that stands for an event: the actions stay, and the calls and the returns come after them.
fn action_of(program: &Program, event: Event) -> u8 {
    match event {
        Event::Action(action) => action,
        Event::Call(routine) => program.actions + routine,
        Event::Return(routine) => program.actions + program.routines() + routine,
    }
}

/// A line that leaves each state alone, where no line of the rule has this label.
fn unheard_lines(program: &Program, event: Event) -> Vec<RuleLine> {
    if program.rule.iter().any(|line| line.event == event) {
        return Vec::new();
    }
    let event = Event::Action(action_of(program, event));
    let states = 0..program.states;
    let stays = |state| RuleLine {
        from: state,
        event,
        to: state,
    };
    states.map(stays).collect()
}

/// Puts in the three steps for one that calls; None where there is no room for two places more.
fn act_out(acted: &mut Program, step: Step, callee: u8) -> Option<()> {
    let (call, end) = (Event::Call(callee), Event::Return(callee));
    let (before, after) = (action_of(acted, call), action_of(acted, end));
    let places = &mut acted.places[usize::from(step.routine)];
    let (calling, returned) = (*places, places.checked_add(1)?);
    *places = places.checked_add(2)?;
    let part = |from, label, to| Step {
        routine: step.routine,
        from,
        label,
        to,
    };
    acted.steps.extend([
        part(step.from, Label::Action(before), calling),
        part(calling, step.label, returned),
        part(returned, Label::Action(after), step.to),
    ]);
    Some(())
}

/// The standings at places that the program itself has.
pub fn at_old_places(program: &Program, set: BTreeSet<Standing>) -> BTreeSet<Standing> {
    let is_old = |at: &Standing| at.place < program.places[usize::from(at.routine)];
    set.into_iter().filter(is_old).collect()
}

#[cfg(test)]
mod tests {
    use super::*;
    use crate::cases::analyses;
    use crate::generate::hearing::hears_nothing;
    use crate::generate::programs::{program_of_seed, program_of_shape};
    use crate::generate::random::Random;
    use crate::generate::shapes::Shape;
    use crate::model::file::read;
    use crate::model::fresh::work_afresh;
    use crate::model::{former, fresh::Fresh};

    fn standings_of(fresh: &Fresh) -> BTreeSet<Standing> {
        fresh.by_parts().into_keys().collect()
    }

    /// What can occur is what the former procedure finds where calls and returns are acted out. False
    /// where there is no room for that.
    fn check(name: &str, program: &Program) -> bool {
        let acted = match acted_out(program) {
            Some(acted) => acted,
            None => return false,
        };
        let former = standings_of(&former::work_in(acted.sizes(), &acted));
        let wanted = at_old_places(program, former);
        let given = standings_of(&work_afresh(program));
        assert_eq!(given, wanted, "{name}");
        true
    }

    #[test]
    fn what_occurs_is_what_the_former_procedure_finds_acted_out() {
        let (mut hearing, mut large) = (0, 0);
        for seed in 0..2400 {
            let program = match seed % 3 {
                0 => program_of_seed(seed),
                1 => program_of_shape(&mut Random::new(seed), Shape::Layered),
                _ => program_of_shape(&mut Random::new(seed), Shape::Recursive),
            };
            if check(&format!("seed {seed}"), &program) {
                hearing += usize::from(!hears_nothing(&program));
                large += usize::from(program.steps.len() > 20);
            }
        }
        println!("of rules that hear: {hearing}, of more than 20 steps: {large}");
        assert!(hearing >= 1000 && large >= 200);
    }

    #[test]
    fn cases_worked_out_by_hand_are_found_acted_out() {
        let mut checked = 0;
        for case in analyses::all() {
            let program = read(&case.file).expect("the file is accepted");
            checked += usize::from(check(case.name, &program));
        }
        assert!(checked >= 15, "{checked}");
    }
}
