//! Where runs are cut off: they come to a step or to a return that the rule does not let them make.
//!
//! An activation that was called returns at its exit. Main's first one ends there, and that is not
//! being cut off; but main may be called too. How an activation goes on depends on its root and not on
//! who called it, so an exit that occurs is that of a called one exactly where some call gives its root.

use crate::model::analysis::{own_sheet, NONE};
use crate::model::moves::Moves;
use crate::model::program::{Event, Label, Program, Step, EXIT};
use crate::model::runs::Way;
use crate::model::standing::Standing;
use std::collections::{BTreeMap, BTreeSet};

/// The ways on that the rule blocks, of all standings that occur.
pub fn blocked_ways(
    program: &Program,
    occurring: &BTreeSet<Standing>,
) -> BTreeSet<(Standing, Way)> {
    let moves = Moves::of(program);
    let roots = called_roots(program, &moves, occurring);
    let mut blocked = BTreeSet::new();
    for &at in occurring {
        let cannot = |event| moves.after(at.state, event).is_empty();
        let steps = program.steps_from(at.routine, at.place);
        let steps = steps.filter(|step| cannot(event_of(step)));
        blocked.extend(steps.map(|step| (at, Way::Step(*step))));
        let is_called = roots.contains(&(at.routine, at.root));
        if at.place == EXIT && is_called && cannot(Event::Return(at.routine)) {
            blocked.insert((at, Way::Return));
        }
    }
    blocked
}

/// What a step is for the rule.
fn event_of(step: &Step) -> Event {
    match step.label {
        Label::Action(action) => Event::Action(action),
        Label::Call(callee) => Event::Call(callee),
    }
}

/// The routines that standings which occur call, each with every root that such a call gives.
pub fn called_roots(
    program: &Program,
    moves: &Moves,
    occurring: &BTreeSet<Standing>,
) -> BTreeSet<(u8, u8)> {
    let mut called = BTreeSet::new();
    for at in occurring {
        for callee in program.callees_from(at.routine, at.place) {
            let roots = moves.after(at.state, Event::Call(callee));
            called.extend(roots.into_iter().map(|root| (callee, root)));
        }
    }
    called
}

/// A standing at which runs are cut off, by its number, and the first step that is blocked there, by its
/// place among the program's steps; NONE for a return. In C these are called found and edge.
#[derive(Clone, Copy, Debug, Default, PartialEq, Eq)]
pub struct Blocked {
    pub standing: u32,
    pub step: u32,
}

/// The same for a program as a whole: its own sheet, and where its runs are cut off, lowest first.
#[derive(Clone, Debug, PartialEq, Eq)]
pub struct BlockedRuns {
    pub sheet: Vec<u8>,
    pub blocked: Vec<Blocked>,
}

impl BlockedRuns {
    pub fn of(program: &Program) -> BlockedRuns {
        let (sheet, sizes) = (own_sheet(program), program.sizes());
        let mut first = BTreeMap::new();
        for (at, way) in blocked_ways(program, &sizes.standings(&sheet)) {
            first.entry(at).or_insert(way);
        }
        let blocked = |(at, way)| Blocked {
            standing: sizes.number(at) as u32,
            step: number_of(program, way),
        };
        BlockedRuns {
            sheet,
            blocked: first.into_iter().map(blocked).collect(),
        }
    }

    /// The first at or above a number, or that there is none.
    pub fn next_blocked(&self, from: u32) -> Blocked {
        let none = Blocked {
            standing: NONE,
            step: 0,
        };
        let mut blocked = self.blocked.iter().copied();
        blocked.find(|one| one.standing >= from).unwrap_or(none)
    }
}

/// A step's place among the program's steps, counted from 0.
fn number_of(program: &Program, way: Way) -> u32 {
    match way {
        Way::Step(step) => program.steps.range(..step).count() as u32,
        Way::Return => NONE,
    }
}

#[cfg(test)]
mod tests {
    use super::*;
    use crate::cases;
    use crate::generate::blocked_classes::MetBlocked;
    use crate::generate::programs::program_of_shape;
    use crate::generate::random::Random;
    use crate::generate::shapes::Shape;
    use crate::model::file::read;
    use crate::model::least::least_set;
    use crate::model::runs::search;

    #[test]
    fn cases_worked_out_by_hand() {
        for case in cases::blocked::all() {
            let program = read(&case.file).expect("the file is accepted");
            let given = BlockedRuns::of(&program).blocked;
            assert_eq!(given, case.blocked, "{}", case.name);
        }
    }

    #[test]
    fn the_next_is_the_first_at_or_above_a_number() {
        let blocked = |standing, step| Blocked { standing, step };
        let runs = BlockedRuns {
            sheet: Vec::new(),
            blocked: vec![blocked(4, 1), blocked(13, NONE)],
        };
        let (first, last, none) = (blocked(4, 1), blocked(13, NONE), blocked(NONE, 0));
        for (from, wanted) in [(0, first), (4, first), (5, last), (13, last), (14, none)] {
            assert_eq!(runs.next_blocked(from), wanted, "from {from}");
        }
        assert_eq!(runs.next_blocked(NONE), none);
    }

    /// Deepens the search until runs have come to all that is blocked, or to all there is. False if it
    /// would take too long.
    fn runs_come_to_all_that_is_blocked(
        name: &str,
        program: &Program,
        occurring: &BTreeSet<Standing>,
    ) -> bool {
        let wanted = blocked_ways(program, occurring);
        for depth in 0..40 {
            let search = search(program, depth, 5000);
            assert!(search.blocked.is_subset(&wanted), "{name}: too much");
            if search.is_exhaustive() {
                assert_eq!(search.blocked, wanted, "{name}");
            }
            if search.blocked == wanted && search.met == *occurring {
                return true;
            }
            if !search.all_moments {
                return false;
            }
        }
        false
    }

    #[test]
    fn runs_come_to_all_that_is_blocked_and_to_nothing_else() {
        let (mut whole, mut too_long) = (0, 0);
        let mut met = MetBlocked::default();
        for seed in 0..3000 {
            let shapes = [Shape::Tiny, Shape::Layered, Shape::Tiny, Shape::Recursive];
            let shape = shapes[seed as usize % shapes.len()];
            let program = program_of_shape(&mut Random::new(seed), shape);
            let occurring = least_set(&program);
            let name = format!("seed {seed}");
            if runs_come_to_all_that_is_blocked(&name, &program, &occurring) {
                whole += 1;
                met.note(&program, &occurring);
            } else {
                too_long += 1;
            }
        }
        println!("whole: {whole}, too long: {too_long}, {met:?}");
        assert!(whole >= 2500, "only {whole} were met as a whole");
        met.check(10);
    }
}
