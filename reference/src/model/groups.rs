//! Which routines an inside-out repair reopens, by what the rules say of its outcome and not by
//! following it.
//!
//! On a drop, everything is taken in the edited program. Groups are routines that call each other
//! in circles; any other routine is a group alone. A group is reopened if it holds the edited
//! routine, or calls one outside it whose pairs are no longer the same when the edited program is
//! worked from all old roots. On an add, a routine is reopened if it has gained a standing. On a
//! replace, the drop's and the add's are taken together. An exchange is the drop of all old steps of
//! its routine and the add of all new ones.

use crate::model::analysis::own_sheet;
use crate::model::change::Change;
use crate::model::least::grown;
use crate::model::moves::Moves;
use crate::model::program::{Event, Label, Program, EXIT};
use crate::model::standing::Standing;
use std::collections::BTreeSet;

/// The set of reopened routines for a change that the program accepts, bit f for routine f.
pub fn reopened(before: &Program, change: &Change) -> u32 {
    let after = change.after(before);
    match change.dropped(before) {
        None => gained(before, &after),
        Some(between) => {
            let dropped = reopened_by_drop(before, &between, change.routine());
            dropped | gained(&between, &after)
        }
    }
}

/// The routines that have a standing more, by its parts: the two programs may have other sizes.
fn gained(before: &Program, after: &Program) -> u32 {
    if before == after {
        return 0;
    }
    let (old, new) = (own_standings(before), own_standings(after));
    bits(&new.difference(&old).map(|at| at.routine).collect())
}

/// The standings of a program that can occur.
pub fn own_standings(program: &Program) -> BTreeSet<Standing> {
    program.sizes().standings(&own_sheet(program))
}

/// A set of routines, bit f for routine f.
pub fn bits(routines: &BTreeSet<u8>) -> u32 {
    routines.iter().map(|&routine| 1 << routine).sum()
}

/// The routines that are reopened where steps of a routine are dropped.
fn reopened_by_drop(before: &Program, after: &Program, routine: u8) -> u32 {
    let changed = changed_pairs(before, after);
    let calls = calls(after);
    let is_reopened = |group: &BTreeSet<u8>| {
        let mut calls = calls.iter();
        let calls_changed = calls.any(|(caller, callee)| {
            group.contains(caller) && !group.contains(callee) && changed.contains(callee)
        });
        group.contains(&routine) || calls_changed
    };
    let groups = groups(after).into_iter().filter(is_reopened);
    bits(&groups.flatten().collect())
}

/// Who calls whom, by the steps there are.
pub fn calls(program: &Program) -> BTreeSet<(u8, u8)> {
    let steps = program.steps.iter();
    steps
        .filter_map(|step| match step.label {
            Label::Call(callee) => Some((step.routine, callee)),
            Label::Action(_) => None,
        })
        .collect()
}

/// The roots that the calls from a standing give: the called routines, each with the states after the
/// call's move.
pub fn roots_given(program: &Program, moves: &Moves, at: &Standing) -> Vec<(u8, u8)> {
    let callees = program.callees_from(at.routine, at.place);
    let given = callees.flat_map(|callee| {
        let roots = moves.after(at.state, Event::Call(callee));
        roots.into_iter().map(move |root| (callee, root))
    });
    given.collect()
}

/// The groups, in no order that means anything.
pub fn groups(program: &Program) -> BTreeSet<BTreeSet<u8>> {
    let routines = 0..program.routines();
    let reached: Vec<BTreeSet<u8>> = routines.clone().map(|one| reached(program, one)).collect();
    let reaches = |one: u8, other: u8| reached[usize::from(one)].contains(&other);
    let group_of = |one: u8| {
        let others = routines.clone();
        let with = |&other: &u8| other == one || (reaches(one, other) && reaches(other, one));
        others.filter(with).collect()
    };
    routines.clone().map(group_of).collect()
}

/// The routines that a routine reaches by one call or more.
fn reached(program: &Program, routine: u8) -> BTreeSet<u8> {
    let calls = calls(program);
    let mut reached = BTreeSet::new();
    loop {
        let is_next = |caller: &u8| *caller == routine || reached.contains(caller);
        let next = calls.iter().filter(|(caller, _)| is_next(caller));
        let next: BTreeSet<u8> = next.map(|&(_, callee)| callee).collect();
        if next == reached {
            return reached;
        }
        reached = next;
    }
}

/// The routines whose pairs, over their old roots, are not the same in the edited program worked
/// from all old roots.
fn changed_pairs(before: &Program, after: &Program) -> BTreeSet<u8> {
    let old = own_standings(before);
    let roots: BTreeSet<Standing> = old.iter().copied().filter(is_root).collect();
    let new = grown(after, roots.clone());
    let pairs = |set: &BTreeSet<Standing>, routine| -> BTreeSet<(u8, u8)> {
        let is_pair = |at: &&Standing| {
            let has_old_root = roots.contains(&Standing::entry(routine, at.root));
            (at.routine, at.place) == (routine, EXIT) && has_old_root
        };
        let exits = set.iter().filter(is_pair);
        exits.map(|at| (at.root, at.state)).collect()
    };
    let routines = 0..after.routines();
    routines
        .filter(|&routine| pairs(&old, routine) != pairs(&new, routine))
        .collect()
}

/// Whether a standing is an entry as a call leaves it: then its state is a root of its routine.
pub fn is_root(standing: &Standing) -> bool {
    *standing == Standing::entry(standing.routine, standing.root)
}

#[cfg(test)]
mod tests {
    use super::*;
    use crate::cases::small::program;
    use crate::generate::hearing::{Heard, MetHearing};
    use crate::generate::programs::program_of_shape;
    use crate::generate::random::Random;
    use crate::generate::shapes::Shape;
    use crate::generate::{edits, exchanges};
    use crate::model::change::Form;
    use crate::model::edit::Edit;
    use crate::model::exchange::Exchange;
    use crate::model::inside_out;

    #[test]
    fn groups_are_circles_of_calls() {
        let sizes = "50050101 520002 520102 520202 520302 520402";
        let calls = "5300004101 5301004201 5302004101 5302004301 5303004301";
        let program = program(&format!("{sizes} {calls}"));
        let wanted: Vec<BTreeSet<u8>> = [vec![0], vec![1, 2], vec![3], vec![4]]
            .into_iter()
            .map(|group| group.into_iter().collect())
            .collect();
        assert_eq!(groups(&program).into_iter().collect::<Vec<_>>(), wanted);
    }

    /// What changes of one sort have met. The group is that of the changed routine afterwards.
    #[derive(Debug, Default)]
    struct Met {
        changes: usize,
        beyond_the_group: usize,
        not_all: usize,
        circles: usize,
    }

    impl Met {
        fn note(&mut self, after: &Program, routine: u8, reopened: u32) {
            let all_groups = groups(after);
            let own = all_groups.iter().find(|group| group.contains(&routine));
            let own = own.expect("each routine has a group");
            self.changes += 1;
            self.beyond_the_group += usize::from(reopened != bits(own));
            self.not_all += usize::from(reopened.count_ones() < u32::from(after.routines()));
            self.circles += usize::from(own.len() > 1);
        }
    }

    /// Following the repair as it is described gives the same sheet as working afresh, and reopens
    /// the same routines.
    fn check(program: &Program, change: &Change, met: &mut Met) {
        let after = change.after(program);
        let followed = inside_out::repair(program, change);
        assert_eq!(followed.standings, own_standings(&after), "{change:?}");
        let reopened = reopened(program, change);
        assert_eq!(followed.reopened, reopened, "{change:?}");
        met.note(&after, change.routine(), reopened);
    }

    /// Looks at programs that are small, or middling, and whose rules hear all sorts of things.
    fn small_programs(mut check: impl FnMut(&mut Random, &Program)) {
        let mut hearing = MetHearing::default();
        let shapes = [Shape::Tiny, Shape::Recursive, Shape::Layered, Shape::Mixed];
        for seed in 0..240 {
            let random = &mut Random::new(seed);
            let program = program_of_shape(random, shapes[seed as usize % shapes.len()]);
            hearing.note(&program, &own_sheet(&program));
            check(random, &program);
        }
        println!("{hearing:?}");
        hearing.check(6);
        assert!(hearing.times(Heard::Nothing) >= 50, "{hearing:?}");
    }

    #[test]
    fn following_the_repair_reopens_the_same_routines() {
        let (mut drops, mut others) = (Met::default(), Met::default());
        small_programs(|random, home| {
            for &step in home.steps.iter().take(12) {
                check(home, &Change::Edit(Edit::Drop(step)), &mut drops);
            }
            let own = own_sheet(home);
            for _ in 0..2 {
                let line = edits::line(random, home, home, &own);
                match Change::of_text(Form::Edit, home, &line) {
                    Ok(edit) if edit.made(home).is_ok() => check(home, &edit, &mut others),
                    _ => {}
                }
            }
        });
        println!("drops: {drops:?}, others: {others:?}");
        assert!(drops.changes >= 1500 && others.changes >= 250, "{drops:?}");
        assert!(drops.beyond_the_group >= 100, "{drops:?}");
        assert!(drops.not_all >= 800 && drops.circles >= 300, "{drops:?}");
    }

    #[test]
    fn following_an_exchange_reopens_the_same_routines() {
        let (mut own, mut others) = (Met::default(), Met::default());
        small_programs(|random, home| {
            for routine in 0..home.routines() {
                let exchange = Exchange::for_itself(home, routine);
                check(home, &Change::Exchange(exchange), &mut own);
            }
            let sheet = own_sheet(home);
            for _ in 0..4 {
                let exchange = exchanges::exchange(random, home, home, &sheet);
                let exchange = Change::Exchange(exchange);
                if exchange.made(home).is_ok() {
                    check(home, &exchange, &mut others);
                }
            }
        });
        println!("for themselves: {own:?}, for others: {others:?}");
        assert!(own.changes >= 800 && others.changes >= 800, "{others:?}");
        for met in [own, others] {
            assert!(met.beyond_the_group >= 300, "{met:?}");
            assert!(met.not_all >= 300 && met.circles >= 100, "{met:?}");
        }
    }
}
