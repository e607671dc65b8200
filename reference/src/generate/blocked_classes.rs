//! Classes of programs by where their runs are cut off, and counts of them, so that it shows which were
//! met.

use crate::generate::met::{holding, Times};
use crate::model::blocked::{blocked_ways, called_roots};
use crate::model::moves::Moves;
use crate::model::program::{Event, Label, Program, Step, EXIT, MOST_STEPS};
use crate::model::runs::Way;
use crate::model::standing::Standing;
use std::collections::{BTreeMap, BTreeSet};

#[derive(Clone, Copy, Debug, PartialEq, Eq, PartialOrd, Ord)]
pub enum BlockedClass {
    /// Something occurs, and no run is cut off.
    Nowhere,
    /// At one standing only, and at more.
    Once,
    Often,
    /// What is blocked somewhere.
    ByAction,
    ByCall,
    ByReturn,
    /// Two steps are blocked at one standing.
    TwoSteps,
    /// A step from the same place stands before the first that is blocked.
    NotTheFirst,
    /// Main was called and cannot return; at a standing with a root that it never begins a run with, and
    /// at one where it may also end a run.
    MainCalled,
    MainCalledAndNot,
    /// Main ends in a state from which it could not return, and was not called.
    MainNotCalled,
    /// A routine that cannot return from two of its roots, and one that can from another standing.
    TwoRoots,
    OneOfTwoExits,
    /// The last step that there may be is the first that is blocked.
    Step256,
}

use BlockedClass::*;

/// All that have to be met often. The last step is seldom come to.
const ALL: [BlockedClass; 13] = [
    Nowhere,
    Once,
    Often,
    ByAction,
    ByCall,
    ByReturn,
    TwoSteps,
    NotTheFirst,
    MainCalled,
    MainCalledAndNot,
    MainNotCalled,
    TwoRoots,
    OneOfTwoExits,
];

/// How many programs of each class were met.
#[derive(Clone, Debug, Default)]
pub struct MetBlocked {
    times: Times<BlockedClass>,
}

impl MetBlocked {
    /// Notes a program with the standings that occur.
    pub fn note(&mut self, program: &Program, occurring: &BTreeSet<Standing>) {
        self.times.note(classes(program, occurring));
    }

    pub fn times(&self, class: BlockedClass) -> usize {
        self.times.of(class)
    }

    /// Each class but the last has to be met so many times at the least.
    pub fn check(&self, least: usize) {
        self.times.check(ALL, least);
    }
}

/// The classes of a program by the standings that occur.
pub fn classes(program: &Program, occurring: &BTreeSet<Standing>) -> BTreeSet<BlockedClass> {
    let mut ways: BTreeMap<Standing, Vec<Way>> = BTreeMap::new();
    for (at, way) in blocked_ways(program, occurring) {
        ways.entry(at).or_default().push(way);
    }
    let mut classes: BTreeSet<BlockedClass> = holding(&[
        (!occurring.is_empty() && ways.is_empty(), Nowhere),
        (ways.len() == 1, Once),
        (ways.len() > 1, Often),
        (main_ends_uncalled(program, occurring), MainNotCalled),
    ]);
    for (at, ways) in &ways {
        classes.extend(of_ways(program, *at, ways));
    }
    let exits: Vec<Standing> = ways.keys().filter(|at| at.place == EXIT).copied().collect();
    for at in &exits {
        classes.extend(of_exit(program, occurring, &exits, *at));
    }
    classes
}

/// The classes of a standing with the ways that are blocked there.
fn of_ways(program: &Program, at: Standing, ways: &[Way]) -> Vec<BlockedClass> {
    let by = |wanted: fn(Label) -> bool| {
        let is = |way: &Way| matches!(way, Way::Step(step) if wanted(step.label));
        ways.iter().any(is)
    };
    let first = program.steps_from(at.routine, at.place).next();
    let last = program.steps.iter().nth(MOST_STEPS - 1);
    let is_first = |step: Option<&Step>| step.map(|step| Way::Step(*step)) == Some(ways[0]);
    holding(&[
        (by(|label| matches!(label, Label::Action(_))), ByAction),
        (by(|label| matches!(label, Label::Call(_))), ByCall),
        (ways == [Way::Return], ByReturn),
        (ways.len() > 1, TwoSteps),
        (at.place != EXIT && !is_first(first), NotTheFirst),
        (is_first(last), Step256),
    ])
}

/// The classes of an exit from which there is no return, one of all such.
fn of_exit(
    program: &Program,
    occurring: &BTreeSet<Standing>,
    exits: &[Standing],
    at: Standing,
) -> Vec<BlockedClass> {
    let is_main = at.routine == 0;
    let begins = program.starts.contains(&at.root);
    let is_exit = |other: &Standing| (other.routine, other.place) == (at.routine, EXIT);
    let mut alike = exits.iter().filter(|other| is_exit(other));
    let mut all = occurring.iter().filter(|other| is_exit(other));
    holding(&[
        (is_main && !begins, MainCalled),
        (is_main && begins, MainCalledAndNot),
        (alike.any(|other| other.root != at.root), TwoRoots),
        (all.any(|other| !exits.contains(other)), OneOfTwoExits),
    ])
}

/// Whether main ends in a state from which it could not return, with a root that no call gives it.
fn main_ends_uncalled(program: &Program, occurring: &BTreeSet<Standing>) -> bool {
    let moves = Moves::of(program);
    let called = called_roots(program, &moves, occurring);
    let cannot_return = |at: &Standing| moves.after(at.state, Event::Return(0)).is_empty();
    let mut ends = occurring.iter();
    ends.any(|at| {
        let ends_main = (at.routine, at.place) == (0, EXIT);
        ends_main && !called.contains(&(0, at.root)) && cannot_return(at)
    })
}
