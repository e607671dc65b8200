//! The inside-out repair, followed group by group as it is described.
//!
//! It is here to be held against `groups`, which says what is reopened by the outcome alone, and
//! against working afresh, which says what the sheet is.

use crate::model::change::Change;
use crate::model::groups::{bits, calls, groups, is_root, own_standings, roots_given};
use crate::model::moves::Moves;
use crate::model::program::{Event, Label, Program, Step, MOST_STATES};
use crate::model::standing::Standing;
use std::collections::BTreeSet;

/// What a repair leaves.
pub struct Followed {
    pub standings: BTreeSet<Standing>,
    /// Bit f for routine f.
    pub reopened: u32,
}

/// Repairs the program's own sheet for a change that the program accepts.
pub fn repair(before: &Program, change: &Change) -> Followed {
    let own = own_standings(before);
    let after = change.after(before);
    match change.dropped(before) {
        None => follow_add(&after, own),
        Some(between) => {
            let dropped = follow_drop(&between, change.routine(), own);
            let added = follow_add(&after, dropped.standings);
            Followed {
                standings: added.standings,
                reopened: dropped.reopened | added.reopened,
            }
        }
    }
}

/// The new steps of a program act, and what is newly marked is followed. Where there are none, the
/// sheet stays.
fn follow_add(program: &Program, old: BTreeSet<Standing>) -> Followed {
    let all = 0..program.routines();
    let standings = follow(program, &all.collect(), old.clone());
    let gained = standings.difference(&old).map(|at| at.routine).collect();
    Followed {
        standings,
        reopened: bits(&gained),
    }
}

/// A program that has lost steps of a routine is worked anew, group by group, as far as needed.
fn follow_drop(program: &Program, routine: u8, old: BTreeSet<Standing>) -> Followed {
    let calls = calls(program);
    let mut standings = old.clone();
    let mut reopened = 0;
    for group in called_first(program) {
        let mut outside = calls
            .iter()
            .filter(|(caller, callee)| group.contains(caller) && !group.contains(callee));
        let calls_changed =
            outside.any(|&(_, callee)| pairs(&old, callee) != pairs(&standings, callee));
        if group.contains(&routine) || calls_changed {
            standings = work_anew(program, &group, &old, standings);
            reopened |= bits(&group);
        }
    }
    Followed {
        standings: with_roots_that_occur(program, standings),
        reopened,
    }
}

/// The groups in an order in which the called come before the calling.
fn called_first(program: &Program) -> Vec<BTreeSet<u8>> {
    let calls = calls(program);
    let mut left: Vec<BTreeSet<u8>> = groups(program).into_iter().collect();
    let mut ordered = Vec::new();
    while !left.is_empty() {
        let waits = |group: &BTreeSet<u8>| {
            let is_left = |callee: &u8| left.iter().any(|other| other.contains(callee));
            calls.iter().any(|(caller, callee)| {
                group.contains(caller) && !group.contains(callee) && is_left(callee)
            })
        };
        let next = left.iter().position(|group| !waits(group));
        let next = next.expect("groups do not call each other in circles");
        ordered.push(left.remove(next));
    }
    ordered
}

/// The pairs of a routine on a sheet. On an old sheet, and on one worked from the roots of it, every
/// standing has an old root.
fn pairs(sheet: &BTreeSet<Standing>, routine: u8) -> BTreeSet<(u8, u8)> {
    let last = MOST_STATES - 1;
    let exits = Standing::exit(routine, 0, 0)..=Standing::exit(routine, last, last);
    sheet.range(exits).map(|at| (at.root, at.state)).collect()
}

/// A group's standings are cleared and worked anew from its old roots; the others stay.
fn work_anew(
    program: &Program,
    group: &BTreeSet<u8>,
    old: &BTreeSet<Standing>,
    standings: BTreeSet<Standing>,
) -> BTreeSet<Standing> {
    let others = standings
        .into_iter()
        .filter(|at| !group.contains(&at.routine));
    let roots = old.iter().copied().filter(is_root);
    let roots = roots.filter(|root| group.contains(&root.routine));
    follow(program, group, others.chain(roots).collect())
}

/// Follows the steps of some routines until they lead to nothing new. A call of another routine
/// goes by the pairs that this routine has, and enters nothing.
fn follow(
    program: &Program,
    routines: &BTreeSet<u8>,
    mut standings: BTreeSet<Standing>,
) -> BTreeSet<Standing> {
    let moves = Moves::of(program);
    loop {
        let mut further = BTreeSet::new();
        for at in standings.iter().filter(|at| routines.contains(&at.routine)) {
            for step in program.steps_from(at.routine, at.place) {
                further.extend(led_to(&moves, routines, &standings, *at, step));
            }
        }
        if further.is_subset(&standings) {
            return standings;
        }
        standings.extend(further);
    }
}

fn led_to(
    moves: &Moves,
    routines: &BTreeSet<u8>,
    standings: &BTreeSet<Standing>,
    at: Standing,
    step: &Step,
) -> Vec<Standing> {
    let mut results = Vec::new();
    match step.label {
        Label::Action(action) => {
            let states = moves.after(at.state, Event::Action(action));
            results.extend(states.into_iter().map(|state| at.at(step.to, state)));
        }
        Label::Call(callee) => {
            let roots = moves.after(at.state, Event::Call(callee));
            if routines.contains(&callee) {
                results.extend(roots.iter().map(|&root| Standing::entry(callee, root)));
            }
            let pairs = pairs(standings, callee).into_iter();
            for (_, end) in pairs.filter(|(root, _)| roots.contains(root)) {
                let states = moves.after(end, Event::Return(callee));
                results.extend(states.into_iter().map(|state| at.at(step.to, state)));
            }
        }
    }
    results
}

/// Leaves out the standings whose root no longer occurs. A root occurs if it is main's in a start
/// state, or if a standing whose root occurs calls the routine and the call's move gives it.
fn with_roots_that_occur(program: &Program, sheet: BTreeSet<Standing>) -> BTreeSet<Standing> {
    let moves = Moves::of(program);
    let starts = program.starts.iter();
    let mut roots: BTreeSet<(u8, u8)> = starts.map(|&state| (0, state)).collect();
    loop {
        let before = roots.len();
        for at in &sheet {
            if roots.contains(&(at.routine, at.root)) {
                roots.extend(roots_given(program, &moves, at));
            }
        }
        if roots.len() == before {
            let occurs = |at: &Standing| roots.contains(&(at.routine, at.root));
            return sheet.into_iter().filter(occurs).collect();
        }
    }
}
