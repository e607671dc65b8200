//! The standings that can occur, as the least set that four rules allow. Nothing waits here and
//! nothing is counted: all rules are tried on all of the set until it grows no more.
//!
//! - start: (0, 0, q, q) for each start state q.
//! - action: a step by an action leads on as the rule moves.
//! - call: a step that calls f leads to f's entry in each state that the call's move gives, whether or
//!   not f ever returns.
//! - return: if f, begun in such a state, can end in x, the step that calls it leads on in each state
//!   that the return's move from x gives.

use crate::model::moves::Moves;
use crate::model::program::{Event, Label, Program, Step, MOST_STATES};
use crate::model::standing::Standing;
use std::collections::BTreeSet;

pub fn least_set(program: &Program) -> BTreeSet<Standing> {
    least_set_within(program, |_| true)
}

/// The least set by the same rules where only such standings may be in it.
pub fn least_set_within(
    program: &Program,
    may_be: impl Fn(&Standing) -> bool,
) -> BTreeSet<Standing> {
    let starts = program.starts.iter();
    let entries = starts.map(|&state| Standing::entry(0, state));
    grown_within(program, entries.filter(&may_be).collect(), &may_be)
}

/// The least set that has these standings and that the other three rules lead out of no more.
pub fn grown(program: &Program, set: BTreeSet<Standing>) -> BTreeSet<Standing> {
    grown_within(program, set, |_| true)
}

fn grown_within(
    program: &Program,
    mut set: BTreeSet<Standing>,
    may_be: impl Fn(&Standing) -> bool,
) -> BTreeSet<Standing> {
    let moves = Moves::of(program);
    loop {
        let before = set.len();
        for step in &program.steps {
            for standing in beginnings(&set, step) {
                let further = led_to(&moves, &set, step, standing);
                set.extend(further.into_iter().filter(&may_be));
            }
        }
        if set.len() == before {
            return set;
        }
    }
}

/// The standings of the set at which a step can be taken.
fn beginnings(set: &BTreeSet<Standing>, step: &Step) -> Vec<Standing> {
    let with = |root, state| Standing {
        routine: step.routine,
        place: step.from,
        root,
        state,
    };
    let last = MOST_STATES - 1;
    set.range(with(0, 0)..=with(last, last)).copied().collect()
}

/// Where one step leads from a standing at its beginning.
fn led_to(
    moves: &Moves,
    set: &BTreeSet<Standing>,
    step: &Step,
    standing: Standing,
) -> Vec<Standing> {
    let on = |states: Vec<u8>| {
        let states = states.into_iter();
        states.map(|state| standing.at(step.to, state))
    };
    match step.label {
        Label::Action(action) => on(moves.after(standing.state, Event::Action(action))).collect(),
        Label::Call(callee) => {
            let mut further = Vec::new();
            for root in moves.after(standing.state, Event::Call(callee)) {
                further.push(Standing::entry(callee, root));
                for end in ends(set, callee, root) {
                    further.extend(on(moves.after(end, Event::Return(callee))));
                }
            }
            further
        }
    }
}

/// The states in which a routine that began with this root ends, by this set.
fn ends(set: &BTreeSet<Standing>, routine: u8, root: u8) -> Vec<u8> {
    let exit = |state| Standing::exit(routine, root, state);
    let exits = set.range(exit(0)..=exit(MOST_STATES - 1));
    exits.map(|exit| exit.state).collect()
}
