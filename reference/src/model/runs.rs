//! Runs, one step at a time, with every open call on a stack. What a search over them meets can
//! occur, for the run that met it is there to be shown, and so is one that came to a way on which the
//! rule does not let it go. A search can be cut short, at a depth of the stack or at a count of moments,
//! and says whether it was.

use crate::model::moves::Moves;
use crate::model::program::{Event, Label, Program, Step, EXIT};
use crate::model::standing::Standing;
use std::collections::BTreeSet;

/// A way on from a standing: a step, or the return to an open call.
#[derive(Clone, Copy, Debug, PartialEq, Eq, PartialOrd, Ord)]
pub enum Way {
    Step(Step),
    Return,
}

/// An open call: where the caller goes on, and what was its root.
#[derive(Clone, Copy, Debug, PartialEq, Eq, PartialOrd, Ord)]
struct Open {
    routine: u8,
    goes_on: u8,
    root: u8,
}

/// Where a run is: the standing of the activation at work, and the calls that are open, the
/// outermost first.
#[derive(Clone, Debug, PartialEq, Eq, PartialOrd, Ord)]
struct Moment {
    standing: Standing,
    open: Vec<Open>,
}

/// What a search has met, and whether it has met everything.
pub struct Search {
    pub met: BTreeSet<Standing>,
    /// The ways on that a run came to and could not go.
    pub blocked: BTreeSet<(Standing, Way)>,
    /// No call was left out for its depth.
    pub all_depths: bool,
    /// The search did not stop for the count of its moments.
    pub all_moments: bool,
}

impl Search {
    pub fn is_exhaustive(&self) -> bool {
        self.all_depths && self.all_moments
    }
}

/// Follows every run, with at most so many calls open and over at most so many moments.
pub fn search(program: &Program, depth: usize, most_moments: usize) -> Search {
    let mut search = Search {
        met: BTreeSet::new(),
        blocked: BTreeSet::new(),
        all_depths: true,
        all_moments: true,
    };
    let moves = Moves::of(program);
    let mut seen = BTreeSet::new();
    let mut to_follow = beginnings(program);
    while let Some(moment) = to_follow.pop() {
        if seen.contains(&moment) {
            continue;
        }
        if seen.len() == most_moments {
            search.all_moments = false;
            break;
        }
        search.met.insert(moment.standing);
        for (way, next) in ways_on(program, &moves, &moment) {
            if next.is_empty() {
                search.blocked.insert((moment.standing, way));
            }
            let (near, deep): (Vec<_>, Vec<_>) =
                next.into_iter().partition(|next| next.open.len() <= depth);
            search.all_depths &= deep.is_empty();
            to_follow.extend(near);
        }
        seen.insert(moment);
    }
    search
}

fn beginnings(program: &Program) -> Vec<Moment> {
    let starts = program.starts.iter();
    let begin = |&state: &u8| Moment {
        standing: Standing::entry(0, state),
        open: Vec::new(),
    };
    starts.map(begin).collect()
}

/// Every way on from a moment, with the moments to which it leads; there is none where main's first
/// activation ends.
fn ways_on(program: &Program, moves: &Moves, moment: &Moment) -> Vec<(Way, Vec<Moment>)> {
    let here = moment.standing;
    if here.place == EXIT {
        let innermost = moment.open.split_last().into_iter();
        let back = |(call, open): (&Open, &[Open])| returned(moves, here, *call, open);
        return innermost.map(|one| (Way::Return, back(one))).collect();
    }
    let led_to = |step: &Step| match step.label {
        Label::Action(action) => acted(moves, moment, action, step.to),
        Label::Call(callee) => called(moves, moment, callee, step.to),
    };
    let steps = program.steps_from(here.routine, here.place);
    steps.map(|step| (Way::Step(*step), led_to(step))).collect()
}

/// The moments after the return to a call, with those calls open that were before it.
fn returned(moves: &Moves, here: Standing, call: Open, open: &[Open]) -> Vec<Moment> {
    let after = |state| Moment {
        standing: Standing {
            routine: call.routine,
            place: call.goes_on,
            root: call.root,
            state,
        },
        open: open.to_vec(),
    };
    let states = moves.after(here.state, Event::Return(here.routine));
    states.into_iter().map(after).collect()
}

fn acted(moves: &Moves, moment: &Moment, action: u8, to: u8) -> Vec<Moment> {
    let here = moment.standing;
    let after = |state| Moment {
        standing: here.at(to, state),
        open: moment.open.clone(),
    };
    let states = moves.after(here.state, Event::Action(action));
    states.into_iter().map(after).collect()
}

/// The moments in which the called routine begins, one for each state that the call's move gives.
fn called(moves: &Moves, moment: &Moment, callee: u8, goes_on: u8) -> Vec<Moment> {
    let here = moment.standing;
    let mut open = moment.open.clone();
    open.push(Open {
        routine: here.routine,
        goes_on,
        root: here.root,
    });
    let begun = |root| Moment {
        standing: Standing::entry(callee, root),
        open: open.clone(),
    };
    let roots = moves.after(here.state, Event::Call(callee));
    roots.into_iter().map(begun).collect()
}
