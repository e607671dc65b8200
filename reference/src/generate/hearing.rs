//! Classes of programs by what their rule hears of calls and returns, and counts of them, so that it
//! shows which were met.
//!
//! Most of the classes are read off what can occur: a call counts where some standing on the program's
//! own sheet comes to it, and a return where a routine that was so called ends.

use crate::generate::met::{holding, Times};
use crate::model::groups::calls;
use crate::model::moves::Moves;
use crate::model::program::{Event, Program, EXIT};
use crate::model::standing::Standing;
use std::collections::BTreeSet;

#[derive(Clone, Copy, Debug, PartialEq, Eq, PartialOrd, Ord)]
pub enum Heard {
    /// No line of the rule is for a call or a return.
    Nothing,
    /// Of the routines that steps call, some are heard when they are called, and some are not.
    SomeCalls,
    AllCalls,
    /// A return is heard, and no call.
    ReturnsOnly,
    /// A call that is come to and that no state there can make.
    CallNobodyMakes,
    /// One that some states there can make, and some cannot.
    CallSomeMake,
    /// A routine ends in a state from which it cannot return.
    ReturnNobodyMakes,
    /// A call that leads to two roots, and a return that leads to two states.
    TwoRoots,
    TwoReturns,
    /// A call that is not heard with a return that is, and the reverse.
    ReturnNotCall,
    CallNotReturn,
    /// A root that is not the caller's state, and a return that does not leave the state alone.
    CallMoves,
    ReturnMoves,
    /// A root that calls from two states give.
    OneRootOfTwo,
}

use Heard::*;

/// All that have to be met.
const ALL: [Heard; 14] = [
    Nothing,
    SomeCalls,
    AllCalls,
    ReturnsOnly,
    CallNobodyMakes,
    CallSomeMake,
    ReturnNobodyMakes,
    TwoRoots,
    TwoReturns,
    ReturnNotCall,
    CallNotReturn,
    CallMoves,
    ReturnMoves,
    OneRootOfTwo,
];

/// How many programs of each class were met.
#[derive(Clone, Debug, Default)]
pub struct MetHearing {
    times: Times<Heard>,
}

impl MetHearing {
    /// Notes a program with its own sheet.
    pub fn note(&mut self, program: &Program, own: &[u8]) {
        self.times.note(classes(program, own));
    }

    pub fn times(&self, class: Heard) -> usize {
        self.times.of(class)
    }

    /// Each class has to be met so many times at the least.
    pub fn check(&self, least: usize) {
        self.times.check(ALL, least);
    }
}

/// Whether the rule has no line for a call or a return.
pub fn hears_nothing(program: &Program) -> bool {
    let mut lines = program.rule.iter();
    lines.all(|line| matches!(line.event, Event::Action(_)))
}

/// The classes of a program with its own sheet.
pub fn classes(program: &Program, own: &[u8]) -> BTreeSet<Heard> {
    if hears_nothing(program) {
        return BTreeSet::from([Nothing]);
    }
    let moves = Moves::of(program);
    let occurring = program.sizes().standings(own);
    let mut classes = by_labels(program, &moves);
    for callee in 0..program.routines() {
        let states = called_in(program, &occurring, callee);
        if !states.is_empty() {
            classes.extend(of_calls(&moves, callee, &states));
            let ends = ends(&moves, &occurring, callee, &states);
            classes.extend(of_returns(&moves, callee, &ends));
        }
    }
    classes
}

type States = BTreeSet<u8>;

/// The classes that go by the labels of rule lines and steps alone.
fn by_labels(program: &Program, moves: &Moves) -> BTreeSet<Heard> {
    let called: BTreeSet<u8> = calls(program).into_iter().map(|call| call.1).collect();
    let is_heard = |routine: &&u8| moves.hears(Event::Call(**routine));
    let heard = called.iter().filter(is_heard).count();
    let hears_call = (0..16).any(|routine| moves.hears(Event::Call(routine)));
    holding(&[
        (heard > 0 && heard < called.len(), SomeCalls),
        (heard > 0 && heard == called.len(), AllCalls),
        (!hears_call, ReturnsOnly),
    ])
}

/// The states in which a standing that occurs comes to a call of this routine.
fn called_in(program: &Program, occurring: &BTreeSet<Standing>, callee: u8) -> States {
    let calls = |at: &&Standing| {
        let mut callees = program.callees_from(at.routine, at.place);
        callees.any(|other| other == callee)
    };
    let calling = occurring.iter().filter(calls);
    calling.map(|at| at.state).collect()
}

/// The states in which a routine ends that was called from one of these.
fn ends(moves: &Moves, occurring: &BTreeSet<Standing>, callee: u8, states: &States) -> States {
    let gives = |root| {
        let mut states = states.iter();
        states.any(|&state| moves.leads(state, Event::Call(callee), root))
    };
    let exits = occurring.iter();
    let exits = exits.filter(|at| (at.routine, at.place) == (callee, EXIT) && gives(at.root));
    exits.map(|at| at.state).collect()
}

fn of_calls(moves: &Moves, callee: u8, states: &States) -> BTreeSet<Heard> {
    let call = Event::Call(callee);
    let roots: Vec<Vec<u8>> = states
        .iter()
        .map(|&state| moves.after(state, call))
        .collect();
    let made = roots.iter().filter(|roots| !roots.is_empty()).count();
    let all: Vec<u8> = roots.concat();
    let different: States = all.iter().copied().collect();
    let moved = states
        .iter()
        .any(|&state| moves.after(state, call).iter().any(|&root| root != state));
    let return_is_heard = moves.hears(Event::Return(callee));
    holding(&[
        (made == 0, CallNobodyMakes),
        (made > 0 && made < roots.len(), CallSomeMake),
        (roots.iter().any(|roots| roots.len() > 1), TwoRoots),
        (
            made > 0 && moves.hears(call) && !return_is_heard,
            CallNotReturn,
        ),
        (moved, CallMoves),
        (different.len() < all.len(), OneRootOfTwo),
    ])
}

fn of_returns(moves: &Moves, callee: u8, ends: &States) -> BTreeSet<Heard> {
    let event = Event::Return(callee);
    let after: Vec<Vec<u8>> = ends.iter().map(|&end| moves.after(end, event)).collect();
    let moved = ends
        .iter()
        .any(|&end| moves.after(end, event).iter().any(|&state| state != end));
    let is_heard = moves.hears(event) && !moves.hears(Event::Call(callee));
    let some_return = after.iter().any(|states| !states.is_empty());
    holding(&[
        (
            after.iter().any(|states| states.is_empty()),
            ReturnNobodyMakes,
        ),
        (after.iter().any(|states| states.len() > 1), TwoReturns),
        (is_heard && some_return, ReturnNotCall),
        (moved, ReturnMoves),
    ])
}

#[cfg(test)]
mod tests {
    use super::*;
    use crate::cases::small::program;
    use crate::generate::programs::program_of_seed;
    use crate::model::analysis::own_sheet;

    fn classes_of(lines: &str) -> Vec<Heard> {
        let steps = "5300004102 5300020001 5301000001";
        let program = program(&format!(
            "50020302 520003 520102 {steps} 54000001 54010001 {lines} 4900"
        ));
        classes(&program, &own_sheet(&program))
            .into_iter()
            .collect()
    }

    #[test]
    fn small_rules_have_the_classes_that_they_show() {
        assert_eq!(classes_of("54020001"), [Nothing]);
        assert_eq!(classes_of("54014100"), [AllCalls, CallNobodyMakes]);
        assert_eq!(classes_of("54024000"), []);
        assert_eq!(
            classes_of("54016101 54016102"),
            [ReturnsOnly, TwoReturns, ReturnNotCall, ReturnMoves]
        );
        assert_eq!(
            classes_of("54026102"),
            [ReturnsOnly, ReturnNobodyMakes],
            "routine 1 ends in state 1"
        );
    }

    #[test]
    fn the_programs_of_the_seeds_meet_every_class() {
        let mut met = MetHearing::default();
        for seed in 0..1500 {
            let program = program_of_seed(seed);
            met.note(&program, &own_sheet(&program));
        }
        println!("{met:?}");
        met.check(40);
        assert!(met.times(Nothing) >= 300, "{met:?}");
    }
}
