//! The classes of accepted exchanges.

use crate::generate::text_classes::{last_place, Class, Exchanging};
use crate::model::groups::{groups, is_root};
use crate::model::program::{Label, Program, Step, EXIT, MOST_STEPS};
use crate::model::standing::{Standing, MOST_SHEET};
use std::collections::BTreeSet;

pub const ALL: [Class; 39] = [
    ("255 steps", |of| steps(of) == MOST_STEPS - 1),
    ("256 steps", |of| steps(of) == MOST_STEPS),
    ("256 steps, many of others", |of| {
        steps(of) == MOST_STEPS && of.others() >= 128
    }),
    ("256 steps, few of others", |of| {
        steps(of) == MOST_STEPS && of.others() < 64
    }),
    ("for itself", |of| new(of) == of.program),
    ("for itself but for its places", |of| {
        new(of).steps == of.program.steps && new(of) != of.program
    }),
    ("shorter", |of| compare(of, |old, new| new < old)),
    ("longer", |of| compare(of, |old, new| new > old)),
    ("to 2 places", |of| {
        compare(of, |old, new| new < old && new == 2)
    }),
    ("to 64 places", |of| {
        compare(of, |old, new| new > old && new == 64)
    }),
    ("a longer sheet", |of| of.left.len() > of.lent.len()),
    ("a shorter sheet", |of| of.left.len() < of.lent.len()),
    ("the longest sheet", |of| of.left.len() == MOST_SHEET),
    ("other places, a sheet as long", |of| {
        new(of).places != of.program.places && of.left.len() == of.lent.len()
    }),
    ("the same marks by other numbers", |of| {
        of.old == of.new && of.lent != of.left
    }),
    ("a place past the old count", |of| {
        let old = of.old_places(of.routine());
        of.steps().any(|step| last_place(&step) >= old)
    }),
    ("loses all its steps", |of| {
        has_steps(of, of.program) && !has_steps(of, new(of))
    }),
    ("gets its first steps", |of| {
        !has_steps(of, of.program) && has_steps(of, new(of))
    }),
    ("without steps before and after", |of| {
        !has_steps(of, of.program) && !has_steps(of, new(of))
    }),
    ("main", |of| of.routine() == 0),
    ("main, which is called", |of| {
        of.routine() == 0 && calls(of.program, |_| true, 0)
    }),
    ("never returned", |of| {
        is_entered(of, &of.old) && !returns(of, &of.old)
    }),
    ("never returns", |of| {
        is_entered(of, &of.old) && !returns(of, &of.old) && !returns(of, &of.new)
    }),
    ("returns no more", |of| {
        returns(of, &of.old) && !returns(of, &of.new)
    }),
    ("returns at last", |of| {
        !returns(of, &of.old) && returns(of, &of.new)
    }),
    ("called itself", |of| calls_itself(of, of.program)),
    ("calls itself", |of| calls_itself(of, new(of))),
    ("was in a group", |of| is_in_group(of, of.program)),
    ("is in a group", |of| is_in_group(of, new(of))),
    ("leaves a group", |of| {
        is_in_group(of, of.program) && !is_in_group(of, new(of))
    }),
    ("joins a group", |of| {
        !is_in_group(of, of.program) && is_in_group(of, new(of))
    }),
    ("entered by nobody", |of| !is_entered(of, &of.old)),
    ("a root goes", |of| {
        has_other(&of.new, &of.old, |at| is_own_root(of, &at))
    }),
    ("a root comes", |of| {
        has_other(&of.old, &of.new, |at| is_own_root(of, &at))
    }),
    ("another program, the same sheet", |of| {
        new(of) != of.program && of.lent == of.left
    }),
    ("marks go", |of| has_other(&of.new, &of.old, |_| true)),
    ("marks come", |of| has_other(&of.old, &of.new, |_| true)),
    ("others' marks go", |of| {
        has_other(&of.new, &of.old, |at| at.routine != of.routine())
    }),
    ("others' marks come", |of| {
        has_other(&of.old, &of.new, |at| at.routine != of.routine())
    }),
];

fn new<'a>(of: &'a Exchanging) -> &'a Program {
    of.after.as_ref().expect("the exchange is accepted")
}

fn steps(of: &Exchanging) -> usize {
    new(of).steps.len()
}

fn has_steps(of: &Exchanging, program: &Program) -> bool {
    program.steps_of(of.routine()).next().is_some()
}

/// Whether the old count of places and the new one stand so to each other.
fn compare(of: &Exchanging, so: fn(u8, u8) -> bool) -> bool {
    let routine = of.routine();
    so(of.old_places(routine), new(of).places[usize::from(routine)])
}

/// Whether some step of such a routine calls this one.
fn calls(program: &Program, by: impl Fn(u8) -> bool, callee: u8) -> bool {
    let is_call = |step: &Step| step.label == Label::Call(callee) && by(step.routine);
    program.steps.iter().any(is_call)
}

fn calls_itself(of: &Exchanging, program: &Program) -> bool {
    let routine = of.routine();
    calls(program, |caller| caller == routine, routine)
}

/// Whether the routine calls others in circles.
fn is_in_group(of: &Exchanging, program: &Program) -> bool {
    let routine = of.routine();
    let groups = groups(program);
    let mut own = groups.iter().filter(|group| group.contains(&routine));
    own.any(|group| group.len() > 1)
}

fn is_entered(of: &Exchanging, set: &BTreeSet<Standing>) -> bool {
    set.iter().any(|at| is_own_root(of, at))
}

fn is_own_root(of: &Exchanging, standing: &Standing) -> bool {
    standing.routine == of.routine() && is_root(standing)
}

fn returns(of: &Exchanging, set: &BTreeSet<Standing>) -> bool {
    let place = (of.routine(), EXIT);
    set.iter().any(|at| (at.routine, at.place) == place)
}

/// Whether the second set has a standing, such a one, that the first does not have.
fn has_other(
    one: &BTreeSet<Standing>,
    other: &BTreeSet<Standing>,
    such: impl Fn(Standing) -> bool,
) -> bool {
    other.difference(one).any(|&at| such(at))
}
