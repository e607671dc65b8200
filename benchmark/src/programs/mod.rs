//! The programs that are measured, most of them made from a seed.
//!
//! The reference makes them to its plans, each with a rule by one of the makers here or by the one
//! for actions only, and not with the rules that it tries itself: these change with what has to be
//! tried. A seed gives the same program whenever it is measured, so that what was measured before
//! can be set beside it.
//!
//! - `rules` makes rules that hear calls and returns.

mod rules;

use reference::generate::programs::program_to_plan;
use reference::generate::random::Random;
use reference::generate::rules::rule_for_actions;
use reference::generate::shapes::{plan, Callees, Plan, Shape};
use reference::model::program::{Program, MOST_PLACES, MOST_RULE_LINES, MOST_STATES};

/// A program of a shape. Its rule hears no call and no return.
pub fn of_shape(shape: Shape, seed: u64) -> Program {
    let random = &mut Random::new(seed);
    let plan = plan(random, shape);
    program_to_plan(random, &plan, rule_for_actions)
}

/// A program with a routine of 64 places; None where the one of this seed has none.
pub fn with_most_places(seed: u64) -> Option<Program> {
    let program = of_shape(Shape::Long, seed);
    Some(program).filter(|program| program.places.contains(&MOST_PLACES))
}

/// A program with 16 states; None where the one of this seed has fewer.
pub fn with_most_states(seed: u64) -> Option<Program> {
    let program = of_shape(Shape::ManyStates, seed);
    Some(program).filter(|program| program.states == MOST_STATES)
}

/// A program with 512 rule lines; None where the one of this seed has fewer.
pub fn with_most_rule_lines(seed: u64) -> Option<Program> {
    let program = of_shape(Shape::Ruled, seed);
    Some(program).filter(|program| program.rule.len() == MOST_RULE_LINES)
}

/// The wide program of this seed, and its rule now hears every call and every return: each of them
/// permutes the states. All else stays, so it shows what hearing adds to a program. None where the
/// rule has no room for the lines.
pub fn wide_all_heard(seed: u64) -> Option<Program> {
    let mut program = of_shape(Shape::Wide, seed);
    let heard = rules::permutations(program.places.len(), program.states.into());
    program.rule.extend(heard);
    Some(program).filter(|program| program.rule.len() <= rules::MOST_LINES)
}

/// A program with many standings whose rule hears every call and every return, each of which
/// permutes the states. It is a full one, but with 12 routines and 4 actions, so that of 256 rule
/// lines 192 are for calls and returns and 64 for actions.
pub fn full_all_heard(seed: u64) -> Program {
    let random = &mut Random::new(seed);
    let plan = Plan {
        routines: 12,
        actions: 4,
        ..plan(random, Shape::Full)
    };
    program_to_plan(random, &plan, rules::permuting)
}

/// A program with very many takings: every call leads to two roots and every return to two states,
/// and most steps are calls of later routines. So there are many pairs, and each of them wakes the
/// standings that call with its root; these are in earlier routines and have lower numbers, so that
/// all of them are taken before the next exit is. With 7 routines and 4 actions 224 of the 256 rule
/// lines are for calls and returns, and 32 for actions.
pub fn branching(seed: u64) -> Program {
    let random = &mut Random::new(seed);
    let plan = Plan {
        routines: 7,
        least_places: 16,
        actions: 4,
        callees: Callees::Later,
        calls_in_a_hundred: 70,
        return_in_a_hundred: 100,
        ..plan(random, Shape::Full)
    };
    program_to_plan(random, &plan, rules::branching)
}
