//! Rules with lines for the calls and returns that they hear, beside lines for actions.
//!
//! For a rule that hears every call and every return, and lets every state make each of them, there
//! have to be two lines for each routine and each state, or more. The rules here have 256 lines at the
//! most, as when they were first measured, and some are for actions: so there is no room for this with
//! 16 routines and 8 states.

use reference::generate::random::Random;
use reference::generate::rules::rule_for_actions;
use reference::generate::shapes::Plan;
use reference::model::program::{Event, RuleLine};
use std::collections::BTreeSet;

/// How many lines these rules have at the most.
pub const MOST_LINES: usize = 256;

type Lines = BTreeSet<RuleLine>;

/// A full rule that hears every call and every return, each of which permutes the states.
pub fn permuting(random: &mut Random, plan: &Plan) -> Lines {
    let heard = permutations(plan.routines, plan.states);
    full(random, plan, heard)
}

/// A full rule that hears every call and every return, each of which leads from every state to two.
pub fn branching(random: &mut Random, plan: &Plan) -> Lines {
    let heard = |routine: usize| {
        let [call, its_return] = heard_of(routine);
        let calls = leading_on(call, plan.states, &[routine, routine + 1]);
        let returns = leading_on(its_return, plan.states, &[0, 3]);
        [calls, returns].concat()
    };
    let heard = (0..plan.routines).flat_map(heard).collect();
    full(random, plan, heard)
}

/// Lines for every call and every return, each of which permutes the states in a way of its own.
pub fn permutations(routines: usize, states: usize) -> Lines {
    let heard = |routine: usize| {
        let [call, its_return] = heard_of(routine);
        let calls = leading_on(call, states, &[routine + 1]);
        let returns = leading_on(its_return, states, &[2 * routine + 1]);
        [calls, returns].concat()
    };
    (0..routines).flat_map(heard).collect()
}

/// The call of a routine, and its return.
fn heard_of(routine: usize) -> [Event; 2] {
    [Event::Call(routine as u8), Event::Return(routine as u8)]
}

/// Lines by which a call or a return leads from every state to each that stands so many after it,
/// where the first state comes after the last.
fn leading_on(event: Event, states: usize, so_many: &[usize]) -> Vec<RuleLine> {
    let line = |from: usize, after: usize| RuleLine {
        from: from as u8,
        event,
        to: ((from + after) % states) as u8,
    };
    let from_state = |from: usize| so_many.iter().map(move |&after| line(from, after));
    (0..states).flat_map(from_state).collect()
}

/// The lines for calls and returns, and others for actions, as many as there is room for.
fn full(random: &mut Random, plan: &Plan, heard: Lines) -> Lines {
    let plan = Plan {
        rule: MOST_LINES - heard.len(),
        ..*plan
    };
    let mut lines = rule_for_actions(random, &plan);
    lines.extend(heard);
    lines
}
