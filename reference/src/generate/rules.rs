//! Rules made from a seed: lines for actions, and lines for those calls and returns that they hear.
//!
//! A third of the rules hears no call and no return. Of the others most let most of the calls through,
//! as a run that cannot go on shows nothing.

use crate::generate::random::Random;
use crate::generate::shapes::Plan;
use crate::model::program::{Event, RuleLine, MOST_RULE_LINES};
use std::collections::BTreeSet;

/// The most lines for calls and returns in one rule, so that there is room for actions.
const MOST_HEARD: usize = 128;

/// A maker of rules to plans.
pub type MakeRule = fn(&mut Random, &Plan) -> BTreeSet<RuleLine>;

/// A rule to a plan, whose count of lines is that of the lines for actions, as far as there is room.
pub fn rule(random: &mut Random, plan: &Plan) -> BTreeSet<RuleLine> {
    let mut lines = heard_lines(random, plan);
    let count = MOST_RULE_LINES.min(lines.len() + plan.rule);
    if plan.rule_is_total {
        add_line_for_each_pair(random, plan, &mut lines);
    }
    random.filled(lines, count, |random| {
        rule_line(random, plan.states, plan.actions)
    })
}

/// A line for each action and each state, as far as there is room.
fn add_line_for_each_pair(random: &mut Random, plan: &Plan, lines: &mut BTreeSet<RuleLine>) {
    for action in 0..plan.actions as u8 {
        for from in 0..plan.states as u8 {
            let line = line_from(random, plan.states, from, action);
            if lines.len() < MOST_RULE_LINES {
                lines.insert(line);
            }
        }
    }
}

/// A rule to a plan that hears no call and no return. It goes from state to state and not from
/// action to action, and draws a state before an action: in this order it gives the programs that
/// were measured before rules heard anything but actions.
pub fn rule_for_actions(random: &mut Random, plan: &Plan) -> BTreeSet<RuleLine> {
    let mut lines = BTreeSet::new();
    if plan.rule_is_total {
        for from in 0..plan.states as u8 {
            for action in 0..plan.actions as u8 {
                lines.insert(line_from(random, plan.states, from, action));
            }
        }
    }
    random.filled(lines, plan.rule, |random| {
        let from = random.below(plan.states) as u8;
        let action = random.below(plan.actions) as u8;
        line_from(random, plan.states, from, action)
    })
}

/// A line for an action, from this state to any of so many.
fn line_from(random: &mut Random, states: usize, from: u8, action: u8) -> RuleLine {
    RuleLine {
        from,
        event: Event::Action(action),
        to: random.below(states) as u8,
    }
}

/// Any rule line for an action, for so many states and actions.
pub fn rule_line(random: &mut Random, states: usize, actions: usize) -> RuleLine {
    let action = random.below(actions) as u8;
    line_for(random, states, Event::Action(action))
}

/// Any rule line for a call or a return, for so many states and routines.
pub fn heard_line(random: &mut Random, states: usize, routines: usize) -> RuleLine {
    let routine = random.below(routines) as u8;
    let event = random.pick(&[Event::Call(routine), Event::Return(routine)]);
    line_for(random, states, event)
}

fn line_for(random: &mut Random, states: usize, event: Event) -> RuleLine {
    RuleLine {
        from: random.below(states) as u8,
        event,
        to: random.below(states) as u8,
    }
}

/// The lines for the calls and returns that a rule is to hear.
fn heard_lines(random: &mut Random, plan: &Plan) -> BTreeSet<RuleLine> {
    let mut lines = BTreeSet::new();
    for event in heard(random, plan.routines) {
        let more = lines_of(random, plan.states, event);
        if lines.len() + more.len() <= MOST_HEARD {
            lines.extend(more);
        }
    }
    lines
}

/// What a rule hears beside actions, for so many routines: nothing, some calls, all calls, some
/// returns, some of both, or everything.
fn heard(random: &mut Random, routines: usize) -> Vec<Event> {
    let (calls, returns) = match random.below(100) {
        0..=32 => (0, 0),
        33..=47 => (50, 0),
        48..=59 => (100, 0),
        60..=71 => (0, 70),
        72..=87 => (50, 50),
        _ => (100, 100),
    };
    let one = random.below(routines) as u8;
    let mut events = Vec::new();
    for routine in 0..routines as u8 {
        if random.percent(calls) || (calls > 0 && routine == one) {
            events.push(Event::Call(routine));
        }
        if random.percent(returns) || (returns > 0 && routine == one) {
            events.push(Event::Return(routine));
        }
    }
    events
}

/// The lines for one call or return: from all states, from most, from some, or from a single one; to
/// the state itself or to another, and at times to two.
fn lines_of(random: &mut Random, states: usize, event: Event) -> BTreeSet<RuleLine> {
    let share = random.pick(&[100, 100, 100, 85, 85, 60, 0, 0]);
    let stays = random.pick(&[0, 50, 50, 100]);
    let twice = random.pick(&[0, 0, 25, 70]);
    let mut lines = BTreeSet::from([line_for(random, states, event)]);
    for from in 0..states as u8 {
        if !random.percent(share) {
            continue;
        }
        let other = random.below(states) as u8;
        let to = if random.percent(stays) { from } else { other };
        lines.insert(RuleLine { from, event, to });
        if random.percent(twice) {
            let to = random.below(states) as u8;
            lines.insert(RuleLine { from, event, to });
        }
    }
    lines
}
