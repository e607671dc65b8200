//! A program: what an accepted file says, in a form that can be asked.

use crate::model::standing::Sizes;
use std::collections::BTreeSet;

/// The label that calls routine 0; routine f is called by the label f above it.
pub const FIRST_CALL: u8 = 0x40;
/// The label of routine 0's return, in the rule only; that of routine f stands f above it.
pub const FIRST_RETURN: u8 = 0x60;
/// How many routines, states and actions a program may have, and how many places a routine.
pub const MOST_ROUTINES: u8 = 16;
pub const MOST_STATES: u8 = 16;
pub const MOST_ACTIONS: u8 = 32;
pub const MOST_PLACES: u8 = 64;
/// How many steps a program may have, and how many rule lines; and how many rows a file.
pub const MOST_STEPS: usize = 256;
pub const MOST_RULE_LINES: usize = 512;
pub const MOST_ROWS: usize = 256;
/// The exit of every routine.
pub const EXIT: u8 = 1;

/// A step's label. An action's number lies below every call's, so the order of the cases is the
/// order of the numbers. No step has the label of a return: a number from 60 on is taken for the call
/// of a routine that no program has, and so is out of range.
#[derive(Clone, Copy, Debug, PartialEq, Eq, PartialOrd, Ord)]
pub enum Label {
    Action(u8),
    Call(u8),
}

impl Label {
    pub fn of_number(number: u8) -> Label {
        if number < FIRST_CALL {
            Label::Action(number)
        } else {
            Label::Call(number - FIRST_CALL)
        }
    }

    pub fn number(self) -> u8 {
        match self {
            Label::Action(action) => action,
            Label::Call(routine) => FIRST_CALL + routine,
        }
    }
}

/// What the rule can hear: an action, the call of a routine, or its return. The order of the cases is
/// the order of the numbers.
#[derive(Clone, Copy, Debug, PartialEq, Eq, PartialOrd, Ord)]
pub enum Event {
    Action(u8),
    Call(u8),
    Return(u8),
}

impl Event {
    pub fn of_number(number: u8) -> Event {
        if number < FIRST_CALL {
            Event::Action(number)
        } else if number < FIRST_RETURN {
            Event::Call(number - FIRST_CALL)
        } else {
            Event::Return(number - FIRST_RETURN)
        }
    }

    pub fn number(self) -> u8 {
        match self {
            Event::Action(action) => action,
            Event::Call(routine) => FIRST_CALL + routine,
            Event::Return(routine) => FIRST_RETURN + routine,
        }
    }
}

#[derive(Clone, Copy, Debug, PartialEq, Eq, PartialOrd, Ord)]
pub struct Step {
    pub routine: u8,
    pub from: u8,
    pub label: Label,
    pub to: u8,
}

impl Step {
    /// The step that the numbers f n a m say; there may be others after them.
    pub fn of_numbers(numbers: &[u8]) -> Step {
        Step {
            routine: numbers[0],
            from: numbers[1],
            label: Label::of_number(numbers[2]),
            to: numbers[3],
        }
    }

    pub fn numbers(self) -> [u8; 4] {
        [self.routine, self.from, self.label.number(), self.to]
    }
}

#[derive(Clone, Copy, Debug, PartialEq, Eq, PartialOrd, Ord)]
pub struct RuleLine {
    pub from: u8,
    pub event: Event,
    pub to: u8,
}

impl RuleLine {
    /// The rule line that the numbers q a s say.
    pub fn of_numbers(numbers: &[u8]) -> RuleLine {
        RuleLine {
            from: numbers[0],
            event: Event::of_number(numbers[1]),
            to: numbers[2],
        }
    }

    pub fn numbers(self) -> [u8; 3] {
        [self.from, self.event.number(), self.to]
    }
}

/// What a file says. Routine f has `places[f]` places.
#[derive(Clone, Debug, PartialEq, Eq)]
pub struct Program {
    pub places: Vec<u8>,
    pub states: u8,
    pub actions: u8,
    pub steps: BTreeSet<Step>,
    pub rule: BTreeSet<RuleLine>,
    pub starts: BTreeSet<u8>,
    pub forbidden: BTreeSet<u8>,
}

impl Program {
    pub fn routines(&self) -> u8 {
        self.places.len() as u8
    }

    /// The sizes by which its standings are numbered: the places are those of its longest routine.
    pub fn sizes(&self) -> Sizes {
        Sizes {
            routines: self.routines(),
            places: self.places.iter().copied().max().unwrap_or(0),
            states: self.states,
        }
    }

    /// The steps of a routine.
    pub fn steps_of(&self, routine: u8) -> impl Iterator<Item = &Step> {
        let steps = self.steps.iter();
        steps.filter(move |step| step.routine == routine)
    }

    /// The steps that leave a place. In the order of steps they stand side by side.
    pub fn steps_from(&self, routine: u8, place: u8) -> impl Iterator<Item = &Step> {
        let step = |label, to| Step {
            routine,
            from: place,
            label,
            to,
        };
        let last = step(Label::Call(u8::MAX), u8::MAX);
        self.steps.range(step(Label::Action(0), 0)..=last)
    }

    /// The routines that the steps from a place call.
    pub fn callees_from(&self, routine: u8, place: u8) -> impl Iterator<Item = u8> + '_ {
        let steps = self.steps_from(routine, place);
        steps.filter_map(|step| match step.label {
            Label::Call(callee) => Some(callee),
            Label::Action(_) => None,
        })
    }
}

#[cfg(test)]
mod tests {
    use super::*;

    #[test]
    fn numbers_and_labels_belong_to_each_other_in_order() {
        let labels: Vec<Label> = (0..=255).map(Label::of_number).collect();
        let events: Vec<Event> = (0..=255).map(Event::of_number).collect();
        for number in 0..=255 {
            assert_eq!(labels[usize::from(number)].number(), number);
            assert_eq!(events[usize::from(number)].number(), number);
        }
        assert!(labels.windows(2).all(|pair| pair[0] < pair[1]));
        assert!(events.windows(2).all(|pair| pair[0] < pair[1]));
    }

    #[test]
    fn calls_begin_at_40_and_returns_at_60() {
        for (number, event) in [
            (0x3F, Event::Action(0x3F)),
            (0x40, Event::Call(0)),
            (0x4F, Event::Call(15)),
            (0x5F, Event::Call(31)),
            (0x60, Event::Return(0)),
            (0x6F, Event::Return(15)),
        ] {
            assert_eq!(Event::of_number(number), event);
        }
    }
}
