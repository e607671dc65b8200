//! Which numbers are in range: refusal 5 of a frame, and 13 of an edit, which is judged as 5.

use crate::model::program::{
    Event, Label, Program, RuleLine, Step, EXIT, MOST_ACTIONS, MOST_PLACES, MOST_ROUTINES,
    MOST_STATES,
};
use crate::model::table::Row;

/// What numbers are held against: the sizes, and how many places each routine has, as far as it is
/// known.
pub struct Ranges {
    pub routines: u8,
    pub states: u8,
    pub actions: u8,
    pub places: Vec<u8>,
}

pub fn sizes_in_range(routines: u8, states: u8, actions: u8) -> bool {
    (1..=MOST_ROUTINES).contains(&routines)
        && (1..=MOST_STATES).contains(&states)
        && (1..=MOST_ACTIONS).contains(&actions)
}

impl Ranges {
    pub fn of_program(program: &Program) -> Ranges {
        Ranges {
            routines: program.routines(),
            states: program.states,
            actions: program.actions,
            places: program.places.clone(),
        }
    }

    /// A routine, and how many places it is said to have.
    pub fn has_routine(&self, routine: u8, places: u8) -> bool {
        routine < self.routines && (2..=MOST_PLACES).contains(&places)
    }

    pub fn has_step(&self, step: Step) -> bool {
        match self.places.get(usize::from(step.routine)) {
            None => false,
            Some(&places) => {
                let places_fit = step.from < places && step.from != EXIT && step.to < places;
                places_fit && self.has_label(step.label)
            }
        }
    }

    fn has_label(&self, label: Label) -> bool {
        match label {
            Label::Action(action) => action < self.actions,
            Label::Call(routine) => routine < self.routines,
        }
    }

    pub fn has_rule_line(&self, line: RuleLine) -> bool {
        self.has_state(line.from) && self.has_event(line.event) && self.has_state(line.to)
    }

    fn has_event(&self, event: Event) -> bool {
        match event {
            Event::Action(action) => action < self.actions,
            Event::Call(routine) | Event::Return(routine) => routine < self.routines,
        }
    }

    /// Every bit and the next state have to fit. A row without a bit has no bit that does not.
    pub fn has_row(&self, row: Row) -> bool {
        let states_fit = row.states().all(|state| self.has_state(state));
        let actions_fit = row.actions().all(|action| action < self.actions);
        states_fit && actions_fit && self.has_state(row.to)
    }

    pub fn has_state(&self, state: u8) -> bool {
        state < self.states
    }
}
