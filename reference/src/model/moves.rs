//! The moves of the rule: what an action, a call or a return does to its state.
//!
//! Whatever asks the rule asks here: working afresh, the least set, the runs, the keeping and both
//! repairs. Only `former` does not, as it is there to show what was before.
//!
//! An action moves as the rule's lines for it say, and without a line it is not possible. A call or a
//! return that the rule does not hear leaves every state alone; one that it hears moves as the lines
//! say and in no other way, so that a state without a line of its own cannot make it. Whether it is
//! heard is asked of the whole rule, for each label by itself.

use crate::model::program::{Event, Program, RuleLine};
use std::collections::BTreeSet;

/// The rule of a program, ready to be asked.
pub struct Moves<'a> {
    rule: &'a BTreeSet<RuleLine>,
    heard: BTreeSet<Event>,
}

impl Moves<'_> {
    pub fn of(program: &Program) -> Moves<'_> {
        Moves {
            rule: &program.rule,
            heard: program.rule.iter().map(|line| line.event).collect(),
        }
    }

    /// Whether some line of the rule, from whatever state, has this label.
    pub fn hears(&self, event: Event) -> bool {
        self.heard.contains(&event)
    }

    /// The states in which the rule can be after an event in this state, ascending.
    pub fn after(&self, state: u8, event: Event) -> Vec<u8> {
        match event {
            Event::Action(_) => self.listed(state, event),
            Event::Call(_) | Event::Return(_) if self.hears(event) => self.listed(state, event),
            Event::Call(_) | Event::Return(_) => vec![state],
        }
    }

    /// Whether an event can lead from one state to another.
    pub fn leads(&self, from: u8, event: Event, to: u8) -> bool {
        self.after(from, event).contains(&to)
    }

    /// The states that the lines for a state and a label name. In the order of rule lines these stand
    /// side by side.
    fn listed(&self, from: u8, event: Event) -> Vec<u8> {
        let line = |to| RuleLine { from, event, to };
        let lines = self.rule.range(line(0)..=line(u8::MAX));
        lines.map(|line| line.to).collect()
    }
}

#[cfg(test)]
mod tests {
    use super::*;
    use crate::cases::small::program;
    use crate::generate::programs::program_of_seed;
    use crate::model::program::MOST_STATES;
    use Event::{Action, Call, Return};

    /// Two routines, three states, two actions, and these rule lines.
    fn with_rule(lines: &str) -> Program {
        program(&format!("50020302 520002 520102 {lines}"))
    }

    /// Where an event leads from each of the three states.
    fn from_each(program: &Program, event: Event) -> [Vec<u8>; 3] {
        let moves = Moves::of(program);
        [0, 1, 2].map(|state| moves.after(state, event))
    }

    #[test]
    fn what_is_not_heard_leaves_every_state_alone() {
        let program = with_rule("54000001");
        for event in [Call(0), Call(1), Return(0), Return(1)] {
            assert_eq!(from_each(&program, event), [vec![0], vec![1], vec![2]]);
        }
        assert_eq!(from_each(&program, Action(0)), [vec![1], vec![], vec![]]);
        assert_eq!(from_each(&program, Action(1)), [vec![], vec![], vec![]]);
    }

    /// One line is enough for every other state to be unable to make the call.
    #[test]
    fn what_is_heard_moves_as_listed_and_in_no_other_way() {
        let program = with_rule("54014102");
        assert_eq!(from_each(&program, Call(1)), [vec![], vec![2], vec![]]);
        let program = with_rule("54016002 54026000 54026002");
        assert_eq!(
            from_each(&program, Return(0)),
            [vec![], vec![2], vec![0, 2]]
        );
    }

    #[test]
    fn each_label_is_heard_by_itself() {
        let program = with_rule("54000102 54014102 54016002");
        let alone = [vec![0], vec![1], vec![2]];
        assert_eq!(from_each(&program, Call(0)), alone);
        assert_eq!(from_each(&program, Return(1)), alone);
        assert_eq!(from_each(&program, Action(0)), [vec![], vec![], vec![]]);
        let moves = Moves::of(&program);
        let heard = [Call(0), Call(1), Return(0), Return(1)].map(|event| moves.hears(event));
        assert_eq!(heard, [false, true, true, false]);
    }

    #[test]
    fn a_line_that_leads_nowhere_else_still_forbids_the_other_states() {
        let program = with_rule("54004100 54014101");
        assert_eq!(from_each(&program, Call(1)), [vec![0], vec![1], vec![]]);
    }

    /// The same once more, over the lines and not by a range of them.
    fn allowed(program: &Program, from: u8, event: Event, to: u8) -> bool {
        let lines = || program.rule.iter().filter(|line| line.event == event);
        let is_listed = lines().any(|line| (line.from, line.to) == (from, to));
        let is_action = matches!(event, Action(_));
        is_listed || (!is_action && lines().count() == 0 && from == to)
    }

    #[test]
    fn the_moves_are_those_that_the_lines_allow() {
        for seed in 0..300 {
            let program = program_of_seed(seed);
            let moves = Moves::of(&program);
            for number in 0..=0x70 {
                let event = Event::of_number(number);
                for from in 0..MOST_STATES {
                    let wanted = (0..MOST_STATES).filter(|&to| allowed(&program, from, event, to));
                    let wanted: Vec<u8> = wanted.collect();
                    assert_eq!(moves.after(from, event), wanted, "seed {seed}");
                    let led_to = (0..MOST_STATES).filter(|&to| moves.leads(from, event, to));
                    assert_eq!(led_to.collect::<Vec<u8>>(), wanted, "seed {seed}");
                }
            }
        }
    }
}
