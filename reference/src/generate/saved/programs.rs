//! Programs at the edges of what 24 judges: as many places, states or rule lines as a program could once
//! have, and one more. And the programs with as many standings as there can be, and with none.

use crate::generate::programs::program_by_shares;
use crate::generate::random::Random;
use crate::generate::rules::rule_line;
use crate::generate::shapes::Shape;
use crate::model::program::{
    Event, Label, Program, RuleLine, Step, EXIT, MOST_ACTIONS, MOST_STEPS,
};
use crate::model::saved::{FORMER_RULE_LINES, FORMER_SIZES};
use std::collections::BTreeSet;

/// What a program has as much of as it could once have, or one more.
#[derive(Clone, Copy, Debug, PartialEq, Eq, PartialOrd, Ord)]
pub enum Edge {
    Places,
    States,
    RuleLines,
}

pub const EDGES: [Edge; 3] = [Edge::Places, Edge::States, Edge::RuleLines];

/// A program of an edge, with so many more than there could once be. By everything else it is a former
/// one.
pub fn at_edge(random: &mut Random, edge: Edge, more: u8) -> Program {
    let shares = [
        (40, Shape::Tiny),
        (40, Shape::Recursive),
        (20, Shape::Layered),
    ];
    let program = program_by_shares(random, &shares);
    match edge {
        Edge::Places => with_places(random, program, FORMER_SIZES.places + more),
        Edge::States => with_states(program, FORMER_SIZES.states + more),
        Edge::RuleLines => {
            let count = FORMER_RULE_LINES + usize::from(more);
            with_rule_lines(random, program, count)
        }
    }
}

/// The program with one routine, the first, the last or any, that has so many places, and a step to the
/// last of them.
fn with_places(random: &mut Random, mut program: Program, places: u8) -> Program {
    let last = program.places.len() - 1;
    let any = random.between(0, last);
    let routine = random.pick(&[0, last, any]);
    program.places[routine] = places;
    if program.steps.len() < MOST_STEPS {
        program.steps.insert(Step {
            routine: routine as u8,
            from: 0,
            label: Label::Action(0),
            to: places - 1,
        });
    }
    program
}

/// The program with so many states, of which the last is a start.
fn with_states(program: Program, states: u8) -> Program {
    let mut program = Program { states, ..program };
    program.starts.insert(states - 1);
    program
}

/// The program with so many rule lines, and states and actions enough for them.
fn with_rule_lines(random: &mut Random, program: Program, count: usize) -> Program {
    let states = program.states.max(4);
    let rule = random.filled(program.rule, count, |random| {
        rule_line(random, states.into(), MOST_ACTIONS.into())
    });
    Program {
        states,
        actions: MOST_ACTIONS,
        rule,
        ..program
    }
}

/// The program with as many states and actions as there could once be, so that a table of it has as many
/// lines as a rule could once have.
pub fn with_largest_table(program: Program) -> Program {
    Program {
        states: FORMER_SIZES.states,
        actions: MOST_ACTIONS,
        ..program
    }
}

/// The program in which every standing occurs that an old sheet has a byte for. Each of its 16 routines
/// has one step to each of its 16 places: the first step calls the next routine, and every action leads
/// from each state to all.
pub fn every_standing() -> Program {
    let routines = 0..FORMER_SIZES.routines;
    let states = || 0..FORMER_SIZES.states;
    let line = |from, to| RuleLine {
        from,
        event: Event::Action(0),
        to,
    };
    Program {
        places: vec![FORMER_SIZES.places; FORMER_SIZES.routines.into()],
        states: FORMER_SIZES.states,
        actions: 1,
        steps: routines.flat_map(round).collect(),
        rule: states()
            .flat_map(|from| states().map(move |to| line(from, to)))
            .collect(),
        starts: states().collect(),
        forbidden: BTreeSet::new(),
    }
}

/// The steps of a routine that goes through all its places, and from the last to the exit and to the entry.
fn round(routine: u8) -> Vec<Step> {
    let last = FORMER_SIZES.places - 1;
    let action = Label::Action(0);
    let next = routine + 1;
    let first = match next < FORMER_SIZES.routines {
        true => Label::Call(next),
        false => action,
    };
    let step = |from, label, to| Step {
        routine,
        from,
        label,
        to,
    };
    let mut steps: Vec<Step> = (2..last).map(|from| step(from, action, from + 1)).collect();
    steps.push(step(0, first, 2));
    steps.push(step(last, action, EXIT));
    steps.push(step(last, action, 0));
    steps
}

#[cfg(test)]
mod tests {
    use super::*;
    use crate::generate::saved::MOST_FRAMES;
    use crate::model::file::read;
    use crate::model::saved::{is_former, Saved, OLD_SHEET};
    use crate::model::write::write;

    #[test]
    fn programs_at_an_edge_are_former_ones_exactly_where_nothing_is_too_many() {
        for seed in 0..300 {
            for edge in EDGES {
                for more in [0, 1] {
                    let program = at_edge(&mut Random::new(seed), edge, more);
                    let sizes = program.sizes();
                    let (at, most) = match edge {
                        Edge::Places => (sizes.places.into(), 16),
                        Edge::States => (sizes.states.into(), 8),
                        Edge::RuleLines => (program.rule.len(), 256),
                    };
                    assert_eq!(at, most + usize::from(more), "{edge:?}, seed {seed}");
                    assert_eq!(is_former(&program), more == 0, "{edge:?}, seed {seed}");
                    assert_eq!(read(&write(&program)), Ok(program), "seed {seed}");
                }
            }
        }
    }

    #[test]
    fn an_old_sheet_can_be_all_marks() {
        let program = every_standing();
        assert_eq!(program.steps.len(), MOST_STEPS);
        let saved = Saved::of(&program).expect("a former program");
        assert_eq!(saved.sheet, vec![1; OLD_SHEET]);
        assert_eq!(saved.frames.len(), MOST_FRAMES);
        assert!(saved.frames.ends_with(b"454000\n"));
    }
}
