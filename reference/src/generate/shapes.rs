//! The shapes of programs, and a plan for each: how much there is of everything.

use crate::generate::random::Random;
use crate::model::program::{Program, MOST_PLACES, MOST_RULE_LINES, MOST_STEPS};
use crate::model::standing::MOST_SHEET;

/// What a program is to be like.
#[derive(Clone, Copy, Debug, PartialEq, Eq)]
pub enum Shape {
    /// A few standings, to be followed by hand.
    Tiny,
    /// Routines that call themselves and each other in circles.
    Recursive,
    /// Many routines and no circles: each calls only later ones.
    Wide,
    /// Nothing in particular, of middling size.
    Mixed,
    /// As much as a file could ever hold of everything at once: 16 routines of 16 places, 8 states, 256
    /// steps and as many rule lines.
    Full,
    /// As many steps as a file can hold, or nearly so, and few states.
    Crowded,
    /// Small routines that call later ones only, each with hardly a step too many.
    Layered,
    /// A few routines of up to 64 places.
    Long,
    /// More than 8 states, up to 16.
    ManyStates,
    /// As many rule lines as a file can hold.
    Ruled,
    /// Sizes with which the sheet is as long as it can be.
    Largest,
}

pub const SHAPES: [Shape; 11] = [
    Shape::Tiny,
    Shape::Recursive,
    Shape::Wide,
    Shape::Mixed,
    Shape::Full,
    Shape::Crowded,
    Shape::Layered,
    Shape::Long,
    Shape::ManyStates,
    Shape::Ruled,
    Shape::Largest,
];

/// The counts of routines, places and states with which a sheet is as long as it can be.
pub const LARGEST_SIZES: [[usize; 3]; 9] = [
    [1, 64, 16],
    [2, 32, 16],
    [4, 16, 16],
    [8, 8, 16],
    [16, 4, 16],
    [4, 64, 8],
    [8, 32, 8],
    [16, 16, 8],
    [16, 64, 4],
];

/// How many places a routine may have beside so many routines and states.
pub fn room_for_places(routines: usize, states: usize) -> usize {
    let fit = MOST_SHEET / (routines * states * states);
    fit.min(MOST_PLACES.into())
}

/// Some shapes, each with its share of the programs.
pub type Shares = [(usize, Shape)];

/// The shape whose turn it is, where each has as many turns in a row as its share.
pub fn shape_in_turn(turn: usize, shares: &Shares) -> Shape {
    let mut turns = shares
        .iter()
        .flat_map(|&(share, shape)| std::iter::repeat(shape).take(share));
    turns.nth(turn % sum(shares)).expect("some share")
}

/// A shape, drawn by the shares.
pub fn shape_by_shares(random: &mut Random, shares: &Shares) -> Shape {
    shape_in_turn(random.below(sum(shares)), shares)
}

fn sum(shares: &Shares) -> usize {
    shares.iter().map(|&(share, _)| share).sum()
}

/// Which routines a routine calls.
#[derive(Clone, Copy)]
pub enum Callees {
    Any,
    /// Itself, its neighbours, and main.
    Circles,
    /// Later ones only; the last calls none.
    Later,
    /// Later ones only, and mostly the next.
    Next,
}

/// How large a program is to be, and what calls what.
pub struct Plan {
    pub routines: usize,
    pub least_places: usize,
    pub most_places: usize,
    pub states: usize,
    pub actions: usize,
    pub steps: usize,
    pub rule: usize,
    pub callees: Callees,
    pub calls_in_a_hundred: usize,
    /// How many of a hundred routines have steps to their exit.
    pub return_in_a_hundred: usize,
    /// Whether every state has a rule line for every action, as far as there is room.
    pub rule_is_total: bool,
}

/// A plan of this shape.
pub fn plan(random: &mut Random, shape: Shape) -> Plan {
    match shape {
        Shape::Tiny => tiny(random),
        Shape::Recursive => recursive(random),
        Shape::Wide => wide(random),
        Shape::Mixed => mixed(random),
        Shape::Full => full(random),
        Shape::Crowded => crowded(random),
        Shape::Layered => layered(random),
        Shape::Long => long(random),
        Shape::ManyStates => many_states(random),
        Shape::Ruled => ruled(random),
        Shape::Largest => largest(random),
    }
}

/// A plan of a program's sizes, for a routine of it that is made anew. Its steps are that routine's.
pub fn plan_within(random: &mut Random, program: &Program) -> Plan {
    let few = random.between(0, 6);
    let more = random.between(4, 20);
    let room = room_for_places(program.places.len(), program.states.into());
    let most_places = random.pick(&[2, 4, 4, 8, 16, room]);
    Plan {
        routines: program.places.len(),
        least_places: 2,
        most_places: most_places.min(room),
        states: program.states.into(),
        actions: program.actions.into(),
        steps: random.pick(&[few, few, more]),
        rule: 0,
        callees: random.pick(&[
            Callees::Any,
            Callees::Circles,
            Callees::Later,
            Callees::Next,
        ]),
        calls_in_a_hundred: random.pick(&[20, 40, 60]),
        return_in_a_hundred: random.pick(&[60, 90, 100]),
        rule_is_total: false,
    }
}

fn tiny(random: &mut Random) -> Plan {
    Plan {
        routines: random.between(1, 3),
        least_places: 2,
        most_places: random.between(2, 4),
        states: random.between(1, 3),
        actions: random.between(1, 2),
        steps: random.between(0, 7),
        rule: random.between(0, 6),
        callees: random.pick(&[Callees::Any, Callees::Circles, Callees::Later]),
        calls_in_a_hundred: random.pick(&[20, 40, 60]),
        return_in_a_hundred: random.pick(&[50, 80, 100]),
        rule_is_total: random.percent(50),
    }
}

fn recursive(random: &mut Random) -> Plan {
    Plan {
        routines: random.between(1, 6),
        least_places: 2,
        most_places: random.between(3, 7),
        states: random.between(2, 8),
        actions: random.between(1, 4),
        steps: random.between(6, 40),
        rule: random.between(4, 30),
        callees: Callees::Circles,
        calls_in_a_hundred: random.pick(&[30, 40, 50]),
        return_in_a_hundred: random.pick(&[60, 90, 100]),
        rule_is_total: random.percent(70),
    }
}

fn wide(random: &mut Random) -> Plan {
    Plan {
        routines: random.between(6, 16),
        least_places: 4,
        most_places: random.between(6, 16),
        states: random.between(3, 8),
        actions: random.between(2, 32),
        steps: random.between(80, 200),
        rule: random.between(20, 256),
        callees: Callees::Later,
        calls_in_a_hundred: random.pick(&[15, 25, 40]),
        return_in_a_hundred: random.pick(&[80, 95, 100]),
        rule_is_total: random.percent(80),
    }
}

fn mixed(random: &mut Random) -> Plan {
    Plan {
        routines: random.between(2, 10),
        least_places: 2,
        most_places: random.between(3, 12),
        states: random.between(1, 8),
        actions: random.between(1, 16),
        steps: random.between(5, 90),
        rule: random.between(2, 80),
        callees: random.pick(&[Callees::Any, Callees::Circles, Callees::Later]),
        calls_in_a_hundred: random.pick(&[10, 30, 60]),
        return_in_a_hundred: random.pick(&[50, 80, 100]),
        rule_is_total: random.percent(60),
    }
}

fn full(random: &mut Random) -> Plan {
    Plan {
        routines: 16,
        least_places: random.pick(&[8, 12, 16]),
        most_places: 16,
        states: 8,
        actions: random.pick(&[4, 6, 8, 16, 32]),
        steps: MOST_STEPS,
        rule: 256,
        callees: random.pick(&[Callees::Any, Callees::Any, Callees::Circles, Callees::Later]),
        calls_in_a_hundred: random.pick(&[10, 20, 30, 50]),
        return_in_a_hundred: random.pick(&[90, 100]),
        rule_is_total: true,
    }
}

fn crowded(random: &mut Random) -> Plan {
    Plan {
        routines: random.between(8, 16),
        least_places: 6,
        most_places: random.between(8, 16),
        states: random.between(1, 2),
        actions: random.between(2, 8),
        steps: MOST_STEPS - random.pick(&[0, 0, 0, 1, 2]),
        rule: random.between(2, 12),
        callees: random.pick(&[Callees::Any, Callees::Circles, Callees::Later]),
        calls_in_a_hundred: random.pick(&[20, 40, 60]),
        return_in_a_hundred: random.pick(&[60, 90, 100]),
        rule_is_total: random.percent(50),
    }
}

fn layered(random: &mut Random) -> Plan {
    let routines = random.between(3, 8);
    let most_places = random.between(2, 4);
    Plan {
        routines,
        least_places: 2,
        most_places,
        states: random.between(2, 4),
        actions: random.between(1, 3),
        steps: routines * (most_places - 1) + random.between(0, routines),
        rule: random.between(2, 12),
        callees: Callees::Next,
        calls_in_a_hundred: random.pick(&[40, 60, 80]),
        return_in_a_hundred: random.pick(&[90, 100]),
        rule_is_total: true,
    }
}

fn long(random: &mut Random) -> Plan {
    let routines = random.between(1, 4);
    let places = random.between(17, 64);
    let most_places = random.pick(&[places, places, 64]);
    Plan {
        routines,
        least_places: random.pick(&[2, most_places]),
        most_places,
        states: random.between(1, 8),
        actions: random.between(1, 6),
        steps: random.between(20 * routines, MOST_STEPS),
        rule: random.between(4, 100),
        callees: random.pick(&[Callees::Any, Callees::Circles, Callees::Later]),
        calls_in_a_hundred: random.pick(&[10, 20, 40]),
        return_in_a_hundred: random.pick(&[80, 100]),
        rule_is_total: random.percent(70),
    }
}

fn many_states(random: &mut Random) -> Plan {
    let states = random.between(9, 16);
    Plan {
        routines: random.between(1, 4),
        least_places: 2,
        most_places: random.between(2, 16),
        states: random.pick(&[states, states, 16]),
        actions: random.between(1, 4),
        steps: random.between(5, 40),
        rule: random.between(20, 200),
        callees: random.pick(&[Callees::Any, Callees::Circles, Callees::Later]),
        calls_in_a_hundred: random.pick(&[20, 40, 60]),
        return_in_a_hundred: random.pick(&[80, 100]),
        rule_is_total: random.percent(70),
    }
}

fn ruled(random: &mut Random) -> Plan {
    Plan {
        routines: random.between(1, 6),
        least_places: 2,
        most_places: random.between(2, 8),
        states: random.between(6, 16),
        actions: random.between(16, 32),
        steps: random.between(8, 60),
        rule: MOST_RULE_LINES,
        callees: random.pick(&[Callees::Any, Callees::Circles, Callees::Later]),
        calls_in_a_hundred: random.pick(&[20, 40]),
        return_in_a_hundred: random.pick(&[80, 100]),
        rule_is_total: random.percent(70),
    }
}

fn largest(random: &mut Random) -> Plan {
    let [routines, places, states] = random.pick(&LARGEST_SIZES);
    Plan {
        routines,
        least_places: places,
        most_places: places,
        states,
        actions: random.between(1, 4),
        steps: random.between(30, MOST_STEPS),
        rule: random.between(20, 100),
        callees: random.pick(&[Callees::Any, Callees::Later, Callees::Next]),
        calls_in_a_hundred: random.pick(&[10, 30]),
        return_in_a_hundred: random.pick(&[60, 100]),
        rule_is_total: random.percent(50),
    }
}
