//! What `plain` and `packed` have in common: the program as they are given it, the rule as a table,
//! and sets as bits.

use reference::model::program::{
    Program, Step, FIRST_CALL, FIRST_RETURN, MOST_PLACES, MOST_ROUTINES, MOST_STATES,
};
use reference::model::standing::Sizes;

/// How many states a rule has at the most, and so how many roots there are.
pub const STATES: usize = MOST_STATES as usize;
pub const ROUTINES: usize = MOST_ROUTINES as usize;
/// How many numbers there are for places at the most.
pub const PLACES: usize = ROUTINES * MOST_PLACES as usize;
/// All labels are below this, those of the rule's returns being the last.
pub const LABELS: usize = FIRST_RETURN as usize + ROUTINES;
/// How many bits a word has.
pub const WORD: usize = 64;

/// A rule line: its state, its label and its next state.
type Line = [u8; 3];

/// A set of states, a bit for each.
pub type States = u16;

/// Where something leads from each state.
pub type Moves = [States; STATES];

/// A program with its tables as plain rows. The steps ascend.
pub struct Tables {
    pub sizes: Sizes,
    pub steps: Vec<Step>,
    pub rule: Vec<Line>,
    pub starts: Vec<u8>,
    pub forbidden: Vec<u8>,
}

impl Tables {
    pub fn new(program: &Program) -> Tables {
        Tables {
            sizes: program.sizes(),
            steps: program.steps.iter().copied().collect(),
            rule: program.rule.iter().map(|line| line.numbers()).collect(),
            starts: program.starts.iter().copied().collect(),
            forbidden: program.forbidden.iter().copied().collect(),
        }
    }
}

/// The numbers of the bits that are set, lowest first.
pub fn bits(mut word: u64) -> impl Iterator<Item = usize> {
    std::iter::from_fn(move || {
        let lowest = word.trailing_zeros() as usize;
        word &= word.wrapping_sub(1);
        (lowest < WORD).then_some(lowest)
    })
}

pub fn states_as_bits(states: &[u8]) -> States {
    states.iter().fold(0, |bits, state| bits | 1 << state)
}

/// A place's number: those of a routine stand side by side, as many as the longest routine has.
pub fn place_number(sizes: Sizes, routine: u8, place: u8) -> usize {
    usize::from(routine) * usize::from(sizes.places) + usize::from(place)
}

/// The rule as a table: one look gives all next states.
pub fn moves_by_label(rule: &[Line]) -> [Moves; LABELS] {
    let mut moves = [[0; STATES]; LABELS];
    for &[from, label, to] in rule {
        moves[usize::from(label)][usize::from(from)] |= 1 << to;
    }
    for first in [FIRST_CALL, FIRST_RETURN].map(usize::from) {
        for event in &mut moves[first..first + ROUTINES] {
            if *event == [0; STATES] {
                *event = not_heard();
            }
        }
    }
    moves
}

/// What calls and returns do that the rule does not hear: they leave every state alone.
fn not_heard() -> Moves {
    std::array::from_fn(|state| 1 << state)
}

/// The states in which a call with these moves can give this root.
pub fn giving(calls: &Moves, root: usize) -> States {
    let gives = |state: usize| (calls[state] >> root & 1) << state;
    (0..STATES).fold(0, |bits, state| bits | gives(state))
}
