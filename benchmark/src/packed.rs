//! The lowest-first procedure in plain Rust, tuned beyond `plain`.
//!
//! - The standings of a place with one root are a row: one word of 16 bits, a bit for each state. One
//!   `or` marks all that a step leads to from a standing, and one `and` finds all that a pair wakes in
//!   a row. Only at the end the marks are written out as a sheet's bytes.
//! - The pairs are folded with the moves of calls and returns into one table, so that a call costs
//!   one look, as an action does.
//! - The steps are packed, a place's actions apart from its calls.

use crate::tables::{
    bits, giving, moves_by_label, place_number, states_as_bits, Moves, States, Tables, LABELS,
    ROUTINES, STATES, WORD,
};
use reference::model::program::{Label, Step, EXIT, FIRST_CALL, FIRST_RETURN, MOST_STEPS};
use reference::model::standing::Sizes;

/// How many rows there are at the most: 16 routines of 64 places and 4 states have as many.
const ROWS: usize = 4096;

/// A step beside others from the same place.
#[derive(Clone, Copy)]
struct Packed {
    /// The number of an action, or of the routine that is called.
    does: u8,
    /// The number of the place to which it leads.
    to: u16,
}

/// What every taking looks up, made once before the first.
struct Index {
    sizes: Sizes,
    /// The steps in their order: those of a place stand side by side, its actions before its calls.
    steps: [Packed; MOST_STEPS],
    /// Where the actions of each place begin and, after each of these, where its calls do.
    first: Vec<u16>,
    /// For each routine the places with a step that calls it, a bit for each number.
    callers: [Vec<u64>; ROUTINES],
    moves: [Moves; LABELS],
}

impl Index {
    fn new(tables: &Tables) -> Index {
        let places = place_number(tables.sizes, tables.sizes.routines, 0);
        let mut index = Index {
            sizes: tables.sizes,
            steps: [Packed { does: 0, to: 0 }; MOST_STEPS],
            first: vec![0; 2 * places + 1],
            callers: std::array::from_fn(|_| Vec::new()),
            moves: moves_by_label(&tables.rule),
        };
        for (at, step) in tables.steps.iter().enumerate() {
            index.add(at, step);
        }
        // So far each has the count of what stands between the one before it and itself.
        for at in 0..2 * places {
            index.first[at + 1] += index.first[at];
        }
        index
    }

    fn add(&mut self, at: usize, step: &Step) {
        let place = place_number(self.sizes, step.routine, step.from);
        let to = place_number(self.sizes, step.routine, step.to) as u16;
        self.steps[at] = match step.label {
            Label::Action(does) => {
                self.first[2 * place + 1] += 1;
                Packed { does, to }
            }
            Label::Call(does) => {
                self.first[2 * place + 2] += 1;
                self.add_caller(does, place);
                Packed { does, to }
            }
        };
    }

    fn add_caller(&mut self, routine: u8, place: usize) {
        let callers = &mut self.callers[usize::from(routine)];
        if callers.len() <= place / WORD {
            callers.resize(place / WORD + 1, 0);
        }
        callers[place / WORD] |= 1 << (place % WORD);
    }

    fn steps_between(&self, from: usize, to: usize) -> &[Packed] {
        &self.steps[self.first[from].into()..self.first[to].into()]
    }

    fn actions_from(&self, place: usize) -> &[Packed] {
        self.steps_between(2 * place, 2 * place + 1)
    }

    fn calls_from(&self, place: usize) -> &[Packed] {
        self.steps_between(2 * place + 1, 2 * place + 2)
    }

    fn moves_of_call(&self, routine: usize) -> &Moves {
        &self.moves[usize::from(FIRST_CALL) + routine]
    }

    fn moves_of_return(&self, routine: usize) -> &Moves {
        &self.moves[usize::from(FIRST_RETURN) + routine]
    }

    /// The number of the row of a place and a root.
    fn row(&self, place: usize, root: usize) -> usize {
        place * usize::from(self.sizes.states) + root
    }
}

/// A standing, by its row and its state.
#[derive(Clone, Copy)]
struct Standing {
    row: usize,
    state: usize,
}

/// How far the procedure has come.
struct Progress {
    /// For each row the states that are marked, and those that wait.
    marks: Vec<States>,
    waiting: Vec<States>,
    /// The rows in which some wait, and the words of these that have a bit, so that the lowest is found
    /// without going through all.
    waiting_rows: [u64; ROWS / WORD],
    waiting_words: u64,
    /// Where a call of each routine leads, through it and its return, by the pairs known so far.
    /// Kept in this form the pairs cost a call one look, as the rule costs an action.
    by_pairs: [Moves; ROUTINES],
}

impl Progress {
    fn none(sizes: Sizes) -> Progress {
        let rows = place_number(sizes, sizes.routines, 0) * usize::from(sizes.states);
        Progress {
            marks: vec![0; rows],
            waiting: vec![0; rows],
            waiting_rows: [0; ROWS / WORD],
            waiting_words: 0,
            by_pairs: [[0; STATES]; ROUTINES],
        }
    }

    fn wait(&mut self, row: usize, states: States) {
        self.waiting[row] |= states;
        self.waiting_rows[row / WORD] |= 1 << (row % WORD);
        self.waiting_words |= 1 << (row / WORD);
    }

    /// Marks standings of a row. Mostly all are marked already: then nothing is written, which is
    /// faster than to write the same word again.
    fn mark(&mut self, row: usize, states: States) {
        let new = states & !self.marks[row];
        if new != 0 {
            self.marks[row] |= new;
            self.wait(row, new);
        }
    }

    fn mark_entries(&mut self, index: &Index, routine: u8, roots: States) {
        let entry = place_number(index.sizes, routine, 0);
        for root in bits(roots.into()) {
            self.mark(index.row(entry, root), 1 << root);
        }
    }

    /// The lowest standing that waits. It waits no longer.
    fn take_lowest(&mut self) -> Option<Standing> {
        let at = bits(self.waiting_words).next()?;
        let rows = self.waiting_rows[at];
        let row = at * WORD + rows.trailing_zeros() as usize;
        let waiting = self.waiting[row];
        self.waiting[row] &= waiting - 1;
        if self.waiting[row] == 0 {
            self.waiting_rows[at] &= rows - 1;
        }
        if self.waiting_rows[at] == 0 {
            self.waiting_words &= self.waiting_words - 1;
        }
        let state = waiting.trailing_zeros() as usize;
        Some(Standing { row, state })
    }

    /// Takes a standing: at an exit a pair is known, and elsewhere every step is followed.
    fn take(&mut self, index: &Index, taken: Standing) {
        let (places, states) = (index.sizes.places, index.sizes.states);
        let (place, root) = (
            taken.row / usize::from(states),
            taken.row % usize::from(states),
        );
        if place % usize::from(places) == usize::from(EXIT) {
            self.know(index, place / usize::from(places), root, taken.state);
        } else {
            self.follow(index, place, root, taken.state);
        }
    }

    /// Follows every step from a standing.
    fn follow(&mut self, index: &Index, place: usize, root: usize, state: usize) {
        for action in index.actions_from(place) {
            let next = index.moves[usize::from(action.does)][state];
            self.mark(index.row(action.to.into(), root), next);
        }
        for call in index.calls_from(place) {
            let routine = usize::from(call.does);
            let roots = index.moves_of_call(routine)[state];
            self.mark_entries(index, call.does, roots);
            let next = self.by_pairs[routine][state];
            self.mark(index.row(call.to.into(), root), next);
        }
    }

    /// A pair is known. What is marked and can give its root by a call is set waiting.
    fn know(&mut self, index: &Index, routine: usize, root: usize, end: usize) {
        let giving = giving(index.moves_of_call(routine), root);
        let returned = index.moves_of_return(routine)[end];
        for state in bits(giving.into()) {
            self.by_pairs[routine][state] |= returned;
        }
        for (at, &places) in index.callers[routine].iter().enumerate() {
            for bit in bits(places) {
                self.wake(index, at * WORD + bit, giving);
            }
        }
    }

    /// Sets waiting what is marked at a place in these states, with any root.
    fn wake(&mut self, index: &Index, place: usize, states: States) {
        let first = index.row(place, 0);
        for row in first..first + usize::from(index.sizes.states) {
            let woken = states & self.marks[row];
            if woken != 0 {
                self.wait(row, woken);
            }
        }
    }

    /// How many standings are marked whose state is among these.
    fn count(&self, states: States) -> u32 {
        let counts = self.marks.iter().map(|marks| (marks & states).count_ones());
        counts.sum()
    }
}

/// The counts of standings, findings and takings. The sheet, which is as long as the program's own, is
/// written whole, whatever was there.
pub fn analyze(tables: &Tables, sheet: &mut [u8]) -> [u32; 3] {
    let index = Index::new(tables);
    let mut progress = Progress::none(tables.sizes);
    progress.mark_entries(&index, 0, states_as_bits(&tables.starts));
    let mut takings = 0;
    while let Some(taken) = progress.take_lowest() {
        takings += 1;
        progress.take(&index, taken);
    }
    write_sheet(&progress.marks, tables.sizes.states, sheet);
    let forbidden = states_as_bits(&tables.forbidden);
    let standings = progress.count(States::MAX);
    [standings, progress.count(forbidden), takings]
}

fn write_sheet(marks: &[States], states: u8, sheet: &mut [u8]) {
    for (row, marks) in sheet.chunks_exact_mut(states.into()).zip(marks) {
        for (state, byte) in row.iter_mut().enumerate() {
            *byte = (marks >> state & 1) as u8;
        }
    }
}
