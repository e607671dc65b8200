//! The lowest-first procedure in plain Rust, written straight from its description, to set beside
//! the proved library.
//!
//! The steps of a place and the callers of a routine are found by an index, and next states in a
//! table. The sheet holds the marks, a byte each, and standings are marked one by one. What waits,
//! the pairs and all sets of states are bits.

use crate::tables::{
    bits, giving, moves_by_label, place_number, states_as_bits, Moves, States, Tables, LABELS,
    PLACES, ROUTINES, STATES, WORD,
};
use reference::model::program::{Label, Step, EXIT, FIRST_CALL, FIRST_RETURN, MOST_STEPS};
use reference::model::standing::{Sizes, MOST_SHEET};

/// How many words have a bit for each standing, at the most.
const WORDS: usize = MOST_SHEET / WORD;

/// Counts become where each begins, if the count of each stands one after its own place.
fn begin_after_each_other(counts: &mut [u16]) {
    for at in 1..counts.len() {
        counts[at] += counts[at - 1];
    }
}

/// What every taking looks up, made once before the first.
struct Index<'a> {
    sizes: Sizes,
    /// The steps in their order: those of a place stand side by side.
    steps: &'a [Step],
    /// Where the steps of each place begin, and the end of the last.
    first_step: [u16; PLACES + 1],
    /// The places of the steps that call, those that call the same routine side by side.
    callers: [u16; MOST_STEPS],
    /// Where the callers of each routine begin, and the end of the last.
    first_caller: [u16; ROUTINES + 1],
    moves: [Moves; LABELS],
}

impl<'a> Index<'a> {
    fn new(tables: &'a Tables) -> Index<'a> {
        let mut index = Index {
            sizes: tables.sizes,
            steps: &tables.steps,
            first_step: [0; PLACES + 1],
            callers: [0; MOST_STEPS],
            first_caller: [0; ROUTINES + 1],
            moves: moves_by_label(&tables.rule),
        };
        index.count_steps();
        let places = place_number(index.sizes, index.sizes.routines, 0);
        begin_after_each_other(&mut index.first_step[..=places]);
        begin_after_each_other(&mut index.first_caller);
        index.list_callers();
        index
    }

    fn count_steps(&mut self) {
        for step in self.steps {
            self.first_step[self.place(step, step.from) + 1] += 1;
            if let Label::Call(routine) = step.label {
                self.first_caller[usize::from(routine) + 1] += 1;
            }
        }
    }

    fn list_callers(&mut self) {
        let mut next = self.first_caller;
        for step in self.steps {
            if let Label::Call(routine) = step.label {
                let at = &mut next[usize::from(routine)];
                let place = place_number(self.sizes, step.routine, step.from);
                self.callers[usize::from(*at)] = place as u16;
                *at += 1;
            }
        }
    }

    /// The number of a place of a step's routine.
    fn place(&self, step: &Step, place: u8) -> usize {
        place_number(self.sizes, step.routine, place)
    }

    /// A standing's number. That of its place says its routine too.
    fn standing(&self, place: usize, root: usize, state: usize) -> usize {
        let states = usize::from(self.sizes.states);
        (place * states + root) * states + state
    }

    fn steps_from(&self, place: usize) -> &'a [Step] {
        &self.steps[self.first_step[place].into()..self.first_step[place + 1].into()]
    }

    fn callers_of(&self, routine: usize) -> &[u16] {
        &self.callers[self.first_caller[routine].into()..self.first_caller[routine + 1].into()]
    }

    fn moves_of_call(&self, routine: usize) -> &Moves {
        &self.moves[usize::from(FIRST_CALL) + routine]
    }

    fn moves_of_return(&self, routine: usize) -> &Moves {
        &self.moves[usize::from(FIRST_RETURN) + routine]
    }
}

/// How far the procedure has come.
struct Progress<'a> {
    /// A byte for each standing: 1 where it is marked, and else 0.
    marks: &'a mut [u8],
    /// A bit for each standing: whether it waits.
    waiting: [u64; WORDS],
    /// No word before this one has a bit that waits.
    lowest_word: usize,
    /// The pairs: for each routine and root the states, as bits, in which it is known to end.
    ends: [Moves; ROUTINES],
}

impl<'a> Progress<'a> {
    fn none(sheet: &'a mut [u8]) -> Progress<'a> {
        sheet.fill(0);
        Progress {
            marks: sheet,
            waiting: [0; WORDS],
            lowest_word: WORDS,
            ends: [[0; STATES]; ROUTINES],
        }
    }

    fn wait(&mut self, standing: usize) {
        let word = standing / WORD;
        self.waiting[word] |= 1 << (standing % WORD);
        self.lowest_word = self.lowest_word.min(word);
    }

    fn mark(&mut self, standing: usize) {
        if self.marks[standing] == 0 {
            self.marks[standing] = 1;
            self.wait(standing);
        }
    }

    fn mark_states(&mut self, index: &Index, place: usize, root: usize, states: States) {
        for state in bits(states.into()) {
            self.mark(index.standing(place, root, state));
        }
    }

    fn mark_entries(&mut self, index: &Index, routine: u8, roots: States) {
        let entry = place_number(index.sizes, routine, 0);
        for root in bits(roots.into()) {
            self.mark(index.standing(entry, root, root));
        }
    }

    /// The number of the lowest standing that waits. It waits no longer.
    fn take_lowest(&mut self) -> Option<usize> {
        while self.lowest_word < WORDS {
            let waiting = self.waiting[self.lowest_word];
            if waiting != 0 {
                self.waiting[self.lowest_word] = waiting & (waiting - 1);
                return Some(self.lowest_word * WORD + waiting.trailing_zeros() as usize);
            }
            self.lowest_word += 1;
        }
        None
    }

    /// Takes a standing: at an exit a pair is known, and elsewhere every step is followed.
    fn take(&mut self, index: &Index, standing: usize) {
        let places = usize::from(index.sizes.places);
        let states = usize::from(index.sizes.states);
        let (row, state) = (standing / states, standing % states);
        let (place, root) = (row / states, row % states);
        if place % places == usize::from(EXIT) {
            let routine = place / places;
            self.ends[routine][root] |= 1 << state;
            self.wake_callers(index, routine, root);
        } else {
            for step in index.steps_from(place) {
                self.follow(index, step, root, state);
            }
        }
    }

    fn follow(&mut self, index: &Index, step: &Step, root: usize, state: usize) {
        let next = match step.label {
            Label::Action(action) => index.moves[usize::from(action)][state],
            Label::Call(routine) => {
                let roots = index.moves_of_call(routine.into())[state];
                self.mark_entries(index, routine, roots);
                self.returned(index, routine.into(), roots)
            }
        };
        self.mark_states(index, index.place(step, step.to), root, next);
    }

    /// The states after the return of a routine that began with one of these roots, by the pairs.
    fn returned(&self, index: &Index, routine: usize, roots: States) -> States {
        let returns = index.moves_of_return(routine);
        let ends = bits(roots.into()).fold(0, |ends, root| ends | self.ends[routine][root]);
        bits(ends.into()).fold(0, |states, end| states | returns[end])
    }

    /// Sets waiting what is marked and can give a routine this root by a call.
    fn wake_callers(&mut self, index: &Index, routine: usize, root: usize) {
        let giving = giving(index.moves_of_call(routine), root);
        for &place in index.callers_of(routine) {
            self.wake(index, place.into(), giving);
        }
    }

    /// Sets waiting what is marked at a place in these states, with any root.
    fn wake(&mut self, index: &Index, place: usize, states: States) {
        for root in 0..index.sizes.states.into() {
            self.wake_states(index, place, root, states);
        }
    }

    fn wake_states(&mut self, index: &Index, place: usize, root: usize, states: States) {
        for state in bits(states.into()) {
            let standing = index.standing(place, root, state);
            if self.marks[standing] != 0 {
                self.wait(standing);
            }
        }
    }
}

/// How many of the states of one place and root are marked, and how many of these are forbidden.
fn count_states(marks: &[u8], forbidden: States) -> [u32; 2] {
    let (mut standings, mut findings) = (0, 0);
    for (state, &mark) in marks.iter().enumerate() {
        standings += u32::from(mark);
        findings += u32::from(u16::from(mark) & forbidden >> state);
    }
    [standings, findings]
}

/// The counts of standings and findings, by one pass over the sheet.
fn count(marks: &[u8], states: u8, forbidden: States) -> [u32; 2] {
    let (mut standings, mut findings) = (0, 0);
    for states in marks.chunks_exact(states.into()) {
        let counts = count_states(states, forbidden);
        standings += counts[0];
        findings += counts[1];
    }
    [standings, findings]
}

/// The counts of standings, findings and takings. The sheet, which is as long as the program's own, is
/// written whole, whatever was there.
pub fn analyze(tables: &Tables, sheet: &mut [u8]) -> [u32; 3] {
    let index = Index::new(tables);
    let mut progress = Progress::none(sheet);
    progress.mark_entries(&index, 0, states_as_bits(&tables.starts));
    let mut takings = 0;
    while let Some(standing) = progress.take_lowest() {
        takings += 1;
        progress.take(&index, standing);
    }
    let forbidden = states_as_bits(&tables.forbidden);
    let [standings, findings] = count(sheet, tables.sizes.states, forbidden);
    [standings, findings, takings]
}
