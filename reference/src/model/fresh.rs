//! Working afresh: the procedure that takes the lowest standing first, with its count of takings. What
//! the rule makes of an action, a call or a return is asked of `moves`.

use crate::model::moves::Moves;
use crate::model::program::{Event, Label, Program, EXIT};
use crate::model::standing::{Sizes, Standing};
use std::collections::{BTreeMap, BTreeSet};

/// How often a standing is taken at the most: once when it is marked, and once for each pair of each
/// routine.
pub fn most_takings(sizes: Sizes) -> u32 {
    let states = u32::from(sizes.states);
    1 + u32::from(sizes.routines) * states * states
}

/// What the procedure leaves behind. Both rows go by the standings' numbers in these sizes.
pub struct Fresh {
    pub sizes: Sizes,
    pub marked: Vec<bool>,
    /// How often each standing was taken.
    pub taken: Vec<u32>,
}

impl Fresh {
    /// The standings that were marked, and how often each was taken.
    pub fn by_parts(&self) -> BTreeMap<Standing, u32> {
        let numbers = (0..self.sizes.length()).filter(|&number| self.marked[number]);
        let taken = |number| (self.sizes.standing(number), self.taken[number]);
        numbers.map(taken).collect()
    }
}

/// Works a program's standings afresh.
pub fn work_afresh(program: &Program) -> Fresh {
    work_in(program.sizes(), program)
}

/// The same with numbers by other sizes, which leave room for all that the program has.
pub fn work_in(sizes: Sizes, program: &Program) -> Fresh {
    let mut working = Working::new(sizes, program);
    for &state in &program.starts {
        working.mark(Standing::entry(0, state));
    }
    while let Some(&lowest) = working.waiting.iter().next() {
        working.take(sizes.standing(lowest));
    }
    Fresh {
        sizes,
        marked: working.marked,
        taken: working.taken,
    }
}

/// Everything that the procedure remembers between two takings.
struct Working<'a> {
    program: &'a Program,
    moves: Moves<'a>,
    sizes: Sizes,
    marked: Vec<bool>,
    waiting: BTreeSet<usize>,
    taken: Vec<u32>,
    /// The known pairs: for each f and r every q with which the exit (f, 1, r, q) has been taken. They end
    /// before the return's move.
    known: BTreeMap<(u8, u8), BTreeSet<u8>>,
}

impl Working<'_> {
    fn new(sizes: Sizes, program: &Program) -> Working<'_> {
        Working {
            program,
            moves: Moves::of(program),
            sizes,
            marked: vec![false; sizes.length()],
            waiting: BTreeSet::new(),
            taken: vec![0; sizes.length()],
            known: BTreeMap::new(),
        }
    }

    /// What is newly marked waits; what was marked before is left as it is.
    fn mark(&mut self, standing: Standing) {
        let number = self.sizes.number(standing);
        if !self.marked[number] {
            self.marked[number] = true;
            self.waiting.insert(number);
        }
    }

    fn take(&mut self, standing: Standing) {
        let number = self.sizes.number(standing);
        self.waiting.remove(&number);
        self.taken[number] += 1;
        if standing.place == EXIT {
            self.take_exit(standing);
            return;
        }
        for result in self.results(standing) {
            self.mark(result);
        }
    }

    /// Everything that the steps from a standing mark.
    fn results(&self, standing: Standing) -> Vec<Standing> {
        let mut results = Vec::new();
        for step in self.program.steps_from(standing.routine, standing.place) {
            match step.label {
                Label::Action(action) => results.extend(self.acted(standing, action, step.to)),
                Label::Call(callee) => results.extend(self.called(standing, callee, step.to)),
            }
        }
        results
    }

    /// The pair becomes known, and every marked standing from which a call can give this root waits,
    /// whether or not the return's move leads it anywhere.
    fn take_exit(&mut self, exit: Standing) {
        let pairs = self.known.entry((exit.routine, exit.root));
        pairs.or_default().insert(exit.state);
        for caller in self.callers(exit.routine, exit.root) {
            let number = self.sizes.number(caller);
            if self.marked[number] {
                self.waiting.insert(number);
            }
        }
    }

    /// The standings, marked or not, at which a step calls this routine and the call can give this
    /// root.
    fn callers(&self, routine: u8, root: u8) -> Vec<Standing> {
        let states = 0..self.program.states;
        let gives = |&state: &u8| self.moves.leads(state, Event::Call(routine), root);
        let states: Vec<u8> = states.filter(gives).collect();
        let mut callers = Vec::new();
        for step in &self.program.steps {
            if step.label != Label::Call(routine) {
                continue;
            }
            for root in 0..self.program.states {
                let caller = |&state: &u8| Standing {
                    routine: step.routine,
                    place: step.from,
                    root,
                    state,
                };
                callers.extend(states.iter().map(caller));
            }
        }
        callers
    }

    fn acted(&self, standing: Standing, action: u8, to: u8) -> Vec<Standing> {
        let states = self.moves.after(standing.state, Event::Action(action));
        let results = states.into_iter().map(|state| standing.at(to, state));
        results.collect()
    }

    /// The entry for each root that the call's move gives, and what the return's move makes of each
    /// known pair with such a root. Many pairs end alike, and lead to the same.
    fn called(&self, standing: Standing, callee: u8, to: u8) -> Vec<Standing> {
        let roots = self.moves.after(standing.state, Event::Call(callee));
        let ends = roots
            .iter()
            .filter_map(|&root| self.known.get(&(callee, root)));
        let ends: BTreeSet<u8> = ends.flatten().copied().collect();
        let after = |end| self.moves.after(end, Event::Return(callee));
        let states: BTreeSet<u8> = ends.into_iter().flat_map(after).collect();
        let entries = roots.iter().map(|&root| Standing::entry(callee, root));
        let returned = states.into_iter().map(|state| standing.at(to, state));
        entries.chain(returned).collect()
    }
}

#[cfg(test)]
mod tests {
    use super::*;
    use crate::generate::hearing::MetHearing;
    use crate::generate::programs::program_by_shares;
    use crate::generate::random::Random;
    use crate::generate::shapes::Shape;
    use crate::model::analysis::analyze;

    /// Whether the rule can go from one state to another by an event, read off its lines.
    fn goes(program: &Program, from: u8, event: Event, to: u8) -> bool {
        let lines: Vec<_> = program.rule.iter().collect();
        let is_heard = lines.iter().any(|line| line.event == event);
        match event {
            Event::Call(_) | Event::Return(_) if !is_heard => from == to,
            _ => lines
                .iter()
                .any(|line| (line.from, line.event, line.to) == (from, event, to)),
        }
    }

    /// The procedure once more, by the letter: sets of standings, every state tried everywhere, and the
    /// rule asked line by line.
    #[derive(Default)]
    struct Letter {
        marked: BTreeSet<Standing>,
        waiting: BTreeSet<Standing>,
        known: BTreeSet<(u8, u8, u8)>,
        taken: BTreeMap<Standing, u32>,
    }

    impl Letter {
        fn work(program: &Program) -> Letter {
            let mut letter = Letter::default();
            for &state in &program.starts {
                letter.mark(Standing::entry(0, state));
            }
            while let Some(&at) = letter.waiting.iter().next() {
                letter.waiting.remove(&at);
                *letter.taken.entry(at).or_default() += 1;
                if at.place == EXIT {
                    letter.end(program, at);
                } else {
                    letter.step(program, at);
                }
            }
            letter
        }

        fn mark(&mut self, at: Standing) {
            if self.marked.insert(at) {
                self.waiting.insert(at);
            }
        }

        fn end(&mut self, program: &Program, exit: Standing) {
            self.known.insert((exit.routine, exit.root, exit.state));
            let call = Event::Call(exit.routine);
            for at in &self.marked {
                let mut callees = program.callees_from(at.routine, at.place);
                let calls = callees.any(|callee| callee == exit.routine);
                if calls && goes(program, at.state, call, exit.root) {
                    self.waiting.insert(*at);
                }
            }
        }

        fn step(&mut self, program: &Program, at: Standing) {
            for step in program.steps_from(at.routine, at.place) {
                for first in 0..program.states {
                    match step.label {
                        Label::Action(action) => {
                            if goes(program, at.state, Event::Action(action), first) {
                                self.mark(at.at(step.to, first));
                            }
                        }
                        Label::Call(callee) => {
                            if goes(program, at.state, Event::Call(callee), first) {
                                self.mark(Standing::entry(callee, first));
                                self.come_back(program, at.at(step.to, 0), callee, first);
                            }
                        }
                    }
                }
            }
        }

        /// Marks where a call that gave this root comes back to, in every state that it can.
        fn come_back(&mut self, program: &Program, to: Standing, callee: u8, root: u8) {
            for end in 0..program.states {
                for state in 0..program.states {
                    let is_known = self.known.contains(&(callee, root, end));
                    if is_known && goes(program, end, Event::Return(callee), state) {
                        self.mark(Standing { state, ..to });
                    }
                }
            }
        }
    }

    #[test]
    fn each_standing_is_taken_as_often_as_by_the_letter() {
        let shares = [
            (50, Shape::Tiny),
            (25, Shape::Recursive),
            (20, Shape::Layered),
            (5, Shape::Mixed),
        ];
        let mut hearing = MetHearing::default();
        for seed in 0..1000 {
            let program = program_by_shares(&mut Random::new(seed), &shares);
            let (given, wanted) = (work_afresh(&program), Letter::work(&program));
            assert_eq!(given.by_parts(), wanted.taken, "seed {seed}");
            assert!(wanted.taken.keys().eq(&wanted.marked), "seed {seed}");
            hearing.note(&program, &analyze(&program).sheet);
        }
        println!("{hearing:?}");
        hearing.check(20);
    }
}
