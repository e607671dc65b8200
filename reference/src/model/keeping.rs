//! The keeping: of the marks on a sheet, those that have support back to a start.
//!
//! At first nothing is kept. A mark is kept as soon as it has support among the kept, and the sheet
//! is gone through again and again until nothing more is kept. So two marks that only support each
//! other both go.

use crate::model::moves::Moves;
use crate::model::program::{Event, Label, Program, Step};
use crate::model::standing::{Sizes, Standing};

/// The sheet that is left: 1 for each mark that stays, and 0 for all else. Any byte other than 0 is
/// a mark, the program's own sheet or not. A place that a routine does not have has no support.
pub fn keep(program: &Program, sheet: &[u8]) -> Vec<u8> {
    let mut keeping = Keeping {
        program,
        moves: Moves::of(program),
        sizes: program.sizes(),
        kept: vec![0; sheet.len()],
    };
    loop {
        let before = keeping.kept.clone();
        for number in 0..sheet.len() {
            let is_open = sheet[number] != 0 && keeping.kept[number] == 0;
            if is_open && keeping.has_support(keeping.sizes.standing(number)) {
                keeping.kept[number] = 1;
            }
        }
        if keeping.kept == before {
            return before;
        }
    }
}

/// What is kept so far, and what support is judged by.
struct Keeping<'a> {
    program: &'a Program,
    moves: Moves<'a>,
    sizes: Sizes,
    kept: Vec<u8>,
}

impl Keeping<'_> {
    fn is_kept(&self, standing: Standing) -> bool {
        self.kept[self.sizes.number(standing)] == 1
    }

    fn has_support(&self, standing: Standing) -> bool {
        self.is_start(standing) || self.is_called(standing) || self.is_led_to(standing)
    }

    fn is_start(&self, standing: Standing) -> bool {
        let starts = &self.program.starts;
        starts.contains(&standing.state) && standing == Standing::entry(0, standing.state)
    }

    /// Whether a kept standing calls this entry, and the call's move can give this state. The call
    /// need not return.
    fn is_called(&self, entry: Standing) -> bool {
        if entry != Standing::entry(entry.routine, entry.state) {
            return false;
        }
        let mut steps = self.program.steps.iter();
        steps.any(|step| step.label == Label::Call(entry.routine) && self.gives_root(step, entry))
    }

    /// Whether a step that calls a routine has a kept standing at its beginning from which the call's
    /// move gives this entry's root.
    fn gives_root(&self, step: &Step, entry: Standing) -> bool {
        let call = Event::Call(entry.routine);
        let is_kept_in = |state: u8| {
            (0..self.program.states).any(|root| {
                self.is_kept(Standing {
                    routine: step.routine,
                    place: step.from,
                    root,
                    state,
                })
            })
        };
        let mut states = 0..self.program.states;
        states.any(|state| self.moves.leads(state, call, entry.root) && is_kept_in(state))
    }

    /// Whether a step of the same activation leads here from a kept standing.
    fn is_led_to(&self, standing: Standing) -> bool {
        let leads_here =
            |step: &&Step| (step.routine, step.to) == (standing.routine, standing.place);
        let mut steps = self.program.steps.iter().filter(leads_here);
        steps.any(|step| {
            let mut before = 0..self.program.states;
            before.any(|state| {
                self.is_kept(standing.at(step.from, state))
                    && self.is_moved(step.label, state, standing.state)
            })
        })
    }

    /// Whether a label moves from one state to another: by an action of the rule, or by a call whose
    /// return is kept, with the moves of both.
    fn is_moved(&self, label: Label, from: u8, to: u8) -> bool {
        match label {
            Label::Action(action) => self.moves.leads(from, Event::Action(action), to),
            Label::Call(callee) => {
                let roots = self.moves.after(from, Event::Call(callee));
                roots.into_iter().any(|root| {
                    (0..self.program.states).any(|end| {
                        self.is_kept(Standing::exit(callee, root, end))
                            && self.moves.leads(end, Event::Return(callee), to)
                    })
                })
            }
        }
    }
}

#[cfg(test)]
mod tests {
    use super::*;
    use crate::cases::keepings::{self, KeepingCase};
    use crate::cases::{heard, sample};
    use crate::generate::programs::program_of_seed;
    use crate::generate::random::Random;
    use crate::generate::sheets;
    use crate::model::analysis::own_sheet;
    use crate::model::edit::{after, Edit};
    use crate::model::groups::own_standings;
    use crate::model::least::least_set_within;
    use crate::model::standing::marked;

    #[test]
    fn the_own_sheet_is_kept_as_it_is() {
        for seed in 0..150 {
            let program = program_of_seed(seed);
            let own = own_sheet(&program);
            assert_eq!(keep(&program, &own), own, "seed {seed}");
        }
    }

    #[test]
    fn of_a_sheet_of_marks_alone_the_own_is_kept() {
        for seed in 0..50 {
            let program = program_of_seed(seed);
            let own = own_sheet(&program);
            for byte in [1, 0xA5] {
                let marks = vec![byte; own.len()];
                assert_eq!(keep(&program, &marks), own, "seed {seed}");
            }
        }
    }

    #[test]
    fn the_old_sheet_after_a_drop_leaves_the_fresh_one() {
        for seed in 0..150 {
            let random = &mut Random::new(seed);
            let program = program_of_seed(seed);
            let steps: Vec<_> = program.steps.iter().copied().collect();
            if steps.is_empty() {
                continue;
            }
            let edit = Edit::Drop(random.pick(&steps));
            let after = after(&program, edit);
            let kept = keep(&after, &own_sheet(&program));
            assert_eq!(kept, own_sheet(&after), "seed {seed}: {edit:?}");
        }
    }

    /// What is kept of any sheet is the least set that may not leave the sheet's marks.
    #[test]
    fn what_is_kept_is_the_least_set_within_the_marks() {
        let mut parted = 0;
        for seed in 0..700 {
            let random = &mut Random::new(seed);
            let program = program_of_seed(seed);
            let (own, sizes) = (own_sheet(&program), program.sizes());
            let way = random.below(sheets::ANY);
            let sheet = sheets::any(random, &own, way);
            let wanted = least_set_within(&program, |&at| sheet[sizes.number(at)] != 0);
            let kept = sizes.standings(&keep(&program, &sheet));
            assert_eq!(kept, wanted, "seed {seed}, way {way}");
            parted += usize::from(!kept.is_empty() && kept.len() < marked(&own).len());
        }
        assert!(parted >= 60, "{parted}");
    }

    fn check(cases: &[KeepingCase]) {
        for case in cases {
            let kept = keep(&case.program, &case.sheet);
            assert_eq!(marked(&kept), case.left);
        }
    }

    /// After a drop, what is left is the edited program's own sheet.
    fn check_drops(cases: &[KeepingCase]) {
        check(cases);
        for case in cases {
            assert_eq!(marked(&own_sheet(&case.program)), case.left);
        }
    }

    #[test]
    fn a_gap_on_the_sheet_cuts_off_what_lies_behind_it() {
        check(&keepings::gaps());
    }

    #[test]
    fn a_call_that_never_returns_supports_the_called_entry() {
        check_drops(&keepings::unreturned_call());
    }

    #[test]
    fn main_called_in_another_state_is_no_start() {
        let program = keepings::main_calls_itself();
        let number = program.sizes().number(Standing::entry(0, 1));
        assert_eq!(own_sheet(&program)[number], 1);
        check_drops(&keepings::main_called_in_another_state());
    }

    #[test]
    fn two_routines_that_call_each_other_do_not_support_each_other() {
        let called = own_standings(&keepings::two_that_call_each_other());
        let count = |routine| called.iter().filter(|at| at.routine == routine).count();
        assert!(count(1) > 2 && count(2) > 2);
        check_drops(&keepings::no_outside_call());
    }

    #[test]
    fn calls_and_returns_support_what_their_moves_give() {
        check(&heard::keepings());
    }

    /// Routine 1 of the sample has two places and main three, so there are numbers for a third.
    #[test]
    fn marks_that_the_program_has_no_place_for_go() {
        let program = sample::program();
        let own = own_sheet(&program);
        for number in (0..own.len()).filter(|&number| own[number] == 0) {
            let mut sheet = own.clone();
            sheet[number] = 0xFF;
            assert_eq!(keep(&program, &sheet), own, "mark {number}");
        }
    }
}
