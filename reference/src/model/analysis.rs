//! The analysis: what a program can do.

use crate::model::file::Reading;
use crate::model::fresh::{work_afresh, Fresh};
use crate::model::program::Program;
use crate::model::refusals::FileRefusal;
use crate::model::standing::Sizes;

/// The number for no finding.
pub const NONE: u32 = u32::MAX;

/// What there is to say of a program: its own sheet, the numbers of its findings, lowest first, and
/// how many takings its fresh working needs.
#[derive(Clone, Debug, PartialEq, Eq)]
pub struct Analysis {
    pub sheet: Vec<u8>,
    pub findings: Vec<u32>,
    pub takings: u32,
}

/// The analysis of a file's program, or the file's refusal.
pub type Analyzed = Result<Analysis, FileRefusal>;

pub fn analyze(program: &Program) -> Analysis {
    analysis_of(program, &work_afresh(program))
}

/// The analysis of a program by what a procedure has left.
pub fn analysis_of(program: &Program, fresh: &Fresh) -> Analysis {
    let sheet: Vec<u8> = fresh.marked.iter().copied().map(u8::from).collect();
    Analysis {
        findings: findings(program, fresh.sizes, &sheet),
        sheet,
        takings: fresh.taken.iter().sum(),
    }
}

pub fn analyze_reading(reading: &Reading) -> Analyzed {
    reading.as_ref().map(analyze).map_err(FileRefusal::clone)
}

/// The program's own sheet: the one that a fresh working leaves.
pub fn own_sheet(program: &Program) -> Vec<u8> {
    analyze(program).sheet
}

/// The marked standings whose present state is forbidden.
fn findings(program: &Program, sizes: Sizes, sheet: &[u8]) -> Vec<u32> {
    let is_finding = |&number: &usize| {
        let state = sizes.standing(number).state;
        sheet[number] == 1 && program.forbidden.contains(&state)
    };
    let numbers = (0..sheet.len()).filter(is_finding);
    numbers.map(|number| number as u32).collect()
}

impl Analysis {
    pub fn standings(&self) -> u32 {
        self.sheet.iter().map(|&byte| u32::from(byte)).sum()
    }

    /// The first finding at or above a number, or that there is none.
    pub fn next_finding(&self, from: u32) -> u32 {
        let mut findings = self.findings.iter().copied();
        findings.find(|&finding| finding >= from).unwrap_or(NONE)
    }
}

#[cfg(test)]
mod tests {
    use super::*;
    use crate::cases::{self, sample};
    use crate::generate::hearing::{Heard, MetHearing};
    use crate::generate::programs::{
        hub, hub_of_most_roots, hub_of_roots, hub_without_returns, program_of_seed,
        program_of_shape,
    };
    use crate::generate::random::Random;
    use crate::generate::shapes::Shape;
    use crate::model::file::read;
    use crate::model::fresh::most_takings;
    use crate::model::least::least_set;
    use crate::model::runs::search;
    use crate::model::standing::{marked, Standing};
    use crate::model::write::write;

    #[test]
    fn cases_worked_out_by_hand() {
        for case in cases::analyses::all() {
            let analysis = analyze(&read(&case.file).expect("the file is accepted"));
            assert_eq!(marked(&analysis.sheet), case.standings, "{}", case.name);
            let standings = analysis.standings() as usize;
            assert_eq!(standings, case.standings.len(), "{}", case.name);
            assert_eq!(analysis.findings, case.findings, "{}", case.name);
            assert_eq!(analysis.takings, case.takings, "{}", case.name);
        }
    }

    #[test]
    fn the_next_finding_is_the_first_at_or_above_a_number() {
        let next = |file: &[u8], from| analyze(&read(file).expect("accepted")).next_finding(from);
        assert_eq!(next(sample::FILE, 0), NONE);
        let file = &cases::analyses::entry_forbidden();
        for (from, wanted) in [(0, 0), (1, 27), (27, 27), (28, NONE), (NONE, NONE)] {
            assert_eq!(next(file, from), wanted, "from {from}");
        }
    }

    /// The procedure marks exactly the least set, takes nothing too often and what is not marked
    /// never, and every root has its entry.
    fn check_procedure(name: &str, program: &Program) -> u32 {
        let fresh = work_afresh(program);
        let (set, sizes) = (least_set(program), fresh.sizes);
        for number in 0..sizes.length() {
            let standing = sizes.standing(number);
            let occurs = set.contains(&standing);
            assert_eq!(fresh.marked[number], occurs, "{name}: {standing:?}");
            assert_eq!(fresh.taken[number] > 0, occurs, "{name}: {standing:?}");
            let entry = Standing::entry(standing.routine, standing.root);
            assert!(!occurs || set.contains(&entry), "{name}: {standing:?}");
        }
        let most = fresh.taken.into_iter().max().unwrap_or(0);
        assert!(most <= most_takings(sizes), "{name}: taken {most} times");
        most
    }

    #[test]
    fn the_procedure_marks_the_least_set() {
        for seed in 0..2000 {
            check_procedure(&format!("seed {seed}"), &program_of_seed(seed));
        }
        let most = (0..12).map(|seed| {
            let program = program_of_shape(&mut Random::new(seed), Shape::Full);
            check_procedure(&format!("full, seed {seed}"), &program)
        });
        let most = most.max().unwrap_or(0);
        assert!(most >= 10, "nothing was taken more than {most} times");
    }

    #[test]
    fn a_standing_can_be_taken_as_often_as_any_may_be() {
        assert_eq!(check_procedure("hub", &hub()), 129);
        for (hub, most) in [(hub_of_roots(), 1025), (hub_of_most_roots(), 4097)] {
            assert_eq!(check_procedure("hub of roots", &hub), most);
            assert_eq!(most_takings(hub.sizes()), most);
            assert_eq!(read(&write(&hub)), Ok(hub));
        }
    }

    /// Main's entry is taken again for each of the 16 times 8 times 7 exits, and nothing comes of it.
    #[test]
    fn takings_count_that_lead_nowhere() {
        let program = hub_without_returns();
        let most = check_procedure("hub without returns", &program);
        assert_eq!(most, 1 + 16 * 8 * 7);
        let sheet = own_sheet(&program);
        let numbers = program.sizes().numbers_at(0, 2);
        assert!(marked(&sheet[numbers]).is_empty());
    }

    /// Deepens the search until it has met the whole least set, or all there is. False if it would
    /// take too long.
    fn runs_meet_the_least_set(name: &str, program: &Program) -> bool {
        let set = least_set(program);
        for depth in 0..40 {
            let search = search(program, depth, 5000);
            assert!(search.met.is_subset(&set), "{name}: more than the set");
            if search.is_exhaustive() {
                assert_eq!(search.met, set, "{name}");
            }
            if search.met == set {
                return true;
            }
            if !search.all_moments {
                return false;
            }
        }
        false
    }

    #[test]
    fn runs_meet_the_least_set_and_nothing_else() {
        let (mut whole, mut too_long) = (0, 0);
        let mut hearing = MetHearing::default();
        for seed in 0..3000 {
            let shapes = [Shape::Tiny, Shape::Layered, Shape::Tiny, Shape::Recursive];
            let shape = shapes[seed as usize % shapes.len()];
            let program = program_of_shape(&mut Random::new(seed), shape);
            if runs_meet_the_least_set(&format!("seed {seed}"), &program) {
                whole += 1;
                hearing.note(&program, &own_sheet(&program));
            } else {
                too_long += 1;
            }
        }
        println!("whole: {whole}, too long: {too_long}, {hearing:?}");
        assert!(whole >= 2500, "only {whole} were met as a whole");
        hearing.check(50);
        assert!(hearing.times(Heard::Nothing) >= 500, "{hearing:?}");
    }
}
