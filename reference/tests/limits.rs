//! The proved library with a limit on the takings: what is known, every limit in turn against the
//! reference, and what has to hold of limits whatever the reference says.

mod desk;

use desk::lent::{self, Lending, Lent};
use reference::cases;
use reference::generate::limits;
use reference::generate::met::Met;
use reference::generate::programs::{
    hub, hub_of_roots, hub_without_returns, program_by_shares, program_of_seed, program_of_shape,
};
use reference::generate::random::Random;
use reference::generate::shapes::{Shape, SHAPES};
use reference::generate::tables::complete_file;
use reference::model::analysis::analyze;
use reference::model::calls::sheets::{analyze_answer, Counts};
use reference::model::calls::Answer;
use reference::model::program::Program;
use reference::model::refusals::GAVE_UP;
use reference::model::standing::marked;
use reference::model::write::write;
use std::collections::BTreeSet;

const SWEPT_SEEDS: u64 = 500;
/// Up to which count of takings every limit is tried.
const MOST_SWEPT: u32 = 60;
const LAW_SEEDS: u64 = 1_500;
const START_SEEDS: u64 = 500;

/// Works a program afresh with both, up to each of the limits for its count of takings, each time in
/// other buffers.
fn compare(
    name: &str,
    program: &Program,
    limits: impl Fn(&mut Random, u32) -> Vec<u64>,
    random: &mut Random,
    met: &mut Met,
) {
    let (file, analysis) = (write(program), analyze(program));
    let limits = limits(random, analysis.takings);
    let length = analysis.sheet.len();
    let analyzed = Ok(analysis);
    for limit in limits {
        let sheet = Lent::of_length(random, length);
        let work = Lent::of_length(random, length);
        let (answer, _) = lent::compare(
            &format!("{name}, limit {limit}"),
            &Lending::sheet(&file, &sheet, &work),
            |file, lent| desk::analyze(file, lent.sheet, lent.work, limit),
            |lent| analyze_answer(&analyzed, lent.sheet, lent.work, limit),
        );
        met.note(answer.refusal);
    }
}

/// The counts and the sheet of a fresh working, or None where it gives up.
type Worked = Option<(Counts, Vec<u8>)>;

/// A fresh working by the library alone, in buffers with any content. Where it gives up, it leaves the
/// sheet as it was.
fn worked_up_to(limit: u64, file: &[u8], random: &mut Random) -> Worked {
    let length = desk::sheet_length(file);
    let (lent, mut work) = (random.content(length), random.content(length));
    let mut sheet = lent.clone();
    let answer = desk::analyze(file, &mut sheet, &mut work, limit);
    assert!(work.iter().all(|&byte| byte == 0));
    if answer.refusal == GAVE_UP {
        assert_eq!(answer, Answer::refused(GAVE_UP, 0));
        assert!(sheet == lent, "the sheet was changed");
        return None;
    }
    assert_eq!((answer.refusal, answer.line), (0, 0));
    Some((answer.value, sheet))
}

#[test]
fn cases_worked_out_by_hand() {
    for case in cases::limits::all() {
        case.check(desk::analyze);
    }
}

/// The takings worked out by hand are enough, and one fewer is not.
#[test]
fn analyses_worked_out_by_hand_need_their_takings() {
    let random = &mut Random::new(0);
    for case in cases::analyses::all() {
        let takings = u64::from(case.takings);
        let answered = worked_up_to(takings, &case.file, random);
        let answered = answered.map(|(counts, sheet)| (counts.takings, marked(&sheet)));
        let wanted = Some((case.takings, case.standings));
        assert_eq!(answered, wanted, "{}", case.name);
        if let Some(short) = takings.checked_sub(1) {
            let given_up = worked_up_to(short, &case.file, random);
            assert_eq!(given_up, None, "{}", case.name);
        }
    }
}

#[test]
fn every_limit_up_to_a_small_count_agrees() {
    let shares = [
        (50, Shape::Tiny),
        (25, Shape::Recursive),
        (25, Shape::Layered),
    ];
    let every = |_: &mut Random, takings: u32| {
        let last = u64::from(takings.min(MOST_SWEPT)) + 2;
        (0..=last).collect()
    };
    let mut met = Met::default();
    for seed in 0..SWEPT_SEEDS {
        let random = &mut Random::new(seed);
        let program = program_by_shares(random, &shares);
        let name = format!("seed {seed}");
        compare(&name, &program, every, random, &mut met);
    }
    println!("every limit: {met:?}");
    met.check([0, GAVE_UP], 1_000);
}

#[test]
fn limits_about_the_counts_of_every_shape_agree() {
    let mut programs = vec![
        ("hub".to_string(), hub()),
        ("hub of roots".to_string(), hub_of_roots()),
        ("hub without returns".to_string(), hub_without_returns()),
    ];
    for shape in SHAPES {
        let of_seed = |seed| program_of_shape(&mut Random::new(seed), shape);
        programs.extend((0..4).map(|seed| (format!("{shape:?}, seed {seed}"), of_seed(seed))));
    }
    let (random, mut met) = (&mut Random::new(0), Met::default());
    for (name, program) in programs {
        compare(&name, &program, limits::about, random, &mut met);
    }
    println!("every shape: {met:?}");
    met.check([0, GAVE_UP], 60);
}

/// An answer at a limit is the answer at each larger one, and the largest limit never gives up.
#[test]
fn an_answer_once_had_stays_at_larger_limits() {
    let (mut given_up, mut answered) = (0, 0);
    for seed in 0..LAW_SEEDS {
        let random = &mut Random::new(!seed);
        let program = program_of_seed(seed);
        let rows = complete_file(random, &program);
        let file = [write(&program), rows][seed as usize % 2].clone();
        let takings = desk::worked(&file).1.takings;
        let ascending = limits::about(random, takings).into_iter();
        let given: Vec<Worked> = ascending
            .map(|limit| worked_up_to(limit, &file, random))
            .collect();
        let stays = |pair: &[Worked]| pair[0].is_none() || pair[0] == pair[1];
        assert!(given.windows(2).all(stays), "seed {seed}");
        let largest = given.last().expect("some limits");
        assert!(largest.is_some(), "seed {seed}");
        given_up += given.iter().filter(|one| one.is_none()).count();
        answered += given.iter().filter(|one| one.is_some()).count();
    }
    println!("given up: {given_up}, answered: {answered}");
    assert!(given_up >= 2_000 && answered >= 5_000);
}

/// Where nothing starts nothing is taken, and whatever starts is taken once at the least.
#[test]
fn limit_0_is_enough_only_where_there_is_no_start_state() {
    for seed in 0..START_SEEDS {
        let random = &mut Random::new(!seed);
        let program = program_of_seed(seed);
        let some_state = random.below(program.states.into()) as u8;
        let mut with_starts = |starts| {
            let program = Program {
                starts,
                ..program.clone()
            };
            worked_up_to(0, &write(&program), random)
        };
        let nothing = (Counts::default(), vec![0; program.sizes().length()]);
        let given = with_starts(BTreeSet::new());
        assert!(given == Some(nothing), "seed {seed}, no start state");
        let given = with_starts(BTreeSet::from([some_state]));
        assert!(given.is_none(), "seed {seed}, start state {some_state}");
    }
}
