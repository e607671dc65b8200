//! The proved library against the reference: the list of where runs are cut off.
//!
//! Every number of every answer is compared, and every byte of the sheet and of the working buffer,
//! with the bytes that stand about them. A mismatch names the seed or the case and shows the input.

mod desk;

use desk::lent::{self, Lending, Lent};
use reference::cases::{self, sample};
use reference::generate::blocked_classes::{BlockedClass, MetBlocked};
use reference::generate::files::file_of_seed;
use reference::generate::hearing::MetHearing;
use reference::generate::met::{Met, Times};
use reference::generate::programs::{
    hub, hub_of_most_roots, hub_of_roots, hub_without_returns, program_by_shares, program_of_shape,
};
use reference::generate::random::Random;
use reference::generate::shapes::{Shape, SHAPES};
use reference::generate::sheets::FOREIGN;
use reference::generate::size_classes::MetSizes;
use reference::generate::tables::{complete_file, file_with_rows_of_seed, has_rows};
use reference::model::analysis::{own_sheet, NONE};
use reference::model::blocked::{Blocked, BlockedRuns};
use reference::model::calls::sheets::next_blocked_answer;
use reference::model::calls::Answer;
use reference::model::file::read;
use reference::model::kinds::STEP;
use reference::model::lines::{lines, numbers_of_line};
use reference::model::program::EXIT;
use reference::model::refusals::{
    BAD_LINE, FOREIGN_SHEET, PAIR_MET_TWICE, PAIR_NOT_MET, SHEET_LENGTH, SHEET_TOO_LARGE,
    WORK_LENGTH,
};
use reference::model::standing::marked;
use reference::model::write::write;

/// How often each refusal and each outcome has to be met, so that agreeing on it means something.
const OFTEN: usize = 50;
/// A sheet up to this length is asked from every number.
const SHORT_SHEET: usize = 64;
/// A list up to this length is gone through from the first to the last, where a program has not more
/// standings than this, as each call takes long then.
const LONG_LIST: usize = 40;
const MANY_STANDINGS: usize = 300;
const PROGRAM_SEEDS: u64 = 3_000;
const FILE_SEEDS: u64 = 1_200;
const ROW_SEEDS: u64 = 1_000;

type Case = desk::case::Case<BlockedRuns>;

/// A file with where its runs are cut off.
fn case(name: String, file: Vec<u8>, seed: u64) -> Case {
    Case::new(name, file, seed, BlockedRuns::of)
}

/// What an accepted call answers.
#[derive(Clone, Copy, Debug, PartialEq, Eq, PartialOrd, Ord)]
enum Outcome {
    Nothing,
    /// At the number that was asked from, and above it.
    AtOnce,
    Above,
    /// By the first step of the file, by another, and by a return.
    FirstStep,
    OtherStep,
    Return,
}

use Outcome::*;

const OUTCOMES: [Outcome; 6] = [Nothing, AtOnce, Above, FirstStep, OtherStep, Return];

/// The outcomes of a call that was asked from a number.
fn outcomes(from: u32, found: Blocked) -> Vec<Outcome> {
    let place = match found.standing {
        NONE => return vec![Nothing],
        number if number == from => AtOnce,
        _ => Above,
    };
    let way = match found.step {
        0 => FirstStep,
        NONE => Return,
        _ => OtherStep,
    };
    vec![place, way]
}

/// What the comparisons have met.
#[derive(Debug, Default)]
struct Tally {
    files: usize,
    calls: usize,
    met: Met,
    outcomes: Times<Outcome>,
    /// Lists gone through, of them some of three or more, and sheets asked from every number.
    lists: usize,
    lists_of_three: usize,
    from_every_number: usize,
    over_1000_standings: usize,
    /// Accepted files with rows.
    with_rows: usize,
    /// Foreign sheets by how they were made.
    foreign: [usize; FOREIGN],
    /// Programs by where their runs are cut off, and by what their rule hears.
    blocked: MetBlocked,
    hearing: MetHearing,
    /// Files by their sizes.
    sizes: MetSizes,
}

impl Tally {
    fn note(&mut self, case: &Case) {
        self.files += 1;
        self.sizes.note(&case.file, &case.reading);
        if let (Ok(program), Ok(runs)) = (&case.reading, &case.known) {
            let occurring = program.sizes().standings(&runs.sheet);
            self.over_1000_standings += usize::from(occurring.len() > 1000);
            self.blocked.note(program, &occurring);
            self.hearing.note(program, &runs.sheet);
            if has_rows(&case.file) {
                assert_eq!(runs.blocked, [], "{}", case.input());
                self.with_rows += 1;
            }
        }
    }
}

/// Asks both for the next.
fn compare_next(
    case: &Case,
    marks: &Lent,
    work: &Lent,
    from: u32,
    tally: &mut Tally,
) -> Answer<Blocked> {
    let (answer, _) = lent::compare(
        &format!("{}, from {from}", case.name),
        &Lending::sheet(&case.file, marks, work),
        |file, lent| desk::next_blocked(file, lent.sheet, lent.work, from),
        |lent| next_blocked_answer(&case.known, lent.sheet, lent.work, from),
    );
    tally.calls += 1;
    tally.met.note(answer.refusal);
    if answer.refusal == 0 {
        tally.outcomes.note(outcomes(from, answer.value));
        check_place(case, answer.value);
    }
    answer
}

/// What holds of every answer, whatever the reference says: the step stands in the file where it should,
/// after the sizes and the routines, and leaves the standing's place; a return is one from an exit.
fn check_place(case: &Case, found: Blocked) {
    if found.standing == NONE {
        assert_eq!(found.step, 0, "{}", case.input());
        return;
    }
    let sizes = case.reading.as_ref().expect("accepted").sizes();
    let at = sizes.standing(found.standing as usize);
    if found.step == NONE {
        assert_eq!(at.place, EXIT, "{}", case.input());
        return;
    }
    let before = 1 + usize::from(sizes.routines);
    let line = lines(&case.file)[before + found.step as usize];
    let numbers = numbers_of_line(line).expect("a frame");
    let wanted = [STEP, at.routine, at.place];
    assert_eq!(numbers[..3], wanted, "{}", case.input());
}

/// Asks with buffers of any length, at least one of them a wrong one.
fn compare_wrong_lengths(case: &mut Case, tally: &mut Tally) {
    let (marks, work) = case.lent_wrongly();
    let from = case.some_number(&[]);
    compare_next(case, &marks, &work, from, tally);
}

/// Asks with a sheet that is not the program's own.
fn compare_foreign(case: &mut Case, own: &[u8], tally: &mut Tally) {
    let way = case.random.below(FOREIGN);
    if let Some(marks) = case.foreign(own, way) {
        let work = case.lent();
        let from = case.some_number(&[]);
        let answer = compare_next(case, &marks, &work, from, tally);
        assert_eq!(answer.refusal, FOREIGN_SHEET, "{}", case.input());
        tally.foreign[way] += 1;
    }
}

/// Asks with the program's own sheet: from some numbers, from every number where it is short, and through
/// the whole list.
fn compare_own(case: &mut Case, runs: &BlockedRuns, tally: &mut Tally) {
    let marks = Lent::new(&mut case.random, &runs.sheet);
    let listed: Vec<u32> = runs.blocked.iter().map(|one| one.standing).collect();
    let times = if listed.len() > LONG_LIST { 4 } else { 1 };
    let mut numbers: Vec<u32> = (0..times).map(|_| case.some_number(&listed)).collect();
    if runs.sheet.len() <= SHORT_SHEET {
        numbers.extend(0..=runs.sheet.len() as u32);
        tally.from_every_number += 1;
    }
    for from in numbers {
        let work = case.lent();
        compare_next(case, &marks, &work, from, tally);
    }
    if marked(&runs.sheet).len() <= MANY_STANDINGS && listed.len() <= LONG_LIST {
        let work = case.lent();
        compare_list(case, &marks, &work, &runs.blocked, tally);
    }
}

/// Goes through the list as the desk software does, to its end.
fn compare_list(case: &Case, marks: &Lent, work: &Lent, wanted: &[Blocked], tally: &mut Tally) {
    let mut given = Vec::new();
    loop {
        let from = given.last().map_or(0, |last: &Blocked| last.standing + 1);
        let answer = compare_next(case, marks, work, from, tally);
        if answer.value.standing == NONE {
            break;
        }
        given.push(answer.value);
    }
    assert_eq!(given, wanted, "{}", case.input());
    tally.lists += 1;
    tally.lists_of_three += usize::from(given.len() >= 3);
}

/// Holds the library against the reference on one file.
fn compare(case: &mut Case, tally: &mut Tally) {
    compare_wrong_lengths(case, tally);
    match case.known.clone() {
        Ok(runs) => {
            compare_own(case, &runs, tally);
            compare_foreign(case, &runs.sheet, tally);
        }
        Err(_) => {
            let (marks, work) = (case.lent(), case.lent());
            let from = case.some_number(&[]);
            compare_next(case, &marks, &work, from, tally);
        }
    }
    tally.note(case);
}

/// Holds the library against the reference on the files of so many seeds.
fn compare_seeds(what: &str, seeds: u64, file: impl Fn(u64) -> Vec<u8>) -> Tally {
    let mut tally = Tally::default();
    for seed in 0..seeds {
        let name = format!("{what} {seed}");
        compare(&mut case(name, file(seed), seed), &mut tally);
    }
    println!("{what} of each seed: {tally:?}");
    tally
}

#[test]
fn programs_of_many_seeds_agree() {
    let shares = [
        (560, Shape::Tiny),
        (330, Shape::Recursive),
        (70, Shape::Mixed),
        (15, Shape::Long),
        (11, Shape::ManyStates),
        (4, Shape::Wide),
        (4, Shape::Ruled),
        (3, Shape::Full),
        (3, Shape::Largest),
    ];
    let tally = compare_seeds("program", PROGRAM_SEEDS, |seed| {
        write(&program_by_shares(&mut Random::new(seed), &shares))
    });
    let refusals = [0, SHEET_LENGTH, WORK_LENGTH, FOREIGN_SHEET];
    tally.met.check(refusals, OFTEN);
    tally.outcomes.check(OUTCOMES, OFTEN);
    tally.blocked.check(OFTEN);
    tally.hearing.check(OFTEN);
    tally.sizes.check_accepted(10);
    for (way, &times) in tally.foreign.iter().enumerate() {
        assert!(times >= OFTEN, "way {way} was met {times} times only");
    }
    assert!(tally.from_every_number >= 500, "{tally:?}");
    assert!(tally.lists >= 1_000 && tally.lists_of_three >= 200);
    assert!(tally.over_1000_standings >= 30, "{tally:?}");
}

#[test]
fn damaged_files_agree() {
    let tally = compare_seeds("file", FILE_SEEDS, file_of_seed);
    let refusals = [0, WORK_LENGTH, SHEET_TOO_LARGE];
    tally
        .met
        .check((BAD_LINE..=SHEET_LENGTH).chain(refusals), 20);
}

/// A rule that is put down in rows allows every action and hears nothing, so that no run is cut off.
#[test]
fn files_with_rows_agree() {
    let tally = compare_seeds("file with rows", ROW_SEEDS, file_with_rows_of_seed);
    let of_tables = [PAIR_NOT_MET, PAIR_MET_TWICE, SHEET_TOO_LARGE, WORK_LENGTH];
    let refusals = (0..=SHEET_LENGTH).chain(of_tables);
    tally.met.check(refusals.chain([FOREIGN_SHEET]), 10);
    assert!(tally.with_rows >= 300, "{tally:?}");
}

#[test]
fn every_shape_agrees() {
    let mut tally = Tally::default();
    for shape in SHAPES {
        for seed in 0..6 {
            let random = &mut Random::new(seed);
            let program = program_of_shape(random, shape);
            let name = format!("{shape:?}, seed {seed}");
            compare(&mut case(name, write(&program), seed), &mut tally);
            let name = format!("{shape:?} with rows, seed {seed}");
            let file = complete_file(random, &program);
            compare(&mut case(name, file, seed), &mut tally);
        }
    }
    for (name, hub) in [
        ("hub", hub()),
        ("hub of roots", hub_of_roots()),
        ("hub of most roots", hub_of_most_roots()),
        ("hub without returns", hub_without_returns()),
    ] {
        compare(&mut case(name.to_string(), write(&hub), 0), &mut tally);
    }
    println!("shapes: {tally:?}");
    tally.sizes.check_accepted(1);
}

#[test]
fn long_lists_are_gone_through() {
    let mut tally = Tally::default();
    for seed in 0..200 {
        let program = program_of_shape(&mut Random::new(seed), Shape::Mixed);
        let case = &mut case(format!("mixed, seed {seed}"), write(&program), seed);
        let runs = case.known.clone().expect("the file is accepted");
        if (100..=300).contains(&runs.blocked.len()) {
            let (marks, work) = (Lent::new(&mut case.random, &runs.sheet), case.lent());
            compare_list(case, &marks, &work, &runs.blocked, &mut tally);
        }
    }
    println!("long lists: {tally:?}");
    assert!(tally.lists >= 10, "{tally:?}");
}

#[test]
fn cases_worked_out_by_hand() {
    let mut tally = Tally::default();
    for known in cases::blocked::all() {
        assert_eq!(desk::blocked(&known.file), known.blocked, "{}", known.name);
        compare(&mut case(known.name.to_string(), known.file, 0), &mut tally);
    }
    println!("cases: {tally:?}");
    assert!(tally.blocked.times(BlockedClass::Step256) >= 1, "{tally:?}");
    tally.blocked.check(1);
}

#[test]
fn named_files_agree() {
    let mut tally = Tally::default();
    for (place, named) in cases::files::all().into_iter().enumerate() {
        let mut case = case(named.name, named.file, place as u64);
        compare(&mut case, &mut tally);
    }
    println!("named files: {tally:?}");
}

#[test]
fn each_byte_of_a_sheet_counts() {
    let own = own_sheet(&sample::program());
    let mut work = vec![0xA5; own.len()];
    for at in 0..own.len() {
        let mut sheet = own.clone();
        sheet[at] ^= 1 + at as u8 % 2;
        let answer = desk::next_blocked(sample::FILE, &sheet, &mut work, 0);
        assert_eq!(answer, Answer::refused(FOREIGN_SHEET, 0), "byte {at}");
    }
}

#[test]
fn a_list_can_be_asked_from_any_number() {
    let far = (7..32).map(|power| 1 << power).chain([NONE - 1, NONE]);
    let numbers: Vec<u32> = (0..=100).chain(far).collect();
    for known in cases::blocked::all() {
        let runs = BlockedRuns::of(&read(&known.file).expect("accepted"));
        let mut work = vec![0; runs.sheet.len()];
        for &from in &numbers {
            let answer = desk::next_blocked(&known.file, &runs.sheet, &mut work, from);
            let wanted = Answer::from(Ok(runs.next_blocked(from)));
            assert_eq!(answer, wanted, "{}, from {from}", known.name);
        }
    }
}

#[test]
fn buffers_of_no_bytes_may_be_null() {
    for nothing in [None, Some(&b""[..])] {
        let given = binding::next_blocked(nothing, None, None, 0);
        assert_eq!(given, desk::refused(8, 1));
    }
    let (file, sheet) = (Some(sample::FILE), own_sheet(&sample::program()));
    let given = binding::next_blocked(file, None, None, 0);
    assert_eq!(given, desk::refused(9, 0));
    let given = binding::next_blocked(file, Some(&sheet), None, 0);
    assert_eq!(given, desk::refused(11, 0));
}
