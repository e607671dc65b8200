//! The proved library against the reference: fresh workings, with and without a limit on the takings, and
//! the list of findings.
//!
//! Every number of every answer is compared, and every byte of the sheet and of the working buffer,
//! with the bytes that stand about them. A mismatch names the seed or the case and shows the input.

mod desk;

use desk::lent::{self, Lending, Lent};
use reference::cases;
use reference::generate::classes::{Class, MetClasses};
use reference::generate::files::file_of_seed;
use reference::generate::hearing::{Heard, MetHearing};
use reference::generate::limits::{self, MetLimits};
use reference::generate::met::Met;
use reference::generate::programs::{
    hub, hub_of_most_roots, hub_of_roots, hub_without_returns, program_of_seed, program_of_shape,
};
use reference::generate::random::Random;
use reference::generate::shapes::SHAPES;
use reference::generate::sheets::FOREIGN;
use reference::generate::size_classes::MetSizes;
use reference::generate::tables::{complete_file, file_with_rows_of_seed};
use reference::model::analysis::{self, Analysis, NONE};
use reference::model::calls::sheets::{analyze_answer, next_answer, Counts, NO_LIMIT};
use reference::model::calls::Answer;
use reference::model::refusals::{
    BAD_LINE, FOREIGN_SHEET, GAVE_UP, PAIR_MET_TWICE, PAIR_NOT_MET, SHEET_LENGTH, SHEET_TOO_LARGE,
    WORK_LENGTH,
};
use reference::model::write::{write, OUTPUT_SIZE};

/// How often each refusal and each outcome has to be met, so that agreeing on it means something.
const OFTEN: usize = 50;
/// A program with more standings than this gets fewer calls, as each of them takes long.
const MANY_STANDINGS: u32 = 300;
/// How many findings a list may have to be gone through from the first to the last.
const LONG_LIST: usize = 8;
const PROGRAM_SEEDS: u64 = 6_000;
const FILE_SEEDS: u64 = 4_000;
const ROW_SEEDS: u64 = 11_000;

/// What the comparisons have met.
#[derive(Debug, Default)]
struct Tally {
    programs: usize,
    calls: usize,
    /// Answers of the two calls.
    analyzed: Met,
    asked: Met,
    no_standing: usize,
    no_finding: usize,
    findings: usize,
    over_1000_standings: usize,
    over_5000_standings: usize,
    found_at_once: usize,
    found_above: usize,
    found_none: usize,
    lists: usize,
    /// Foreign sheets by how they were made.
    foreign: [usize; FOREIGN],
    /// Files with rows.
    classes: MetClasses,
    /// Programs by what their rule hears.
    hearing: MetHearing,
    /// Files by their sizes.
    sizes: MetSizes,
    /// Limits by how they stand to the takings.
    limits: MetLimits,
}

type Case = desk::case::Case<Analysis>;

/// A file with its analysis.
fn case(name: String, file: Vec<u8>, seed: u64) -> Case {
    Case::new(name, file, seed, analysis::analyze)
}

/// The takings, 0 where the file is refused.
fn takings(case: &Case) -> u32 {
    case.known.as_ref().map_or(0, |analysis| analysis.takings)
}

/// Works the file afresh with both, up to a limit.
fn compare_analyze(
    case: &Case,
    marks: &Lent,
    work: &Lent,
    limit: u64,
    tally: &mut Tally,
) -> Answer<Counts> {
    let (answer, _) = lent::compare(
        &format!("{}, limit {limit}", case.name),
        &Lending::sheet(&case.file, marks, work),
        |file, lent| desk::analyze(file, lent.sheet, lent.work, limit),
        |lent| analyze_answer(&case.known, lent.sheet, lent.work, limit),
    );
    tally.analyzed.note(answer.refusal);
    tally.calls += 1;
    if let Ok(analysis) = &case.known {
        tally.limits.note(limit, analysis.takings, answer.refusal);
    }
    answer
}

/// Works the file afresh with both up to limits about its count of takings, each time in other buffers;
/// up to one of these where it takes long or the file is refused.
fn compare_limits(case: &mut Case, tally: &mut Tally) {
    let takings = takings(case);
    let limits = match &case.known {
        Ok(analysis) if analysis.standings() <= MANY_STANDINGS => {
            limits::about(&mut case.random, takings)
        }
        _ => vec![limits::some(&mut case.random, takings)],
    };
    for limit in limits {
        let (marks, work) = (case.lent(), case.lent());
        compare_analyze(case, &marks, &work, limit, tally);
    }
}

/// Asks both for the next finding.
fn compare_next(
    case: &Case,
    marks: &Lent,
    work: &Lent,
    from: u32,
    tally: &mut Tally,
) -> Answer<u32> {
    let (answer, _) = lent::compare(
        &format!("{}, from {from}", case.name),
        &Lending::sheet(&case.file, marks, work),
        |file, lent| desk::next_violation(file, lent.sheet, lent.work, from),
        |lent| next_answer(&case.known, lent.sheet, lent.work, from),
    );
    let found = answer.value;
    tally.asked.note(answer.refusal);
    tally.calls += 1;
    if answer.refusal == 0 {
        tally.found_none += usize::from(found == NONE);
        tally.found_at_once += usize::from(found == from && from != NONE);
        tally.found_above += usize::from(found != NONE && found > from);
    }
    answer
}

/// Calls with buffers of any length, at least one of them a wrong one.
fn compare_wrong_lengths(case: &mut Case, tally: &mut Tally) {
    let (marks, work) = case.lent_wrongly();
    let from = case.some_number(&[]);
    let takings = takings(case);
    let limit = limits::some(&mut case.random, takings);
    compare_analyze(case, &marks, &work, limit, tally);
    compare_next(case, &marks, &work, from, tally);
}

/// Asks with a sheet that is not the program's own.
fn compare_foreign(case: &mut Case, own: &[u8], way: usize, tally: &mut Tally) {
    let marks = match case.foreign(own, way) {
        Some(marks) => marks,
        None => return,
    };
    let work = case.lent();
    let from = case.some_number(&[]);
    let answer = compare_next(case, &marks, &work, from, tally);
    assert_eq!(answer.refusal, FOREIGN_SHEET);
    tally.foreign[way] += 1;
}

/// Asks with the program's own sheet, from a number or two.
fn compare_own(case: &mut Case, analysis: &Analysis, times: usize, tally: &mut Tally) {
    let marks = Lent::new(&mut case.random, &analysis.sheet);
    for _ in 0..times {
        let work = case.lent();
        let from = case.some_number(&analysis.findings);
        compare_next(case, &marks, &work, from, tally);
    }
    if analysis.standings() <= MANY_STANDINGS && analysis.findings.len() <= LONG_LIST {
        let work = case.lent();
        compare_list(case, &marks, &work, &analysis.findings, tally);
    }
}

/// Goes through the list as the desk software does: each finding, then that there is none.
fn compare_list(case: &Case, marks: &Lent, work: &Lent, findings: &[u32], tally: &mut Tally) {
    let mut from = 0;
    for &finding in findings {
        let answer = compare_next(case, marks, work, from, tally);
        assert_eq!(answer.value, finding, "{}", case.input());
        from = finding + 1;
    }
    let answer = compare_next(case, marks, work, from, tally);
    assert_eq!(answer.value, NONE, "{}", case.input());
    tally.lists += 1;
}

/// Holds the library against the reference on one file.
fn compare(case: &mut Case, tally: &mut Tally) {
    let (marks, work) = (case.lent(), case.lent());
    let answer = compare_analyze(case, &marks, &work, NO_LIMIT, tally);
    compare_limits(case, tally);
    compare_wrong_lengths(case, tally);
    let way = case.random.below(FOREIGN);
    match case.known.clone() {
        Err(_) => {
            let from = case.some_number(&[]);
            compare_next(case, &marks, &work, from, tally);
        }
        Ok(analysis) if answer.value.standings > MANY_STANDINGS => {
            if case.random.percent(50) {
                compare_own(case, &analysis, 1, tally);
            } else {
                compare_foreign(case, &analysis.sheet, way, tally);
            }
        }
        Ok(analysis) => {
            compare_own(case, &analysis, 2, tally);
            compare_foreign(case, &analysis.sheet, way, tally);
            compare_foreign(case, &analysis.sheet, (way + 1) % FOREIGN, tally);
        }
    }
    note(&answer, tally);
    if let (Ok(program), Ok(analysis)) = (&case.reading, &case.known) {
        tally.hearing.note(program, &analysis.sheet);
    }
    tally.classes.note(&case.file, &case.reading);
    tally.sizes.note(&case.file, &case.reading);
}

fn note(answer: &Answer<Counts>, tally: &mut Tally) {
    tally.programs += 1;
    if answer.refusal == 0 {
        tally.no_standing += usize::from(answer.value.standings == 0);
        tally.no_finding += usize::from(answer.value.findings == 0);
        tally.findings += usize::from(answer.value.findings > 0);
        tally.over_1000_standings += usize::from(answer.value.standings > 1000);
        tally.over_5000_standings += usize::from(answer.value.standings > 5000);
    }
}

/// Holds the library against the reference on the files of so many seeds.
fn compare_seeds(what: &str, seeds: u64, file: impl Fn(u64) -> Vec<u8>) -> Tally {
    let mut tally = Tally::default();
    for seed in 0..seeds {
        let name = format!("{what} {seed}");
        compare(&mut case(name, file(seed), seed), &mut tally);
    }
    println!("{what} of each seed: {tally:?}");
    tally
}

#[test]
fn programs_of_many_seeds_agree() {
    let tally = compare_seeds("program", PROGRAM_SEEDS, |seed| {
        write(&program_of_seed(seed))
    });
    let analyzed = [0, SHEET_LENGTH, WORK_LENGTH, GAVE_UP];
    tally.analyzed.check(analyzed, OFTEN);
    let asked = [0, SHEET_LENGTH, WORK_LENGTH, FOREIGN_SHEET];
    tally.asked.check(asked, OFTEN);
    let sizes = [tally.no_standing, tally.no_finding, tally.findings];
    let found = [tally.found_at_once, tally.found_above, tally.found_none];
    let counts = [&sizes[..], &found, &tally.foreign];
    for (place, &times) in counts.concat().iter().enumerate() {
        assert!(times >= OFTEN, "outcome {place} was met {times} times only");
    }
    assert!(tally.programs >= 5000 && tally.lists >= 1000);
    assert!(tally.over_1000_standings >= 150 && tally.over_5000_standings >= 15);
    tally.limits.check(OFTEN);
    let lengths = [SHEET_LENGTH, WORK_LENGTH];
    tally.limits.check_refused_before(&lengths, OFTEN);
    tally.hearing.check(150);
    assert!(tally.hearing.times(Heard::Nothing) >= 1_500, "{tally:?}");
    tally.sizes.check_accepted(20);
}

#[test]
fn damaged_files_agree() {
    let tally = compare_seeds("file", FILE_SEEDS, file_of_seed);
    tally.limits.check(OFTEN);
    for met in [tally.analyzed, tally.asked] {
        let refusals = [WORK_LENGTH, SHEET_TOO_LARGE];
        met.check((BAD_LINE..=SHEET_LENGTH).chain(refusals), OFTEN);
    }
}

#[test]
fn files_with_rows_agree() {
    let tally = compare_seeds("file with rows", ROW_SEEDS, file_with_rows_of_seed);
    let of_tables = [PAIR_NOT_MET, PAIR_MET_TWICE, SHEET_TOO_LARGE, WORK_LENGTH];
    let of_files = (0..=SHEET_LENGTH).chain(of_tables);
    let analyzed = of_files.clone().chain([GAVE_UP]);
    tally.analyzed.check(analyzed, OFTEN);
    tally.limits.check(OFTEN);
    tally.asked.check(of_files.chain([FOREIGN_SHEET]), OFTEN);
    tally.classes.check(20);
    assert!(tally.classes.files >= 10_000, "{tally:?}");
    assert!(tally.classes.times(Class::Accepted) >= 3_000, "{tally:?}");
    let counts = [tally.findings, tally.no_finding, tally.lists];
    assert!(counts.iter().all(|&times| times >= 500), "{tally:?}");
}

/// A program is analyzed alike whether its rule is in rows or in the lines that are written for it.
#[test]
fn rows_and_the_lines_written_for_them_are_analyzed_alike() {
    for seed in 0..1_000 {
        let random = &mut Random::new(seed);
        let in_rows = complete_file(random, &program_of_seed(seed));
        let mut in_lines = vec![0; OUTPUT_SIZE];
        let answer = desk::write(&in_rows, &mut in_lines);
        in_lines.truncate(answer.value as usize);
        assert_eq!(
            desk::worked(&in_rows),
            desk::worked(&in_lines),
            "seed {seed}"
        );
    }
}

#[test]
fn every_shape_agrees() {
    let mut tally = Tally::default();
    for shape in SHAPES {
        for seed in 0..8 {
            let random = &mut Random::new(seed);
            let program = program_of_shape(random, shape);
            let name = format!("{shape:?}, seed {seed}");
            compare(&mut case(name, write(&program), seed), &mut tally);
            let name = format!("{shape:?} with rows, seed {seed}");
            let file = complete_file(random, &program);
            compare(&mut case(name, file, seed), &mut tally);
        }
    }
    for (name, hub) in [
        ("hub", hub()),
        ("hub of roots", hub_of_roots()),
        ("hub of most roots", hub_of_most_roots()),
        ("hub without returns", hub_without_returns()),
    ] {
        let mut hub = case(name.to_string(), write(&hub), 0);
        compare(&mut hub, &mut tally);
    }
    println!("shapes: {tally:?}");
}

#[test]
fn named_files_agree() {
    let mut tally = Tally::default();
    for (place, named) in cases::files::all().into_iter().enumerate() {
        let mut case = case(named.name, named.file, place as u64);
        compare(&mut case, &mut tally);
    }
    println!("named files: {tally:?}");
}
