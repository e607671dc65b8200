//! The proved library against the reference: the keeping.
//!
//! Every number of every answer is compared, and every byte of the sheet and of the working buffer,
//! with the bytes that stand about them. A mismatch names the seed or the case and shows the input.

mod desk;

use desk::lent::{self, Lending, Lent};
use reference::cases::keepings::{self, KeepingCase};
use reference::cases::{heard, sample};
use reference::generate::classes::{Class, MetClasses};
use reference::generate::files::file_of_seed;
use reference::generate::hearing::{Heard, MetHearing};
use reference::generate::met::Met;
use reference::generate::programs::{
    hub, hub_of_roots, hub_without_returns, program_by_shares, program_of_shape,
};
use reference::generate::random::Random;
use reference::generate::shapes::Shape;
use reference::generate::sheets;
use reference::generate::tables::file_with_rows_of_seed;
use reference::model::analysis::own_sheet;
use reference::model::calls::sheets::keep_answer;
use reference::model::file::{read, Reading};
use reference::model::program::Program;
use reference::model::refusals::{
    BAD_LINE, PAIR_MET_TWICE, PAIR_NOT_MET, SHEET_LENGTH, SHEET_TOO_LARGE, WORK_LENGTH,
};
use reference::model::standing::marked;
use reference::model::write::write;

/// How often each refusal has to be met, so that agreeing on it means something.
const OFTEN: usize = 20;
const SEEDS: u64 = 2_000;
const FILE_SEEDS: u64 = 2_500;
const ROW_SEEDS: u64 = 11_000;

/// What the keepings have met.
#[derive(Debug, Default)]
struct Tally {
    calls: usize,
    met: Met,
    /// Sheets of which something went and something stayed.
    parted: usize,
    /// Of these, the ones that kept less than the program's own sheet has.
    less_than_own: usize,
    /// Sheets that had other bytes than 0 and 1.
    other_bytes: usize,
    /// Files with rows.
    classes: MetClasses,
    /// Programs by what their rule hears.
    hearing: MetHearing,
}

/// One keeping by the library and by the reference: the sheet that is left.
fn compare(
    name: &str,
    file: &[u8],
    reading: &Reading,
    [sheet, work]: [&Lent; 2],
    tally: &mut Tally,
) -> Lent {
    let (answer, left) = lent::compare(
        name,
        &Lending::sheet(file, sheet, work),
        |file, lent| desk::prune(file, lent.sheet, lent.work),
        |lent| keep_answer(reading, lent.sheet, lent.work),
    );
    tally.calls += 1;
    tally.met.note(answer.refusal);
    left.sheet
}

/// A sheet made in one way, with the program and at times with a step of it dropped.
fn compare_sheet(
    name: &str,
    program: &Program,
    way: usize,
    random: &mut Random,
    tally: &mut Tally,
) {
    let sheet = sheets::any(random, &own_sheet(program), way);
    let edited = at_times_dropped(random, program);
    let lent = Lent::new(random, &sheet);
    let work = Lent::of_length(random, sheet.len());
    let (name, file) = (format!("{name}, way {way}"), write(&edited));
    let kept = compare(&name, &file, &Ok(edited.clone()), [&lent, &work], tally);
    let (stayed, were) = (marked(kept.content()).len(), marked(&sheet).len());
    let parted = stayed > 0 && stayed < were;
    let own_sheet = own_sheet(&edited);
    tally.hearing.note(&edited, &own_sheet);
    let own = marked(&own_sheet).len();
    tally.parted += usize::from(parted);
    tally.less_than_own += usize::from(parted && stayed < own);
    tally.other_bytes += usize::from(sheet.iter().any(|&byte| byte > 1));
}

/// The program, half of the times with a step less.
fn at_times_dropped(random: &mut Random, program: &Program) -> Program {
    let mut edited = program.clone();
    let some_step = random.below(program.steps.len() + 1);
    if let Some(step) = program.steps.iter().nth(some_step) {
        if random.percent(50) {
            edited.steps.remove(step);
        }
    }
    edited
}

#[test]
fn keepings_of_many_seeds_agree() {
    let mut tally = Tally::default();
    let shares = [
        (45, Shape::Tiny),
        (25, Shape::Recursive),
        (25, Shape::Layered),
        (4, Shape::Mixed),
        (1, Shape::Crowded),
        (2, Shape::Long),
        (2, Shape::ManyStates),
        (1, Shape::Largest),
    ];
    for seed in 0..SEEDS {
        let random = &mut Random::new(seed);
        let program = program_by_shares(random, &shares);
        let way = random.below(sheets::ANY);
        compare_sheet(&format!("seed {seed}"), &program, way, random, &mut tally);
    }
    println!("keepings of seeds: {tally:?}");
    assert!(tally.parted >= 500 && tally.other_bytes >= 500, "{tally:?}");
    assert!(tally.less_than_own >= 200, "{tally:?}");
    tally.hearing.check(40);
    assert!(tally.hearing.times(Heard::Nothing) >= 500, "{tally:?}");
}

#[test]
fn keepings_of_every_shape_agree() {
    let mut tally = Tally::default();
    let shapes = [
        Shape::Tiny,
        Shape::Recursive,
        Shape::Wide,
        Shape::Mixed,
        Shape::Full,
        Shape::Long,
        Shape::ManyStates,
        Shape::Ruled,
    ];
    for (place, shape) in shapes.into_iter().enumerate() {
        for way in 0..sheets::ANY {
            let random = &mut Random::new((100 * place + way) as u64);
            let program = program_of_shape(random, shape);
            compare_sheet(&format!("{shape:?}"), &program, way, random, &mut tally);
        }
    }
    for (name, hub) in [
        ("hub", hub()),
        ("hub of roots", hub_of_roots()),
        ("hub without returns", hub_without_returns()),
    ] {
        for way in 0..sheets::ANY {
            compare_sheet(name, &hub, way, &mut Random::new(way as u64), &mut tally);
        }
    }
    println!("keepings of shapes: {tally:?}");
}

#[test]
fn refused_keepings_agree() {
    let mut tally = Tally::default();
    for seed in 0..FILE_SEEDS {
        let random = &mut Random::new(seed);
        let file = file_of_seed(seed);
        let reading = read(&file);
        let (sheet, work) = sheets::wrong_lengths(random, length(&reading));
        let sheet = Lent::of_length(random, sheet);
        let work = Lent::of_length(random, work);
        let name = format!("file {seed}");
        compare(&name, &file, &reading, [&sheet, &work], &mut tally);
    }
    println!("refused keepings: {tally:?}");
    let refusals = (BAD_LINE..=SHEET_LENGTH).chain([WORK_LENGTH, SHEET_TOO_LARGE]);
    tally.met.check(refusals, OFTEN);
}

/// How long the buffers for a file of this reading have to be; where it is refused, any length.
fn length(reading: &Reading) -> usize {
    let sizes = reading.as_ref().map(Program::sizes);
    sizes.map_or(54, |sizes| sizes.length())
}

/// The ways to make a sheet that go by the program's own. The others mark so much that they take long.
const NEAR_OWN: [usize; 4] = [0, 4, 5, 6];

/// A sheet for a file with rows: near the program's own, or any.
fn sheet_for(random: &mut Random, reading: &Reading) -> Vec<u8> {
    let program = match reading {
        Ok(program) => program,
        Err(_) => return random.content(length(reading)),
    };
    let near = random.pick(&NEAR_OWN);
    let any = random.below(sheets::ANY);
    let way = if random.percent(95) { near } else { any };
    sheets::any(random, &own_sheet(program), way)
}

#[test]
fn keepings_with_rows_agree() {
    let mut tally = Tally::default();
    for seed in 0..ROW_SEEDS {
        let random = &mut Random::new(!seed);
        let file = file_with_rows_of_seed(seed);
        let reading = read(&file);
        tally.classes.note(&file, &reading);
        let sheet = sheet_for(random, &reading);
        let (mut lent, mut work) = (Lent::new(random, &sheet), sheet.len());
        if random.percent(10) {
            let (sheet, wrong) = sheets::wrong_lengths(random, sheet.len());
            (lent, work) = (Lent::of_length(random, sheet), wrong);
        }
        let work = Lent::of_length(random, work);
        let name = format!("file with rows {seed}");
        let kept = compare(&name, &file, &reading, [&lent, &work], &mut tally);
        let (stayed, were) = (marked(kept.content()), marked(lent.content()));
        tally.parted += usize::from(!stayed.is_empty() && stayed.len() < were.len());
    }
    println!("keepings with rows: {tally:?}");
    let refusals = [WORK_LENGTH, PAIR_NOT_MET, PAIR_MET_TWICE, SHEET_TOO_LARGE];
    tally.met.check((0..=SHEET_LENGTH).chain(refusals), OFTEN);
    tally.classes.check(OFTEN);
    assert!(tally.classes.files >= 10_000, "{tally:?}");
    assert!(tally.classes.times(Class::Accepted) >= 3_000, "{tally:?}");
    assert!(tally.parted >= 500, "{tally:?}");
}

#[test]
fn each_single_mark_and_each_single_gap_agrees() {
    let mut tally = Tally::default();
    let own = own_sheet(&sample::program());
    let random = &mut Random::new(1);
    for at in 0..own.len() {
        let (mut mark, mut gap) = (own.clone(), vec![1; own.len()]);
        mark[at] = 1 - own[at];
        gap[at] = 0;
        for sheet in [mark, gap] {
            let sheet = Lent::new(random, &sheet);
            let work = Lent::of_length(random, own.len());
            let (name, reading) = (format!("standing {at}"), Ok(sample::program()));
            compare(&name, sample::FILE, &reading, [&sheet, &work], &mut tally);
        }
    }
}

/// Keepings by the library alone leave the numbers that they should.
fn check(cases: &[KeepingCase]) {
    for case in cases {
        assert_eq!(desk::kept(&case.program, &case.sheet), case.left);
    }
}

#[test]
fn a_gap_on_the_sheet_cuts_off_what_lies_behind_it() {
    check(&keepings::gaps());
}

#[test]
fn a_call_that_never_returns_supports_the_called_entry() {
    check(&keepings::unreturned_call());
}

#[test]
fn main_called_in_another_state_is_no_start() {
    check(&keepings::main_called_in_another_state());
}

#[test]
fn two_routines_that_call_each_other_do_not_support_each_other() {
    check(&keepings::no_outside_call());
}

#[test]
fn calls_and_returns_support_what_their_moves_give() {
    check(&heard::keepings());
}

#[test]
fn buffers_of_no_bytes_may_be_null() {
    let file = Some(sample::FILE);
    assert_eq!(binding::prune(None, None, None), desk::refused(8, 1));
    assert_eq!(binding::prune(file, None, None), desk::refused(9, 0));
    let sheet = &mut [1; 54];
    assert_eq!(
        binding::prune(file, Some(sheet), None),
        desk::refused(11, 0)
    );
    assert_eq!(sheet, &[1; 54]);
}
