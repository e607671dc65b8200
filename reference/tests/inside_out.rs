//! The proved library against the reference: the inside-out repair, alone and mixed with the forward
//! one.
//!
//! Every number of every answer is compared, the set of reopened routines too, and every byte of
//! every buffer, with the bytes that stand about them. A mismatch names the seed or the case and
//! shows the input.

mod desk;

use desk::lists::{self, Lists};
use desk::trial::{self, Tally};
use reference::cases;
use reference::generate::programs::program_of_shape;
use reference::generate::random::Random;
use reference::generate::shapes::Shape;
use reference::generate::tables::complete_file;
use reference::model::calls::repairs::Function::{RepairForward, RepairInsideOut};
use reference::model::edit::Edit;
use reference::model::refusals::{FOREIGN_SHEET, OUTPUT_SHORT, PAIR_MET_TWICE, PAIR_NOT_MET};
use reference::model::write::write;

/// How often each refusal has to be met, so that agreeing on it means something.
const OFTEN: usize = 20;
const SINGLE_SEEDS: u64 = 3_000;
const ROW_SEEDS: u64 = 1_500;
const CALLS_A_SEED: usize = 3;
const DROP_SEEDS: u64 = 300;

#[test]
fn single_repairs_of_many_seeds_agree() {
    let mut tally = Tally::default();
    for seed in 0..SINGLE_SEEDS {
        let files = &trial::IN_LINES;
        trial::single_calls(!seed, CALLS_A_SEED, &[RepairInsideOut], files, &mut tally);
    }
    println!("single inside-out repairs: {tally:?}");
    tally.met.check(0..=FOREIGN_SHEET, OFTEN);
    tally.check_accepted(3_000, 1_000);
    tally.check_reopened(200);
    tally.check_hearing(100);
    assert!(tally.return_labels >= OFTEN, "{tally:?}");
}

#[test]
fn single_repairs_of_files_with_rows_agree() {
    let mut tally = Tally::default();
    for seed in 0..ROW_SEEDS {
        let files = &trial::IN_ROWS;
        trial::single_calls(!seed, CALLS_A_SEED, &[RepairInsideOut], files, &mut tally);
    }
    println!("single inside-out repairs of files with rows: {tally:?}");
    let refusals = (0..=FOREIGN_SHEET).chain([PAIR_NOT_MET, PAIR_MET_TWICE]);
    tally.rows.check(refusals, 5);
    tally.rows.check([0], 1_500);
    tally.check_reopened(100);
}

#[test]
fn lists_of_both_repairs_agree_with_the_book() {
    let mut tally = Tally::default();
    let plan = Lists {
        first_seed: 1_000,
        lists: 60,
        calls: 200,
        first_file: |random, shape| write(&program_of_shape(random, shape)),
        shares: &[
            (5, Shape::Tiny),
            (5, Shape::Recursive),
            (6, Shape::Layered),
            (2, Shape::Mixed),
            (2, Shape::Crowded),
        ],
        functions: &[
            &[RepairInsideOut],
            &[RepairInsideOut, RepairForward],
            &[RepairInsideOut, RepairInsideOut, RepairForward],
        ],
        large: &[RepairInsideOut, RepairForward],
    };
    lists::compare_lists(&plan, &mut tally);
    println!("lists of both repairs: {tally:?}");
    tally.check_accepted(6_000, 1_500);
    tally.check_reopened(300);
    tally.check_hearing(40);
}

/// Many short lists: only until a call is accepted has its file rows.
#[test]
fn lists_that_begin_with_rows_agree_with_the_book() {
    let mut tally = Tally::default();
    let plan = Lists {
        first_seed: 3_000,
        lists: 700,
        calls: 8,
        first_file: |random, shape| {
            let program = program_of_shape(random, shape);
            complete_file(random, &program)
        },
        shares: &[
            (6, Shape::Tiny),
            (5, Shape::Recursive),
            (6, Shape::Layered),
            (1, Shape::Mixed),
            (2, Shape::Crowded),
        ],
        functions: &[
            &[RepairForward],
            &[RepairInsideOut],
            &[RepairInsideOut, RepairForward],
        ],
        large: &[RepairInsideOut, RepairForward],
    };
    lists::compare_lists(&plan, &mut tally);
    println!("lists that begin with rows: {tally:?}");
    tally
        .rows
        .check((OUTPUT_SHORT..=FOREIGN_SHEET).chain([0]), 5);
    tally.rows.check([0], 650);
    tally.check_accepted(3_000, 800);
    tally.check_edits(500);
    tally.check_reopened(150);
}

/// Every step of a program dropped, each from the program as it was.
#[test]
fn every_drop_of_small_programs_agrees() {
    let mut tally = Tally::default();
    let shapes = [
        Shape::Layered,
        Shape::Tiny,
        Shape::Layered,
        Shape::Recursive,
    ];
    for seed in 0..DROP_SEEDS {
        let random = &mut Random::new(2_000 + seed);
        let program = program_of_shape(random, shapes[seed as usize % shapes.len()]);
        for &step in &program.steps {
            let name = format!("seed {seed}, {step:?}");
            let line = Edit::Drop(step).line();
            trial::compare_text(&name, RepairInsideOut, &program, &line, random, &mut tally);
        }
    }
    println!("drops: {tally:?}");
    assert_eq!(tally.met.times(0), tally.calls, "{tally:?}");
    assert!(tally.calls >= 2_000, "{tally:?}");
    tally.check_hearing(30);
    assert!(
        tally.reopened[0] == 0 && tally.reopened[2] >= 300,
        "{tally:?}"
    );
}

#[test]
fn repairs_worked_out_by_hand() {
    trial::worked_out(RepairInsideOut);
}

#[test]
fn repairs_of_a_file_with_rows_worked_out_by_hand() {
    trial::worked_out_from_rows(RepairInsideOut);
}

#[test]
fn reopening_stops_where_pairs_stay() {
    let (program, drops) = cases::repairs::reopenings();
    for (line, reopened) in drops {
        let (answer, ..) = trial::repaired(RepairInsideOut, &program, line);
        let given = (answer.refusal, answer.value.reopened);
        assert_eq!(given, (0, reopened), "{}", line.escape_ascii());
    }
}

#[test]
fn named_edits_agree_with_the_answers_worked_out_by_hand() {
    trial::named_texts(RepairInsideOut);
}

#[test]
fn buffers_of_no_bytes_may_be_null() {
    trial::no_bytes(RepairInsideOut);
}
