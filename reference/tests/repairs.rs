//! The proved library against the reference: the forward repair.
//!
//! Every number of every answer is compared, and every byte of every buffer, with the bytes that
//! stand about them. A mismatch names the seed or the case and shows the input.

mod desk;

use desk::lists::{self, Lists};
use desk::trial::{self, Tally};
use reference::cases::sample;
use reference::generate::damage::one_byte_wrong;
use reference::generate::edits;
use reference::generate::programs::program_of_shape;
use reference::generate::random::Random;
use reference::generate::shapes::Shape;
use reference::model::analysis::own_sheet;
use reference::model::calls::repairs::Function::RepairForward;
use reference::model::file::read;
use reference::model::kinds::DROP;
use reference::model::lines::starts_with_kind;
use reference::model::refusals::{
    BAD_EDIT, FOREIGN_SHEET, PAIR_MET_TWICE, PAIR_NOT_MET, THERE_ALREADY,
};
use reference::model::write::write;

/// How often each refusal has to be met, so that agreeing on it means something.
const OFTEN: usize = 20;
const SINGLE_SEEDS: u64 = 3_000;
const ROW_SEEDS: u64 = 1_500;
const CALLS_A_SEED: usize = 3;

#[test]
fn single_repairs_of_many_seeds_agree() {
    let mut tally = Tally::default();
    for seed in 0..SINGLE_SEEDS {
        let files = &trial::IN_LINES;
        trial::single_calls(seed, CALLS_A_SEED, &[RepairForward], files, &mut tally);
    }
    println!("single forward repairs: {tally:?}");
    tally.met.check(0..=FOREIGN_SHEET, OFTEN);
    tally.check_accepted(3_000, 1_000);
    tally.check_edits(300);
    tally.check_hearing(100);
    assert!(tally.return_labels >= OFTEN, "{tally:?}");
}

#[test]
fn single_repairs_of_files_with_rows_agree() {
    let mut tally = Tally::default();
    for seed in 0..ROW_SEEDS {
        let files = &trial::IN_ROWS;
        trial::single_calls(seed, CALLS_A_SEED, &[RepairForward], files, &mut tally);
    }
    println!("single forward repairs of files with rows: {tally:?}");
    let refusals = (0..=FOREIGN_SHEET).chain([PAIR_NOT_MET, PAIR_MET_TWICE]);
    tally.rows.check(refusals, 5);
    tally.rows.check([0], 1_500);
    tally.check_edits(300);
}

#[test]
fn lists_of_many_repairs_agree_with_the_book() {
    let mut tally = Tally::default();
    let plan = Lists {
        first_seed: 0,
        lists: 60,
        calls: 250,
        first_file: |random, shape| write(&program_of_shape(random, shape)),
        shares: &[
            (7, Shape::Tiny),
            (5, Shape::Recursive),
            (4, Shape::Layered),
            (2, Shape::Mixed),
            (2, Shape::Crowded),
        ],
        functions: &[&[RepairForward]],
        large: &[RepairForward],
    };
    lists::compare_lists(&plan, &mut tally);
    println!("lists of forward repairs: {tally:?}");
    tally.check_accepted(8_000, 2_000);
    tally.check_edits(1_000);
    tally.check_hearing(40);
}

#[test]
fn a_list_goes_on_from_the_first_file_while_all_is_refused() {
    let mut tally = Tally::default();
    let random = &mut Random::new(0);
    for line in [
        "",
        "2B00000103\n",
        "2D00000102\n",
        "2B00004102\n",
        "2B00000102\n",
    ] {
        let sample = &sample::program();
        trial::compare_text(
            line,
            RepairForward,
            sample,
            line.as_bytes(),
            random,
            &mut tally,
        );
    }
    tally.met.check((BAD_EDIT..=THERE_ALREADY).chain([0]), 1);
}

#[test]
fn repairs_worked_out_by_hand() {
    trial::worked_out(RepairForward);
}

#[test]
fn repairs_of_a_file_with_rows_worked_out_by_hand() {
    trial::worked_out_from_rows(RepairForward);
}

#[test]
fn named_edits_agree_with_the_answers_worked_out_by_hand() {
    trial::named_texts(RepairForward);
}

/// Every byte of a good line, one at a time, as other bytes, left out, and put in.
#[test]
fn an_edit_line_with_any_one_byte_wrong_agrees() {
    let mut tally = Tally::default();
    let random = &mut Random::new(2);
    let bytes: Vec<u8> = (0..=255).step_by(3).chain(*b"0124BD\n").collect();
    let sample = &sample::program();
    for line in [&b"2B01000101\n"[..], b"2D00020101\n", b"3D0000410240\n"] {
        for (name, line) in one_byte_wrong(line, &bytes) {
            trial::compare_text(name, RepairForward, sample, &line, random, &mut tally);
        }
    }
    println!("edit lines with a byte wrong: {tally:?}");
    tally.met.check((BAD_EDIT..=THERE_ALREADY).chain([0]), 3);
}

#[test]
fn buffers_of_no_bytes_may_be_null() {
    trial::no_bytes(RepairForward);
}

/// A drop by the repair is the keeping with the edited file on the old sheet.
#[test]
fn a_forward_drop_is_the_keeping_on_the_old_sheet() {
    for seed in 0..300 {
        let random = &mut Random::new(seed);
        let before = trial::home(random);
        let line = edits::edit_in_range(random, &before);
        if !starts_with_kind(&line, DROP) {
            continue;
        }
        let (answer, left, file) = trial::repaired(RepairForward, &before, &line);
        if answer.refusal == 0 {
            let after = read(&file).expect("what is written is accepted");
            let kept = desk::kept(&after, &own_sheet(&before));
            assert_eq!(left, kept, "seed {seed}");
        }
    }
}
