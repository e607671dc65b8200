//! The proved library against the reference: whole routines exchanged, by both repairs, alone and mixed
//! with edits.
//!
//! Every number of every answer is compared, the set of reopened routines too, and every byte of every
//! buffer, with the bytes that stand about them. A mismatch names the seed or the case and shows the
//! input. What the texts are like is counted, so that agreeing on them means something.

mod desk;

use desk::lent::{self, Lending};
use desk::lists::{self, Lists};
use desk::trial::{self, Tally};
use reference::cases::exchanges::lengths;
use reference::cases::sample;
use reference::generate::damage::one_byte_wrong;
use reference::generate::exchanges;
use reference::generate::files::file_of_seed;
use reference::generate::met::Met;
use reference::generate::programs::program_of_shape;
use reference::generate::random::Random;
use reference::generate::shapes::{Shape, Shares};
use reference::generate::tables::complete_file;
use reference::generate::text_classes::JUDGED;
use reference::generate::text_damage::{damaged, long};
use reference::model::analysis::own_sheet;
use reference::model::calls::repairs::Function::{self, *};
use reference::model::calls::repairs::{Held, EXCHANGES, FUNCTIONS, REPAIRS};
use reference::model::calls::sizes::{exchange_sizes_answer, SizesOfExchange};
use reference::model::exchange::Exchange;
use reference::model::file::read;
use reference::model::program::Program;
use reference::model::refusals::{
    BAD_EDIT, BAD_LINE, EDIT_RANGE, EXCHANGE_ORDER, FILE_END, FOREIGN_SHEET, NOT_THERE,
    OUTPUT_SHORT, PAIR_MET_TWICE, PAIR_NOT_MET, RANGE, SHEET_LENGTH, SHEET_TOO_LARGE, STEPS_FULL,
    THERE_ALREADY, WORK_LENGTH,
};
use reference::model::write::{write, OUTPUT_SIZE};
use std::collections::BTreeSet;

/// How often each refusal, and each class of texts, has to be met by each function.
const OFTEN: usize = 20;
const SINGLE_SEEDS: u64 = 2_800;
const ROW_SEEDS: u64 = 700;
const CALLS_A_SEED: usize = 3;
const DAMAGED_SEEDS: u64 = 4_000;
const LONG_SEEDS: u64 = 400;
const ROUTINE_SEEDS: u64 = 160;
const SIZE_SEEDS: u64 = 1_500;

/// The refusals that a call with an accepted file and its own sheet may get.
const OF_REPAIRS: [u32; 7] = [
    OUTPUT_SHORT,
    WORK_LENGTH,
    BAD_EDIT,
    EDIT_RANGE,
    NOT_THERE,
    THERE_ALREADY,
    STEPS_FULL,
];
const OF_EXCHANGES: [u32; 8] = [
    SHEET_LENGTH,
    OUTPUT_SHORT,
    SHEET_TOO_LARGE,
    WORK_LENGTH,
    BAD_EDIT,
    EDIT_RANGE,
    EXCHANGE_ORDER,
    STEPS_FULL,
];

/// Each of these answers has to be met so many times by each of the functions.
fn check_met(tally: &Tally, functions: &[Function], refusals: &[u32], least: usize) {
    for &function in functions {
        let answers = refusals.iter().map(|&refusal| (function, refusal));
        tally.functions.check(answers, least);
    }
}

/// A text that is made of an exchange for a program.
type Made = fn(&mut Random, &Program, &Exchange) -> Vec<u8>;

/// Texts that are made so, one for each of so many programs.
fn compare_texts(what: &str, seeds: u64, text: Made, tally: &mut Tally) {
    for seed in 0..seeds {
        let random = &mut Random::new(seed);
        let program = trial::home(random);
        let own = own_sheet(&program);
        let exchange = exchanges::exchange(random, &program, &program, &own);
        let text = text(random, &program, &exchange);
        let name = format!("{what} {seed}");
        for function in EXCHANGES {
            trial::compare_text(&name, function, &program, &text, random, tally);
        }
    }
}

#[test]
fn single_exchanges_of_many_seeds_agree() {
    let mut tally = Tally::default();
    for seed in 0..SINGLE_SEEDS {
        let files = &trial::IN_LINES;
        trial::single_calls(seed, CALLS_A_SEED, &EXCHANGES, files, &mut tally);
    }
    compare_texts("damaged text", DAMAGED_SEEDS, damaged, &mut tally);
    compare_texts("long text", LONG_SEEDS, long, &mut tally);
    println!("single exchanges: {tally:?}");
    check_met(&tally, &EXCHANGES, &OF_EXCHANGES, OFTEN);
    let of_files: Vec<u32> = (1..=SHEET_LENGTH).chain([FOREIGN_SHEET]).collect();
    check_met(&tally, &EXCHANGES, &of_files, 15);
    tally.texts.check(&EXCHANGES, &JUDGED, OFTEN);
    tally.lengths.check(10);
    tally.sizes.check_accepted(OFTEN);
    tally.check_accepted(5_000, 2_500);
    tally.check_hearing(150);
    assert!(tally.reopened[1].min(tally.reopened[2]) >= 500, "{tally:?}");
}

#[test]
fn single_exchanges_of_files_with_rows_agree() {
    let mut tally = Tally::default();
    for seed in 0..ROW_SEEDS {
        let files = &trial::IN_ROWS;
        trial::single_calls(seed, CALLS_A_SEED, &EXCHANGES, files, &mut tally);
    }
    println!("single exchanges of files with rows: {tally:?}");
    let of_tables = [PAIR_NOT_MET, PAIR_MET_TWICE, SHEET_LENGTH, FOREIGN_SHEET];
    check_met(&tally, &EXCHANGES, &of_tables, 5);
    check_met(&tally, &EXCHANGES, &OF_EXCHANGES, 5);
    tally.rows.check([0], 1_500);
}

const SHARES: &Shares = &[
    (6, Shape::Tiny),
    (5, Shape::Recursive),
    (5, Shape::Layered),
    (2, Shape::Mixed),
    (2, Shape::Crowded),
    (1, Shape::Long),
    (1, Shape::ManyStates),
];

/// By all four functions, by the exchanges alone, and by those of one repair.
const ROWS_OF_FUNCTIONS: &[&[Function]] = &[
    &FUNCTIONS,
    &EXCHANGES,
    &FUNCTIONS,
    &[ExchangeInsideOut, RepairInsideOut],
    &FUNCTIONS,
    &[ExchangeForward, RepairForward],
];

/// Long lists, and many short ones that begin with rows: only until a call is accepted has its file
/// rows.
const LISTS: [Lists; 2] = [
    Lists {
        first_seed: 5_000,
        lists: 72,
        calls: 220,
        first_file: |random, shape| write(&program_of_shape(random, shape)),
        shares: SHARES,
        functions: ROWS_OF_FUNCTIONS,
        large: &FUNCTIONS,
    },
    Lists {
        first_seed: 7_000,
        lists: 600,
        calls: 8,
        first_file: |random, shape| {
            let program = program_of_shape(random, shape);
            complete_file(random, &program)
        },
        shares: SHARES,
        functions: ROWS_OF_FUNCTIONS,
        large: &FUNCTIONS,
    },
];

#[test]
fn lists_of_repairs_and_exchanges_agree_with_the_book() {
    let mut tally = Tally::default();
    for plan in LISTS {
        lists::compare_lists(&plan, &mut tally);
    }
    println!("lists of repairs and exchanges: {tally:?}");
    assert!(tally.calls >= 20_000, "{tally:?}");
    check_met(&tally, &FUNCTIONS, &[0], 2_000);
    check_met(&tally, &FUNCTIONS, &[FOREIGN_SHEET], OFTEN);
    check_met(&tally, &REPAIRS, &OF_REPAIRS, OFTEN);
    check_met(&tally, &EXCHANGES, &OF_EXCHANGES, OFTEN);
    tally.texts.check(&EXCHANGES, &[0], 5);
    tally.lengths.check_lists(OFTEN);
    let with_rows = OF_EXCHANGES.into_iter().chain([0]);
    tally
        .rows
        .check(with_rows.filter(|&one| one != SHEET_TOO_LARGE), 5);
    tally.rows.check([0], 500);
    tally.check_accepted(12_000, 4_000);
    tally.check_edits(500);
    tally.hearing.check(150);
}

/// Every routine of a program exchanged for itself, and for one without a step, each from the program
/// as it was. The routine itself is always reopened.
#[test]
fn every_routine_of_small_programs_agrees() {
    let mut tally = Tally::default();
    let shapes = [Shape::Layered, Shape::Tiny, Shape::Recursive];
    for seed in 0..ROUTINE_SEEDS {
        let random = &mut Random::new(4_000 + seed);
        let program = program_of_shape(random, shapes[seed as usize % shapes.len()]);
        for routine in 0..program.routines() {
            let itself = Exchange::for_itself(&program, routine);
            let emptied = Exchange {
                steps: BTreeSet::new(),
                ..itself.clone()
            };
            for text in [itself.text(), emptied.text()] {
                let name = format!("seed {seed}, routine {routine}");
                for function in EXCHANGES {
                    trial::compare_text(&name, function, &program, &text, random, &mut tally);
                }
            }
        }
    }
    println!("every routine: {tally:?}");
    assert_eq!(tally.met.times(0), tally.calls, "{tally:?}");
    assert!(tally.calls >= 2_000 && tally.reopened[0] == 0, "{tally:?}");
    tally.check_hearing(30);
    assert!(tally.reopened[1].min(tally.reopened[2]) >= 200, "{tally:?}");
}

/// A routine that loses its steps leaves what the keeping leaves of the old sheet, with the new file.
#[test]
fn a_forward_exchange_for_no_step_is_the_keeping_on_the_old_sheet() {
    for seed in 0..300 {
        let random = &mut Random::new(seed);
        let before = trial::home(random);
        let routine = random.below(before.places.len()) as u8;
        let emptied = Exchange {
            steps: BTreeSet::new(),
            ..Exchange::for_itself(&before, routine)
        };
        let (answer, left, file) = trial::repaired(ExchangeForward, &before, &emptied.text());
        assert_eq!(answer.refusal, 0, "seed {seed}");
        let after = read(&file).expect("what is written is accepted");
        // The routine keeps its places, so both programs have the same sizes.
        let kept = desk::kept(&after, &own_sheet(&before));
        assert_eq!(left, kept, "seed {seed}");
    }
}

/// Every byte of a good text, one at a time, as other bytes, left out, and put in.
#[test]
fn a_text_with_any_one_byte_wrong_agrees() {
    let mut tally = Tally::default();
    let random = &mut Random::new(2);
    let bytes: Vec<u8> = (0..=255).step_by(7).chain(*b"012345\n").collect();
    let sample = &sample::program();
    let (two, three) = (
        "5301000002\n5301020101\n",
        "5301000001\n5301000101\n5301020000\n",
    );
    for steps in [two, three] {
        let text = format!("520103\n{steps}");
        for (name, text) in one_byte_wrong(text.as_bytes(), &bytes) {
            for function in EXCHANGES {
                trial::compare_text(name, function, sample, &text, random, &mut tally);
            }
        }
    }
    println!("texts with a byte wrong: {tally:?}");
    let answers = [0, BAD_EDIT, EDIT_RANGE, EXCHANGE_ORDER];
    check_met(&tally, &EXCHANGES, &answers, 3);
}

#[test]
fn sizes_of_exchanges_worked_out_by_hand() {
    for case in lengths::all() {
        let answer = desk::exchange_sizes(&case.file, case.text.as_bytes());
        assert_eq!(answer, case.answer, "{}", case.name);
    }
}

/// The sizes of an exchange, and the exchange made with buffers of these lengths.
#[test]
fn the_sizes_of_exchanges_agree() {
    let mut met = Met::default();
    for seed in 0..SIZE_SEEDS {
        let random = &mut Random::new(seed);
        let program = trial::home(random);
        let own = own_sheet(&program);
        let text = exchanges::text(random, &program, &program, &own);
        let file = match random.percent(15) {
            true => file_of_seed(seed),
            false => write(&program),
        };
        let reading = read(&file);
        let (answer, _) = lent::compare(
            &format!("seed {seed}"),
            &Lending::text(&file, &text),
            |file, lent| desk::exchange_sizes(file, lent.text),
            |_| exchange_sizes_answer(&reading, &text),
        );
        met.note(answer.refusal);
        if answer.refusal == 0 {
            let after = made_in(&file, &text, &answer.value);
            assert_eq!(desk::sheet_length(&after), answer.value.second as usize);
        }
    }
    println!("sizes of exchanges: {met:?}");
    let of_files = [BAD_LINE, RANGE, FILE_END];
    let of_texts = [
        BAD_EDIT,
        EDIT_RANGE,
        EXCHANGE_ORDER,
        STEPS_FULL,
        SHEET_TOO_LARGE,
    ];
    met.check(of_files.into_iter().chain(of_texts), 10);
    met.check([0], 800);
}

/// The file that an exchange writes which is made by the library in buffers of these lengths.
fn made_in(file: &[u8], text: &[u8], sizes: &SizesOfExchange) -> Vec<u8> {
    let program = read(file).expect("the file is accepted");
    let mut held = Held {
        sheet: own_sheet(&program),
        text: text.to_vec(),
        output: vec![7; OUTPUT_SIZE],
        work: vec![7; sizes.work as usize],
        second: vec![7; sizes.second as usize],
    };
    let answer = desk::call(ExchangeForward, file, &mut held.lend());
    assert_eq!(answer.refusal, 0);
    held.output.truncate(answer.value.written as usize);
    held.output
}

#[test]
fn exchanges_worked_out_by_hand() {
    EXCHANGES.into_iter().for_each(trial::worked_out);
}

#[test]
fn exchanges_of_a_file_with_rows_worked_out_by_hand() {
    EXCHANGES.into_iter().for_each(trial::worked_out_from_rows);
}

#[test]
fn named_texts_agree_with_the_answers_worked_out_by_hand() {
    EXCHANGES.into_iter().for_each(trial::named_texts);
}

#[test]
fn foreign_sheets_are_judged_after_texts() {
    FUNCTIONS
        .into_iter()
        .for_each(trial::named_texts_on_foreign_sheets);
}

#[test]
fn buffers_of_no_bytes_may_be_null() {
    EXCHANGES.into_iter().for_each(trial::no_bytes);
}
