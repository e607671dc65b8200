//! The proved library against the reference: reading files and writing them back.
//!
//! Every number of every answer is compared, and every byte of every output, with the bytes that
//! stand about it. A mismatch names the seed or the case and shows the input.

mod desk;

use desk::lent::{self, Lending, Lent, MARGIN};
use reference::cases::{self, sample};
use reference::generate::classes::MetClasses;
use reference::generate::damage::{lines_of, one_byte_wrong};
use reference::generate::files::file_of_seed;
use reference::generate::label_classes::MetLabels;
use reference::generate::met::Met;
use reference::generate::pair_classes::{MetPairs, PairClass};
use reference::generate::size_classes::MetSizes;
use reference::generate::tables::{file_with_rows_of_seed, has_rows};
use reference::model::calls::files::{faulty_pair_answer, read_answer, write_answer, FaultyPair};
use reference::model::calls::sizes::sizes_answer;
use reference::model::calls::Answer;
use reference::model::file::{self, Reading};
use reference::model::kinds::{ROUTINE, RULE, SIZES, STEP};
use reference::model::lines::text_of;
use reference::model::refusals::{
    FILE_END, OUTPUT_SHORT, PAIR_MET_TWICE, PAIR_NOT_MET, SHEET_TOO_LARGE,
};
use reference::model::write::{end, OUTPUT_SIZE};

/// Lengths of outputs. Every file goes to one of the needed length, and to one of these.
const LENGTHS: [usize; 7] = [0, 7711, 7713, 5328, 7712, 8000, 16384];
/// How often each refusal has to be met, so that agreeing on it means something.
const OFTEN: usize = 50;
const SEEDS: u64 = 24_000;
const ROW_SEEDS: u64 = 12_000;

/// What the comparisons have met.
#[derive(Debug, Default)]
struct Tally {
    files: usize,
    met: Met,
    /// Deciding lines with two faults or more.
    lines_with_two_faults: usize,
    /// Files with rows.
    classes: MetClasses,
    pairs: MetPairs,
    /// Labels of rule lines and steps.
    labels: MetLabels,
    sizes: MetSizes,
}

/// Holds the library against the reference on one file.
fn compare(name: &str, file: &[u8], tally: &mut Tally) {
    let reading = file::read(file);
    let (answer, _) = lent::compare(
        name,
        &Lending::file(file),
        |file, _| desk::read(file),
        |_| read_answer(&reading),
    );
    tally.met.note(answer.refusal);
    lent::compare(
        name,
        &Lending::file(file),
        |file, _| desk::faulty_pair(file),
        |_| faulty_pair_answer(&reading),
    );
    lent::compare(
        name,
        &Lending::file(file),
        |file, _| desk::sizes(file),
        |_| sizes_answer(&reading),
    );
    let other = LENGTHS[tally.files % LENGTHS.len()];
    for length in [OUTPUT_SIZE, other] {
        let answer = compare_writing(name, file, &reading, length);
        check_answer(name, file, &answer, length);
        if answer.refusal == OUTPUT_SHORT {
            tally.met.note(OUTPUT_SHORT);
        }
    }
    tally.files += 1;
    tally.classes.note(file, &reading);
    tally.pairs.note(file, &reading);
    tally.labels.note(file, &reading);
    tally.sizes.note(file, &reading);
    let two_faults = matches!(reading, Err(refusal) if refusal.faults.len() > 1);
    tally.lines_with_two_faults += usize::from(two_faults);
}

/// Writes the file back with both, into outputs of this length.
fn compare_writing(name: &str, file: &[u8], reading: &Reading, length: usize) -> Answer<u32> {
    let (answer, _) = lent::compare(
        &format!("{name}, to {length}"),
        &Lending::output(file, Lent::with_margins(pattern(file.len(), length))),
        |file, lent| desk::write(file, lent.output),
        |lent| write_answer(reading, lent.output),
    );
    answer
}

/// An output with its margins, filled so that neighbours differ and no two fillings are alike.
fn pattern(seed: usize, length: usize) -> Vec<u8> {
    (0..length + 2 * MARGIN)
        .map(|at| (at * 37 + at / 256 * 11 + seed * 101 + 13) as u8)
        .collect()
}

/// What holds of every answer, whatever the reference says: an accepted file without rows comes back
/// as its own length, the refusal of a line has a line, and nothing else has.
fn check_answer(name: &str, file: &[u8], answer: &Answer<u32>, length: usize) {
    let accepted = answer.refusal == 0;
    let written = answer.value as usize;
    if !accepted {
        assert_eq!(written, 0, "{name}");
    } else if has_rows(file) {
        assert!(0 < written && written <= OUTPUT_SIZE, "{name}");
    } else {
        assert_eq!(written, file.len(), "{name}");
    }
    let has_line = (1..=FILE_END).contains(&answer.refusal);
    assert_eq!(answer.line > 0, has_line, "{name}");
    assert!(!accepted || length >= OUTPUT_SIZE, "{name}");
}

#[test]
fn named_cases_agree_with_the_answers_worked_out_by_hand() {
    let mut tally = Tally::default();
    for case in cases::files::all() {
        let wanted = Answer::refused(case.refusal, case.line);
        assert_eq!(desk::read(&case.file), wanted, "{}", case.name);
        compare(&case.name, &case.file, &mut tally);
    }
}

#[test]
fn faulty_tables_have_the_pairs_worked_out_by_hand() {
    for table in cases::tables::faulty() {
        let answer = desk::faulty_pair(&table.file);
        assert_eq!((answer.refusal, answer.line), (table.refusal, 0));
        let (state, action) = table.pair;
        let wanted = FaultyPair {
            state: state.into(),
            action: action.into(),
        };
        assert_eq!(answer.value, wanted, "{}", table.name);
    }
}

#[test]
fn files_of_many_seeds_agree() {
    let mut tally = Tally::default();
    for seed in 0..SEEDS {
        let name = format!("seed {seed}");
        let file = file_of_seed(seed);
        compare(&name, &file, &mut tally);
        if desk::read(&file).refusal == 0 {
            comes_back(&name, &file);
        }
    }
    println!("files of seeds: {tally:?}");
    let refusals = [OUTPUT_SHORT, SHEET_TOO_LARGE];
    tally.met.check((0..=FILE_END).chain(refusals), OFTEN);
    tally.labels.check(OFTEN);
    tally.sizes.check(OFTEN);
    assert!(tally.pairs.times(PairClass::InLines) >= OFTEN, "{tally:?}");
    assert!(tally.lines_with_two_faults >= OFTEN, "{tally:?}");
}

#[test]
fn files_with_rows_of_many_seeds_agree() {
    let mut tally = Tally::default();
    for seed in 0..ROW_SEEDS {
        let name = format!("seed {seed} with rows");
        let file = file_with_rows_of_seed(seed);
        compare(&name, &file, &mut tally);
        if desk::read(&file).refusal == 0 {
            comes_back(&name, &file);
        }
    }
    println!("files with rows of seeds: {tally:?}");
    let refusals = [OUTPUT_SHORT, PAIR_NOT_MET, PAIR_MET_TWICE, SHEET_TOO_LARGE];
    tally.met.check((0..=FILE_END).chain(refusals), OFTEN);
    tally.classes.check(30);
    tally.pairs.check(30);
    assert!(tally.classes.files >= 10_000, "{tally:?}");
}

/// What the library writes for an accepted file, over whatever stood there.
fn written(name: &str, file: &[u8]) -> Vec<u8> {
    let mut output = vec![0x0A; OUTPUT_SIZE];
    let answer = desk::write(file, &mut output);
    assert_eq!((answer.refusal, answer.line), (0, 0), "{name}");
    output.truncate(answer.value as usize);
    output
}

/// An accepted file without rows is written back as its own bytes; one with rows as a file without,
/// which then comes back as its own bytes.
fn comes_back(name: &str, file: &[u8]) {
    let back = written(name, file);
    assert!(!has_rows(&back), "{name}");
    if has_rows(file) {
        assert_eq!(written(name, &back), back, "{name}");
    } else {
        assert_eq!(back, file, "{name}");
    }
}

#[test]
fn tables_are_written_as_the_lines_worked_out_by_hand() {
    for case in cases::tables::written::all() {
        let back = written(case.name, &case.file);
        assert_eq!(back, case.written, "{}", case.name);
        comes_back(case.name, &case.file);
    }
}

#[test]
fn the_sample_with_any_one_byte_wrong_agrees() {
    let mut tally = Tally::default();
    let bytes: Vec<u8> = (0..=255).collect();
    for (name, file) in one_byte_wrong(sample::FILE, &bytes) {
        compare(name, &file, &mut tally);
    }
    println!("bytes of the sample: {tally:?}");
}

/// A file with each two digits that stand side by side as every number there is.
fn compare_numbers(file: &[u8], tally: &mut Tally) {
    for place in 0..file.len() - 1 {
        for number in 0..=255u8 {
            let mut changed = file.to_vec();
            let digits = format!("{number:02X}");
            if !changed[place..place + 2].contains(&0x0A) {
                changed[place..place + 2].copy_from_slice(digits.as_bytes());
                compare("a number changed", &changed, tally);
            }
        }
    }
}

#[test]
fn the_sample_with_any_number_changed_agrees() {
    let mut tally = Tally::default();
    compare_numbers(sample::FILE, &mut tally);
    println!("numbers of the sample: {tally:?}");
}

#[test]
fn the_sample_in_rows_with_any_number_changed_agrees() {
    let mut tally = Tally::default();
    compare_numbers(&cases::tables::completed::in_rows(), &mut tally);
    println!("numbers of the sample in rows: {tally:?}");
    tally.met.check([0, PAIR_NOT_MET, PAIR_MET_TWICE], 10);
}

/// Every number there is as the label of a rule line and of a step, for so many routines and actions.
#[test]
fn every_label_agrees() {
    let mut tally = Tally::default();
    for (routines, actions) in [(1, 1), (2, 2), (2, 32), (15, 31), (16, 1), (16, 32)] {
        for label in 0..=255 {
            for line in [vec![RULE, 0, label, 1], vec![STEP, 0, 0, label, 1]] {
                let mut frames = vec![vec![SIZES, routines, 2, actions]];
                frames.extend((0..routines).map(|routine| vec![ROUTINE, routine, 2]));
                frames.push(line);
                frames.push(end(frames.len()));
                compare("a label", &text_of(&frames), &mut tally);
            }
        }
    }
    println!("labels: {tally:?}");
    let labels = [1 + 2 + 2 + 15 + 16 + 16, 1 + 2 + 32 + 31 + 1 + 32];
    let of_rule = 2 * labels[0] + labels[1];
    let of_steps = labels[0] + labels[1];
    assert_eq!(tally.met.times(0), of_rule + of_steps, "{tally:?}");
}

/// A file with a line left out, and with each line beside each other, in its place and in front of it.
fn compare_lines(file: &[u8], tally: &mut Tally) {
    let lines = lines_of(file);
    for one in 0..lines.len() {
        let mut removed = lines.clone();
        removed.remove(one);
        compare("a line left out", &removed.concat(), tally);
        for other in 0..lines.len() {
            let mut swapped = lines.clone();
            swapped.swap(one, other);
            compare("two lines swapped", &swapped.concat(), tally);
            let mut replaced = lines.clone();
            replaced[one] = lines[other].clone();
            compare("a line for another", &replaced.concat(), tally);
            let mut inserted = lines.clone();
            inserted.insert(one, lines[other].clone());
            compare("a line put in", &inserted.concat(), tally);
        }
    }
}

#[test]
fn the_sample_with_its_lines_rearranged_agrees() {
    let mut tally = Tally::default();
    compare_lines(sample::FILE, &mut tally);
    compare_lines(&cases::tables::completed::in_rows(), &mut tally);
    println!("lines of the sample: {tally:?}");
}

#[test]
fn the_largest_file_fills_the_least_output() {
    let largest = cases::files::largest();
    assert_eq!(largest.len(), OUTPUT_SIZE);
    let mut tally = Tally::default();
    for _ in LENGTHS {
        compare("the largest file", &largest, &mut tally);
    }
    let mut output = vec![0; OUTPUT_SIZE];
    assert_eq!(desk::write(&largest, &mut output).value, 7712);
    assert_eq!(output, largest);
}

#[test]
fn the_largest_file_with_rows_fills_the_least_output_too() {
    let largest = cases::tables::full::largest();
    let mut tally = Tally::default();
    for _ in LENGTHS {
        compare("the largest file with rows", &largest, &mut tally);
    }
    assert_eq!(
        written("the largest file with rows", &largest).len(),
        OUTPUT_SIZE
    );
}

#[test]
fn buffers_of_no_bytes_may_be_null() {
    assert_eq!(binding::read(None), desk::refused(8, 1));
    assert_eq!(binding::faulty_pair(None), desk::refused(8, 1));
    assert_eq!(binding::sizes(None), desk::refused(8, 1));
    assert_eq!(binding::exchange_sizes(None, None), desk::refused(8, 1));
    assert_eq!(binding::write(None, None), desk::refused(8, 1));
    let file = Some(sample::FILE);
    assert_eq!(binding::write(file, None), desk::refused(10, 0));
    assert_eq!(binding::exchange_sizes(file, None), desk::refused(12, 0));
}
