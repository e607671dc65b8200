//! The program `bench` against the reference: all that it prints, byte by byte, with no argument and
//! with either repair.
//!
//! The program is the one that the environment variable `PALTHRENNI_BENCH` names; without it, the one
//! in the project's folder `target/bin`.

use reference::cases::{self, sample};
use reference::generate::classes::{Class, MetClasses};
use reference::generate::hearing::{Heard, MetHearing};
use reference::generate::inputs::{
    file_with_edits, input_of_seed, input_with_rows_of_seed, with_edits,
};
use reference::generate::met::Met;
use reference::generate::random::Random;
use reference::model::analysis::own_sheet;
use reference::model::bench::{bench, file_and_edits, MOST_INPUT};
use reference::model::file::read;
use reference::model::refusals::{
    BAD_EDIT, BAD_LINE, FILE_END, INPUT_LONG, PAIR_MET_TWICE, PAIR_NOT_MET, SHEET_TOO_LARGE,
    STEPS_FULL,
};
use std::env;
use std::ffi::OsString;
use std::io::{Read, Write};
use std::path::Path;
use std::process::{Command, Stdio};
use std::thread;

/// The ways in which the program is called.
const ARGUMENTS: [&[&str]; 3] = [&[], &["forward"], &["inside-out"]];
const SEEDS: u64 = 1_200;
const ROW_SEEDS: u64 = 600;
/// How often each printed refusal has to be met, so that agreeing on it means something.
const OFTEN: usize = 50;
/// The same for each refusal of a file, which `tests/files.rs` goes through at length.
const AT_TIMES: usize = 2;
/// No input of the seeds is to print more than this.
const MOST_PRINTED: usize = 200_000;

fn program_to_run() -> OsString {
    env::var_os("PALTHRENNI_BENCH").unwrap_or_else(|| {
        let here = Path::new(env!("CARGO_MANIFEST_DIR"));
        here.join("../target/bin/bench").into_os_string()
    })
}

/// Runs the program with an input that comes through a pipe, piece by piece.
fn run(arguments: &[&str], input: &[u8], piece: usize) -> Vec<u8> {
    let mut child = Command::new(program_to_run())
        .args(arguments)
        .stdin(Stdio::piped())
        .stdout(Stdio::piped())
        .spawn()
        .expect("bench can be run: see PALTHRENNI_BENCH");
    let mut to = child.stdin.take().expect("a pipe");
    let mut from = child.stdout.take().expect("a pipe");
    let input = input.to_vec();
    // A program that has read enough may close its end early, so a piece may find no reader.
    let feeder = thread::spawn(move || {
        for piece in input.chunks(piece) {
            if to.write_all(piece).and_then(|()| to.flush()).is_err() {
                return;
            }
        }
    });
    let mut printed = Vec::new();
    from.read_to_end(&mut printed)
        .expect("what is printed can be read");
    feeder.join().expect("the input was written");
    let status = child.wait().expect("bench ends");
    assert!(status.code().is_some(), "bench was ended: {status}");
    printed
}

/// What the comparisons have met.
#[derive(Debug, Default)]
struct Tally {
    inputs: usize,
    /// Refusals of files, of edits, and of inputs that are too long.
    met: Met,
    blocks: usize,
    findings: usize,
    /// Files with rows.
    classes: MetClasses,
    /// Programs by what their rule hears.
    hearing: MetHearing,
}

/// Holds the program against the reference on one input, in every way of calling it.
fn compare(name: &str, input: &[u8], random: &mut Random, tally: &mut Tally) -> String {
    let wanted = String::from_utf8(bench(input)).expect("digits");
    for arguments in ARGUMENTS {
        let least = input.len() / 100 + 1;
        let piece = random.pick(&[least, least + 7, 1000, 4096, MOST_INPUT, 65_536]);
        let given = run(arguments, input, piece);
        if given != wanted.as_bytes() {
            let (given, input) = (given.escape_ascii(), input.escape_ascii());
            panic!("{name}, {arguments:?}: {given}\nand not {wanted:?}\nfor {input}");
        }
    }
    note(&wanted, tally);
    wanted
}

fn note(printed: &str, tally: &mut Tally) {
    tally.inputs += 1;
    for line in printed.lines() {
        match &line[..2] {
            "58" => tally.findings += 1,
            "5A" => tally.blocks += 1,
            _ => {
                let refusal = u32::from_str_radix(&line[2..4], 16).expect("digits");
                tally.met.note(refusal);
            }
        }
    }
}

#[test]
fn inputs_of_many_seeds_agree() {
    let mut tally = Tally::default();
    for seed in 0..SEEDS {
        let input = input_of_seed(seed);
        if bench(&input).len() <= MOST_PRINTED {
            let random = &mut Random::new(!seed);
            compare(&format!("seed {seed}"), &input, random, &mut tally);
            let (file, _) = file_and_edits(&input);
            if let Ok(program) = read(&file) {
                tally.hearing.note(&program, &own_sheet(&program));
            }
        }
    }
    println!("inputs of seeds: {tally:?}");
    tally.met.check(BAD_EDIT..=STEPS_FULL, OFTEN);
    tally.met.check(BAD_LINE..=FILE_END, AT_TIMES);
    tally.met.check([INPUT_LONG, SHEET_TOO_LARGE], AT_TIMES);
    assert!(
        tally.blocks >= 5_000 && tally.findings >= 5_000,
        "{tally:?}"
    );
    assert!(tally.inputs >= 1_000, "{tally:?}");
    tally.hearing.check(20);
    assert!(tally.hearing.times(Heard::Nothing) >= 200, "{tally:?}");
}

#[test]
fn inputs_with_rows_of_many_seeds_agree() {
    let mut tally = Tally::default();
    for seed in 0..ROW_SEEDS {
        let input = input_with_rows_of_seed(seed);
        if bench(&input).len() <= MOST_PRINTED {
            let random = &mut Random::new(!seed);
            compare(
                &format!("seed {seed} with rows"),
                &input,
                random,
                &mut tally,
            );
            let (file, _) = file_and_edits(&input);
            tally.classes.note(&file, &read(&file));
        }
    }
    println!("inputs with rows of seeds: {tally:?}");
    tally.met.check(BAD_LINE..=FILE_END, 1);
    tally.met.check(BAD_EDIT..=STEPS_FULL, 5);
    tally.met.check([PAIR_NOT_MET, PAIR_MET_TWICE], 10);
    assert!(tally.classes.files >= 450, "{tally:?}");
    assert!(tally.classes.times(Class::Accepted) >= 250, "{tally:?}");
    assert!(
        tally.blocks >= 1_000 && tally.findings >= 1_000,
        "{tally:?}"
    );
}

#[test]
fn named_inputs_agree() {
    let mut tally = Tally::default();
    for case in cases::inputs::all() {
        let random = &mut Random::new(0);
        let printed = compare(case.name, &case.input, random, &mut tally);
        assert_eq!(printed, case.printed, "{}", case.name);
    }
    println!("named inputs: {tally:?}");
}

/// The largest file there is, and as many edits as there is room for.
#[test]
fn large_inputs_agree() {
    let mut tally = Tally::default();
    let random = &mut Random::new(0);
    let largest = read(&cases::files::largest()).expect("the largest file is accepted");
    for (name, home, edits, times) in [
        ("the largest file", largest, 700, 3),
        ("the sample", sample::program(), 1_600, 5),
    ] {
        for _ in 0..times {
            let mut input = file_with_edits(random, &home, edits);
            input.truncate(MOST_INPUT);
            compare(name, &input, random, &mut tally);
        }
    }
    let with_rows = cases::tables::full::largest();
    let home = read(&with_rows).expect("the largest file with rows is accepted");
    let mut input = with_edits(random, with_rows, &home, 20);
    input.truncate(MOST_INPUT);
    compare("the largest file with rows", &input, random, &mut tally);
    println!("large inputs: {tally:?}");
    assert!(tally.blocks >= 2_000, "{tally:?}");
}
