//! Texts of exchanges that are known by name, each with the refusal worked out by hand.
//!
//! Most of them are for the sample: main has three places, routine 1 has two and the one step
//! 01 00 00 01, and there are two actions.

use crate::cases::edits::{case, of_sample, EditCase};
use crate::cases::files::{full_steps, of_sizes};
use crate::generate::text_damage::every_step;
use crate::model::file::{read, Frame};
use crate::model::lines::text_of;

/// Every named text.
pub fn all() -> Vec<EditCase> {
    let mut cases = Vec::new();
    cases.extend(accepted());
    cases.extend(no_frames());
    cases.extend(first_frames_out_of_range());
    cases.extend(steps_out_of_range());
    cases.extend(later_frames_out_of_range());
    cases.extend(first_frames_out_of_order());
    cases.extend(steps_out_of_order());
    cases.extend(several_faults());
    cases.extend(full_tables());
    cases.extend(steps_past_full_tables());
    cases.extend(long_texts());
    cases.extend(sheets_too_large());
    cases
}

/// The sheet's length goes by the longest routine of the new program, and is judged after all of the
/// text. Four routines and 16 states have room for 16 places.
fn sheets_too_large() -> Vec<EditCase> {
    let (two, short) = (of_sizes(&[2; 4], 16), of_sizes(&[2, 2, 16, 2], 16));
    let of_two = |name, text: &str, refusal| case(name, two.clone(), text, refusal);
    let of_short = |name, text: &str, refusal| case(name, short.clone(), text, refusal);
    let full = full_steps(256);
    vec![
        of_two("to 16 places", "520310\n", 0),
        of_two("to 17 places", "520311\n", 23),
        of_two("to 64 places", "520340\n", 23),
        of_two("to 17, a step to the last", "520311\n5303000010\n", 23),
        of_two("to 17, a step past it", "520311\n5303000011\n", 13),
        of_two("to 17, out of order", "520311\n520311\n", 21),
        of_two("to 17, no 0A", "520311", 12),
        of_short("another to 16", "520310\n", 0),
        of_short("another to 17", "520311\n", 23),
        of_short("the longest to 2", "520202\n", 0),
        of_short("the longest to 17", "520211\n", 23),
        case("256 steps, to 17", full.clone(), "520F11\n", 23),
        case("a 257th, to 17", full, "520F11\n530F000000\n", 16),
    ]
}

fn accepted() -> Vec<EditCase> {
    vec![
        of_sample("for itself", "520102\n5301000001\n", 0),
        of_sample("no step", "520102\n", 0),
        of_sample("16 places", "520110\n530100010F\n53010F4100\n", 0),
        of_sample("64 places", "520140\n530100013F\n53013F4100\n", 0),
        of_sample("a third place", "520103\n5301000002\n5301020101\n", 0),
        of_sample("to the entry", "520102\n5301000000\n", 0),
        of_sample("a call of itself", "520102\n5301004101\n", 0),
        of_sample("a call of main", "520102\n5301004001\n", 0),
        of_sample("main", "520003\n5300004102\n5300020101\n", 0),
        of_sample("main with two places", "520002\n5300004101\n", 0),
        of_sample("main without a step", "520003\n", 0),
        of_sample("by place", "520103\n5301000001\n5301020001\n", 0),
        of_sample("by label", "520102\n5301000001\n5301000101\n", 0),
        of_sample(
            "a call after actions",
            "520102\n5301000101\n5301004001\n",
            0,
        ),
        of_sample(
            "by the place it leads to",
            "520102\n5301000000\n5301000001\n",
            0,
        ),
    ]
}

fn no_frames() -> Vec<EditCase> {
    vec![
        of_sample("no bytes", "", 12),
        of_sample("0A alone", "\n", 12),
        of_sample("no 0A", "520102", 12),
        of_sample("no last 0A", "520102\n5301000001", 12),
        of_sample("an empty line first", "\n520102\n", 12),
        of_sample("an empty line between", "520102\n\n5301000001\n", 12),
        of_sample("an empty line last", "520102\n5301000001\n\n", 12),
        of_sample("a digit after the last 0A", "520102\n5", 12),
        of_sample("a zero byte after the last 0A", "520102\n\0", 12),
        of_sample("0D before 0A", "520102\r\n", 12),
        of_sample("small letters", "52010a\n", 12),
        of_sample("odd digits", "520102\n530100001\n", 12),
        of_sample("spaces", "52 01 02\n", 12),
        of_sample("an edit line", "2B01000101\n", 12),
        of_sample("an edit line last", "520102\n2B01000101\n", 12),
        of_sample("a rule line", "520102\n5301000001\n54000001\n", 12),
        of_sample("a row", "520102\n55010000000101\n", 12),
        of_sample("the sizes first", "50020302\n520102\n", 12),
        of_sample("an end frame", "520102\n5301000001\n450002\n", 12),
        of_sample("kind 51", "510102\n", 12),
        of_sample("kind 00", "520102\n0001000001\n", 12),
        of_sample("the kind alone", "52\n", 12),
        of_sample("52 with one number", "5201\n", 12),
        of_sample("52 with three numbers", "52010200\n", 12),
        of_sample("53 with three numbers", "520102\n53010000\n", 12),
        of_sample("53 with five numbers", "520102\n530100000101\n", 12),
    ]
}

fn first_frames_out_of_range() -> Vec<EditCase> {
    vec![
        of_sample("routine R", "520202\n", 13),
        of_sample("routine 255", "52FF02\n", 13),
        of_sample("no place", "520100\n", 13),
        of_sample("one place", "520101\n", 13),
        of_sample("65 places", "520141\n", 13),
        of_sample("255 places", "5201FF\n", 13),
        of_sample("65 places, a step to the last", "520141\n5301000040\n", 13),
        of_sample("a step of no routine first", "5302000001\n", 13),
        of_sample("a step past its places first", "5301000002\n", 13),
    ]
}

fn steps_out_of_range() -> Vec<EditCase> {
    let of = |name, step: &str, refusal| of_sample(name, &format!("520103\n{step}\n"), refusal);
    vec![
        of("from the exit", "5301010000", 13),
        of("from past the last place", "5301030000", 13),
        of("from the last place", "5301020000", 0),
        of("to past the last place", "5301000003", 13),
        of("to the last place", "5301000002", 0),
        of("action A", "5301000201", 13),
        of("label 20", "5301002001", 13),
        of("label 3F", "5301003F01", 13),
        of("a call of routine R", "5301004201", 13),
        of("label FF", "530100FF01", 13),
        of("a step of routine R", "5302000001", 13),
        of("a step of routine 255", "53FF000001", 13),
        of_sample("to a place main had", "520002\n5300004102\n", 13),
        of_sample("from a place main had", "520002\n5300020101\n", 13),
    ]
}

/// A step of another routine, and a later 52, are out of range before they are out of order. A later
/// 52 gives no step its places, and takes none away.
fn later_frames_out_of_range() -> Vec<EditCase> {
    vec![
        of_sample("main's place past its last", "520102\n5300000003\n", 13),
        of_sample("main's, in 16 places", "520110\n5300000003\n", 13),
        of_sample("main's last place", "520102\n5300000002\n", 21),
        of_sample("main's exit", "520102\n5300010000\n", 13),
        of_sample("main's action A", "520102\n5300000200\n", 13),
        of_sample("a later 52 for routine R", "520102\n520202\n", 13),
        of_sample("a later 52 with one place", "520102\n520001\n", 13),
        of_sample("a later 52 with 65 places", "520102\n520141\n", 13),
        of_sample(
            "places by the same 52 later",
            "520102\n520103\n5301000002\n",
            13,
        ),
        of_sample(
            "places by another 52 later",
            "520003\n520103\n5301000002\n",
            13,
        ),
        of_sample("places by a 52 last", "5301000002\n520103\n", 13),
        of_sample("fewer places later", "520103\n520102\n5301000002\n", 21),
        of_sample("fewer for main later", "520102\n520002\n5300000002\n", 21),
    ]
}

fn first_frames_out_of_order() -> Vec<EditCase> {
    vec![
        of_sample("a step alone", "5301000001\n", 21),
        of_sample("a step before its 52", "5301000001\n520102\n", 21),
        of_sample(
            "the 52 between steps",
            "5301000001\n520102\n5301000101\n",
            21,
        ),
        of_sample("the 52 twice", "520102\n520102\n", 21),
        of_sample("the 52 again, last", "520102\n5301000001\n520102\n", 21),
        of_sample("a later 52 of more places", "520102\n520103\n", 21),
        of_sample("main's 52 later", "520102\n520003\n", 21),
        of_sample(
            "both routines",
            "520003\n5300004102\n520102\n5301000001\n",
            21,
        ),
    ]
}

fn steps_out_of_order() -> Vec<EditCase> {
    let of = |name, steps: &str| {
        let name = format!("out of order: {name}");
        of_sample(&name, &format!("520103\n{steps}\n"), 21)
    };
    vec![
        of("main's step", "5300004102"),
        of("main's step after another", "5301000001\n5300004102"),
        of("main's step before another", "5300004102\n5301000001"),
        of("by place", "5301020001\n5301000001"),
        of("by label", "5301000101\n5301000001"),
        of("a call before an action", "5301004001\n5301000101"),
        of("by the place it leads to", "5301000001\n5301000000"),
        of("a step twice", "5301000001\n5301000001"),
        of("a step again", "5301000001\n5301000101\n5301000001"),
        of(
            "the last below the first",
            "5301000001\n5301000101\n5301000000",
        ),
    ]
}

/// Each number is judged over the whole text before the next, wherever its line stands.
fn several_faults() -> Vec<EditCase> {
    let good = "5301000101\n5301004001\n";
    let of = |name, text: String, refusal| of_sample(name, &text, refusal);
    vec![
        of(
            "21 at 2, 13 at 5",
            format!("520102\n520102\n{good}5301010000\n"),
            13,
        ),
        of(
            "21 at 1, 13 at 4",
            format!("{good}5301000001\n5301010000\n"),
            13,
        ),
        of(
            "21 at 2, 12 at 5",
            format!("520102\n520102\n{good}53\n"),
            12,
        ),
        of("13 at 1, 12 at 4", format!("520101\n{good}53\n"), 12),
        of(
            "13 at 1, 12 at the end",
            format!("520101\n{good}530100"),
            12,
        ),
        of(
            "13 at 2, 21 at 4",
            format!("520102\n5301010000\n{good}"),
            13,
        ),
        of("12 at 1, 13 at 2", "5201\n5301010000\n".to_string(), 12),
        of("13 and 21 at 2", "520102\n5300010000\n".to_string(), 13),
        of("13 at 1 as a step", "5301010000\n520102\n".to_string(), 13),
    ]
}

/// A text that gives a routine 16 places and its steps from one to another of all that it can have, in
/// a program of 16 routines with 16 places each and 32 actions.
fn of_steps(routine: u8, steps: std::ops::Range<usize>) -> Vec<Frame> {
    let program = read(&full_steps(0)).expect("the file is accepted");
    let first = vec![0x52, routine, 16];
    let all = every_step(&program, routine, 16);
    let some = all.skip(steps.start).take(steps.len());
    std::iter::once(first).chain(some).collect()
}

/// The frames with one more.
fn and(mut frames: Vec<Frame>, last: &[u8]) -> Vec<u8> {
    frames.push(last.to_vec());
    text_of(&frames)
}

/// Exchanges for programs whose steps are all main's, so many of them.
fn full_tables() -> Vec<EditCase> {
    let text = |routine, count| text_of(&of_steps(routine, 0..count));
    let others = text_of(&of_steps(0, 9..265));
    let shortest = "520002\n5300000001\n";
    vec![
        case("256 and none", full_steps(256), text(15, 0), 0),
        case("256 and one", full_steps(256), text(15, 1), 16),
        case("255 and none", full_steps(255), text(15, 0), 0),
        case("255 and one", full_steps(255), text(15, 1), 0),
        case("255 and two", full_steps(255), text(15, 2), 16),
        case("1 and 255", full_steps(1), text(7, 255), 0),
        case("1 and 256", full_steps(1), text(7, 256), 16),
        case("0 and 256", full_steps(0), text(7, 256), 0),
        case("0 and 257", full_steps(0), text(7, 257), 16),
        case("256 for 256", full_steps(256), text(0, 256), 0),
        case("256 for others", full_steps(256), others, 0),
        case("257 for 256", full_steps(256), text(0, 257), 16),
        case("none for 256", full_steps(256), text(0, 0), 0),
        case("2 places for 16", full_steps(256), shortest, 0),
    ]
}

/// What a step past a full table may also have wrong.
fn steps_past_full_tables() -> Vec<EditCase> {
    let and = |last: &[u8]| and(of_steps(0, 0..256), last);
    let again = &of_steps(0, 0..256)[255];
    let (exit, of_another) = ("520F10\n530F010000\n", "520F10\n5300000000\n");
    let past = |name, text, refusal| case(name, full_steps(0), text, refusal);
    vec![
        past("257th as one before", and(again), 21),
        past("257th from the exit", and(&[0x53, 0, 1, 0, 0]), 13),
        past("257th of another", and(&[0x53, 1, 0, 0, 0]), 21),
        past("257th of no kind", and(&[0x54, 0, 0, 0, 0]), 12),
        case("256 and one from the exit", full_steps(256), exit, 13),
        case("256 and one of another", full_steps(256), of_another, 21),
    ]
}

/// Texts of very many lines. All steps that a routine can have are 15 times 48 times 16.
fn long_texts() -> Vec<EditCase> {
    let all = || of_steps(3, 0..11_520);
    let and = |last: &[u8]| and(all(), last);
    let again = |count| text_of(&vec![vec![0x53, 3, 0, 0, 0]; count]);
    let after_52 = |count| [b"520310\n".to_vec(), again(count)].concat();
    let cut_short = text_of(&all())[..100_000].to_vec();
    let long = |name, text, refusal| case(name, full_steps(0), text, refusal);
    vec![
        long("all steps", text_of(&all()), 16),
        long("all, the last twice", and(&[0x53, 3, 15, 0x4F, 15]), 21),
        long("all, one from the exit", and(&[0x53, 3, 1, 0, 0]), 13),
        long("all, an edit line", and(&[0x2B, 3, 0, 0, 0]), 12),
        long("all, cut short", cut_short, 12),
        long("a step 257 times", after_52(257), 21),
        long("a step 65,536 times", after_52(65_536), 21),
        long("a step 65,537 times", after_52(65_537), 21),
        long("a step 70,000 times, no 52", again(70_000), 21),
        long("70,000 empty lines", vec![b'\n'; 70_000], 12),
        long("70,000 digits", vec![b'5'; 70_000], 12),
    ]
}

#[cfg(test)]
mod tests {
    use super::*;
    use std::collections::BTreeSet;

    #[test]
    fn no_two_cases_have_the_same_name() {
        let cases = all();
        let names: BTreeSet<&str> = cases.iter().map(|case| case.name.as_str()).collect();
        assert_eq!(names.len(), cases.len());
    }

    #[test]
    fn all_steps_of_a_routine_are_11_520() {
        let all = of_steps(3, 0..20_000);
        assert_eq!(all.len(), 1 + 11_520);
        assert_eq!(all[11_520], [0x53, 3, 15, 0x4F, 15]);
        assert!(all[1..].windows(2).all(|pair| pair[0] < pair[1]));
    }
}
