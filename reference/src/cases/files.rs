//! Edge cases that are known by name, each with the answer worked out by hand.
//!
//! Most of them are the sample file with one thing changed.

use crate::cases::sample::{self, followed_by, inserted, removed, replaced, swapped};
use crate::cases::{heard, tables};
use crate::model::file::Frame;
use crate::model::lines::text_of;
use crate::model::write::end;

/// A file, and the refusal and line that it has to get; both 0 if it is accepted.
pub struct Case {
    pub name: String,
    pub file: Vec<u8>,
    pub refusal: u32,
    pub line: u32,
}

/// Every named case.
pub fn all() -> Vec<Case> {
    let mut cases = Vec::new();
    cases.extend(beginnings_and_ends());
    cases.extend(lines_that_are_no_frames());
    cases.extend(wrong_counts());
    cases.extend(broken_order());
    cases.extend(wrong_first_frames());
    cases.extend(routine_frames());
    cases.extend(sizes());
    cases.extend(products());
    cases.extend(products_after_all_else());
    cases.extend(step_ranges());
    cases.extend(labels());
    cases.extend(other_ranges());
    cases.extend(full_tables());
    cases.extend(lines_past_full_tables());
    cases.extend(several_faults());
    cases.extend(tables::files());
    cases.extend(heard::files());
    cases
}

pub fn case(name: impl Into<String>, file: impl Into<Vec<u8>>, refusal: u32, line: u32) -> Case {
    Case {
        name: name.into(),
        file: file.into(),
        refusal,
        line,
    }
}

fn beginnings_and_ends() -> Vec<Case> {
    vec![
        case("the sample", sample::FILE, 0, 0),
        case("empty input", "", 8, 1),
        case("sizes alone", "50020302\n", 8, 2),
        case("no end frame", removed(13), 8, 13),
        case("no final 0A", sample::without_last_byte(), 1, 13),
        case("no 0A at all", "50020302", 1, 1),
        case("end count one too high", replaced(13, "45000D"), 7, 13),
        case("end count one too low", replaced(13, "45000B"), 7, 13),
        case("end count low number first", replaced(13, "450C00"), 7, 13),
        case("end count 256 too high", replaced(13, "45010C"), 7, 13),
        case("empty line after the end", followed_by("\n"), 8, 14),
        case("digit after the end", followed_by("4"), 8, 14),
        case("junk after the end", followed_by("junk\n"), 8, 14),
        case("second end", followed_by("45000D\n"), 8, 14),
        case("the file twice", sample::FILE.repeat(2), 8, 14),
        case("second 50 after the end", followed_by("50020302\n"), 8, 14),
        case("zero byte after the end", followed_by("\0"), 8, 14),
        case("smallest program", "50010101\n520002\n450002\n", 0, 0),
        case("end in the middle", inserted(7, "450006"), 8, 8),
        case("early end, wrong", inserted(7, "450007"), 7, 7),
    ]
}

fn lines_that_are_no_frames() -> Vec<Case> {
    vec![
        case("0A alone", "\n", 1, 1),
        case("empty line first", inserted(1, ""), 1, 1),
        case("empty line in the middle", inserted(7, ""), 1, 7),
        case("empty line before the end", inserted(13, ""), 1, 13),
        case("lower case digit", replaced(13, "45000c"), 1, 13),
        case("odd digits", replaced(6, "530100000"), 1, 6),
        case("one digit", replaced(6, "5"), 1, 6),
        case("0D before 0A", replaced(1, "50020302\r"), 1, 1),
        case("space in front", replaced(2, " 520003"), 1, 2),
        case("spaces between", replaced(2, "52 00 03"), 1, 2),
        case("zero byte", replaced(2, "520\x0003"), 1, 2),
        case("the byte before 0", replaced(2, "52000/"), 1, 2),
        case("the byte after 9", replaced(2, "52000:"), 1, 2),
        case("the byte before A", replaced(2, "52000@"), 1, 2),
        case("the byte after F", replaced(2, "52000G"), 1, 2),
        case("kind unknown", replaced(4, "5600004102"), 2, 4),
        case("kind 51", inserted(2, "51"), 2, 2),
        case("kind 00 first", inserted(1, "00"), 2, 1),
        case("kind FF", inserted(13, "FF0000"), 2, 13),
        case("an edit line as a frame", inserted(7, "2B01000101"), 2, 7),
        case("the letter P as a kind", replaced(1, "P0020302"), 1, 1),
    ]
}

/// Every kind with every other count of numbers up to 9, in its own place.
fn wrong_counts() -> Vec<Case> {
    let mut cases = Vec::new();
    for (line, right) in [(1, 3), (2, 2), (4, 4), (7, 3), (11, 1), (12, 1), (13, 2)] {
        let text = String::from_utf8(sample::lines()[line - 1].clone()).expect("digits");
        let long = text.trim_end().to_string() + &"0".repeat(20);
        for count in (0..10).filter(|&count| count != right) {
            let text = &long[..2 + 2 * count];
            let name = format!("line {line} with {count} numbers");
            cases.push(case(name, replaced(line, text), 3, line as u32));
        }
    }
    cases
}

fn broken_order() -> Vec<Case> {
    let starts_descend = "50010201\n520002\n4901\n4900\n450004\n";
    vec![
        case("step repeated", inserted(5, "5300004102"), 4, 5),
        case("rule line repeated", inserted(8, "54000001"), 4, 8),
        case("start repeated", inserted(12, "4900"), 4, 12),
        case("forbidden repeated", inserted(13, "4602"), 4, 13),
        case("steps swapped", swapped(4, 5), 4, 5),
        case("rule lines swapped", swapped(9, 10), 4, 10),
        case("step and rule line swapped", swapped(6, 7), 4, 7),
        case("start and forbidden swapped", swapped(11, 12), 4, 12),
        case("last number descends", inserted(5, "5300004101"), 4, 5),
        case(
            "only the first number descends",
            inserted(7, "5300024102"),
            4,
            7,
        ),
        case("starts descend", starts_descend, 4, 4),
        case("forbidden descends", inserted(13, "4601"), 4, 13),
        case("a step after the rule", inserted(11, "5301000101"), 4, 11),
        case("a routine after a step", inserted(5, "520002"), 4, 5),
        case("a start after forbidden", inserted(13, "4901"), 4, 13),
        case("a second 50, the same", inserted(2, "50020302"), 4, 2),
        case("a second 50, above", inserted(2, "50030302"), 4, 2),
        case("a second 50 later", inserted(13, "50020302"), 4, 13),
    ]
}

/// Every other kind as the first frame, well-formed or not.
fn wrong_first_frames() -> Vec<Case> {
    let row = "55010000000100";
    let first = [
        "520002",
        "5300000001",
        "54000000",
        row,
        "4900",
        "4600",
        "450000",
    ];
    let mut cases = vec![
        case("sizes left out", removed(1), 4, 1),
        case("sizes second", swapped(1, 2), 4, 1),
        case("first a routine out of range", "52FFFF\n", 4, 1),
        case("first an end with a wrong count", "450001\n", 4, 1),
        case("first a step from the exit", "5300010000\n", 4, 1),
        case("a row first, of seven", "5500010000000100\n", 3, 1),
        case("a row first, of five", "550000000100\n", 3, 1),
        case(
            "a row first, Q 9 after it",
            "55010000000100\n50010901\n",
            4,
            1,
        ),
        case("sizes out of range, a row after", "50011101\n55\n", 5, 1),
    ];
    for text in first {
        let name = format!("{text} first");
        cases.push(case(name, inserted(1, text), 4, 1));
    }
    cases
}

fn routine_frames() -> Vec<Case> {
    let end_too_early = "50020302\n520003\n450002\n";
    vec![
        case("first routine left out", removed(2), 4, 2),
        case("last routine left out", removed(3), 4, 3),
        case("no routine, then the end", "50020302\n450001\n", 4, 2),
        case("end before the last routine", end_too_early, 4, 3),
        case("all routines left out", "50020302\n5300004102\n", 4, 2),
        case("rule line for a routine", "50020302\n54000001\n", 4, 2),
        case("start for a routine", replaced(3, "4900"), 4, 3),
        case("a routine skipped", replaced(3, "520202"), 4, 3),
        case("skipped, but below R", "50030302\n520003\n520202\n", 4, 3),
        case("far too high, one missing", replaced(3, "52FF02"), 4, 3),
        case("first routine repeated", inserted(3, "520003"), 4, 3),
        case("repeated with more places", inserted(3, "520004"), 4, 3),
        case("repeated with all there", inserted(4, "520102"), 4, 4),
        case("all there, more places", inserted(4, "520103"), 4, 4),
        case("all there, the first again", inserted(4, "520004"), 4, 4),
        case("routines swapped", swapped(2, 3), 4, 2),
        case("one routine too many", inserted(4, "520202"), 5, 4),
        case("too many, and far too high", inserted(4, "52FF02"), 5, 4),
        case("too many, and no places", inserted(4, "520200"), 5, 4),
        case("next routine without places", replaced(3, "520100"), 5, 3),
    ]
}

/// The sizes and the counts of places, at their limits and one past them.
fn sizes() -> Vec<Case> {
    let small = |sizes: &str| format!("{sizes}\n520002\n450002\n");
    vec![
        case("R 0", "50000101\n450001\n", 5, 1),
        case("R 1", small("50010101"), 0, 0),
        case("R 16", with_routines(16), 0, 0),
        case("R 17", with_routines(17), 5, 1),
        case("R 255", "50FF0101\n", 5, 1),
        case("Q 0", small("50010001"), 5, 1),
        case("Q 8", small("50010801"), 0, 0),
        case("Q 9", small("50010901"), 0, 0),
        case("Q 16", small("50011001"), 0, 0),
        case("Q 17", small("50011101"), 5, 1),
        case("A 0", small("50010100"), 5, 1),
        case("A 32", small("50010120"), 0, 0),
        case("A 33", small("50010121"), 5, 1),
        case("P 0", replaced(2, "520000"), 5, 2),
        case("P 1", replaced(2, "520001"), 5, 2),
        case("P 2", replaced(3, "520102"), 0, 0),
        case("P 16", replaced(2, "520010"), 0, 0),
        case("P 17", replaced(2, "520011"), 0, 0),
        case("P 64", replaced(2, "520040"), 0, 0),
        case("P 65", replaced(2, "520041"), 5, 2),
        case("P 255", replaced(2, "5200FF"), 5, 2),
    ]
}

/// The sizes and the routines of a program: routine f has the f-th count of places.
fn beginning(places: &[u8], states: u8) -> Vec<Frame> {
    let mut frames = vec![vec![0x50, places.len() as u8, states, 32]];
    let routines = places.iter().enumerate();
    frames.extend(routines.map(|(routine, &places)| vec![0x52, routine as u8, places]));
    frames
}

/// Frames as a file, with its end.
fn ended(mut frames: Vec<Frame>) -> Vec<u8> {
    frames.push(end(frames.len()));
    text_of(&frames)
}

/// A program of routines with so many places each, with so many states, and nothing else.
pub fn of_sizes(places: &[u8], states: u8) -> Vec<u8> {
    ended(beginning(places, states))
}

/// A program of so many routines and nothing else.
pub fn with_routines(count: usize) -> Vec<u8> {
    of_sizes(&vec![16; count], 8)
}

/// Routines, places of the longest and states twice, multiplied: 16,384 and what lies about it. The next
/// product above it that sizes can have is 16,400.
fn products() -> Vec<Case> {
    let of = |routines: usize, places: u8, states: u8| of_sizes(&vec![places; routines], states);
    let one_long = |places| of_sizes(&[2, 2, places, 2], 10);
    vec![
        case("16 by 16 by 8", of(16, 16, 8), 0, 0),
        case("16 by 17 by 8", of(16, 17, 8), 23, 0),
        case("15 by 17 by 8", of(15, 17, 8), 0, 0),
        case("16 by 16 by 9", of(16, 16, 9), 23, 0),
        case("16 by 4 by 16", of(16, 4, 16), 0, 0),
        case("16 by 5 by 16", of(16, 5, 16), 23, 0),
        case("1 by 64 by 16", of(1, 64, 16), 0, 0),
        case("2 by 64 by 16", of(2, 64, 16), 23, 0),
        case("2 by 32 by 16", of(2, 32, 16), 0, 0),
        case("2 by 33 by 16", of(2, 33, 16), 23, 0),
        case("4 by 64 by 8", of(4, 64, 8), 0, 0),
        case("5 by 64 by 8", of(5, 64, 8), 23, 0),
        case("16 by 64 by 4", of(16, 64, 4), 0, 0),
        case("16 by 64 by 5", of(16, 64, 5), 23, 0),
        case("16 by 64 by 16", of(16, 64, 16), 23, 0),
        case("16,400 by 10 states", of(4, 41, 10), 23, 0),
        case("16,400 by 5 states", of(16, 41, 5), 23, 0),
        case("16,000", of(4, 40, 10), 0, 0),
        case("one long routine of 40", one_long(40), 0, 0),
        case("one long routine of 41", one_long(41), 23, 0),
    ]
}

/// A product that is too large is judged last, after every line and after a table.
fn products_after_all_else() -> Vec<Case> {
    let with = |lines: &str| tables::file(&format!("50021001 520002 520121 {lines}"));
    let followed = [with("4900"), b"\n".to_vec()].concat();
    vec![
        case("too large, and a start", with("4900"), 23, 0),
        case("too large, then state Q", with("4910"), 5, 4),
        case("too large, then order", with("4901 4900"), 4, 5),
        case("too large, then no end", "50021001\n520002\n520121\n", 8, 4),
        case(
            "too large, then a wrong end",
            "50021001\n520002\n520121\n450004\n",
            7,
            4,
        ),
        case("too large, then a line", followed, 8, 6),
        case("too large, a table", with("55FFFF0000000100"), 23, 0),
        case("too large, not met", with("557FFF0000000100"), 19, 0),
        case(
            "too large, met twice",
            with("5580000000000100 55FFFF0000000100"),
            20,
            0,
        ),
    ]
}

fn step_ranges() -> Vec<Case> {
    vec![
        case("step of no routine", replaced(6, "5302000001"), 5, 6),
        case("step of routine 255", replaced(6, "53FF000001"), 5, 6),
        case("step from the exit", replaced(5, "5300010101"), 5, 5),
        case("exit to exit", replaced(6, "5301010001"), 5, 6),
        case("step to the entry", replaced(5, "5300020100"), 0, 0),
        case("place to itself", replaced(6, "5301000000"), 0, 0),
        case("from past the last place", replaced(5, "5300030101"), 5, 5),
        case("to the last place", replaced(5, "5300020102"), 0, 0),
        case("to past the last place", replaced(5, "5300020103"), 5, 5),
        case("places of its own", replaced(6, "5301000002"), 5, 6),
        case("from past its own places", replaced(6, "5301020001"), 5, 6),
        case("to place 255", replaced(6, "53010000FF"), 5, 6),
    ]
}

fn labels() -> Vec<Case> {
    let label = |text: &str| {
        let step = format!("530000{text}01");
        format!("50010120\n520002\n{step}\n450003\n")
    };
    vec![
        case("label 00", label("00"), 0, 0),
        case("label 1F", label("1F"), 0, 0),
        case("label 20", label("20"), 5, 3),
        case("label 21", label("21"), 5, 3),
        case("label 3F", label("3F"), 5, 3),
        case("label 40, main calls itself", label("40"), 0, 0),
        case("label 41 with one routine", label("41"), 5, 3),
        case("label 4F with one routine", label("4F"), 5, 3),
        case("label 60", label("60"), 5, 3),
        case("label FF", label("FF"), 5, 3),
        case("last action", replaced(6, "5301000101"), 0, 0),
        case("action A", replaced(6, "5301000201"), 5, 6),
        case("call of the last routine", replaced(6, "5301004101"), 0, 0),
        case("call of routine R", replaced(6, "5301004201"), 5, 6),
    ]
}

fn other_ranges() -> Vec<Case> {
    vec![
        case("rule from the last state", replaced(10, "54020101"), 0, 0),
        case("rule from state Q", replaced(10, "54030101"), 5, 10),
        case("rule on the last action", replaced(10, "54010100"), 0, 0),
        case("rule on action A", replaced(8, "54000202"), 5, 8),
        case("rule to the last state", replaced(10, "54010102"), 0, 0),
        case("rule to state Q", replaced(10, "54010103"), 5, 10),
        case("last state a start", replaced(11, "4902"), 0, 0),
        case("state Q a start", replaced(11, "4903"), 5, 11),
        case("state Q forbidden", replaced(12, "4603"), 5, 12),
        case("state 255 forbidden", replaced(12, "46FF"), 5, 12),
        case("a state not there, late", inserted(13, "4603"), 5, 13),
    ]
}

/// A program of 16 routines with so many steps and rule lines, then these lines, then the end.
pub fn large(steps: usize, rule: usize, last: &[Vec<u8>]) -> Vec<u8> {
    let mut frames = beginning(&[16; 16], 8);
    let every_step = (0..32).flat_map(|label| (0..16).map(move |to| vec![0x53, 0, 0, label, to]));
    frames.extend(every_step.take(steps));
    let from_each = (3..6).flat_map(|from| (0..32).map(move |action| (from, action)));
    let every_rule_line =
        from_each.flat_map(|(from, action)| (0..8).map(move |to| vec![0x54, from, action, to]));
    frames.extend(every_rule_line.take(rule));
    frames.extend_from_slice(last);
    ended(frames)
}

/// A program of 16 routines, 4 places and 16 states with 256 steps, by actions from two places of main,
/// and with this rule; all its states are starts and forbidden.
pub fn with_most_states(rule: &[Frame]) -> Vec<u8> {
    let mut frames = beginning(&[4; 16], 16);
    for from in [0, 2] {
        let steps = (0..32).flat_map(|label| (0..4).map(move |to| vec![0x53, 0, from, label, to]));
        frames.extend(steps);
    }
    frames.extend_from_slice(rule);
    frames.extend((0..16).map(|state| vec![0x49, state]));
    frames.extend((0..16).map(|state| vec![0x46, state]));
    ended(frames)
}

/// The largest file there is: 512 rule lines, and all else in full.
pub fn largest() -> Vec<u8> {
    let lines = (0..32).flat_map(|action| (0..16).map(move |to| vec![0x54, 3, action, to]));
    with_most_states(&lines.collect::<Vec<_>>())
}

/// A program of 16 routines with so many steps, all from main's entry, and nothing else.
pub fn full_steps(count: usize) -> Vec<u8> {
    large(count, 0, &[])
}

fn full_tables() -> Vec<Case> {
    let ninth_start = (0..9).map(|state| vec![0x49, state]);
    let ninth_start: Vec<_> = ninth_start.collect();
    vec![
        case("the largest file", largest(), 0, 0),
        case("255 steps", large(255, 0, &[]), 0, 0),
        case("256 steps", large(256, 0, &[]), 0, 0),
        case("257 steps", large(257, 0, &[]), 6, 274),
        case("257 steps, then rule lines", large(257, 9, &[]), 6, 274),
        case("300 steps", large(300, 0, &[]), 6, 274),
        case("257 rule lines", large(0, 257, &[]), 0, 0),
        case("511 rule lines", large(0, 511, &[]), 0, 0),
        case("512 rule lines", large(0, 512, &[]), 0, 0),
        case("513 rule lines", large(0, 513, &[]), 6, 530),
        case("600 rule lines", large(0, 600, &[]), 6, 530),
        case("256 steps, 513 rule lines", large(256, 513, &[]), 6, 786),
        case("257 steps, 513 rule lines", large(257, 513, &[]), 6, 274),
        case("a ninth start", large(256, 512, &ninth_start), 5, 794),
    ]
}

/// What the first line past a full table may also have wrong.
fn lines_past_full_tables() -> Vec<Case> {
    let steps = |last: &[u8]| large(256, 0, &[last.to_vec()]);
    let rule = |last: &[u8]| large(0, 512, &[last.to_vec()]);
    vec![
        case("257th step fits", steps(&[0x53, 15, 15, 31, 15]), 6, 274),
        case("257th step calls", steps(&[0x53, 15, 15, 0x4F, 1]), 6, 274),
        case("257th from the exit", steps(&[0x53, 15, 1, 0, 0]), 5, 274),
        case("257th of no routine", steps(&[0x53, 16, 0, 0, 0]), 5, 274),
        case("257th with label 20", steps(&[0x53, 15, 0, 32, 0]), 5, 274),
        case("257th repeats the 1st", steps(&[0x53, 0, 0, 0, 0]), 4, 274),
        case(
            "257th repeats the last",
            steps(&[0x53, 0, 0, 15, 15]),
            4,
            274,
        ),
        case("257th of no kind", steps(&[0x56, 0, 0, 0, 0]), 2, 274),
        case("257th too short", steps(&[0x53, 15, 15, 31]), 3, 274),
        case("513th rule line", rule(&[0x54, 7, 31, 7]), 6, 530),
        case("513th rule, state 8", rule(&[0x54, 8, 0, 0]), 5, 530),
        case("513th rule, action 32", rule(&[0x54, 7, 32, 0]), 5, 530),
        case("513th rule repeats", rule(&[0x54, 4, 31, 7]), 4, 530),
    ]
}

/// Lines with more than one fault: the lowest number decides.
fn several_faults() -> Vec<Case> {
    let two_wrong_lines = "50020302\n520003\n520141\n5300004\n";
    vec![
        case("unknown and odd", replaced(4, "560"), 1, 4),
        case("unknown, a bad character", replaced(4, "56G0"), 1, 4),
        case("wrong count and odd", replaced(4, "53000"), 1, 4),
        case("unknown kind alone", replaced(4, "99"), 2, 4),
        case("unknown and first", "99\n", 2, 1),
        case("wrong count and first", "52\n", 3, 1),
        case("wrong count, out of order", inserted(7, "5200"), 3, 7),
        case("wrong count, out of range", replaced(4, "53FF"), 3, 4),
        case("a second 50 out of range", inserted(2, "50000000"), 4, 2),
        case("below, and from the exit", inserted(6, "5300010000"), 4, 6),
        case("below, and a bad label", inserted(7, "5300002000"), 4, 7),
        case("left out, and no places", replaced(3, "520200"), 4, 3),
        case("left out, and a bad step", replaced(3, "53FFFFFFFF"), 4, 3),
        case("left out, and a wrong end", "50010101\n450000\n", 4, 2),
        case("repeated, no places", inserted(4, "520100"), 4, 4),
        case(
            "late rule line out of range",
            inserted(12, "54FFFFFF"),
            4,
            12,
        ),
        case("two wrong lines", two_wrong_lines, 5, 3),
        case("wrong end, then a line", inserted(13, "450000"), 7, 13),
        case("no 0A, and unknown", "50020302\n99", 1, 2),
    ]
}

#[cfg(test)]
mod tests {
    use super::*;
    use crate::model::write::OUTPUT_SIZE;
    use std::collections::BTreeSet;

    #[test]
    fn the_largest_file_has_the_length_of_an_output() {
        assert_eq!(largest().len(), OUTPUT_SIZE);
        assert_eq!(OUTPUT_SIZE, 7712);
    }

    #[test]
    fn no_two_cases_have_the_same_name() {
        let cases = all();
        let names: BTreeSet<&str> = cases.iter().map(|case| case.name.as_str()).collect();
        assert_eq!(names.len(), cases.len());
    }
}
