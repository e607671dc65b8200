//! Saved sheets worked out by hand, in both forms; and files whose program has none.

use crate::cases::sample::{self, rewritten};
use crate::cases::tables::{completed, file};
use crate::cases::{analyses, heard};
use crate::model::lines::text_of;
use crate::model::refusals::{NOT_FORMER, SHEET_TOO_LARGE};
use crate::model::write::end;

/// A file, the numbers that its old sheet marks, and its frames.
pub struct SavedCase {
    pub name: &'static str,
    pub file: Vec<u8>,
    pub marks: Vec<usize>,
    pub frames: Vec<u8>,
}

/// A case with its frames set apart by spaces.
fn case(name: &'static str, file: impl Into<Vec<u8>>, marks: &[usize], frames: &str) -> SavedCase {
    SavedCase {
        name,
        file: file.into(),
        marks: marks.to_vec(),
        frames: lines(frames),
    }
}

/// The numbers of the sample's standings on an old sheet, and its frames.
pub const SAMPLE_MARKS: [usize; 5] = [0, 65, 129, 1024, 1089];
const SAMPLE_FRAMES: &str = "4D00000000 4D00010001 4D00020001 4D01000000 4D01010001 450005";

pub fn all() -> Vec<SavedCase> {
    let first = "4D00000000 450001";
    vec![
        case("the sample", sample::FILE, &SAMPLE_MARKS, SAMPLE_FRAMES),
        case("no start state", analyses::no_start(), &[], "450000"),
        case("main calls main", analyses::main_calls_main(), &[0], first),
        case(
            "the sample's steps by a table",
            completed::in_rows(),
            &SAMPLE_MARKS,
            SAMPLE_FRAMES,
        ),
        case("a call nobody makes", heard::no_call(), &[0], first),
        case(
            "16 places",
            rewritten(2, 5, &["520010", "520102", "530000000F"]),
            &[0, 961],
            "4D00000000 4D000F0001 450002",
        ),
        case(
            "8 states",
            file("50010801 520002 5300000001 54070007 4907"),
            &[63, 127],
            "4D00000707 4D00010707 450002",
        ),
        case("256 rule lines", with_rule_lines(256), &[0], first),
        case(
            "the last number of an old sheet",
            last_number(),
            &[63, 15_423, 16_383],
            "4D00000707 4D0F000707 4D0F0F0707 450003",
        ),
    ]
}

/// A file, and the refusal that it meets wherever its saved sheet is to be moved.
pub struct RefusedCase {
    pub name: &'static str,
    pub file: Vec<u8>,
    pub refusal: u32,
}

/// Files with no line that is refused, of programs without an old sheet.
pub fn refused() -> Vec<RefusedCase> {
    let case = |name, file, refusal| RefusedCase {
        name,
        file,
        refusal,
    };
    let of_places = |frames: &str| file(&format!("50020301 {frames} 4900"));
    vec![
        case("main of 17 places", of_places("520011 520102"), NOT_FORMER),
        case(
            "the last routine of 17 places",
            of_places("520002 520111"),
            NOT_FORMER,
        ),
        case("64 places", of_places("520040 520102"), NOT_FORMER),
        case("9 states", file("50010901 520002 4900"), NOT_FORMER),
        case(
            "9 states in a table",
            file("50010901 520002 5501FF0000000100 4900"),
            NOT_FORMER,
        ),
        case("257 rule lines", with_rule_lines(257), NOT_FORMER),
        case(
            "no start state, 17 places",
            file("50010101 520011"),
            NOT_FORMER,
        ),
        case("17 places and too large", too_large(), SHEET_TOO_LARGE),
    ]
}

/// These lines, set apart by spaces.
fn lines(lines: &str) -> Vec<u8> {
    let lines = lines.split(' ').map(|line| format!("{line}\n"));
    lines.collect::<String>().into_bytes()
}

/// One routine without a step, three states, all of 32 actions, and so many rule lines.
fn with_rule_lines(count: usize) -> Vec<u8> {
    let mut frames = vec![vec![0x50, 1, 3, 32], vec![0x52, 0, 2]];
    let pairs = (0..3).flat_map(|from| (0..32).map(move |action| (from, action)));
    let lines = pairs.flat_map(|(from, action)| (0..3).map(move |to| vec![0x54, from, action, to]));
    frames.extend(lines.take(count));
    frames.push(vec![0x49, 0]);
    frames.push(end(frames.len()));
    text_of(&frames)
}

/// 16 routines and 8 states; main calls the last routine, which goes to the last of its 16 places.
fn last_number() -> Vec<u8> {
    let between = (1..15).map(|routine| format!("52{routine:02X}02"));
    let between: Vec<String> = between.collect();
    file(&format!(
        "50100801 520002 {} 520F10 5300004F01 530F00000F 54070007 4907",
        between.join(" ")
    ))
}

/// 16 routines, the first of 17 places, and 8 states.
fn too_large() -> Vec<u8> {
    let others = (1..16).map(|routine| format!("52{routine:02X}02"));
    let others: Vec<String> = others.collect();
    file(&format!("50100801 520011 {}", others.join(" ")))
}
