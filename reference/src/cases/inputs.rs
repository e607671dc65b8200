//! Inputs of `bench` that are known by name, with all that is printed for them.

use crate::cases::files::{full_steps, large, of_sizes, with_routines};
use crate::cases::heard;
use crate::cases::keepings::main_calls_itself;
use crate::cases::sample::{self, followed_by, removed, replaced};
use crate::cases::tables::{completed, full};
use crate::model::write::write;

/// An input, and what is printed for it.
pub struct InputCase {
    pub name: &'static str,
    pub input: Vec<u8>,
    pub printed: String,
}

/// What is printed for the sample, and after the step that breaks its rule is added.
const BLOCK: &str = "5A00050000\n";
const BROKEN: &str = "5800020002\n5A00060001\n";
/// What is printed for a line that is no edit.
const NO_EDIT: &str = "210C\n";
/// The edit that adds the step which breaks the sample's rule.
const EDIT: &[u8] = b"2B00000102\n";
/// A block without standings.
const EMPTY: &str = "5A00000000\n";

/// Every named input.
pub fn all() -> Vec<InputCase> {
    let mut cases = Vec::new();
    cases.extend(worked_out());
    cases.extend(lengths());
    cases.extend(refused_files());
    cases.extend(edits_after_the_sample());
    cases.extend(routines_and_steps());
    cases.extend(states_and_labels());
    cases.extend(files_with_rows());
    cases.extend(rules_that_hear());
    cases.extend(places_and_products());
    cases.extend(rows_by_states());
    cases
}

/// 64 and 65 places, 512 and 513 rule lines, a product of 16,384 and the next above it. A file whose
/// sizes are refused has line 0, and its edits are not looked at.
fn places_and_products() -> Vec<InputCase> {
    let with = |file: Vec<u8>| [&file[..], EDIT].concat();
    let far = "2B0000003F\n2B003F0101\n";
    let longest = replaced(2, "520040");
    let longest = [&longest[..], far.as_bytes()].concat();
    let printed = [BLOCK, "5A00060000\n", "5A00060000\n"].concat();
    vec![
        case("64 places", longest, printed),
        case("65 places", replaced(2, "520041"), "21050002\n"),
        case("512 rule lines", large(0, 512, &[]), EMPTY),
        case("513 rule lines", large(0, 513, &[]), "21060212\n"),
        case("16,384 by 16 states", of_sizes(&[4; 16], 16), EMPTY),
        case("16,384 by 64 places", of_sizes(&[64; 16], 4), EMPTY),
        case("16,400", with(of_sizes(&[41; 4], 10)), "21170000\n"),
        case("the largest product", of_sizes(&[64; 16], 16), "21170000\n"),
    ]
}

/// Rows with Q 8 and Q 9, of six and of seven numbers, and one before the sizes.
fn rows_by_states() -> Vec<InputCase> {
    let of = |sizes: &str, row: &str| {
        let lines = format!("{sizes}\n520002\n5300000001\n{row}\n");
        format!("{lines}4900\n450005\n")
    };
    let (six, seven) = ("55FF0000000107", "5501FF0000000108");
    vec![
        case("Q 8, six", of("50010801", six), "5A00020000\n"),
        case("Q 8, seven", of("50010801", seven), "21030004\n"),
        case("Q 9, six", of("50010901", six), "21030004\n"),
        case("Q 9, seven", of("50010901", seven), "5A00020000\n"),
        case("a row first", format!("{six}\n"), "21040001\n"),
        case("a row first, of seven", format!("{seven}\n"), "21030001\n"),
    ]
}

fn case(name: &'static str, input: impl Into<Vec<u8>>, printed: impl Into<String>) -> InputCase {
    InputCase {
        name,
        input: input.into(),
        printed: printed.into(),
    }
}

fn after_sample(name: &'static str, edits: &str, blocks: &[&str]) -> InputCase {
    case(
        name,
        followed_by(edits),
        BLOCK.to_string() + &blocks.concat(),
    )
}

fn worked_out() -> Vec<InputCase> {
    let edits = "2B00000102\n2D00000102\n2D00000102\n";
    let drops = "2D01000001\n2D00020101\n2D00004102\n2B01000101\n3D0100010101\n";
    let (two, one) = ("5A00020000\n", "5A00010000\n");
    let called = [write(&main_calls_itself()), b"2D00024001\n".to_vec()].concat();
    vec![
        after_sample("the paper's input", edits, &[BROKEN, BLOCK, "210E\n"]),
        after_sample("drops", drops, &[two, two, one, one, "210F\n"]),
        case("main is called", called, "5A00030000\n5A00020000\n"),
        case("no edit", sample::FILE, BLOCK),
    ]
}

/// The sample, filled up with empty lines to so many bytes.
fn filled(length: usize) -> Vec<u8> {
    followed_by("\n".repeat(length - sample::FILE.len()))
}

fn lengths() -> Vec<InputCase> {
    let refused = NO_EDIT.repeat(16_384 - sample::FILE.len());
    let of_no_file = "21010001\n";
    vec![
        case("16,384 bytes", filled(16_384), format!("{BLOCK}{refused}")),
        case("16,385 bytes", filled(16_385), "2112\n"),
        case("16,384 bytes of no file", [b'\n'; 16_384], of_no_file),
        case("16,385 bytes of no file", [0; 16_385], "2112\n"),
        case("16,385 empty lines", [b'\n'; 16_385], "2112\n"),
        case("70,000 bytes", [b'5'; 70_000], "2112\n"),
        case("16,384 bytes without 0A", [b'5'; 16_384], of_no_file),
    ]
}

fn refused_files() -> Vec<InputCase> {
    let with_edit = |file: &[u8]| [file, EDIT].concat();
    let wrong_end = with_edit(&replaced(13, "45000B"));
    let no_end = with_edit(&removed(13));
    vec![
        case("empty input", "", "21080001\n"),
        case("0A alone", "\n", "21010001\n"),
        case("edits after a refused file", wrong_end, "2107000D\n"),
        case("45 first, too short", with_edit(b"45\n"), "21030001\n"),
        case("45 first", with_edit(b"450000\n"), "21040001\n"),
        case("edits without a file", EDIT, "21020001\n"),
        case("no end frame", removed(13), "2108000D\n"),
        case("no end frame, then an edit", no_end, "2102000D\n"),
        case("no last 0A", sample::without_last_byte(), "2101000D\n"),
    ]
}

fn edits_after_the_sample() -> Vec<InputCase> {
    let file = String::from_utf8_lossy(sample::FILE);
    vec![
        after_sample("no 0A after an edit", "2B00000102", &[NO_EDIT]),
        after_sample(
            "no 0A after a second edit",
            "2B00000102\n2D00000102",
            &[BROKEN, NO_EDIT],
        ),
        after_sample(
            "an edit between two lines that are none",
            "\n2B00000102\n2D",
            &[NO_EDIT, BROKEN, NO_EDIT],
        ),
        after_sample("the file twice", &file, &[NO_EDIT; 13]),
        after_sample("an end frame as an edit", "45000C\n", &[NO_EDIT]),
        after_sample(
            "an end frame, then an edit",
            "45000C\n2B00000102\n",
            &[NO_EDIT, BROKEN],
        ),
        after_sample("an empty line as an edit", "\n", &[NO_EDIT]),
        after_sample(
            "an empty line, then an edit",
            "\n2B00000102\n",
            &[NO_EDIT, BROKEN],
        ),
        after_sample("0D before 0A", "2B00000102\r\n", &[NO_EDIT]),
        after_sample("zero bytes as an edit", "\0\0\n", &[NO_EDIT]),
    ]
}

/// 16 and 17 routines, 256 and 257 steps.
fn routines_and_steps() -> Vec<InputCase> {
    let many = |count: usize, edits: &[u8]| [&full_steps(count), edits].concat();
    let about_256 = many(256, b"2B0F0F4F0F\n2D00000F0F\n2B0F0F4F0F\n");
    let about_256_printed = [EMPTY, "2110\n", EMPTY, EMPTY].concat();
    let up_to_257 = many(255, b"2B0F0F4F0F\n2B0F0F4F0E\n");
    let up_to_257_printed = [EMPTY, EMPTY, "2110\n"].concat();
    vec![
        case("16 routines", with_routines(16), EMPTY),
        case("17 routines", with_routines(17), "21050001\n"),
        case("256 steps", about_256, about_256_printed),
        case("257 steps", full_steps(257), "21060112\n"),
        case("255 steps and two more", up_to_257, up_to_257_printed),
    ]
}

/// Q 16 and 17, label 1F and 20.
fn states_and_labels() -> Vec<InputCase> {
    let small = |sizes: &str, step: &str, edit: &str| {
        format!("{sizes}\n520002\n{step}\n4900\n450004\n{edit}")
    };
    let states = |sizes: &str| small(sizes, "5300000001", "");
    let label = |step: &str| small("50010120", step, "");
    let edit = |edit: &str| small("50010120", "5300001E01", edit);
    let one = "5A00010000\n";
    vec![
        case("Q 16", states("50011001"), one),
        case("Q 17", states("50011101"), "21050001\n"),
        case("label 1F", label("5300001F01"), one),
        case("label 20", label("5300002001"), "21050003\n"),
        case("edit to label 1F", edit("2B00001F01\n"), one.repeat(2)),
        case(
            "edit to label 20",
            edit("2B00002001\n"),
            [one, "210D\n"].concat(),
        ),
    ]
}

/// Files with rows: what is printed depends on the program only, and a refused table has line 0.
fn files_with_rows() -> Vec<InputCase> {
    let edits = b"2B00000102\n2D00000102\n2D00000102\n";
    let with_edits = |file: Vec<u8>| [&file[..], edits].concat();
    let broken = "5800010002\n5800020002\n5A00070002\n";
    let printed = [BLOCK, broken, BLOCK, "210E\n"].concat();
    let table = |rows: &str| format!("50010202\n520002\n{rows}\n450004\n2B00000001\n");
    let not_met = table("55010000000300\n55020000000100");
    let twice = table("55010000000200\n55030000000300");
    let not_met_first = table("55010000000200\n55010000000201");
    let (in_lines, in_rows) = (completed::in_lines(), completed::in_rows());
    let all_of_main = (0..1024).map(|number| {
        let (place, root, state) = (number / 256, number / 16 % 16, number % 16);
        format!("5800{place:02X}{root:02X}{state:02X}\n")
    });
    let all_of_main = all_of_main.collect::<String>() + "5A04000400\n";
    vec![
        case("completed, in lines", with_edits(in_lines), &printed[..]),
        case("completed, in rows", with_edits(in_rows), &printed[..]),
        case("a pair not met", not_met, "21130000\n"),
        case("a pair met twice", twice, "21140000\n"),
        case("a pair not met first", not_met_first, "21130000\n"),
        case("the largest with rows", full::largest(), all_of_main),
    ]
}

/// Files whose rule hears calls and returns. An edit may call what the rule lets nobody call, and may
/// not give a step the label of a return.
fn rules_that_hear() -> Vec<InputCase> {
    let with = |file: Vec<u8>, edits: &str| [file, edits.as_bytes().to_vec()].concat();
    let two = "5800010002\n5800020002\n5A00060002\n";
    let one = "5800020002\n5A00050001\n";
    let edits = "2D00020101\n2B00006102\n2B00020101\n";
    let drops = "2D00004102\n2B00004102\n";
    let of_two = [two, one, "210D\n", two].concat();
    let of_none = "5A00010000\n".repeat(3);
    vec![
        case("two returns", with(heard::two_returns(), edits), of_two),
        case(
            "a call nobody makes",
            with(heard::no_call(), drops),
            of_none,
        ),
        case("a rule on 42", replaced(8, "54004202"), "21050008\n"),
        case("a rule on 62", replaced(8, "54006202"), "21050008\n"),
    ]
}
