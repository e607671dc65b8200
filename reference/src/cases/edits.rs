//! Edits that are known by name, each with the refusal worked out by hand.
//!
//! Most of them are edits of the sample, whose steps are 00 00 41 02, 00 02 01 01 and 01 00 00 01;
//! main has three places, routine 1 has two, and there are two actions.

use crate::cases::files::{full_steps, largest};
use crate::cases::sample;

/// A file that is accepted, a line or the text of an exchange, and the refusal from 12 to 16, 21 or 23
/// that it gets; 0 if none.
pub struct EditCase {
    pub name: String,
    pub file: Vec<u8>,
    pub text: Vec<u8>,
    pub refusal: u32,
}

/// Every named edit.
pub fn all() -> Vec<EditCase> {
    let mut cases = Vec::new();
    cases.extend(no_edits());
    cases.extend(out_of_range());
    cases.extend(by_what_is_there());
    cases.extend(full_tables());
    cases
}

/// A text for the sample.
pub fn of_sample(name: &str, text: &str, refusal: u32) -> EditCase {
    case(name, sample::FILE.to_vec(), text, refusal)
}

/// A text for the program of a file.
pub fn case(name: &str, file: Vec<u8>, text: impl AsRef<[u8]>, refusal: u32) -> EditCase {
    EditCase {
        name: name.to_string(),
        file,
        text: text.as_ref().to_vec(),
        refusal,
    }
}

fn no_edits() -> Vec<EditCase> {
    vec![
        of_sample("no bytes", "", 12),
        of_sample("0A alone", "\n", 12),
        of_sample("no 0A", "2B00000102", 12),
        of_sample("two lines", "2B00000102\n2B00000101\n", 12),
        of_sample("an empty line after it", "2B00000102\n\n", 12),
        of_sample("an empty line before it", "\n2B00000102\n", 12),
        of_sample("a byte after the 0A", "2B00000102\n0", 12),
        of_sample("a zero byte after the 0A", "2B00000102\n\0", 12),
        of_sample("lower case", "2b00000102\n", 12),
        of_sample("odd digits", "2B0000010\n", 12),
        of_sample("0D before 0A", "2B00000102\r\n", 12),
        of_sample("spaces", "2B 00 00 01 02\n", 12),
        of_sample("the sign itself", "+00000102\n", 12),
        of_sample("kind 53", "5300000102\n", 12),
        of_sample("kind 2C", "2C00000102\n", 12),
        of_sample("kind 3C", "3C0000010201\n", 12),
        of_sample("the end frame", "45000C\n", 12),
        of_sample("the kind alone", "2B\n", 12),
        of_sample("add with three numbers", "2B000001\n", 12),
        of_sample("add with five numbers", "2B0000010200\n", 12),
        of_sample("drop with three numbers", "2D000041\n", 12),
        of_sample("drop with five numbers", "2D0000410200\n", 12),
        of_sample("replace with four numbers", "3D00004102\n", 12),
        of_sample("replace with six numbers", "3D000041020000\n", 12),
        of_sample("wrong count, out of range", "2DFFFFFFFFFF\n", 12),
    ]
}

fn out_of_range() -> Vec<EditCase> {
    vec![
        of_sample("add to no routine", "2B02000001\n", 13),
        of_sample("add to routine 255", "2BFF000001\n", 13),
        of_sample("add from the exit", "2B00010001\n", 13),
        of_sample("add from past the last place", "2B00030001\n", 13),
        of_sample("add to past the last place", "2B00000003\n", 13),
        of_sample("add to past its own places", "2B01000002\n", 13),
        of_sample("add with action A", "2B01000200\n", 13),
        of_sample("add with label 20", "2B01002000\n", 13),
        of_sample("add with label 3F", "2B01003F00\n", 13),
        of_sample("add a call of routine R", "2B01004200\n", 13),
        of_sample("add with label FF", "2B0100FF00\n", 13),
        of_sample("drop of no routine", "2D02000001\n", 13),
        of_sample("drop from the exit", "2D00010001\n", 13),
        of_sample("drop to past the last place", "2D00000003\n", 13),
        of_sample("drop with action A", "2D00000201\n", 13),
        of_sample("drop a call of routine R", "2D00004201\n", 13),
        of_sample("replace in no routine", "3D0200000101\n", 13),
        of_sample("replace from the exit", "3D0001000101\n", 13),
        of_sample("replace to past the places", "3D0000410301\n", 13),
        of_sample("replace action A", "3D0000020101\n", 13),
        of_sample("replace by action A", "3D0100000102\n", 13),
        of_sample("replace by label 20", "3D0100000120\n", 13),
        of_sample("replace by a call of routine R", "3D0100000142\n", 13),
        of_sample("replace by label FF", "3D01000001FF\n", 13),
        of_sample("an absent step by action A", "3D0100010102\n", 13),
    ]
}

fn by_what_is_there() -> Vec<EditCase> {
    vec![
        of_sample("add", "2B00000102\n", 0),
        of_sample("add a call of itself", "2B01004101\n", 0),
        of_sample("add a call of main", "2B01004000\n", 0),
        of_sample("add to the entry", "2B01000100\n", 0),
        of_sample("add a step that is there", "2B00004102\n", 15),
        of_sample("drop", "2D01000001\n", 0),
        of_sample("drop a call", "2D00004102\n", 0),
        of_sample("drop an absent step", "2D00000102\n", 14),
        of_sample("drop with another label", "2D00004002\n", 14),
        of_sample("drop to another place", "2D00004101\n", 14),
        of_sample("drop from another place", "2D00024102\n", 14),
        of_sample("drop from another routine", "2D01004101\n", 14),
        of_sample("replace", "3D0100000101\n", 0),
        of_sample("replace a call by an action", "3D0000410201\n", 0),
        of_sample("replace an action by a call", "3D0002010140\n", 0),
        of_sample("replace a call by a call", "3D0000410240\n", 0),
        of_sample("replace an absent step", "3D0000010241\n", 14),
        of_sample("an absent step by itself", "3D0000010201\n", 14),
        of_sample("an absent step by one there", "3D0000400241\n", 14),
        of_sample("replace a label by itself", "3D0000410241\n", 15),
        of_sample("an action by itself", "3D0100000100\n", 15),
    ]
}

/// Edits of programs that have 255 and 256 steps: those of main's entry by the labels from 00 on to
/// every place.
fn full_tables() -> Vec<EditCase> {
    let full = || full_steps(256);
    let almost = || full_steps(255);
    vec![
        case("the 256th step", almost(), "2B0F0F4F0F\n", 0),
        case("the 257th step", full(), "2B0F0F4F0F\n", 16),
        case("the 257th, out of range", full(), "2B0F0F500F\n", 13),
        case("there already at 256", full(), "2B00000000\n", 15),
        case("drop at 256", full(), "2D00000F0F\n", 0),
        case("drop an absent one at 256", full(), "2D0F0F4F0F\n", 14),
        case("replace at 256", full(), "3D00000F0F1F\n", 0),
        case("replace by one there at 256", full(), "3D00000F0F0F\n", 15),
        case(
            "the 257th of the largest file",
            largest(),
            "2B0F034F03\n",
            16,
        ),
        case(
            "replace in the largest file",
            largest(),
            "3D00000F034F\n",
            0,
        ),
    ]
}
