//! The sample program F, and its file with one thing changed. The file's lines are:
//!
//! ```text
//!  1  50020302        8  54000102
//!  2  520003          9  54010001
//!  3  520102         10  54010101
//!  4  5300004102     11  4900
//!  5  5300020101     12  4602
//!  6  5301000001     13  45000C
//!  7  54000001
//! ```

use crate::model::file::read;
use crate::model::lines::{self, line_of};
use crate::model::program::Program;
use crate::model::write::end;

/// The sample program file.
pub const FILE: &[u8] = include_bytes!("../../../examples/F.txt");

/// The numbers of its standings: it has two routines, three places in the longer one and three states.
pub const STANDINGS: [usize; 5] = [0, 10, 19, 27, 37];

/// The program that it says.
pub fn program() -> Program {
    read(FILE).expect("the sample is accepted")
}

/// The sample's lines, each with its 0A.
pub fn lines() -> Vec<Vec<u8>> {
    let lines = lines::lines(FILE).into_iter();
    lines.map(<[u8]>::to_vec).collect()
}

/// The sample with one line, counted from 1, given another text.
pub fn replaced(line: usize, text: &str) -> Vec<u8> {
    let mut lines = lines();
    lines[line - 1] = format!("{text}\n").into_bytes();
    lines.concat()
}

/// The sample with a new line that then has this number.
pub fn inserted(line: usize, text: &str) -> Vec<u8> {
    let mut lines = lines();
    lines.insert(line - 1, format!("{text}\n").into_bytes());
    lines.concat()
}

/// The sample without one line.
pub fn removed(line: usize) -> Vec<u8> {
    let mut lines = lines();
    lines.remove(line - 1);
    lines.concat()
}

/// The sample with two lines in each other's place.
pub fn swapped(one: usize, other: usize) -> Vec<u8> {
    let mut lines = lines();
    lines.swap(one - 1, other - 1);
    lines.concat()
}

/// The sample with something after its end.
pub fn followed_by(text: impl AsRef<[u8]>) -> Vec<u8> {
    [FILE, text.as_ref()].concat()
}

/// The sample without its last byte.
pub fn without_last_byte() -> Vec<u8> {
    FILE[..FILE.len() - 1].to_vec()
}

/// The sample with these lines in the place of those from the first to the last, both counted from
/// 1, and with its end count made right.
pub fn rewritten(first: usize, last: usize, texts: &[&str]) -> Vec<u8> {
    let mut lines = lines();
    let texts = texts.iter().map(|text| format!("{text}\n").into_bytes());
    lines.splice(first - 1..last, texts);
    lines.pop();
    lines.push(line_of(&end(lines.len())));
    lines.concat()
}
