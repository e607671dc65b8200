//! Lines of hexadecimal: a text's lines, and the numbers on a line.

use crate::model::kinds::{count_of_numbers, Kind};
use crate::model::refusals::{BAD_LINE, UNKNOWN_KIND, WRONG_COUNT};

/// A text's lines, each with its byte 0A. What follows the last 0A is a line of its own, without
/// 0A, unless nothing follows.
pub fn lines(text: &[u8]) -> Vec<&[u8]> {
    text.split_inclusive(|&byte| byte == 0x0A).collect()
}

/// The numbers on a line of one of these kinds, the kind first; or 1, 2 or 3, which are judged on the
/// line alone.
pub fn numbers_of_kind(kinds: &[Kind], line: &[u8]) -> Result<Vec<u8>, u32> {
    let numbers = numbers_of_line(line).ok_or(BAD_LINE)?;
    let wanted = count_of_numbers(kinds, numbers[0]).ok_or(UNKNOWN_KIND)?;
    if numbers.len() == 1 + wanted {
        Ok(numbers)
    } else {
        Err(WRONG_COUNT)
    }
}

/// Whether a line starts with this kind, whatever follows.
pub fn starts_with_kind(line: &[u8], kind: u8) -> bool {
    line.starts_with(format!("{kind:02X}").as_bytes())
}

/// Two digits make a number. None for an empty line, an odd count of digits, a byte that is no
/// digit, or a line without its 0A.
pub fn numbers_of_line(line: &[u8]) -> Option<Vec<u8>> {
    let text = line.strip_suffix(&[0x0A])?;
    if text.is_empty() || text.len() % 2 == 1 {
        return None;
    }
    text.chunks(2)
        .map(|pair| Some(16 * digit(pair[0])? + digit(pair[1])?))
        .collect()
}

/// The value of a digit 0-9 or A-F. Lower case is no digit.
fn digit(byte: u8) -> Option<u8> {
    match byte {
        b'0'..=b'9' => Some(byte - b'0'),
        b'A'..=b'F' => Some(byte - b'A' + 10),
        _ => None,
    }
}

/// Numbers as a line, with its 0A.
pub fn line_of(numbers: &[u8]) -> Vec<u8> {
    let mut line = String::new();
    for number in numbers {
        line.push_str(&format!("{number:02X}"));
    }
    line.push('\n');
    line.into_bytes()
}

/// Frames as lines, one after the other.
pub fn text_of(frames: &[Vec<u8>]) -> Vec<u8> {
    frames.iter().flat_map(|frame| line_of(frame)).collect()
}

/// A count as two numbers, high first.
pub fn two_numbers(count: usize) -> [u8; 2] {
    [(count / 256) as u8, (count % 256) as u8]
}
