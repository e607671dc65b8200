//! The proved library, with its answers in the reference's words. Each comparison uses a part of
//! this.
#![allow(dead_code)]

pub mod case;
pub mod lent;
pub mod lists;
pub mod trial;

use reference::model::analysis::NONE;
use reference::model::blocked::Blocked;
use reference::model::calls::files::FaultyPair;
use reference::model::calls::repairs::{Buffers, Function, Held, Repaired};
use reference::model::calls::sheets::Counts;
use reference::model::calls::sizes::{SizesOfExchange, SizesOfFile};
use reference::model::calls::Answer;
use reference::model::change::Form;
use reference::model::program::Program;
use reference::model::saved::Way;
use reference::model::standing::marked;
use reference::model::write::write as write_program;

/// An answer in the reference's words, its value made from the numbers that C gets.
fn in_words<const N: usize, V>(
    given: binding::Answer<N>,
    value: impl Fn([u32; N]) -> V,
) -> Answer<V> {
    Answer {
        refusal: given.refusal,
        line: given.line,
        value: value(given.values),
    }
}

/// What C gets where a call is refused.
pub fn refused<const N: usize>(refusal: u32, line: u32) -> binding::Answer<N> {
    binding::Answer {
        refusal,
        line,
        values: [0; N],
    }
}

pub fn read(file: &[u8]) -> Answer<()> {
    in_words(binding::read(Some(file)), |[]| ())
}

/// The first faulty pair of a table, with NULL for a file of no bytes.
pub fn faulty_pair(file: &[u8]) -> Answer<FaultyPair> {
    let answer = binding::faulty_pair(unless_empty(file));
    in_words(answer, |[state, action]| FaultyPair { state, action })
}

pub fn sizes(file: &[u8]) -> Answer<SizesOfFile> {
    let answer = binding::sizes(Some(file));
    in_words(answer, |[routines, places, states, sheet]| SizesOfFile {
        routines,
        places,
        states,
        sheet,
    })
}

/// The length of the sheet of a file that is accepted, by the library alone.
pub fn sheet_length(file: &[u8]) -> usize {
    let answer = sizes(file);
    assert_eq!((answer.refusal, answer.line), (0, 0));
    answer.value.sheet as usize
}

/// The sizes of an exchange, with NULL for a text of no bytes.
pub fn exchange_sizes(file: &[u8], text: &[u8]) -> Answer<SizesOfExchange> {
    let answer = binding::exchange_sizes(Some(file), unless_empty(text));
    in_words(answer, |[places, second, work]| SizesOfExchange {
        places,
        second,
        work,
    })
}

pub fn write(file: &[u8], output: &mut [u8]) -> Answer<u32> {
    let answer = binding::write(Some(file), Some(output));
    in_words(answer, |[written]| written)
}

/// A fresh working with a limit on the takings: the sheet goes to `marks`.
pub fn analyze(file: &[u8], marks: &mut [u8], work: &mut [u8], limit: u64) -> Answer<Counts> {
    let answer = binding::analyze(Some(file), Some(marks), Some(work), limit);
    in_words(answer, |[standings, findings, takings]| Counts {
        standings,
        findings,
        takings,
    })
}

/// The list of findings: the first at or above a number.
pub fn next_violation(file: &[u8], marks: &[u8], work: &mut [u8], from: u32) -> Answer<u32> {
    let answer = binding::next_violation(Some(file), Some(marks), Some(work), from);
    in_words(answer, |[found]| found)
}

/// The list of where runs are cut off: the first at or above a number, with NULL for each buffer of no
/// bytes.
pub fn next_blocked(file: &[u8], marks: &[u8], work: &mut [u8], from: u32) -> Answer<Blocked> {
    let (marks, work) = (unless_empty(marks), unless_empty_mut(work));
    let answer = binding::next_blocked(unless_empty(file), marks, work, from);
    in_words(answer, |[standing, step]| Blocked { standing, step })
}

/// A fresh working by the library alone, without a limit: the marked numbers and the three counts.
pub fn worked(file: &[u8]) -> (Vec<usize>, Counts) {
    let length = sheet_length(file);
    let (mut marks, mut work) = (vec![0xA5; length], vec![0x5A; length]);
    let answer = analyze(file, &mut marks, &mut work, binding::NO_LIMIT);
    assert_eq!((answer.refusal, answer.line), (0, 0));
    assert!(marks.iter().all(|&byte| byte <= 1));
    assert!(work.iter().all(|&byte| byte == 0));
    (marked(&marks), answer.value)
}

/// The list of findings by the library alone.
pub fn listed(file: &[u8]) -> Vec<u32> {
    listed_by(file, next_violation, |&finding| finding)
}

/// The list of where runs are cut off by the library alone.
pub fn blocked(file: &[u8]) -> Vec<Blocked> {
    listed_by(file, next_blocked, |blocked| blocked.standing)
}

/// A list, gone through with the program's own sheet by asking for the next each time.
fn listed_by<V>(
    file: &[u8],
    next: impl Fn(&[u8], &[u8], &mut [u8], u32) -> Answer<V>,
    number: impl Fn(&V) -> u32,
) -> Vec<V> {
    let length = sheet_length(file);
    let (mut marks, mut work) = (vec![0; length], vec![0; length]);
    analyze(file, &mut marks, &mut work, binding::NO_LIMIT);
    let mut found = Vec::new();
    loop {
        let from = found.last().map_or(0, |last| number(last) + 1);
        let answer = next(file, &marks, &mut work, from);
        assert_eq!((answer.refusal, answer.line), (0, 0));
        let at = number(&answer.value);
        if at == NONE {
            return found;
        }
        assert!(at >= from, "{at} from {from}");
        found.push(answer.value);
    }
}

/// The keeping, with NULL for each buffer of no bytes.
pub fn prune(file: &[u8], marks: &mut [u8], work: &mut [u8]) -> Answer<()> {
    let (marks, work) = (unless_empty_mut(marks), unless_empty_mut(work));
    in_words(binding::prune(unless_empty(file), marks, work), |[]| ())
}

/// A keeping by the library alone: the numbers that stay.
pub fn kept(program: &Program, sheet: &[u8]) -> Vec<usize> {
    let (mut sheet, mut work) = (sheet.to_vec(), vec![7; sheet.len()]);
    let answer = prune(&write_program(program), &mut sheet, &mut work);
    assert_eq!((answer.refusal, answer.line), (0, 0));
    assert!(sheet.iter().all(|&byte| byte <= 1));
    assert!(work.iter().all(|&byte| byte == 0));
    marked(&sheet)
}

/// A repair or an exchange, with NULL for each buffer of no bytes. A second buffer of no bytes, with which
/// every exchange is refused, is lent both as NULL and as the place where it lies.
pub fn call(function: Function, file: &[u8], lent: &mut Buffers) -> Answer<Repaired> {
    if function.form() == Form::Edit {
        return repair(function, file, lent);
    }
    let answer = exchange(function, file, lent, unless_empty_mut);
    if lent.second.is_empty() {
        let as_a_place = exchange(function, file, lent, |bytes| Some(bytes));
        assert_eq!(as_a_place, answer, "an empty second buffer");
    }
    answer
}

fn repair(function: Function, file: &[u8], lent: &mut Buffers) -> Answer<Repaired> {
    let (file, text) = (unless_empty(file), unless_empty(lent.text));
    let marks = unless_empty_mut(lent.sheet);
    let output = unless_empty_mut(lent.output);
    let work = unless_empty_mut(lent.work);
    if function.is_inside_out() {
        inside_out(binding::repair_inside_out(file, marks, text, output, work))
    } else {
        forward(binding::repair_forward(file, marks, text, output, work))
    }
}

fn exchange(
    function: Function,
    file: &[u8],
    lent: &mut Buffers,
    second: fn(&mut [u8]) -> Option<&mut [u8]>,
) -> Answer<Repaired> {
    let (file, text) = (unless_empty(file), unless_empty(lent.text));
    let marks = unless_empty(lent.sheet);
    let output = unless_empty_mut(lent.output);
    let work = unless_empty_mut(lent.work);
    let new = second(lent.second);
    if function.is_inside_out() {
        inside_out(binding::exchange_inside_out(
            file, marks, text, output, work, new,
        ))
    } else {
        forward(binding::exchange_forward(
            file, marks, text, output, work, new,
        ))
    }
}

/// Moving a saved sheet, with NULL for each buffer of no bytes. An old sheet is lent as the sheet, and
/// frames are lent as the text.
pub fn move_saved(way: Way, file: &[u8], lent: &mut Buffers) -> Answer<u32> {
    let file = unless_empty(file);
    let output = unless_empty_mut(lent.output);
    let work = unless_empty_mut(lent.work);
    let answer = match way {
        Way::Over => binding::marks_to_frames(file, unless_empty(lent.sheet), output, work),
        Way::Back => binding::frames_to_marks(file, unless_empty(lent.text), output, work),
    };
    in_words(answer, |[written]| written)
}

/// A saved sheet moved by the library alone, into an output of this length: what it writes, or the
/// refusal's number.
pub fn moved(way: Way, file: &[u8], given: &[u8], output: usize) -> Result<Vec<u8>, u32> {
    let mut held = held(given, given, output, sheet_length(file));
    let answer = move_saved(way, file, &mut held.lend());
    assert_eq!(answer.line, 0);
    assert!(held.work.iter().all(|&byte| byte == 0));
    let (written, rest) = held.output.split_at(answer.value as usize);
    assert!(rest.iter().all(|&byte| byte == 7));
    match answer.refusal {
        0 => Ok(written.to_vec()),
        refusal => Err(refusal),
    }
}

/// A sheet, a text, and an output and a working buffer of these lengths, filled with sevens.
pub fn held(sheet: &[u8], text: &[u8], output: usize, work: usize) -> Held {
    Held {
        sheet: sheet.to_vec(),
        text: text.to_vec(),
        output: vec![7; output],
        work: vec![7; work],
        second: Vec::new(),
    }
}

/// What a forward function answers. It sets no set of reopened routines.
fn forward(answer: binding::Answer<1>) -> Answer<Repaired> {
    in_words(answer, |[written]| Repaired {
        written,
        reopened: 0,
    })
}

fn inside_out(answer: binding::Answer<2>) -> Answer<Repaired> {
    in_words(answer, |[written, reopened]| Repaired { written, reopened })
}

fn unless_empty(buffer: &[u8]) -> Option<&[u8]> {
    Some(buffer).filter(|bytes| !bytes.is_empty())
}

fn unless_empty_mut(buffer: &mut [u8]) -> Option<&mut [u8]> {
    Some(buffer).filter(|bytes| !bytes.is_empty())
}
