//! The proved library, called as C calls it.
//!
//! Each function here is one of `include/palthrenni.h`, with slices in the place of pointers and
//! lengths, and with its numbers in an answer. A buffer that is `None` is handed over as NULL with
//! the length 0, and an empty one as the place where it lies with the length 0: C may do either.

mod header;

use header::*;

/// What a call answers: the number that it returns, the line, and the other numbers that it sets, in
/// the header's order.
#[derive(Clone, Copy, Debug, PartialEq, Eq)]
pub struct Answer<const N: usize> {
    pub refusal: u32,
    pub line: u32,
    pub values: [u32; N],
}

/// The limit at which an analysis never gives up.
pub const NO_LIMIT: u64 = u64::MAX;

/// What every number of an answer holds before the call, so that one which is not set shows.
const NOT_SET: u32 = 0xDEAD_BEEF;

impl<const N: usize> Answer<N> {
    fn not_set() -> Answer<N> {
        Answer {
            refusal: NOT_SET,
            line: NOT_SET,
            values: [NOT_SET; N],
        }
    }
}

/// A buffer in the form that C gets: where it lies, and how long it is.
trait Lend {
    type Place;
    fn lend(self) -> (Self::Place, usize);
}

impl Lend for Option<&[u8]> {
    type Place = *const u8;

    fn lend(self) -> (*const u8, usize) {
        match self {
            Some(bytes) => (bytes.as_ptr(), bytes.len()),
            None => (std::ptr::null(), 0),
        }
    }
}

impl Lend for Option<&mut [u8]> {
    type Place = *mut u8;

    fn lend(self) -> (*mut u8, usize) {
        match self {
            Some(bytes) => (bytes.as_mut_ptr(), bytes.len()),
            None => (std::ptr::null_mut(), 0),
        }
    }
}

/// The answer of a function of the header that takes these buffers, then these numbers, and sets
/// the line and these values.
macro_rules! answer {
    ($function:ident($($buffer:ident),*; $($number:ident),*; $($value:ident),*)) => {{
        $(let $buffer = $buffer.lend();)*
        let mut answer = Answer::not_set();
        let [$($value),*] = &mut answer.values;
        // SAFETY: the slices live through the call, and one that is lent for changing overlaps no
        // other, as Rust sees to. A buffer of no bytes is not looked into. The numbers are the
        // answer's own.
        answer.refusal = unsafe {
            $function(
                $($buffer.0, $buffer.1,)*
                $($number,)*
                &mut answer.line,
                $($value,)*
            )
        };
        answer
    }};
}

pub fn read(file: Option<&[u8]>) -> Answer<0> {
    answer!(palthrenni_read(file;;))
}

pub fn faulty_pair(file: Option<&[u8]>) -> Answer<2> {
    answer!(palthrenni_faulty_pair(file;; state, action))
}

pub fn sizes(file: Option<&[u8]>) -> Answer<4> {
    answer!(palthrenni_sizes(file;; routines, places, states, marks_size))
}

pub fn write(file: Option<&[u8]>, output: Option<&mut [u8]>) -> Answer<1> {
    answer!(palthrenni_write(file, output;; written))
}

pub fn analyze(
    file: Option<&[u8]>,
    marks: Option<&mut [u8]>,
    work: Option<&mut [u8]>,
    limit: u64,
) -> Answer<3> {
    answer!(palthrenni_analyze(file, marks, work; limit; configurations, violations, iterations))
}

pub fn next_violation(
    file: Option<&[u8]>,
    marks: Option<&[u8]>,
    work: Option<&mut [u8]>,
    from: u32,
) -> Answer<1> {
    answer!(palthrenni_next_violation(file, marks, work; from; found))
}

pub fn next_blocked(
    file: Option<&[u8]>,
    marks: Option<&[u8]>,
    work: Option<&mut [u8]>,
    from: u32,
) -> Answer<2> {
    answer!(palthrenni_next_blocked(file, marks, work; from; found, edge))
}

pub fn prune(file: Option<&[u8]>, marks: Option<&mut [u8]>, work: Option<&mut [u8]>) -> Answer<0> {
    answer!(palthrenni_prune(file, marks, work;;))
}

pub fn repair_forward(
    file: Option<&[u8]>,
    marks: Option<&mut [u8]>,
    edit: Option<&[u8]>,
    output: Option<&mut [u8]>,
    work: Option<&mut [u8]>,
) -> Answer<1> {
    answer!(palthrenni_repair_forward(file, marks, edit, output, work;; written))
}

pub fn repair_inside_out(
    file: Option<&[u8]>,
    marks: Option<&mut [u8]>,
    edit: Option<&[u8]>,
    output: Option<&mut [u8]>,
    work: Option<&mut [u8]>,
) -> Answer<2> {
    answer!(palthrenni_repair_inside_out(file, marks, edit, output, work;; written, reanalyzed))
}

pub fn exchange_sizes(file: Option<&[u8]>, text: Option<&[u8]>) -> Answer<3> {
    answer!(palthrenni_exchange_sizes(file, text;; places, marks_size, work_size))
}

pub fn exchange_forward(
    file: Option<&[u8]>,
    marks: Option<&[u8]>,
    text: Option<&[u8]>,
    output: Option<&mut [u8]>,
    work: Option<&mut [u8]>,
    new_marks: Option<&mut [u8]>,
) -> Answer<1> {
    answer!(palthrenni_exchange_forward(file, marks, text, output, work, new_marks;; written))
}

pub fn exchange_inside_out(
    file: Option<&[u8]>,
    marks: Option<&[u8]>,
    text: Option<&[u8]>,
    output: Option<&mut [u8]>,
    work: Option<&mut [u8]>,
    new_marks: Option<&mut [u8]>,
) -> Answer<2> {
    answer!(palthrenni_exchange_inside_out(
        file, marks, text, output, work, new_marks;; written, reanalyzed
    ))
}

pub fn marks_to_frames(
    file: Option<&[u8]>,
    old_marks: Option<&[u8]>,
    output: Option<&mut [u8]>,
    work: Option<&mut [u8]>,
) -> Answer<1> {
    answer!(palthrenni_marks_to_frames(file, old_marks, output, work;; written))
}

pub fn frames_to_marks(
    file: Option<&[u8]>,
    frames: Option<&[u8]>,
    output: Option<&mut [u8]>,
    work: Option<&mut [u8]>,
) -> Answer<1> {
    answer!(palthrenni_frames_to_marks(file, frames, output, work;; written))
}
