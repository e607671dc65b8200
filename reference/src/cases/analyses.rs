//! Files whose analysis is worked out by hand. P1 to P4 and P7 are the scope paper's.

use crate::cases::heard;
use crate::cases::sample;
use crate::cases::tables::{completed, full};

/// A file that is accepted, the numbers of its standings and of its findings, and how many takings
/// its fresh working needs.
pub struct AnalysisCase {
    pub name: &'static str,
    pub file: Vec<u8>,
    pub standings: Vec<usize>,
    pub findings: Vec<u32>,
    pub takings: u32,
}

fn case(
    name: &'static str,
    file: &[u8],
    standings: &[usize],
    findings: &[u32],
    takings: u32,
) -> AnalysisCase {
    AnalysisCase {
        name,
        file: file.to_vec(),
        standings: standings.to_vec(),
        findings: findings.to_vec(),
        takings,
    }
}

/// The sample with state 0 forbidden too. A forbidden state is followed like any other.
pub fn entry_forbidden() -> Vec<u8> {
    sample::rewritten(12, 12, &["4600", "4602"])
}

/// The sample without its start state, so that nothing can happen.
pub fn no_start() -> Vec<u8> {
    sample::rewritten(11, 11, &[])
}

/// The sample with the one step by which main calls itself. It is taken once.
pub fn main_calls_main() -> Vec<u8> {
    sample::rewritten(4, 6, &["5300004001"])
}

pub fn all() -> Vec<AnalysisCase> {
    let mut cases = of_samples();
    cases.extend(of_tables());
    cases.extend(heard::analyses());
    cases
}

fn of_samples() -> Vec<AnalysisCase> {
    let five = &sample::STANDINGS;
    let six = &[0, 10, 19, 20, 27, 37];
    let faulty = include_bytes!("../../../examples/F_fault.txt");
    let never_returns = sample::rewritten(6, 6, &[]);
    vec![
        case("P1 and P2, the sample", sample::FILE, five, &[], 6),
        case("P3, no start state", &no_start(), &[], &[], 0),
        case(
            "P4, state 0 forbidden",
            &entry_forbidden(),
            five,
            &[0, 27],
            6,
        ),
        case("P7, main calls main", &main_calls_main(), &[0], &[], 1),
        case("a step that breaks the rule", faulty, six, &[20], 7),
        case(
            "a call that never returns",
            &never_returns,
            &[0, 27],
            &[],
            2,
        ),
    ]
}

/// A program is analyzed alike whether its rule came in lines or in rows. In the largest file with
/// rows main's entry leads to all 4 places in all 16 states, and nothing is called.
fn of_tables() -> Vec<AnalysisCase> {
    let five = &sample::STANDINGS;
    let broken = &completed::BROKEN_STANDINGS;
    let in_main: Vec<usize> = (0..1024).collect();
    let all_forbidden: Vec<u32> = (0..1024).collect();
    let (lines, rows) = (completed::in_lines(), completed::in_rows());
    let (broken_lines, broken_rows) = (completed::broken_in_lines(), completed::broken_in_rows());
    let largest = full::largest();
    let found = &[11, 20];
    vec![
        case("the completed sample in lines", &lines, five, &[], 6),
        case("the completed sample in rows", &rows, five, &[], 6),
        case("broken, in lines", &broken_lines, broken, found, 8),
        case("broken, in rows", &broken_rows, broken, found, 8),
        case("the largest", &largest, &in_main, &all_forbidden, 1024),
    ]
}

#[cfg(test)]
mod tests {
    use super::*;

    #[test]
    fn the_faulty_example_is_the_sample_with_one_step_more() {
        let faulty = sample::rewritten(4, 4, &["5300000102", "5300004102"]);
        assert_eq!(faulty, include_bytes!("../../../examples/F_fault.txt"));
    }
}
