//! The fresh working, the list of findings, the list of where runs are cut off, and the keeping.

use crate::model::analysis::{Analysis, Analyzed};
use crate::model::blocked::{Blocked, BlockedRuns};
use crate::model::calls::{check_sheet, check_work, Answer};
use crate::model::file::Reading;
use crate::model::keeping::keep;
use crate::model::program::Program;
use crate::model::refusals::{refuse_if, FileRefusal, Refused, FOREIGN_SHEET, GAVE_UP};

/// The largest limit of a fresh working. No program has more takings.
pub const NO_LIMIT: u64 = u64::MAX;

/// What a fresh working counts. In C these are called configurations, violations and iterations.
#[derive(Clone, Copy, Debug, Default, PartialEq, Eq)]
pub struct Counts {
    pub standings: u32,
    pub findings: u32,
    pub takings: u32,
}

impl Counts {
    pub fn of(analysis: &Analysis) -> Counts {
        Counts {
            standings: analysis.standings(),
            findings: analysis.findings.len() as u32,
            takings: analysis.takings,
        }
    }
}

/// The checks before anything is touched: what the file gave, or a refusal of the file, of the sheet's
/// length or of the working buffer's. Both have to be as long as the program's own sheet.
fn checked<'a, T>(
    given: &'a Result<T, FileRefusal>,
    length: impl Fn(&T) -> usize,
    sheet: &[u8],
    work: &[u8],
) -> Result<&'a T, Refused> {
    let given = given.as_ref()?;
    check_sheet(sheet.len(), length(given))?;
    check_work(work.len(), length(given))?;
    Ok(given)
}

/// The same for a call that takes the program's own sheet and no other: from there on the working buffer
/// is all zero.
fn checked_with_own<'a, T>(
    given: &'a Result<T, FileRefusal>,
    own: impl Fn(&T) -> &[u8],
    sheet: &[u8],
    work: &mut [u8],
) -> Result<&'a T, Refused> {
    let given = checked(given, |given| own(given).len(), sheet, work)?;
    work.fill(0);
    refuse_if(sheet != own(given), FOREIGN_SHEET)?;
    Ok(given)
}

/// What the library has to answer when it works a file afresh that has this analysis, with a limit on
/// the takings, and what it has to leave in the sheet and in the working buffer. It gives up exactly
/// where the whole working has more takings than the limit; how far it went does not show.
pub fn analyze_answer(
    analyzed: &Analyzed,
    sheet: &mut [u8],
    work: &mut [u8],
    limit: u64,
) -> Answer<Counts> {
    let analysis = checked(analyzed, |analysis| analysis.sheet.len(), sheet, work);
    Answer::from(analysis.and_then(|analysis| {
        work.fill(0);
        refuse_if(u64::from(analysis.takings) > limit, GAVE_UP)?;
        sheet.copy_from_slice(&analysis.sheet);
        Ok(Counts::of(analysis))
    }))
}

/// What the library has to answer when it is asked for the next finding of that file, and what it
/// has to leave in the working buffer. The sheet is only read.
pub fn next_answer(analyzed: &Analyzed, sheet: &[u8], work: &mut [u8], from: u32) -> Answer<u32> {
    let analysis = checked_with_own(analyzed, |analysis| &analysis.sheet, sheet, work);
    Answer::from(analysis.map(|analysis| analysis.next_finding(from)))
}

/// What the library has to answer when it is asked where the runs of a file's program are cut off next,
/// and what it has to leave in the working buffer. The sheet is only read.
pub fn next_blocked_answer(
    runs: &Result<BlockedRuns, FileRefusal>,
    sheet: &[u8],
    work: &mut [u8],
    from: u32,
) -> Answer<Blocked> {
    let runs = checked_with_own(runs, |runs| &runs.sheet, sheet, work);
    Answer::from(runs.map(|runs| runs.next_blocked(from)))
}

/// What the library has to answer when it is asked for the keeping with a file of this reading, and
/// what it has to leave in the sheet and in the working buffer.
pub fn keep_answer(reading: &Reading, sheet: &mut [u8], work: &mut [u8]) -> Answer<()> {
    let length = |program: &Program| program.sizes().length();
    let program = checked(reading, length, sheet, work);
    Answer::from(program.map(|program| {
        let kept = keep(program, sheet);
        sheet.copy_from_slice(&kept);
        work.fill(0);
    }))
}

#[cfg(test)]
mod tests {
    use super::*;
    use crate::cases::{self, sample};
    use crate::model::analysis::{analyze_reading, own_sheet};
    use crate::model::file::read;
    use crate::model::refusals::{SHEET_LENGTH, WORK_LENGTH};

    /// How long the sample's sheet is.
    const LENGTH: usize = 54;

    #[test]
    fn lengths_are_judged_after_the_file_and_before_the_sheet() {
        let analyzed = analyze_reading(&read(sample::FILE));
        let own = own_sheet(&sample::program());
        let mut work = vec![7; LENGTH];
        let mut short = vec![7; LENGTH - 1];
        let refused = analyze_reading(&read(b""));
        let answer = next_answer(&refused, &own[1..], &mut short, 0);
        assert_eq!(answer, Answer::refused(8, 1));
        let answer = next_answer(&analyzed, &own[1..], &mut short, 0);
        assert_eq!(answer, Answer::refused(SHEET_LENGTH, 0));
        let answer = next_answer(&analyzed, &work, &mut short, 0);
        assert_eq!(answer, Answer::refused(WORK_LENGTH, 0));
        assert!(short.iter().all(|&byte| byte == 7));
        let answer = next_answer(&analyzed, &work.clone(), &mut work, 0);
        assert_eq!(answer, Answer::refused(FOREIGN_SHEET, 0));
        assert!(work.iter().all(|&byte| byte == 0));
    }

    #[test]
    fn limits_worked_out_by_hand() {
        for case in cases::limits::all() {
            case.check(|file, sheet, work, limit| {
                analyze_answer(&analyze_reading(&read(file)), sheet, work, limit)
            });
        }
    }

    #[test]
    fn giving_up_is_judged_after_the_file_and_the_lengths() {
        let answer = |file: &[u8], sheet: usize, work: usize| {
            let (mut sheet, mut work) = (vec![7; sheet], vec![7; work]);
            let answer = analyze_answer(&analyze_reading(&read(file)), &mut sheet, &mut work, 0);
            let left = if answer.refusal == GAVE_UP { 0 } else { 7 };
            assert!(work.iter().all(|&byte| byte == left));
            assert!(sheet.iter().all(|&byte| byte == 7));
            assert_eq!(answer.value, Counts::default());
            (answer.refusal, answer.line)
        };
        let no_pair_met = b"50010101\n520002\n55000000000000\n4900\n450004\n";
        assert_eq!(answer(b"", LENGTH, LENGTH), (8, 1));
        assert_eq!(answer(no_pair_met, LENGTH, LENGTH), (19, 0));
        assert_eq!(answer(sample::FILE, LENGTH + 1, LENGTH), (9, 0));
        assert_eq!(answer(sample::FILE, LENGTH, LENGTH - 1), (11, 0));
        assert_eq!(answer(sample::FILE, LENGTH, LENGTH), (22, 0));
    }

    #[test]
    fn lengths_for_the_keeping_are_judged_after_the_file() {
        let (good, bad) = (read(sample::FILE), read(b""));
        let answer = |reading: &Reading, sheet: usize, work: usize| {
            let (mut sheet, mut work) = (vec![7; sheet], vec![7; work]);
            let answer = keep_answer(reading, &mut sheet, &mut work);
            let kept = answer.refusal == 0;
            assert!(work.iter().all(|&byte| byte == if kept { 0 } else { 7 }));
            assert!(kept || sheet.iter().all(|&byte| byte == 7));
            (answer.refusal, answer.line)
        };
        assert_eq!(answer(&bad, 0, 0), (8, 1));
        assert_eq!(answer(&good, LENGTH - 1, LENGTH + 1), (9, 0));
        assert_eq!(answer(&good, LENGTH, LENGTH + 1), (11, 0));
        assert_eq!(answer(&good, LENGTH, LENGTH), (0, 0));
    }
}
