//! Classes of exchanges by the lengths of what is lent to them, and counts of them, so that it shows which
//! were met.
//!
//! A call's classes are read off the lengths and the answer, whatever they were made for.

use crate::generate::met::{holding, Times};
use crate::model::change::{changed_by_text, Form};
use crate::model::program::Program;
use crate::model::refusals::{FOREIGN_SHEET, SHEET_LENGTH, SHEET_TOO_LARGE, WORK_LENGTH};

#[derive(Clone, Copy, Debug, PartialEq, Eq, PartialOrd, Ord)]
pub enum LengthClass {
    /// 9 for the old sheet.
    OldSheet,
    /// 9 for the second buffer: it is empty, as long as the old sheet, or of any other length.
    SecondEmpty,
    SecondAsOld,
    SecondOther,
    /// 11: the working buffer is as long as the shorter of the two sheets, the old one or the new one, or
    /// of any other length.
    WorkAsOld,
    WorkAsNew,
    WorkOther,
    /// 9 for the second buffer where 11 would be met too.
    SecondBeforeWork,
    /// 23 where the second buffer and the working buffer are as long as the old sheet.
    TooLarge,
    /// Accepted, to a longer sheet, a shorter one, and one as long.
    Longer,
    Shorter,
    AsLong,
    /// 17 before a longer sheet and before a shorter one.
    ForeignLonger,
    ForeignShorter,
}

use LengthClass::*;

/// All that can be met in a list; the old sheet is there as it should be.
const OF_LISTS: [LengthClass; 11] = [
    SecondEmpty,
    SecondAsOld,
    SecondOther,
    WorkAsOld,
    WorkAsNew,
    WorkOther,
    SecondBeforeWork,
    TooLarge,
    Longer,
    Shorter,
    AsLong,
];

/// Those that can be met by single calls only, or by strays among those of a list.
const OF_SINGLES: [LengthClass; 3] = [OldSheet, ForeignLonger, ForeignShorter];

/// The lengths of what is lent to an exchange.
#[derive(Clone, Copy, Debug)]
pub struct ExchangeLengths {
    pub sheet: usize,
    pub work: usize,
    pub second: usize,
}

/// How many exchanges of each class were met.
#[derive(Clone, Debug, Default)]
pub struct MetLengths {
    times: Times<LengthClass>,
}

impl MetLengths {
    /// Notes an exchange of this program by a text, and what was answered.
    pub fn note(&mut self, program: &Program, text: &[u8], lent: ExchangeLengths, refusal: u32) {
        self.times.note(classes(program, text, lent, refusal));
    }

    /// Each class that lists can meet has to be met so many times at the least.
    pub fn check_lists(&self, least: usize) {
        self.times.check(OF_LISTS, least);
    }

    /// Each class has to be met so many times at the least.
    pub fn check(&self, least: usize) {
        self.check_lists(least);
        self.times.check(OF_SINGLES, least);
    }
}

/// The classes of an exchange with this answer.
pub fn classes(
    program: &Program,
    text: &[u8],
    lent: ExchangeLengths,
    refusal: u32,
) -> Vec<LengthClass> {
    let old = program.sizes().length();
    if refusal == SHEET_LENGTH && lent.sheet != old {
        return vec![OldSheet];
    }
    if refusal == SHEET_TOO_LARGE {
        return holding(&[(lent.work == old && lent.second == old, TooLarge)]);
    }
    let new = match changed_by_text(Form::Exchange, program, text) {
        Ok(after) => after.sizes().length(),
        Err(_) => return Vec::new(),
    };
    let (longer, shorter) = (new > old, new < old);
    let work_is_wrong = lent.work != old.max(new);
    match refusal {
        SHEET_LENGTH => holding(&[
            (lent.second == 0, SecondEmpty),
            (lent.second == old, SecondAsOld),
            (![0, old].contains(&lent.second), SecondOther),
            (work_is_wrong, SecondBeforeWork),
        ]),
        WORK_LENGTH => holding(&[
            (lent.work == old, WorkAsOld),
            (lent.work == new, WorkAsNew),
            (![old, new].contains(&lent.work), WorkOther),
        ]),
        FOREIGN_SHEET => holding(&[(longer, ForeignLonger), (shorter, ForeignShorter)]),
        0 => holding(&[(longer, Longer), (shorter, Shorter), (new == old, AsLong)]),
        _ => Vec::new(),
    }
}

#[cfg(test)]
mod tests {
    use super::*;
    use crate::cases::sample;

    #[test]
    fn exchanges_have_the_classes_that_they_show() {
        let of = |text: &str, [sheet, work, second]: [usize; 3], refusal| {
            let lent = ExchangeLengths {
                sheet,
                work,
                second,
            };
            classes(&sample::program(), text.as_bytes(), lent, refusal)
        };
        assert_eq!(of("", [53, 0, 0], 9), [OldSheet]);
        assert_eq!(
            of("520104\n", [54, 54, 54], 9),
            [SecondAsOld, SecondBeforeWork]
        );
        assert_eq!(of("520104\n", [54, 72, 0], 9), [SecondEmpty]);
        assert_eq!(of("520104\n", [54, 54, 72], 11), [WorkAsOld]);
        assert_eq!(of("520002\n", [54, 36, 36], 11), [WorkAsNew]);
        assert_eq!(of("520104\n", [54, 72, 72], 0), [Longer]);
        assert_eq!(of("520002\n", [54, 54, 36], 17), [ForeignShorter]);
        assert_eq!(of("520102\n", [54, 54, 54], 0), [AsLong]);
    }
}
