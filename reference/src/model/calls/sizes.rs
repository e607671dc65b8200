//! The sizes of a program, and of the one that an exchange would leave.

use crate::model::calls::{work_of_exchange, Answer};
use crate::model::change::{changed_by_text, Form};
use crate::model::file::Reading;
use crate::model::refusals::Refused;

/// What a file's program is numbered by, and how long its sheet is. In C the last is called
/// marks_size.
#[derive(Clone, Copy, Debug, Default, PartialEq, Eq)]
pub struct SizesOfFile {
    pub routines: u32,
    pub places: u32,
    pub states: u32,
    pub sheet: u32,
}

/// What the library has to answer when it is asked for the sizes of a file with this reading.
pub fn sizes_answer(reading: &Reading) -> Answer<SizesOfFile> {
    let sizes = reading.as_ref().map(|program| program.sizes());
    let given = sizes.map(|sizes| SizesOfFile {
        routines: sizes.routines.into(),
        places: sizes.places.into(),
        states: sizes.states.into(),
        sheet: sizes.length() as u32,
    });
    Answer::from(given.map_err(Refused::from))
}

/// What an exchange leaves: the places of the longest routine, and how long the second buffer and the
/// working buffer have to be. In C these lengths are called marks_size and work_size.
#[derive(Clone, Copy, Debug, Default, PartialEq, Eq)]
pub struct SizesOfExchange {
    pub places: u32,
    pub second: u32,
    pub work: u32,
}

/// What the library has to answer when it is asked for the sizes of an exchange by this text.
pub fn exchange_sizes_answer(reading: &Reading, text: &[u8]) -> Answer<SizesOfExchange> {
    Answer::from(sizes_of_exchange(reading, text))
}

fn sizes_of_exchange(reading: &Reading, text: &[u8]) -> Result<SizesOfExchange, Refused> {
    let before = reading.as_ref()?;
    let after = changed_by_text(Form::Exchange, before, text)?.sizes();
    Ok(SizesOfExchange {
        places: after.places.into(),
        second: after.length() as u32,
        work: work_of_exchange(before.sizes(), after) as u32,
    })
}

#[cfg(test)]
mod tests {
    use super::*;
    use crate::cases::{self, sample};
    use crate::model::file::read;

    #[test]
    fn the_sample_has_54_bytes() {
        let sizes = SizesOfFile {
            routines: 2,
            places: 3,
            states: 3,
            sheet: 54,
        };
        assert_eq!(sizes_answer(&read(sample::FILE)), Answer::from(Ok(sizes)));
        let refused = sizes_answer(&read(b"50\n"));
        assert_eq!(refused, Answer::refused(3, 1));
    }

    #[test]
    fn exchanges_worked_out_by_hand() {
        for case in cases::exchanges::lengths::all() {
            let answer = exchange_sizes_answer(&read(&case.file), case.text.as_bytes());
            assert_eq!(answer, case.answer, "{}", case.name);
        }
    }

    #[test]
    fn named_texts_get_the_answers_worked_out_by_hand() {
        for case in cases::named_texts(Form::Exchange) {
            let answer = exchange_sizes_answer(&read(&case.file), &case.text);
            let given = (answer.refusal, answer.line);
            assert_eq!(given, (case.refusal, 0), "{}", case.name);
        }
    }
}
