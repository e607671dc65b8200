//! Reading a file, finding the first faulty pair of its table, and writing it back.

use crate::model::calls::{check_output, Answer};
use crate::model::file::Reading;
use crate::model::refusals::Refused;
use crate::model::write::write;

/// What the library has to answer when it reads a file for which the reference has this reading.
pub fn read_answer(reading: &Reading) -> Answer<()> {
    let outcome = reading.as_ref().map(|_| ()).map_err(Refused::from);
    Answer::from(outcome)
}

/// A state and an action of a table; both 0 where there is nothing to say.
#[derive(Clone, Copy, Debug, Default, PartialEq, Eq)]
pub struct FaultyPair {
    pub state: u32,
    pub action: u32,
}

/// What the library has to answer when it is asked for the first faulty pair of that file: what it
/// answers when it reads it, and the pair where the table decides.
pub fn faulty_pair_answer(reading: &Reading) -> Answer<FaultyPair> {
    let Answer { refusal, line, .. } = read_answer(reading);
    let pair = reading.as_ref().err().and_then(|refusal| refusal.pair);
    let value = pair.map_or(FaultyPair::default(), |(state, action)| FaultyPair {
        state: state.into(),
        action: action.into(),
    });
    Answer {
        refusal,
        line,
        value,
    }
}

/// What the library has to answer when it writes that file back, and what it has to leave in the
/// output. The answer says how many bytes the output holds of it.
pub fn write_answer(reading: &Reading, output: &mut [u8]) -> Answer<u32> {
    Answer::from(written(reading, output))
}

fn written(reading: &Reading, output: &mut [u8]) -> Result<u32, Refused> {
    let program = reading.as_ref()?;
    check_output(output.len())?;
    Ok(put(&write(program), output))
}

/// Puts what is written at an output's start, and says how long it is.
pub fn put(written: &[u8], output: &mut [u8]) -> u32 {
    output[..written.len()].copy_from_slice(written);
    written.len() as u32
}

#[cfg(test)]
mod tests {
    use super::*;
    use crate::cases::{self, sample};
    use crate::model::file::read;
    use crate::model::refusals::{PAIR_MET_TWICE, PAIR_NOT_MET};
    use crate::model::write::OUTPUT_SIZE;

    #[test]
    fn faulty_tables_have_the_pairs_worked_out_by_hand() {
        for table in cases::tables::faulty() {
            let answer = faulty_pair_answer(&read(&table.file));
            let given = (answer.refusal, answer.line, answer.value);
            let (state, action) = (table.pair.0.into(), table.pair.1.into());
            let wanted = (table.refusal, 0, FaultyPair { state, action });
            assert_eq!(given, wanted, "{}", table.name);
        }
    }

    #[test]
    fn other_files_have_no_faulty_pair() {
        for case in cases::files::all() {
            let answer = faulty_pair_answer(&read(&case.file));
            let given = (answer.refusal, answer.line);
            assert_eq!(given, (case.refusal, case.line), "{}", case.name);
            let of_table = [PAIR_NOT_MET, PAIR_MET_TWICE].contains(&case.refusal);
            let none = answer.value == FaultyPair::default();
            assert!(of_table || none, "{}", case.name);
        }
    }

    #[test]
    fn an_output_is_changed_only_where_the_file_goes() {
        let mut output = [0xA5; OUTPUT_SIZE];
        let answer = write_answer(&read(sample::FILE), &mut output);
        let length = sample::FILE.len();
        assert_eq!((answer.refusal, answer.line), (0, 0));
        assert_eq!(answer.value as usize, length);
        assert_eq!(&output[..length], sample::FILE);
        assert!(output[length..].iter().all(|&byte| byte == 0xA5));
    }

    #[test]
    fn a_short_output_is_refused_after_the_file_and_unchanged() {
        let mut output = [0xA5; OUTPUT_SIZE - 1];
        let answer = write_answer(&read(sample::FILE), &mut output);
        assert_eq!(answer, Answer::refused(10, 0));
        let answer = write_answer(&read(b""), &mut output);
        assert_eq!(answer, Answer::refused(8, 1));
        let no_pair_met = read(b"50010101\n520002\n55000000000000\n450003\n");
        let answer = write_answer(&no_pair_met, &mut output);
        assert_eq!(answer, Answer::refused(19, 0));
        assert!(output.iter().all(|&byte| byte == 0xA5));
    }
}
