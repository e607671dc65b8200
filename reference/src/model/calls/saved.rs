//! Moving a saved sheet: over, from an old sheet to frames, and back.

use crate::model::calls::files::put;
use crate::model::calls::{check_sheet, check_work, Answer};
use crate::model::refusals::{
    refuse_if, FileRefusal, Refused, FOREIGN_SAVED, NOT_FORMER, OUTPUT_SHORT,
};
use crate::model::saved::{Saved, Way, OLD_SHEET};

/// What is known of a file's saved sheet: the file's refusal, or None where its program meets 24.
pub type Known = Result<Option<Saved>, FileRefusal>;

/// What the library has to answer when it moves an old sheet or frames, with the length of the other form,
/// and what it has to leave in the output and in the working buffer. What is given is only read.
pub fn move_answer(
    way: Way,
    known: &Known,
    given: &[u8],
    output: &mut [u8],
    work: &mut [u8],
) -> Answer<u32> {
    Answer::from(moved(way, known, given, output, work))
}

fn moved(
    way: Way,
    known: &Known,
    given: &[u8],
    output: &mut [u8],
    work: &mut [u8],
) -> Result<u32, Refused> {
    let saved = known.as_ref()?.as_ref().ok_or(NOT_FORMER)?;
    if way == Way::Over {
        check_sheet(given.len(), OLD_SHEET)?;
    }
    check_work(work.len(), saved.program.sizes().length())?;
    work.fill(0);
    let [own, form] = saved.forms(way);
    let is_own = match way {
        Way::Over => given == own,
        Way::Back => saved.faults(given).is_empty(),
    };
    refuse_if(!is_own, FOREIGN_SAVED)?;
    refuse_if(output.len() < form.len(), OUTPUT_SHORT)?;
    Ok(put(form, output))
}

#[cfg(test)]
mod tests {
    use super::*;
    use crate::cases::{self, sample};
    use crate::model::file::read;
    use crate::model::refusals::{SHEET_LENGTH, WORK_LENGTH};
    use crate::model::saved::WAYS;
    use Way::*;

    fn known(file: &[u8]) -> Known {
        let reading = read(file);
        reading.as_ref().map(Saved::of).map_err(FileRefusal::clone)
    }

    /// What is answered with an output and a working buffer of these lengths, filled with sevens, and
    /// what is left in them.
    fn called(
        way: Way,
        file: &[u8],
        given: &[u8],
        lengths: [usize; 2],
    ) -> (Answer<u32>, [Vec<u8>; 2]) {
        let [mut output, mut work] = lengths.map(|length| vec![7; length]);
        let answer = move_answer(way, &known(file), given, &mut output, &mut work);
        (answer, [output, work])
    }

    /// The refusal and its line, where the output has to stay, and the working buffer up to 11.
    fn refused(way: Way, file: &[u8], given: &[u8], lengths: [usize; 2]) -> (u32, u32) {
        let (answer, [output, work]) = called(way, file, given, lengths);
        let is_late = [FOREIGN_SAVED, OUTPUT_SHORT].contains(&answer.refusal);
        let left = if is_late { 0 } else { 7 };
        assert!(output.iter().all(|&byte| byte == 7));
        assert!(work.iter().all(|&byte| byte == left));
        assert_eq!(answer, Answer::refused(answer.refusal, answer.line));
        assert_ne!(answer.refusal, 0);
        (answer.refusal, answer.line)
    }

    #[test]
    fn cases_worked_out_by_hand() {
        for case in cases::saved::all() {
            let mut sheet = vec![0; OLD_SHEET];
            case.marks.iter().for_each(|&number| sheet[number] = 1);
            let length = read(&case.file).expect("accepted").sizes().length();
            for way in WAYS {
                let (given, form) = match way {
                    Over => (&sheet, &case.frames),
                    Back => (&case.frames, &sheet),
                };
                let lengths = [form.len() + 1, length];
                let (answer, [output, work]) = called(way, &case.file, given, lengths);
                let wanted = Answer::from(Ok(form.len() as u32));
                assert_eq!(answer, wanted, "{}", case.name);
                assert_eq!(output, [&form[..], &[7]].concat(), "{}", case.name);
                assert_eq!(work, vec![0; length], "{}", case.name);
            }
        }
    }

    #[test]
    fn programs_without_an_old_sheet_are_refused() {
        for case in cases::saved::refused() {
            for way in WAYS {
                let given = refused(way, &case.file, b"450000\n", [OLD_SHEET, 0]);
                assert_eq!(given, (case.refusal, 0), "{}", case.name);
            }
        }
    }

    #[test]
    fn refusals_come_in_their_order() {
        let saved = Saved::of(&sample::program()).expect("a former program");
        let (sheet, frames) = (&saved.sheet, &saved.frames);
        let (file, need) = (sample::FILE, frames.len());
        let over = |given: &[u8], lengths| refused(Over, file, given, lengths);
        assert_eq!(refused(Over, b"", b"", [0, 0]), (8, 1));
        assert_eq!(over(&sheet[1..], [0, 53]), (SHEET_LENGTH, 0));
        assert_eq!(over(&vec![0; OLD_SHEET], [0, 53]), (WORK_LENGTH, 0));
        assert_eq!(over(&vec![0; OLD_SHEET], [0, 54]), (FOREIGN_SAVED, 0));
        assert_eq!(over(sheet, [need - 1, 54]), (OUTPUT_SHORT, 0));
        let back = |given: &[u8], lengths| refused(Back, file, given, lengths);
        assert_eq!(refused(Back, b"", b"", [0, 0]), (8, 1));
        assert_eq!(back(b"", [0, 55]), (WORK_LENGTH, 0));
        assert_eq!(back(b"", [0, 54]), (FOREIGN_SAVED, 0));
        assert_eq!(back(frames, [OLD_SHEET - 1, 54]), (OUTPUT_SHORT, 0));
    }
}
