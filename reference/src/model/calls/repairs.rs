//! The two repairs, for an edit and for an exchange, by working afresh. A repair has to leave the fresh
//! sheet of the changed program, whichever way it gets there.

use crate::model::analysis::own_sheet;
use crate::model::calls::files::put;
use crate::model::calls::{check_output, check_sheet, check_work, work_of_exchange, Answer};
use crate::model::change::{changed_by_text, Change, Form};
use crate::model::file::Reading;
use crate::model::groups::reopened;
use crate::model::program::Program;
use crate::model::refusals::{refuse_if, Refused, FOREIGN_SHEET};
use crate::model::write::{write, OUTPUT_SIZE};

/// Which function is called: one of the two repairs, for an edit or for an exchange.
#[derive(Clone, Copy, Debug, PartialEq, Eq, PartialOrd, Ord)]
pub enum Function {
    RepairForward,
    RepairInsideOut,
    ExchangeForward,
    ExchangeInsideOut,
}

use Function::*;

/// Those that take an edit line, those that take the text of an exchange, and all.
pub const REPAIRS: [Function; 2] = [RepairForward, RepairInsideOut];
pub const EXCHANGES: [Function; 2] = [ExchangeForward, ExchangeInsideOut];
pub const FUNCTIONS: [Function; 4] = [
    RepairForward,
    RepairInsideOut,
    ExchangeForward,
    ExchangeInsideOut,
];

impl Function {
    pub fn form(self) -> Form {
        match self {
            RepairForward | RepairInsideOut => Form::Edit,
            ExchangeForward | ExchangeInsideOut => Form::Exchange,
        }
    }

    /// Whether it says which routines were reopened.
    pub fn is_inside_out(self) -> bool {
        [RepairInsideOut, ExchangeInsideOut].contains(&self)
    }
}

/// What a repair gives: the length of the new file, and the set of reopened routines, bit f for
/// routine f. A forward repair says nothing of them, which is 0 here. In C the set is called
/// reanalyzed.
#[derive(Clone, Copy, Debug, Default, PartialEq, Eq)]
pub struct Repaired {
    pub written: u32,
    pub reopened: u32,
}

impl Repaired {
    /// What a function gives for a change that the program accepts, once the new file is written.
    pub fn new(function: Function, before: &Program, change: &Change, written: u32) -> Repaired {
        let reopened = match function.is_inside_out() {
            false => 0,
            true => reopened(before, change),
        };
        Repaired { written, reopened }
    }
}

/// What is lent to a repair, apart from the file. The text is an edit line, or that of an exchange. Only
/// an exchange takes the second buffer, for its sheet; the sheet itself is then lent for reading.
pub struct Buffers<'a> {
    pub sheet: &'a mut [u8],
    pub text: &'a [u8],
    pub output: &'a mut [u8],
    pub work: &'a mut [u8],
    pub second: &'a mut [u8],
}

/// The same, as one holds it who lends it.
#[derive(Clone, PartialEq, Eq)]
pub struct Held {
    pub sheet: Vec<u8>,
    pub text: Vec<u8>,
    pub output: Vec<u8>,
    pub work: Vec<u8>,
    pub second: Vec<u8>,
}

impl Held {
    /// A program's own sheet, a text, and buffers of the right lengths, filled with sevens.
    pub fn for_text(form: Form, program: &Program, text: &[u8]) -> Held {
        let [work, second] = lengths(form, program, text);
        Held {
            sheet: own_sheet(program),
            text: text.to_vec(),
            output: vec![7; OUTPUT_SIZE],
            work: vec![7; work],
            second: vec![7; second],
        }
    }

    /// What an accepted call by a text of this form has put its sheet into.
    pub fn new_sheet(&self, form: Form) -> &[u8] {
        match form {
            Form::Edit => &self.sheet,
            Form::Exchange => &self.second,
        }
    }

    pub fn lend(&mut self) -> Buffers<'_> {
        Buffers {
            sheet: &mut self.sheet,
            text: &self.text,
            output: &mut self.output,
            work: &mut self.work,
            second: &mut self.second,
        }
    }
}

/// How long the working buffer and the second one have to be for a text of this form; for a text that is
/// refused, as if it left the program as it is. A repair of a step takes no second buffer.
pub fn lengths(form: Form, program: &Program, text: &[u8]) -> [usize; 2] {
    let before = program.sizes();
    match form {
        Form::Edit => [before.length(), 0],
        Form::Exchange => {
            let after = changed_by_text(form, program, text);
            let after = after.map_or(before, |after| after.sizes());
            [work_of_exchange(before, after), after.length()]
        }
    }
}

/// What the library has to answer to a call with a file of this reading, and what it has to leave in
/// all that is lent.
pub fn repair_answer(
    function: Function,
    reading: &Reading,
    lent: &mut Buffers,
) -> Answer<Repaired> {
    Answer::from(repaired(function, reading, lent))
}

fn repaired(
    function: Function,
    reading: &Reading,
    lent: &mut Buffers,
) -> Result<Repaired, Refused> {
    let before = reading.as_ref()?;
    let (change, after) = match function.form() {
        Form::Edit => judged_edit(before, lent)?,
        Form::Exchange => judged_exchange(before, lent)?,
    };
    lent.work.fill(0);
    refuse_if(lent.sheet != own_sheet(before), FOREIGN_SHEET)?;
    let to = match function.form() {
        Form::Edit => &mut *lent.sheet,
        Form::Exchange => &mut *lent.second,
    };
    to.copy_from_slice(&own_sheet(&after));
    let written = put(&write(&after), lent.output);
    Ok(Repaired::new(function, before, &change, written))
}

/// The edit and the program after it, or the first of the refusals 9 to 16. Until 17 is judged, nothing
/// is touched.
fn judged_edit(before: &Program, lent: &Buffers) -> Result<(Change, Program), u32> {
    let length = before.sizes().length();
    check_sheet(lent.sheet.len(), length)?;
    check_output(lent.output.len())?;
    check_work(lent.work.len(), length)?;
    let change = Change::of_text(Form::Edit, before, lent.text)?;
    let after = change.made(before)?;
    Ok((change, after))
}

/// The same of an exchange. How long the second buffer and the working buffer have to be goes by the
/// program that it leaves, so both are judged after all of its text: 9 once more, and 11.
fn judged_exchange(before: &Program, lent: &Buffers) -> Result<(Change, Program), u32> {
    check_sheet(lent.sheet.len(), before.sizes().length())?;
    check_output(lent.output.len())?;
    let change = Change::of_text(Form::Exchange, before, lent.text)?;
    let after = change.made(before)?;
    check_sheet(lent.second.len(), after.sizes().length())?;
    check_work(
        lent.work.len(),
        work_of_exchange(before.sizes(), after.sizes()),
    )?;
    Ok((change, after))
}

#[cfg(test)]
mod tests {
    use super::*;
    use crate::cases::small::after;
    use crate::cases::{self, sample};
    use crate::model::file::read;
    use crate::model::standing::marked;

    /// A call with a program's own sheet: the answer, and what is left.
    fn with_own_sheet(
        function: Function,
        program: &Program,
        text: &[u8],
    ) -> (Answer<Repaired>, Held) {
        let mut held = Held::for_text(function.form(), program, text);
        let answer = repair_answer(function, &Ok(program.clone()), &mut held.lend());
        (answer, held)
    }

    #[test]
    fn cases_worked_out_by_hand() {
        for function in [RepairInsideOut, ExchangeInsideOut] {
            for case in cases::worked_out(function.form()) {
                let (answer, left) = with_own_sheet(function, &case.program, case.text);
                assert_eq!(answer.refusal, case.refusal, "{}", case.name);
                assert_eq!(answer.value.reopened, case.reopened, "{}", case.name);
                if case.refusal == 0 {
                    let sheet = left.new_sheet(function.form());
                    assert_eq!(marked(sheet), case.left, "{}", case.name);
                } else {
                    assert_eq!(marked(&left.sheet), case.left, "{}", case.name);
                    assert_eq!(answer, Answer::refused(case.refusal, 0), "{}", case.name);
                }
            }
        }
    }

    #[test]
    fn a_forward_repair_leaves_the_same_and_tells_of_no_routine() {
        for [forward, inside_out] in [REPAIRS, EXCHANGES] {
            for case in cases::worked_out(forward.form()) {
                let (answer, left) = with_own_sheet(forward, &case.program, case.text);
                let (told, same) = with_own_sheet(inside_out, &case.program, case.text);
                assert_eq!(answer.refusal, told.refusal, "{}", case.name);
                assert_eq!(answer.value.written, told.value.written, "{}", case.name);
                assert_eq!(answer.value.reopened, 0, "{}", case.name);
                assert!(left == same, "{}", case.name);
            }
        }
    }

    #[test]
    fn a_file_with_rows_is_repaired_as_its_program() {
        let reading = read(&cases::tables::completed::in_rows());
        let program = reading.clone().expect("the file is accepted");
        for function in [RepairInsideOut, ExchangeInsideOut] {
            for case in cases::tables::completed::repairs(function.form()) {
                let form = function.form();
                let mut held = Held::for_text(form, &program, case.text);
                let answer = repair_answer(function, &reading, &mut held.lend());
                let given = (answer.refusal, answer.line, answer.value.reopened);
                assert_eq!(given, (case.refusal, 0, case.reopened), "{}", case.name);
                let accepted = held.new_sheet(form);
                let sheet = if case.refusal == 0 {
                    accepted
                } else {
                    &held.sheet
                };
                assert_eq!(marked(sheet), case.left, "{}", case.name);
                let written = &held.output[..answer.value.written as usize];
                assert_eq!(written, case.written, "{}", case.name);
            }
        }
    }

    #[test]
    fn reopening_stops_where_pairs_stay() {
        let (program, drops) = cases::repairs::reopenings();
        for (line, reopened) in drops {
            let (answer, _) = with_own_sheet(RepairInsideOut, &program, line);
            assert_eq!((answer.refusal, answer.value.reopened), (0, reopened));
        }
    }

    #[test]
    fn an_accepted_call_leaves_the_new_file_and_the_rest_of_the_output() {
        let sample = sample::program();
        let mut held = Held::for_text(Form::Edit, &sample, b"2B00000102\n");
        held.output.push(7);
        let answer = repair_answer(RepairForward, &Ok(sample.clone()), &mut held.lend());
        let file = write(&after(&sample, "2B00000102"));
        assert_eq!((answer.refusal, answer.line), (0, 0));
        assert_eq!(answer.value.written as usize, file.len());
        assert_eq!(&held.output[..file.len()], file);
        assert!(held.output[file.len()..].iter().all(|&byte| byte == 7));
        assert_eq!(marked(&held.sheet), [0, 10, 19, 20, 27, 37]);
        assert!(held.work.iter().all(|&byte| byte == 0));
    }

    /// An accepted exchange leaves the old sheet alone and puts its own into the second buffer, longer or
    /// shorter than the old one.
    #[test]
    fn an_accepted_exchange_puts_its_sheet_into_the_second_buffer() {
        let sample = sample::program();
        for (text, length, work) in [("520104\n", 72, 72), ("520002\n", 36, 54)] {
            for function in EXCHANGES {
                let (answer, held) = with_own_sheet(function, &sample, text.as_bytes());
                assert_eq!((answer.refusal, answer.line), (0, 0));
                assert_eq!(held.sheet, own_sheet(&sample));
                let after = changed_by_text(Form::Exchange, &sample, text.as_bytes());
                assert_eq!(held.second, own_sheet(&after.expect("accepted")));
                assert_eq!(held.second.len(), length);
                assert_eq!(held.work, vec![0; work]);
            }
        }
    }

    /// The sheet that the sample has, and one that it does not have.
    fn sheets() -> [Vec<u8>; 2] {
        let own = own_sheet(&sample::program());
        let mut foreign = own.clone();
        foreign[53] = 1;
        [own, foreign]
    }

    const NOT_MET: &str = "50010101\n520002\n55010000000000\n450003\n";
    const MET_TWICE: &str = "50010201\n520002\n55010000000100\n55010000000101\n450004\n";
    const TOO_LARGE: &str = "50021001\n520002\n520121\n450003\n";

    #[test]
    fn a_refused_call_changes_nothing_but_the_working_buffer_after_17() {
        let [own, foreign] = sheets();
        let good = "2B00000102\n";
        let (most, length) = (OUTPUT_SIZE, 54);
        for (file, sheet, line, output, work, wanted) in [
            ("", &own[1..], "", 0, 0, (8, 1)),
            ("50\n", &own[1..], "", 0, 0, (3, 1)),
            (NOT_MET, &own[1..], "", 0, 0, (19, 0)),
            (MET_TWICE, &own[1..], "", 0, 0, (20, 0)),
            (TOO_LARGE, &own[1..], "", 0, 0, (23, 0)),
            ("F", &own[1..], "", 0, 0, (9, 0)),
            ("F", &own[..], "", most - 1, 0, (10, 0)),
            ("F", &foreign[..], "", most, length - 1, (11, 0)),
            ("F", &foreign[..], "", most, length + 1, (11, 0)),
            ("F", &foreign[..], "", most, length, (12, 0)),
            ("F", &foreign[..], "2B00000103\n", most, length, (13, 0)),
            ("F", &foreign[..], "2D00000102\n", most, length, (14, 0)),
            ("F", &foreign[..], "2B00004102\n", most, length, (15, 0)),
            ("F", &foreign[..], good, most, length, (17, 0)),
        ] {
            let lent = (sheet, line, [output, work, 0]);
            check_refused(RepairForward, file, lent, wanted);
        }
    }

    #[test]
    fn a_refused_exchange_changes_nothing_but_the_working_buffer_after_17() {
        let [own, foreign] = sheets();
        let (most, length) = (OUTPUT_SIZE, 54);
        for (file, sheet, text, [output, work, second], wanted) in [
            ("", &own[1..], "", [0, 0, 0], (8, 1)),
            (TOO_LARGE, &own[1..], "", [0, 0, 0], (23, 0)),
            ("F", &own[1..], "", [0, 0, 0], (9, 0)),
            ("F", &foreign[..], "", [most - 1, 0, 0], (10, 0)),
            ("F", &foreign[..], "2B00000102\n", [most, 0, 0], (12, 0)),
            ("F", &foreign[..], "520101\n", [most, 0, 0], (13, 0)),
            ("F", &foreign[..], "520102\n520102\n", [most, 0, 0], (21, 0)),
            ("F", &foreign[..], "520102\n", [most, 0, length - 1], (9, 0)),
            ("F", &foreign[..], "520102\n", [most, 0, length], (11, 0)),
            ("F", &foreign[..], "520104\n", [most, 54, 54], (9, 0)),
            ("F", &foreign[..], "520104\n", [most, 54, 72], (11, 0)),
            ("F", &foreign[..], "520104\n", [most, 72, 72], (17, 0)),
            ("F", &foreign[..], "520002\n", [most, 36, 36], (11, 0)),
            ("F", &foreign[..], "520002\n", [most, 54, 36], (17, 0)),
            ("F", &foreign[..], "520002\n", [most, 54, 54], (9, 0)),
            ("F", &foreign[..], "52003C\n", [most, 1080, 1080], (17, 0)),
        ] {
            let lent = (sheet, text, [output, work, second]);
            check_refused(ExchangeInsideOut, file, lent, wanted);
        }
    }

    /// A call with this sheet and text, and with an output, a working buffer and a second one of such
    /// lengths, is refused so, with this line.
    fn check_refused(
        function: Function,
        file: &str,
        (sheet, text, [output, work, second]): (&[u8], &str, [usize; 3]),
        (number, line): (u32, u32),
    ) {
        let file = if file == "F" {
            sample::FILE
        } else {
            file.as_bytes()
        };
        let mut held = Held {
            sheet: sheet.to_vec(),
            text: text.as_bytes().to_vec(),
            output: vec![7; output],
            work: vec![7; work],
            second: vec![7; second],
        };
        let mut wanted = held.clone();
        if number == 17 {
            wanted.work.fill(0);
        }
        let answer = repair_answer(function, &read(file), &mut held.lend());
        assert_eq!(answer, Answer::refused(number, line), "{text}");
        assert!(held == wanted, "{text}");
    }

    #[test]
    fn named_texts_get_the_answers_worked_out_by_hand() {
        for function in FUNCTIONS {
            for case in cases::named_texts(function.form()) {
                let program = read(&case.file).expect("the file is accepted");
                let (answer, _) = with_own_sheet(function, &program, &case.text);
                let given = (answer.refusal, answer.line);
                assert_eq!(given, (case.refusal, 0), "{}", case.name);
            }
        }
    }
}
