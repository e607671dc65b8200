//! Single calls, held against the reference. The comparisons of all four functions share this.

use super::lent::{self, Lending, Lent};
use reference::cases::{self, sample};
use reference::generate::calls::call;
use reference::generate::damage::damage;
use reference::generate::edits;
use reference::generate::files::file_of_seed;
use reference::generate::hearing::{Heard, MetHearing};
use reference::generate::length_classes::{ExchangeLengths, MetLengths};
use reference::generate::met::{Met, Times};
use reference::generate::programs::program_by_shares;
use reference::generate::random::Random;
use reference::generate::shapes::Shape;
use reference::generate::sheets;
use reference::generate::size_classes::MetSizes;
use reference::generate::tables::{complete_file, file_with_rows_of_seed, has_rows};
use reference::generate::text_classes::{Exchanging, MetTexts};
use reference::model::analysis::own_sheet;
use reference::model::calls::repairs::{lengths, repair_answer, Function, Held, Repaired};
use reference::model::calls::Answer;
use reference::model::change::{changed_by_text, Form};
use reference::model::edit::{edit_of_line, edited_by_line, Edit};
use reference::model::file::{read, Reading};
use reference::model::lists::Call;
use reference::model::program::Program;
use reference::model::refusals::{EDIT_RANGE, FOREIGN_SHEET};
use reference::model::standing::marked;
use reference::model::write::{write, OUTPUT_SIZE};

/// What the comparisons have met.
#[derive(Debug, Default)]
pub struct Tally {
    pub calls: usize,
    pub lists: usize,
    pub met: Met,
    /// The same by the function that was called, and of the calls whose file has rows.
    pub functions: Times<(Function, u32)>,
    pub rows: Met,
    /// Accepted edits by what they did, and accepted calls that changed the sheet.
    pub adds: usize,
    pub drops: usize,
    pub replaces: usize,
    pub changed: usize,
    /// Inside-out calls that reopened no routine, one, and more than one.
    pub reopened: [usize; 3],
    /// Exchanges, by their texts and by the lengths of what is lent to them.
    pub texts: MetTexts,
    pub lengths: MetLengths,
    /// Files by their sizes.
    pub sizes: MetSizes,
    /// Accepted calls by what the rule hears, and edit lines refused for the label of a return.
    pub hearing: MetHearing,
    pub return_labels: usize,
    /// The most marks that a sheet of a list had.
    pub largest_sheet: usize,
}

impl Tally {
    /// Notes a call: the function, the reading of its file, what it got, answered and left.
    pub fn note(
        &mut self,
        function: Function,
        reading: &Reading,
        got: &Lending,
        answer: &Answer<Repaired>,
        left: &Lending,
    ) {
        let refusal = answer.refusal;
        self.calls += 1;
        self.met.note(refusal);
        self.functions.note([(function, refusal)]);
        if has_rows(&got.file) {
            self.rows.note(refusal);
        }
        let after = sheet_after(function, refusal, left);
        self.changed += usize::from(got.sheet.content() != after);
        self.sizes.note(&got.file, reading);
        if function.is_inside_out() && refusal == 0 {
            let routines = answer.value.reopened.count_ones().min(2);
            self.reopened[routines as usize] += 1;
        }
        match (reading, function.form()) {
            (Ok(before), _) if refusal == 0 => self.hearing.note(before, got.sheet.content()),
            (Ok(before), Form::Edit) if refusal == EDIT_RANGE => {
                let is_return = edits::has_return_label(before, &got.text);
                self.return_labels += usize::from(is_return);
            }
            _ => {}
        }
        match (reading, function.form()) {
            (Ok(before), Form::Edit) if refusal == 0 => self.note_edit(before, &got.text),
            (Ok(before), Form::Exchange) => {
                let exchanging = Exchanging::new(before, &got.text, got.sheet.content(), after);
                self.texts.note(function, refusal, &exchanging);
                self.note_lengths(before, got, refusal);
            }
            _ => {}
        }
    }

    /// Notes the lengths of what an exchange got.
    fn note_lengths(&mut self, before: &Program, got: &Lending, refusal: u32) {
        let lent = ExchangeLengths {
            sheet: got.sheet.content().len(),
            work: got.work.content().len(),
            second: got.second.content().len(),
        };
        self.lengths.note(before, &got.text, lent, refusal);
    }

    /// Notes what an accepted line does.
    fn note_edit(&mut self, before: &Program, line: &[u8]) {
        match edit_of_line(before, line) {
            Ok(Edit::Add(_)) => self.adds += 1,
            Ok(Edit::Drop(_)) => self.drops += 1,
            Ok(Edit::Replace(..)) => self.replaces += 1,
            Err(_) => {}
        }
    }

    /// Each kind of edit has to be accepted so many times at the least.
    pub fn check_edits(&self, least: usize) {
        assert!(
            self.adds.min(self.drops).min(self.replaces) >= least,
            "{self:?}"
        );
    }

    /// So many calls have to be accepted, and so many of them to change the sheet.
    pub fn check_accepted(&self, accepted: usize, changed: usize) {
        assert!(self.met.times(0) >= accepted, "{self:?}");
        assert!(self.changed >= changed, "{self:?}");
    }

    /// Each class of rules by what they hear has to be met so many times by accepted calls, and rules
    /// that hear nothing by a fifth of these.
    pub fn check_hearing(&self, least: usize) {
        self.hearing.check(least);
        let accepted = self.met.times(0);
        let deaf = self.hearing.times(Heard::Nothing);
        assert!(deaf >= accepted / 5 && deaf <= accepted * 3 / 5, "{self:?}");
    }

    /// Calls that reopen no routine, one, or more have each to be met so many times.
    pub fn check_reopened(&self, least: usize) {
        assert!(
            self.reopened.iter().all(|&times| times >= least),
            "{self:?}"
        );
    }
}

/// The sheet that there is after a call with this answer.
fn sheet_after(function: Function, refusal: u32, left: &Lending) -> &[u8] {
    match (function.form(), refusal) {
        (Form::Exchange, 0) => left.second.content(),
        _ => left.sheet.content(),
    }
}

/// The same of what is held.
fn sheet_held(function: Function, refusal: u32, held: &Held) -> &[u8] {
    match refusal {
        0 => held.new_sheet(function.form()),
        _ => &held.sheet,
    }
}

/// A call of the library alone, with the program's own sheet: the answer, the numbers marked, and the
/// file written.
pub fn repaired(
    function: Function,
    program: &Program,
    text: &[u8],
) -> (Answer<Repaired>, Vec<usize>, Vec<u8>) {
    let mut held = Held::for_text(function.form(), program, text);
    let answer = super::call(function, &write(program), &mut held.lend());
    assert_eq!(answer.line, 0);
    let rest = held.output.split_off(answer.value.written as usize);
    assert!(rest.iter().all(|&byte| byte == 7));
    let marks = marked(sheet_held(function, answer.refusal, &held));
    (answer, marks, held.output)
}

/// What a call of a list gets.
pub fn lending(random: &mut Random, file: &[u8], sheet: &[u8], call: &Call) -> Lending {
    Lending {
        file: file.to_vec(),
        sheet: Lent::new(random, sheet),
        text: call.text.clone(),
        output: Lent::new(random, &call.output),
        work: Lent::new(random, &call.work),
        second: Lent::new(random, &call.second),
    }
}

/// One call by the library and by the reference.
pub fn compare(
    name: &str,
    function: Function,
    lending: &Lending,
    reading: &Reading,
    tally: &mut Tally,
) {
    let (answer, left) = lent::compare(
        name,
        lending,
        |file, lent| super::call(function, file, lent),
        |lent| repair_answer(function, reading, lent),
    );
    tally.note(function, reading, lending, &answer, &left);
}

/// The same with a program's own sheet and with buffers of the right lengths.
pub fn compare_text(
    name: &str,
    function: Function,
    program: &Program,
    text: &[u8],
    random: &mut Random,
    tally: &mut Tally,
) {
    let [work, second] = lengths(function.form(), program, text);
    let call = Call {
        function,
        text: text.to_vec(),
        output: random.content(OUTPUT_SIZE),
        work: random.content(work),
        second: random.content(second),
    };
    let lending = lending(random, &write(program), &own_sheet(program), &call);
    compare(name, function, &lending, &Ok(program.clone()), tally);
}

/// A program to be edited.
pub fn home(random: &mut Random) -> Program {
    let shares = [
        (350, Shape::Tiny),
        (230, Shape::Recursive),
        (230, Shape::Layered),
        (80, Shape::Mixed),
        (68, Shape::Crowded),
        (2, Shape::Wide),
        (2, Shape::Full),
        (20, Shape::Long),
        (12, Shape::ManyStates),
        (4, Shape::Ruled),
        (4, Shape::Largest),
    ];
    program_by_shares(random, &shares)
}

/// Where the files of single calls come from: one that is accepted, and any other of a seed.
pub struct Files {
    home: fn(&mut Random) -> Vec<u8>,
    other: fn(u64) -> Vec<u8>,
}

/// Files whose rule is in lines, and files with rows.
pub const IN_LINES: Files = Files {
    home: |random| write(&home(random)),
    other: file_of_seed,
};
pub const IN_ROWS: Files = Files {
    home: |random| {
        let program = home(random);
        complete_file(random, &program)
    },
    other: file_with_rows_of_seed,
};

/// So many single calls about one program, each by all of these functions, which take texts of one
/// form: the file may be damaged, and the sheet foreign or of another length.
pub fn single_calls(
    seed: u64,
    count: usize,
    functions: &[Function],
    files: &Files,
    tally: &mut Tally,
) {
    let random = &mut Random::new(seed);
    let file = (files.home)(random);
    let program = read(&file).expect("the file is accepted");
    let own = own_sheet(&program);
    for number in 0..count {
        let name = format!("seed {seed}, call {number}");
        let (file, reading) = some_file(random, files, &file, &program);
        let call = call(random, functions[0], &program, &program, &own);
        let sheet = some_sheet(random, &program, &own, &call);
        let lending = lending(random, &file, &sheet, &call);
        for &function in functions {
            compare(&name, function, &lending, &reading, tally);
        }
    }
}

/// The file, or at times a damaged one or quite another, with its reading.
fn some_file(
    random: &mut Random,
    files: &Files,
    file: &[u8],
    program: &Program,
) -> (Vec<u8>, Reading) {
    let other = match random.below(100) {
        0..=7 => damage(random, file),
        8..=19 => (files.other)(random.number()),
        _ => return (file.to_vec(), Ok(program.clone())),
    };
    let reading = read(&other);
    (other, reading)
}

/// The program's own sheet, or at times a foreign one or one of another length.
fn some_sheet(random: &mut Random, program: &Program, own: &[u8], call: &Call) -> Vec<u8> {
    match random.below(100) {
        0..=4 => {
            let length = sheets::wrong_length(random, own.len());
            random.content(length)
        }
        5..=14 => foreign_sheet(random, program, own, call),
        _ => own.to_vec(),
    }
}

/// A foreign sheet where there is one to be had: made at random, or the sheet that the program had
/// before a change, or will have after one, this call's or another. An exchange may leave one of another
/// length, which is refused for that.
pub fn foreign_sheet(random: &mut Random, program: &Program, own: &[u8], call: &Call) -> Vec<u8> {
    if random.percent(50) {
        let way = random.below(sheets::FOREIGN);
        return sheets::foreign(random, program, own, way).unwrap_or_else(|| own.to_vec());
    }
    let line = edits::edit_in_range(random, program);
    let other = if random.percent(50) {
        edited_by_line(program, &line)
    } else {
        changed_by_text(call.function.form(), program, &call.text)
    };
    match other {
        Ok(other) => own_sheet(&other),
        Err(_) => own.to_vec(),
    }
}

/// The set of reopened routines that a function tells of: a forward one of none.
fn told(function: Function, reopened: u32) -> u32 {
    if function.is_inside_out() {
        reopened
    } else {
        0
    }
}

/// The changes that are worked out by hand.
pub fn worked_out(function: Function) {
    let form = function.form();
    for case in cases::worked_out(form) {
        let (answer, left, file) = repaired(function, &case.program, case.text);
        let given = (answer.refusal, answer.value.reopened);
        let wanted = (case.refusal, told(function, case.reopened));
        assert_eq!(given, wanted, "{}", case.name);
        assert_eq!(left, case.left, "{}", case.name);
        let after = changed_by_text(form, &case.program, case.text);
        let wanted = after.map_or(Vec::new(), |after| write(&after));
        assert_eq!(file, wanted, "{}", case.name);
    }
}

/// The changes of a file with rows that are worked out by hand: what is written is in lines.
pub fn worked_out_from_rows(function: Function) {
    let file = cases::tables::completed::in_rows();
    let program = read(&file).expect("the file is accepted");
    for case in cases::tables::completed::repairs(function.form()) {
        let mut held = Held::for_text(function.form(), &program, case.text);
        let answer = super::call(function, &file, &mut held.lend());
        let given = (answer.refusal, answer.line, answer.value.reopened);
        let wanted = (case.refusal, 0, told(function, case.reopened));
        assert_eq!(given, wanted, "{}", case.name);
        let sheet = sheet_held(function, answer.refusal, &held);
        assert_eq!(marked(sheet), case.left, "{}", case.name);
        let written = &held.output[..answer.value.written as usize];
        assert_eq!(written, case.written, "{}", case.name);
    }
}

/// The texts that are known by name.
pub fn named_texts(function: Function) {
    let mut tally = Tally::default();
    for case in cases::named_texts(function.form()) {
        let program = read(&case.file).expect("the file is accepted");
        let (answer, _, file) = repaired(function, &program, &case.text);
        assert_eq!(answer.refusal, case.refusal, "{}", case.name);
        assert_eq!(file.is_empty(), case.refusal != 0, "{}", case.name);
        let random = &mut Random::new(0);
        compare_text(
            &case.name, function, &program, &case.text, random, &mut tally,
        );
    }
}

/// The same with a foreign sheet, which is judged after all that is judged of a text.
pub fn named_texts_on_foreign_sheets(function: Function) {
    for case in cases::named_texts(function.form()) {
        let program = read(&case.file).expect("the file is accepted");
        let mut held = Held::for_text(function.form(), &program, &case.text);
        let last = held.sheet.len() - 1;
        held.sheet[last] ^= 2;
        let mut wanted = held.clone();
        let refusal = match case.refusal {
            0 => FOREIGN_SHEET,
            refusal => refusal,
        };
        if refusal == FOREIGN_SHEET {
            wanted.work.fill(0);
        }
        let answer = super::call(function, &case.file, &mut held.lend());
        assert_eq!(answer, Answer::refused(refusal, 0), "{}", case.name);
        assert!(held == wanted, "{}", case.name);
    }
}

/// Calls with NULL for every buffer that is not there yet, the buffers coming one by one.
pub fn no_bytes(function: Function) {
    let text = match function.form() {
        Form::Edit => &b""[..],
        Form::Exchange => b"520104\n",
    };
    let (file, most) = (sample::FILE, OUTPUT_SIZE);
    let calls = match function.form() {
        Form::Edit => [
            ([54, most, 0, 0], text, 11),
            ([54, most, 54, 0], text, 12),
            ([54, most, 54, 0], text, 12),
        ],
        Form::Exchange => [
            ([54, most, 0, 0], &b""[..], 12),
            ([54, most, 0, 0], text, 9),
            ([54, most, 0, 72], text, 11),
        ],
    };
    let first = [([0; 4], text, 9), ([54, 0, 0, 0], text, 10)];
    no_bytes_of(function, b"", ([0; 4], text), (8, 1));
    for (lengths, text, refusal) in first.into_iter().chain(calls) {
        no_bytes_of(function, file, (lengths, text), (refusal, 0));
    }
}

/// A call with a sheet, an output, a working buffer and a second one of these lengths.
fn no_bytes_of(
    function: Function,
    file: &[u8],
    ([sheet, output, work, second], text): ([usize; 4], &[u8]),
    (refusal, line): (u32, u32),
) {
    let mut held = Held {
        sheet: vec![0; sheet],
        text: text.to_vec(),
        output: vec![0; output],
        work: vec![0; work],
        second: vec![0; second],
    };
    let answer = super::call(function, file, &mut held.lend());
    assert_eq!(answer, Answer::refused(refusal, line));
}
