//! Lists of repair and exchange calls, played in two ways: each call by working afresh from the bytes
//! that it gets, and by the plain book, which knows nothing of bytes. The first file may have rows;
//! what an accepted call writes has none.
//!
//! An accepted exchange has put its sheet into the second buffer, which is the sheet from then on.

use crate::model::analysis::own_sheet;
use crate::model::book::{Book, Lengths};
use crate::model::calls::files::put;
use crate::model::calls::repairs::{repair_answer, Buffers, Function, Repaired};
use crate::model::calls::Answer;
use crate::model::change::Form;
use crate::model::file::read;
use crate::model::program::Program;
use crate::model::write::write;

/// One call of a list. File and sheet are what the calls before it have left.
#[derive(Clone, Debug)]
pub struct Call {
    pub function: Function,
    pub text: Vec<u8>,
    pub output: Vec<u8>,
    pub work: Vec<u8>,
    /// Of an exchange only.
    pub second: Vec<u8>,
}

impl Call {
    /// Whether the next call gets the second buffer for its sheet.
    pub fn goes_on_from_second(&self, refusal: u32) -> bool {
        self.function.form() == Form::Exchange && refusal == 0
    }
}

/// Everything that there is to see after a call. The sheet is the one that the call got.
#[derive(Clone, Debug, PartialEq, Eq)]
pub struct Seen {
    pub answer: Answer<Repaired>,
    pub sheet: Vec<u8>,
    pub output: Vec<u8>,
    pub work: Vec<u8>,
    pub second: Vec<u8>,
}

/// Plays a list call by call: the sheet goes from each to the next, and the file from each that is
/// accepted.
pub struct ByRepairs {
    file: Vec<u8>,
    sheet: Vec<u8>,
}

impl ByRepairs {
    /// A list that begins with a file of this program.
    pub fn new(first: &[u8], program: &Program) -> ByRepairs {
        ByRepairs {
            file: first.to_vec(),
            sheet: own_sheet(program),
        }
    }

    pub fn call(&mut self, call: &Call) -> Seen {
        let mut seen = Seen {
            answer: Answer::default(),
            sheet: self.sheet.clone(),
            output: call.output.clone(),
            work: call.work.clone(),
            second: call.second.clone(),
        };
        let lent = &mut Buffers {
            sheet: &mut seen.sheet,
            text: &call.text,
            output: &mut seen.output,
            work: &mut seen.work,
            second: &mut seen.second,
        };
        seen.answer = repair_answer(call.function, &read(&self.file), lent);
        if seen.answer.refusal == 0 {
            self.file = seen.output[..seen.answer.value.written as usize].to_vec();
        }
        self.sheet = match call.goes_on_from_second(seen.answer.refusal) {
            true => seen.second.clone(),
            false => seen.sheet.clone(),
        };
        seen
    }
}

/// Says what the calls of a list leave, by what the book notes.
pub struct ByBook {
    pub book: Book,
    pub sheet: Vec<u8>,
}

impl ByBook {
    pub fn new(program: &Program) -> ByBook {
        ByBook {
            sheet: own_sheet(program),
            book: Book {
                program: program.clone(),
            },
        }
    }

    pub fn call(&mut self, call: &Call) -> Seen {
        let before = self.book.program.clone();
        let lengths = Lengths {
            output: call.output.len(),
            work: call.work.len(),
            second: call.second.len(),
        };
        let noted = self.book.call(call.function.form(), &call.text, lengths);
        let mut seen = Seen {
            answer: Answer::default(),
            sheet: self.sheet.clone(),
            output: call.output.clone(),
            work: call.work.clone(),
            second: call.second.clone(),
        };
        match noted {
            Err(refusal) => seen.answer.refusal = refusal,
            Ok(change) => {
                let written = put(&write(&self.book.program), &mut seen.output);
                seen.work.fill(0);
                seen.answer.value = Repaired::new(call.function, &before, &change, written);
                self.sheet = own_sheet(&self.book.program);
                match call.function.form() {
                    Form::Edit => seen.sheet = self.sheet.clone(),
                    Form::Exchange => seen.second = self.sheet.clone(),
                }
            }
        }
        seen
    }
}

#[cfg(test)]
mod tests {
    use super::*;
    use crate::generate::calls::call;
    use crate::generate::length_classes::{ExchangeLengths, MetLengths};
    use crate::generate::met::Met;
    use crate::generate::programs::{program_of_seed, program_of_shape};
    use crate::generate::random::Random;
    use crate::generate::shapes::Shape;
    use crate::generate::tables::{complete_file, has_rows};
    use crate::model::calls::repairs::{EXCHANGES, FUNCTIONS, REPAIRS};
    use crate::model::refusals::{
        BAD_EDIT, BAD_LINE, EDIT_RANGE, EXCHANGE_ORDER, FILE_END, FOREIGN_SHEET, NOT_THERE,
        OUTPUT_SHORT, SHEET_LENGTH, SHEET_TOO_LARGE, STEPS_FULL, THERE_ALREADY, WORK_LENGTH,
    };

    /// A first file: half of them have rows.
    fn first_file(seed: u64, random: &mut Random, program: &Program) -> Vec<u8> {
        match seed % 2 {
            0 => write(program),
            _ => complete_file(random, program),
        }
    }

    /// What the calls of lists have met, by what they are, and those whose file had rows.
    #[derive(Debug, Default)]
    struct Tally {
        repairs: Met,
        exchanges: Met,
        with_rows: Met,
        lengths: MetLengths,
    }

    impl Tally {
        fn note(&mut self, function: Function, rows: bool, refusal: u32) {
            match function.form() {
                Form::Edit => self.repairs.note(refusal),
                Form::Exchange => self.exchanges.note(refusal),
            }
            if rows {
                self.with_rows.note(refusal);
            }
        }
    }

    fn first_program(seed: u64, random: &mut Random) -> Program {
        match seed % 18 {
            0 | 9 => program_of_shape(random, Shape::Crowded),
            1 => program_of_shape(random, Shape::Mixed),
            15 => program_of_shape(random, Shape::Long),
            16..=17 => program_of_shape(random, Shape::ManyStates),
            2..=4 => program_of_shape(random, Shape::Recursive),
            5..=7 => program_of_shape(random, Shape::Layered),
            8 => program_of_seed(seed),
            _ => program_of_shape(random, Shape::Tiny),
        }
    }

    /// A list of so many calls by these functions, by both ways.
    fn check_list(seed: u64, count: usize, functions: &[Function], tally: &mut Tally) {
        let random = &mut Random::new(seed);
        let program = first_program(seed, random);
        let first = first_file(seed, random, &program);
        let home = read(&first).expect("the first file is accepted");
        let (mut repairs, mut book) = (ByRepairs::new(&first, &home), ByBook::new(&home));
        for number in 0..count {
            let function = random.pick(functions);
            let call = call(random, function, &home, &book.book.program, &book.sheet);
            let rows = has_rows(&repairs.file);
            let now = book.book.program.clone();
            let lent = ExchangeLengths {
                sheet: book.sheet.len(),
                work: call.work.len(),
                second: call.second.len(),
            };
            let (given, wanted) = (repairs.call(&call), book.call(&call));
            assert_eq!(given.answer, wanted.answer, "seed {seed}, call {number}");
            assert!(given == wanted, "seed {seed}, call {number}");
            assert!(repairs.sheet == book.sheet, "seed {seed}, call {number}");
            let refusal = given.answer.refusal;
            tally.note(function, rows, refusal);
            if function.form() == Form::Exchange {
                tally.lengths.note(&now, &call.text, lent, refusal);
            }
        }
    }

    #[test]
    fn the_book_foretells_what_the_repairs_leave() {
        let mut tally = Tally::default();
        for seed in 0..150 {
            check_list(seed, 40, &REPAIRS, &mut tally);
        }
        println!("{tally:?}");
        tally.with_rows.check([0], 70);
        tally.repairs.check([0], 3000);
        tally.repairs.check(OUTPUT_SHORT..=STEPS_FULL, 20);
        let others = (BAD_LINE..=SHEET_LENGTH).chain([FOREIGN_SHEET]);
        let others = others.map(|number| tally.repairs.times(number));
        assert_eq!(others.sum::<usize>(), 0);
    }

    #[test]
    fn the_book_foretells_what_repairs_and_exchanges_leave() {
        let mut tally = Tally::default();
        for seed in 0..150 {
            let functions: &[Function] = if seed % 3 == 0 {
                &EXCHANGES
            } else {
                &FUNCTIONS
            };
            check_list(1000 + seed, 40, functions, &mut tally);
        }
        println!("{tally:?}");
        let texts = [BAD_EDIT, EDIT_RANGE, EXCHANGE_ORDER, STEPS_FULL];
        let exchanges = &tally.exchanges;
        let lengths = [SHEET_LENGTH, OUTPUT_SHORT, WORK_LENGTH, SHEET_TOO_LARGE];
        exchanges.check(texts.into_iter().chain(lengths), 20);
        tally.lengths.check_lists(15);
        exchanges.check([0], 1500);
        tally.repairs.check([0], 1000);
        tally.with_rows.check([0], 70);
        let met = |number| exchanges.times(number);
        let others = (BAD_LINE..=FILE_END).chain([NOT_THERE, THERE_ALREADY, FOREIGN_SHEET]);
        assert_eq!(others.map(met).sum::<usize>(), 0);
    }
}
