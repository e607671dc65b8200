//! Lists of calls, held against the book. The comparisons of all four functions share this.

use super::lent::Lending;
use super::trial::{compare, foreign_sheet, lending, Tally};
use reference::generate::calls::call;
use reference::generate::random::Random;
use reference::generate::shapes::{shape_in_turn, Shape, Shares};
use reference::model::analysis::{analyze, own_sheet};
use reference::model::calls::repairs::Function;
use reference::model::file::read;
use reference::model::lists::{ByBook, Seen};
use reference::model::program::Program;
use reference::model::refusals::{FOREIGN_SHEET, OUTPUT_SHORT};
use reference::model::standing::marked;

/// How lists of calls are made. Each is by one of the rows of functions, in turn, with shapes by their
/// shares, also in turn.
pub struct Lists<'a> {
    pub first_seed: u64,
    pub lists: u64,
    pub calls: usize,
    /// The file with which a list begins, of a program of this shape.
    pub first_file: fn(&mut Random, Shape) -> Vec<u8>,
    pub shares: &'a Shares,
    pub functions: &'a [&'a [Function]],
    /// For a list of one large program.
    pub large: &'a [Function],
}

/// How often each refusal has to be met, so that agreeing on it means something.
const OFTEN: usize = 20;

/// A file of a full program with thousands of standings.
fn large_file(plan: &Lists) -> Vec<u8> {
    let mut full = (0..).map(|seed| (plan.first_file)(&mut Random::new(seed), Shape::Full));
    let large = full.find(|file| analyze(&accepted(file)).standings() >= 5_000);
    large.expect("some are large")
}

fn accepted(file: &[u8]) -> Program {
    read(file).expect("the first file is accepted")
}

/// Many lists of calls, by the library and by the book.
pub fn compare_lists(plan: &Lists, tally: &mut Tally) {
    for number in 0..plan.lists {
        let random = &mut Random::new(plan.first_seed + number);
        let shape = shape_in_turn(number as usize, plan.shares);
        let first = (plan.first_file)(random, shape);
        let functions = plan.functions[number as usize % plan.functions.len()];
        let name = format!("list {number}");
        list(&name, &first, plan.calls, functions, random, tally);
    }
    let random = &mut Random::new(plan.lists);
    list("large", &large_file(plan), 15, plan.large, random, tally);
    let refusals = (OUTPUT_SHORT..=FOREIGN_SHEET).chain([0]);
    tally.met.check(refusals, OFTEN);
    assert!(tally.largest_sheet >= 3_000, "{tally:?}");
}

/// A list of so many calls that begins with this file. At times a call that is no part of it comes in
/// between.
fn list(
    name: &str,
    first: &[u8],
    count: usize,
    functions: &[Function],
    random: &mut Random,
    tally: &mut Tally,
) {
    let home = &accepted(first);
    let mut list = List {
        home,
        functions,
        book: ByBook::new(home),
        file: first.to_vec(),
        sheet: own_sheet(home),
    };
    for number in 0..count {
        let name = format!("{name}, call {number}");
        if random.percent(6) {
            list.stray_call(&name, random, tally);
        }
        list.call(&name, random, tally);
        let marks = marked(&list.sheet).len();
        tally.largest_sheet = tally.largest_sheet.max(marks);
    }
    tally.lists += 1;
}

/// A list as it goes on: the book, and the file and the sheet as the library has left them.
struct List<'a> {
    home: &'a Program,
    functions: &'a [Function],
    book: ByBook,
    file: Vec<u8>,
    sheet: Vec<u8>,
}

impl List<'_> {
    /// The next call, by the library and by the book.
    fn call(&mut self, name: &str, random: &mut Random, tally: &mut Tally) {
        let now = self.book.book.program.clone();
        let function = random.pick(self.functions);
        let call = call(random, function, self.home, &now, &self.book.sheet);
        let lending = lending(random, &self.file, &self.sheet, &call);
        let (mut given, mut wanted) = (lending.clone(), lending.clone());
        let answer = given.call(|file, lent| super::call(function, file, lent));
        let seen = self.book.call(&call);
        assert_eq!(answer, seen.answer, "{}", given.input(name));
        expect(&mut wanted, &seen);
        given.check_bytes(&wanted, name);
        tally.note(function, &Ok(now), &lending, &answer, &given);
        if answer.refusal == 0 {
            self.file = given.output.content()[..answer.value.written as usize].to_vec();
        }
        let sheet = match call.goes_on_from_second(answer.refusal) {
            true => &given.second,
            false => &given.sheet,
        };
        self.sheet = sheet.content().to_vec();
        assert!(self.sheet == self.book.sheet, "{}", given.input(name));
    }

    /// A call in the midst of a list that is no part of it: with a foreign sheet. It leaves no
    /// trace.
    fn stray_call(&self, name: &str, random: &mut Random, tally: &mut Tally) {
        let now = &self.book.book.program;
        let function = random.pick(self.functions);
        let call = call(random, function, now, now, &self.sheet);
        let sheet = foreign_sheet(random, now, &self.sheet, &call);
        let lending = lending(random, &self.file, &sheet, &call);
        compare(name, function, &lending, &Ok(now.clone()), tally);
    }
}

/// Puts into the buffers what the book says of them.
fn expect(lending: &mut Lending, seen: &Seen) {
    lending.sheet.content_mut().copy_from_slice(&seen.sheet);
    lending.output.content_mut().copy_from_slice(&seen.output);
    lending.work.content_mut().copy_from_slice(&seen.work);
    lending.second.content_mut().copy_from_slice(&seen.second);
}
