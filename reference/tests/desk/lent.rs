//! What is lent to a call, so that it shows if more is read or changed than was lent, and the
//! comparison of a call by the library with the same call by the reference.

use reference::generate::random::Random;
use reference::model::calls::repairs::Buffers;
use reference::model::calls::Answer;
use std::fmt::Debug;
use std::ops::Range;

/// Bytes before and after each buffer that nobody may change.
pub const MARGIN: usize = 64;

/// A buffer with its margins.
#[derive(Clone)]
pub struct Lent {
    bytes: Vec<u8>,
    inside: Range<usize>,
}

impl Lent {
    /// A buffer from bytes of which the first and the last are its margins.
    pub fn with_margins(bytes: Vec<u8>) -> Lent {
        Lent {
            inside: MARGIN..bytes.len() - MARGIN,
            bytes,
        }
    }

    pub fn new(random: &mut Random, content: &[u8]) -> Lent {
        let margin = |random: &mut Random| (0..MARGIN).map(|_| random.byte()).collect::<Vec<u8>>();
        Lent::with_margins([margin(random), content.to_vec(), margin(random)].concat())
    }

    /// A buffer of so many bytes with some content: all alike, such as a sheet has, or any.
    pub fn of_length(random: &mut Random, length: usize) -> Lent {
        let content = random.content(length);
        Lent::new(random, &content)
    }

    /// A buffer of no bytes.
    pub fn nothing() -> Lent {
        Lent::with_margins(vec![0xA5; 2 * MARGIN])
    }

    pub fn content(&self) -> &[u8] {
        &self.bytes[self.inside.clone()]
    }

    pub fn content_mut(&mut self) -> &mut [u8] {
        &mut self.bytes[self.inside.clone()]
    }

    /// Where this buffer differs from another of the same length, margins and all: the place,
    /// counted from the start of the content, and the two bytes.
    fn difference(&self, wanted: &Lent) -> Option<(isize, u8, u8)> {
        let mut places = 0..wanted.bytes.len();
        let at = places.find(|&at| self.bytes[at] != wanted.bytes[at])?;
        let from_start = at as isize - MARGIN as isize;
        Some((from_start, self.bytes[at], wanted.bytes[at]))
    }
}

/// All that a call may get. Each call takes a part of it.
#[derive(Clone)]
pub struct Lending {
    pub file: Vec<u8>,
    pub sheet: Lent,
    pub text: Vec<u8>,
    pub output: Lent,
    pub work: Lent,
    pub second: Lent,
}

impl Lending {
    /// For a call that takes no more than a file.
    pub fn file(file: &[u8]) -> Lending {
        Lending {
            file: file.to_vec(),
            sheet: Lent::nothing(),
            text: Vec::new(),
            output: Lent::nothing(),
            work: Lent::nothing(),
            second: Lent::nothing(),
        }
    }

    /// For a call that takes a file and the text of an exchange.
    pub fn text(file: &[u8], text: &[u8]) -> Lending {
        Lending {
            text: text.to_vec(),
            ..Lending::file(file)
        }
    }

    /// For a call that takes a file and an output.
    pub fn output(file: &[u8], output: Lent) -> Lending {
        Lending {
            output,
            ..Lending::file(file)
        }
    }

    /// For a call that takes a file, a sheet and a working buffer.
    pub fn sheet(file: &[u8], sheet: &Lent, work: &Lent) -> Lending {
        Lending {
            sheet: sheet.clone(),
            work: work.clone(),
            ..Lending::file(file)
        }
    }

    /// Calls the library, with bytes after the file and the text that do not belong to them.
    pub fn call<V>(&mut self, library: impl Fn(&[u8], &mut Buffers) -> Answer<V>) -> Answer<V> {
        let (file, text) = (with_end_after(&self.file), with_line_after(&self.text));
        let answer = library(
            &file[..self.file.len()],
            &mut Buffers {
                sheet: self.sheet.content_mut(),
                text: &text[..self.text.len()],
                output: self.output.content_mut(),
                work: self.work.content_mut(),
                second: self.second.content_mut(),
            },
        );
        assert!(file == with_end_after(&self.file), "the file was changed");
        assert!(text == with_line_after(&self.text), "the text was changed");
        answer
    }

    /// Calls the reference.
    fn foretell<V>(&mut self, reference: impl Fn(&mut Buffers) -> Answer<V>) -> Answer<V> {
        reference(&mut Buffers {
            sheet: self.sheet.content_mut(),
            text: &self.text,
            output: self.output.content_mut(),
            work: self.work.content_mut(),
            second: self.second.content_mut(),
        })
    }

    pub fn input(&self, name: &str) -> String {
        let (text, file) = (self.text.escape_ascii(), self.file.escape_ascii());
        format!("{name}: text {text}, file {file}")
    }

    /// Every byte that was lent, margins and all, has to be as it should.
    pub fn check_bytes(&self, wanted: &Lending, name: &str) {
        for (what, given, wanted) in [
            ("sheet", &self.sheet, &wanted.sheet),
            ("output", &self.output, &wanted.output),
            ("working buffer", &self.work, &wanted.work),
            ("second buffer", &self.second, &wanted.second),
        ] {
            if let Some((at, given, wanted)) = given.difference(wanted) {
                let input = self.input(name);
                panic!("the {what} has {given} and not {wanted} at {at}, {input}");
            }
        }
    }
}

/// A file with bytes after it that would mend it if they were read.
fn with_end_after(file: &[u8]) -> Vec<u8> {
    [file, b"\n450000\n"].concat()
}

/// A text with bytes after it: they would mend one that lacks its last 0A, and spoil one that does not.
fn with_line_after(text: &[u8]) -> Vec<u8> {
    [text, b"\n2B00000001\n"].concat()
}

/// One call by the library and by the reference, in buffers that were the same. Every number of the
/// answer is compared, and every byte that was lent; what is left of it is handed back.
pub fn compare<V: PartialEq + Debug>(
    name: &str,
    lending: &Lending,
    library: impl Fn(&[u8], &mut Buffers) -> Answer<V>,
    reference: impl Fn(&mut Buffers) -> Answer<V>,
) -> (Answer<V>, Lending) {
    let (mut given, mut wanted) = (lending.clone(), lending.clone());
    let given_answer = given.call(library);
    let wanted_answer = wanted.foretell(reference);
    assert_eq!(given_answer, wanted_answer, "{}", lending.input(name));
    given.check_bytes(&wanted, name);
    (given_answer, given)
}
