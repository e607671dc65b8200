//! A file to ask about, and what is lent with it. The comparisons of the fresh working, of the list of
//! findings, of the list of where runs are cut off and of moving saved sheets share this.

use super::lent::Lent;
use reference::generate::random::Random;
use reference::generate::sheets;
use reference::model::analysis::NONE;
use reference::model::file::{read, Reading};
use reference::model::program::Program;
use reference::model::refusals::FileRefusal;
use reference::model::standing::MOST_SHEET;

/// One file with what the reference knows of it, and where all that varies comes from.
pub struct Case<T> {
    pub name: String,
    pub file: Vec<u8>,
    pub reading: Reading,
    pub known: Result<T, FileRefusal>,
    pub random: Random,
}

impl<T> Case<T> {
    pub fn new(name: String, file: Vec<u8>, seed: u64, know: impl Fn(&Program) -> T) -> Case<T> {
        let reading = read(&file);
        Case {
            name,
            known: reading.as_ref().map(know).map_err(FileRefusal::clone),
            reading,
            file,
            random: Random::new(!seed),
        }
    }

    pub fn input(&self) -> String {
        format!("{}: {}", self.name, self.file.escape_ascii())
    }

    /// How long its buffers have to be. Where the file is refused, any length will do.
    pub fn length(&mut self) -> usize {
        match &self.reading {
            Ok(program) => program.sizes().length(),
            Err(_) => self.random.pick(&[2, 54, MOST_SHEET]),
        }
    }

    /// A buffer of that length.
    pub fn lent(&mut self) -> Lent {
        let length = self.length();
        Lent::of_length(&mut self.random, length)
    }

    /// A sheet and a working buffer of any length, at least one of them a wrong one.
    pub fn lent_wrongly(&mut self) -> (Lent, Lent) {
        let right = self.length();
        let (sheet, work) = sheets::wrong_lengths(&mut self.random, right);
        let sheet = Lent::of_length(&mut self.random, sheet);
        (sheet, Lent::of_length(&mut self.random, work))
    }

    /// A sheet that is not the program's own, made in one of the ways; None where this way gives none.
    pub fn foreign(&mut self, own: &[u8], way: usize) -> Option<Lent> {
        let program = self.reading.as_ref().expect("the file is accepted");
        let sheet = sheets::foreign(&mut self.random, program, own, way)?;
        Some(Lent::new(&mut self.random, &sheet))
    }

    /// A number to ask from, where these are listed: the lowest, at one of these or beside it, at the
    /// end of a sheet and beyond.
    pub fn some_number(&mut self, listed: &[u32]) -> u32 {
        let random = &mut self.random;
        let one = match listed.len() {
            0 => random.below(MOST_SHEET) as u32,
            count => listed[random.below(count)],
        };
        let last = listed.last().map_or(0, |&last| last + 1);
        let any = random.number() as u32;
        let below = one.saturating_sub(1);
        let near = random.pick(&[one, one, one + 1, below, last, 0]);
        let far = random.pick(&[0, 16_383, 16_384, 16_385, 65_536, NONE - 1, NONE, any]);
        random.pick(&[near, near, far])
    }
}
