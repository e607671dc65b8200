//! Fresh workings with a limit on the takings, worked out by hand.

use crate::cases::analyses::{entry_forbidden, main_calls_main, no_start};
use crate::cases::heard;
use crate::cases::sample;
use crate::cases::tables::completed;
use crate::model::calls::sheets::{Counts, NO_LIMIT};
use crate::model::calls::Answer;
use crate::model::refusals::GAVE_UP;
use crate::model::standing::marked;

/// How long the sheets of these programs are: all have the sample's sizes.
const LENGTH: usize = 54;

/// A file that is accepted, a limit, the answer, and the numbers that are marked then. Where the working
/// gives up, nothing is marked: the sheet stays as it was.
pub struct LimitCase {
    pub name: &'static str,
    pub file: Vec<u8>,
    pub limit: u64,
    pub answer: Answer<Counts>,
    pub standings: Vec<usize>,
}

impl LimitCase {
    /// Has the file worked in a sheet and a working buffer full of sevens, and looks at all that is left.
    pub fn check(&self, analyze: impl Fn(&[u8], &mut [u8], &mut [u8], u64) -> Answer<Counts>) {
        let (mut sheet, mut work) = (vec![7; LENGTH], vec![7; LENGTH]);
        let answer = analyze(&self.file, &mut sheet, &mut work, self.limit);
        assert_eq!(answer, self.answer, "{}", self.name);
        if answer.refusal == GAVE_UP {
            assert!(sheet.iter().all(|&byte| byte == 7), "{}", self.name);
        } else {
            assert!(sheet.iter().all(|&byte| byte <= 1), "{}", self.name);
            assert_eq!(marked(&sheet), self.standings, "{}", self.name);
        }
        assert!(work.iter().all(|&byte| byte == 0), "{}", self.name);
    }
}

fn gives_up(name: &'static str, file: &[u8], limit: u64) -> LimitCase {
    LimitCase {
        name,
        file: file.to_vec(),
        limit,
        answer: Answer::refused(GAVE_UP, 0),
        standings: Vec::new(),
    }
}

/// A working within its limit, with these standings, so many findings and so many takings.
fn answers(
    name: &'static str,
    file: &[u8],
    limit: u64,
    standings: &[usize],
    [findings, takings]: [u32; 2],
) -> LimitCase {
    let counts = Counts {
        standings: standings.len() as u32,
        findings,
        takings,
    };
    LimitCase {
        name,
        file: file.to_vec(),
        limit,
        answer: Answer::from(Ok(counts)),
        standings: standings.to_vec(),
    }
}

pub fn all() -> Vec<LimitCase> {
    let mut cases = of_the_sample();
    cases.extend(of_few_takings());
    cases.extend(of_other_files());
    cases
}

/// The sample takes 0, 27, 37, which wakes 0, then 0 again, 19 and 10: six takings of five standings.
fn of_the_sample() -> Vec<LimitCase> {
    let (file, five) = (sample::FILE, &sample::STANDINGS);
    let five_over_32_bits = (1 << 32) + 5;
    vec![
        gives_up("the sample, 0", file, 0),
        gives_up("the sample, 1", file, 1),
        gives_up("the sample, as many as standings", file, 5),
        answers("the sample, as many as takings", file, 6, five, [0, 6]),
        answers("the sample, 7", file, 7, five, [0, 6]),
        answers("over 32 bits", file, five_over_32_bits, five, [0, 6]),
        answers("no limit", file, NO_LIMIT, five, [0, 6]),
    ]
}

/// Without a start state nothing is taken, which no limit forbids.
fn of_few_takings() -> Vec<LimitCase> {
    let (none, one) = (&no_start(), &main_calls_main());
    vec![
        answers("P3, 0", none, 0, &[], [0, 0]),
        answers("P3, 1", none, 1, &[], [0, 0]),
        answers("P3, no limit", none, NO_LIMIT, &[], [0, 0]),
        gives_up("P7, 0", one, 0),
        answers("P7, 1", one, 1, &[0], [0, 1]),
        answers("P7, 2", one, 2, &[0], [0, 1]),
    ]
}

/// Giving up says nothing of findings, nor does it matter how the rule is put down. A taking that leads
/// nowhere counts: main's entry is taken again for an exit that nobody returns from.
fn of_other_files() -> Vec<LimitCase> {
    let (found, rows) = (&entry_forbidden(), &completed::in_rows());
    let (five, no_return) = (&sample::STANDINGS, &heard::no_return());
    let three = &[0, 27, 37];
    vec![
        gives_up("P4, 5", found, 5),
        answers("P4, 6", found, 6, five, [2, 6]),
        gives_up("rows, 5", rows, 5),
        answers("rows, 6", rows, 6, five, [0, 6]),
        gives_up("a return nobody makes, 3", no_return, 3),
        answers("a return nobody makes, 4", no_return, 4, three, [0, 4]),
    ]
}
