//! The proved library, called again and again with the same buffers.

use binding::{Answer, NO_LIMIT};
use reference::model::refusals::GAVE_UP;
use reference::model::standing::MOST_SHEET;
use reference::model::write::OUTPUT_SIZE;

/// A repair, which takes a file, marks, an edit line, an output and a working buffer.
pub type Repair<const N: usize> = fn(
    Option<&[u8]>,
    Option<&mut [u8]>,
    Option<&[u8]>,
    Option<&mut [u8]>,
    Option<&mut [u8]>,
) -> Answer<N>;

/// An exchange, which takes a file, the old marks, the text of an exchange, an output, a working buffer
/// and one for the new marks.
pub type Exchange<const N: usize> = fn(
    Option<&[u8]>,
    Option<&[u8]>,
    Option<&[u8]>,
    Option<&mut [u8]>,
    Option<&mut [u8]>,
    Option<&mut [u8]>,
) -> Answer<N>;

/// Room for the marks, the working buffer and the output of any program; a call is lent as much of it as
/// its program needs. Nobody clears it between calls.
pub struct Buffers {
    pub marks: Vec<u8>,
    pub work: Vec<u8>,
    pub output: Vec<u8>,
}

/// How long the marks of a file's program are.
pub fn marks_length(file: &[u8]) -> usize {
    let answer = binding::sizes(Some(file));
    assert_eq!(answer.refusal, 0, "the file is accepted");
    let [.., marks] = answer.values;
    marks as usize
}

impl Buffers {
    pub fn new() -> Buffers {
        Buffers {
            marks: vec![0xA5; MOST_SHEET],
            work: vec![0x5A; MOST_SHEET],
            output: vec![0xA5; OUTPUT_SIZE],
        }
    }

    /// The counts of standings, findings and takings of a file's program, whose marks are so long.
    pub fn analyze(&mut self, file: &[u8], length: usize) -> [u32; 3] {
        let counts = self.analyze_up_to(NO_LIMIT, file, length);
        counts.expect("without a limit it does not give up")
    }

    /// The same with a limit on the takings; None where it gives up.
    pub fn analyze_up_to(&mut self, limit: u64, file: &[u8], length: usize) -> Option<[u32; 3]> {
        let (marks, work) = (&mut self.marks[..length], &mut self.work[..length]);
        let answer = binding::analyze(Some(file), Some(marks), Some(work), limit);
        if answer.refusal == GAVE_UP {
            return None;
        }
        assert_eq!(answer.refusal, 0, "the file is accepted");
        Some(answer.values)
    }

    /// How many bytes a repair writes that begins from these marks. The new ones take their place.
    pub fn repair<const N: usize>(
        &mut self,
        by: Repair<N>,
        file: &[u8],
        old_marks: &[u8],
        line: &[u8],
    ) -> u32 {
        let length = old_marks.len();
        let (marks, work) = (&mut self.marks[..length], &mut self.work[..length]);
        marks.copy_from_slice(old_marks);
        let output = Some(&mut self.output[..]);
        let answer = by(Some(file), Some(marks), Some(line), output, Some(work));
        assert_eq!(answer.refusal, 0, "the change is accepted");
        answer.values[0]
    }

    /// How many bytes an exchange writes that begins from these marks and leaves so many new ones.
    pub fn exchange<const N: usize>(
        &mut self,
        by: Exchange<N>,
        file: &[u8],
        old_marks: &[u8],
        text: &[u8],
        new_length: usize,
    ) -> u32 {
        let longer = old_marks.len().max(new_length);
        let (work, marks) = (&mut self.work[..longer], &mut self.marks[..new_length]);
        let output = Some(&mut self.output[..]);
        let (file, text) = (Some(file), Some(text));
        let answer = by(file, Some(old_marks), text, output, Some(work), Some(marks));
        assert_eq!(answer.refusal, 0, "the change is accepted");
        answer.values[0]
    }
}
