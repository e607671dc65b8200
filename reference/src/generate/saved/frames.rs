//! Damage to the frames of a saved sheet. At times the count of the end frame is made right afterwards, so
//! that it is not what tells.

use crate::generate::damage::{correct_end_count, damage_bytes, lines_of, Lines};
use crate::generate::random::Random;
use crate::generate::saved::other_program;
use crate::model::kinds::{EDITS, END, FRAMES, STANDING};
use crate::model::lines::{line_of, numbers_of_line};
use crate::model::saved::{Saved, FORMER_SIZES, OLD_SHEET};
use crate::model::standing::Standing;
use crate::model::write::{end, frame};

/// What is done to frames, so that they are not the program's own.
#[derive(Clone, Copy, Debug, PartialEq, Eq, PartialOrd, Ord)]
pub enum FramesDamage {
    /// Standings are left out, come twice, or stand in each other's place.
    LeftOut,
    Doubled,
    Exchanged,
    /// A standing more: one in range, and one that is not.
    OneMore,
    OutOfRange,
    /// A standing with one of its numbers changed.
    OtherNumber,
    /// The count's high number, its low one, or the two exchanged.
    HighCount,
    LowCount,
    CountExchanged,
    /// No end frame, two of them, one before the last standing, and anything after it.
    NoEnd,
    TwoEnds,
    EndEarly,
    AfterEnd,
    /// A line without its 0A, the last one or another.
    NoLastByte,
    TwoInOneLine,
    /// A line that has no frame, in the place of one that has, or beside it.
    LowerCase,
    OddDigits,
    OtherCharacter,
    EmptyLine,
    /// A line of another kind, or with a number too few or too many.
    OtherKind,
    NumberLess,
    NumberMore,
    /// Nothing at all, another program's frames, and any damage to the bytes.
    Nothing,
    OtherProgram,
    AnyByte,
}

use FramesDamage::*;

pub const FRAMES_DAMAGES: [FramesDamage; 25] = [
    LeftOut,
    Doubled,
    Exchanged,
    OneMore,
    OutOfRange,
    OtherNumber,
    HighCount,
    LowCount,
    CountExchanged,
    NoEnd,
    TwoEnds,
    EndEarly,
    AfterEnd,
    NoLastByte,
    TwoInOneLine,
    LowerCase,
    OddDigits,
    OtherCharacter,
    EmptyLine,
    OtherKind,
    NumberLess,
    NumberMore,
    Nothing,
    OtherProgram,
    AnyByte,
];

/// Frames with this damage; None where there is nothing to do it to.
pub fn damaged(random: &mut Random, saved: &Saved, damage: FramesDamage) -> Option<Vec<u8>> {
    let mut lines = lines_of(&saved.frames);
    match damage {
        Nothing => lines.clear(),
        OtherProgram => lines = vec![other_program(random).frames],
        AnyByte => lines = vec![damage_bytes(random, &saved.frames)],
        LeftOut | Doubled | Exchanged | OtherNumber => disturb(random, damage, &mut lines)?,
        OneMore | OutOfRange => {
            let at = absent(random, saved, damage)?;
            put_in(random, &mut lines, at);
        }
        HighCount | LowCount | CountExchanged | NoEnd | TwoEnds | EndEarly | AfterEnd => {
            disturb_end(random, damage, &mut lines)
        }
        NoLastByte => drop(last_of(&mut lines).pop()),
        _ => spoil(random, damage, &mut lines),
    }
    Some(lines.concat()).filter(|text| *text != saved.frames)
}

fn last_of(lines: &mut Lines) -> &mut Vec<u8> {
    lines.last_mut().expect("there is an end frame")
}

/// Disturbs the standings, if there are any. Mostly the count is that of what is left.
fn disturb(random: &mut Random, damage: FramesDamage, lines: &mut Lines) -> Option<()> {
    let count = lines.len() - 1;
    if count == 0 {
        return None;
    }
    let any = random.below(count);
    let at = random.pick(&[any, any, 0, count - 1]);
    match damage {
        LeftOut => drop(lines.remove(at)),
        Doubled => {
            let to = random.below(count + 1);
            lines.insert(random.pick(&[at, at, to]), lines[at].clone());
        }
        Exchanged => {
            let by = random.pick(&[1, count - 1, 1 + any]);
            lines.swap(at, (at + by) % count);
        }
        _ => lines[at] = with_other_number(random, &lines[at]),
    }
    if random.percent(80) {
        correct_end_count(lines);
    }
    Some(())
}

/// The line with one number that is not what it was.
fn with_other_number(random: &mut Random, line: &[u8]) -> Vec<u8> {
    let mut numbers = numbers_of_line(line).expect("a frame");
    let place = random.between(1, numbers.len() - 1);
    let by = random.pick(&[1, 1, 2, 4, 8, 16, 128]);
    numbers[place] ^= by;
    line_of(&numbers)
}

/// A standing that does not occur, in range or not; None where there is none.
fn absent(random: &mut Random, saved: &Saved, damage: FramesDamage) -> Option<Standing> {
    if damage == OutOfRange {
        return Some(out_of_range(random, saved));
    }
    let numbers = (0..OLD_SHEET).filter(|&number| saved.sheet[number] == 0);
    let absent: Vec<Standing> = numbers
        .map(|number| FORMER_SIZES.standing(number))
        .filter(|at| saved.in_range(*at))
        .collect();
    match absent.len() {
        0 => None,
        count => Some(absent[random.below(count)]),
    }
}

/// A standing with one part that the program does not have: just past its range, past what there could
/// once be, or far from it.
fn out_of_range(random: &mut Random, saved: &Saved) -> Standing {
    let own = saved.program.sizes();
    let routine = random.below(own.routines.into());
    let state = |random: &mut Random| random.below(own.states.into()) as u8;
    let (root, present) = (state(random), state(random));
    let mut at = Standing::entry(routine as u8, root).at(0, present);
    let places = saved.program.places[routine];
    match random.below(4) {
        0 => at.routine = random.pick(&[own.routines, own.routines, 16, 255]),
        1 => at.place = random.pick(&[places, places, own.places, 16, 64, 255]),
        2 => at.root = random.pick(&[own.states, own.states, 8, 255]),
        _ => at.state = random.pick(&[own.states, own.states, 8, 255]),
    }
    at
}

/// Puts in a standing where it belongs, mostly with the count made right, or in the place of another.
fn put_in(random: &mut Random, lines: &mut Lines, at: Standing) {
    let line = line_of(&frame(STANDING, &at.numbers()));
    let count = lines.len() - 1;
    let before = lines[..count].iter().filter(|other| **other < line);
    let place = before.count();
    if count > 0 && random.percent(20) {
        lines[place.min(count - 1)] = line;
        return;
    }
    lines.insert(place, line);
    if random.percent(80) {
        correct_end_count(lines);
    }
}

/// Damages the end: its count, whether it is there, and what follows it.
fn disturb_end(random: &mut Random, damage: FramesDamage, lines: &mut Lines) {
    let last = lines.len() - 1;
    let numbers = numbers_of_line(&lines[last]).expect("an end frame");
    let with_count = |high, low| line_of(&[END, high, low]);
    let (high, low) = (numbers[1], numbers[2]);
    let any = random.between(1, 255) as u8;
    let by = random.pick(&[1, 1, 255, any]);
    match damage {
        HighCount => lines[last] = with_count(high.wrapping_add(by), low),
        LowCount => lines[last] = with_count(high, low.wrapping_add(by)),
        CountExchanged => lines[last] = with_count(low, high),
        NoEnd => drop(lines.pop()),
        TwoEnds => {
            let counted = line_of(&end(random.pick(&[last, last + 1])));
            lines.push(counted);
        }
        EndEarly => {
            let place = random.below(last + 1);
            lines.insert(place, line_of(&end(place)));
        }
        _ => {
            let standing = lines[0].clone();
            let others: [&[u8]; 5] = [b"\n", b"0", &standing, b"4D", b"\0"];
            lines.push(random.pick(&others).to_vec());
        }
    }
}

/// Puts a spoilt line beside one, or in its place, at times with the count made right.
fn spoil(random: &mut Random, damage: FramesDamage, lines: &mut Lines) {
    let at = random.below(lines.len());
    let spoilt = spoilt(random, damage, &lines[at]);
    if damage == EmptyLine || random.percent(50) {
        lines.insert(at, spoilt);
        return;
    }
    lines[at] = spoilt;
    if random.percent(50) {
        correct_end_count(lines);
    }
}

/// A line that is no frame of a saved sheet, and nearly is this one.
fn spoilt(random: &mut Random, damage: FramesDamage, line: &[u8]) -> Vec<u8> {
    let mut bytes = line.to_vec();
    let mut numbers = numbers_of_line(line).expect("a frame");
    let digit = random.below(line.len() - 1);
    match damage {
        TwoInOneLine => drop(bytes.pop()),
        LowerCase => bytes.make_ascii_lowercase(),
        OddDigits => drop(bytes.remove(digit)),
        OtherCharacter => bytes[digit] = random.pick(b"gG:/@ \r\0\xFF"),
        EmptyLine => bytes = b"\n".to_vec(),
        OtherKind => {
            let (of_files, of_edits) = (random.pick(&FRAMES), random.pick(&EDITS));
            let of_none = random.pick(&[0x4C, 0x4E, 0x44, 0xFF]);
            numbers[0] = random.pick(&[of_files.number, of_edits.number, of_none]);
            bytes = line_of(&numbers);
        }
        _ => {
            let more = random.below(3) as u8;
            match damage {
                NumberLess => drop(numbers.pop()),
                _ => numbers.push(more),
            }
            bytes = line_of(&numbers);
        }
    }
    bytes
}
