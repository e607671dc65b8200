//! Damage to old sheets, and lengths that they may not have.

use crate::generate::random::Random;
use crate::generate::saved::other_program;
use crate::model::analysis::own_sheet;
use crate::model::saved::{Saved, FORMER_SIZES, OLD_SHEET};
use crate::model::standing::{Sizes, Standing};

/// What is done to an old sheet, so that it is not the program's own.
#[derive(Clone, Copy, Debug, PartialEq, Eq, PartialOrd, Ord)]
pub enum SheetDamage {
    /// Any byte becomes any other; the last one does.
    AnyByte,
    LastByte,
    /// A byte that is neither 0 nor 1, where a standing occurs and where none does.
    OtherMark,
    OtherByte,
    /// A 0 where a standing occurs, and a 1 where one could but for the steps and the rule.
    Gap,
    Mark,
    /// A mark at a routine, place, root or state that the program does not have. The place may be one that
    /// the longest routine has, or one that none has.
    NoSuchRoutine,
    NoSuchPlace,
    PlaceOfOthers,
    NoSuchRoot,
    NoSuchState,
    /// No mark, another program's sheet, and the program's own by the numbers of today.
    Empty,
    OtherProgram,
    NumbersOfToday,
}

use SheetDamage::*;

pub const SHEET_DAMAGES: [SheetDamage; 14] = [
    AnyByte,
    LastByte,
    OtherMark,
    OtherByte,
    Gap,
    Mark,
    NoSuchRoutine,
    NoSuchPlace,
    PlaceOfOthers,
    NoSuchRoot,
    NoSuchState,
    Empty,
    OtherProgram,
    NumbersOfToday,
];

/// A sheet with this damage; None where there is nothing to do it to.
pub fn damaged(random: &mut Random, saved: &Saved, damage: SheetDamage) -> Option<Vec<u8>> {
    let sheet = match damage {
        AnyByte => with_any_byte(random, saved, 0),
        LastByte => with_any_byte(random, saved, OLD_SHEET - 1),
        Empty => vec![0; OLD_SHEET],
        OtherProgram => other_program(random).sheet,
        NumbersOfToday => of_today(saved),
        _ => with_byte_at_standing(random, saved, damage)?,
    };
    Some(sheet).filter(|sheet| *sheet != saved.sheet)
}

/// The sheet with another byte somewhere from this place on.
fn with_any_byte(random: &mut Random, saved: &Saved, from: usize) -> Vec<u8> {
    let mut sheet = saved.sheet.clone();
    sheet[random.between(from, OLD_SHEET - 1)] ^= random.between(1, 255) as u8;
    sheet
}

/// The sheet with another byte at some standing such as the damage wants.
fn with_byte_at_standing(
    random: &mut Random,
    saved: &Saved,
    damage: SheetDamage,
) -> Option<Vec<u8>> {
    let numbers: Vec<usize> = (0..OLD_SHEET)
        .filter(|&number| is_wanted(saved, damage, number))
        .collect();
    let other = random.between(2, 255) as u8;
    let mut sheet = saved.sheet.clone();
    let number = match numbers.len() {
        0 => return None,
        count => numbers[random.below(count)],
    };
    sheet[number] = match damage {
        Gap => 0,
        OtherMark | OtherByte => random.pick(&[2, 255, other]),
        _ => 1,
    };
    Some(sheet)
}

/// Whether a damage is done at the standing of a number. Only one of its parts is one that the program does
/// not have.
fn is_wanted(saved: &Saved, damage: SheetDamage, number: usize) -> bool {
    let (own, at) = (saved.program.sizes(), FORMER_SIZES.standing(number));
    let with = |place, root, state| Standing {
        place,
        root,
        state,
        ..at
    };
    let occurs = saved.sheet[number] == 1;
    match damage {
        OtherMark | Gap => occurs,
        OtherByte => !occurs,
        Mark => !occurs && saved.in_range(at),
        NoSuchRoutine => at.routine >= own.routines,
        NoSuchPlace => at.place >= own.places && saved.in_range(with(0, at.root, at.state)),
        PlaceOfOthers => is_place_of_others(saved, own, at),
        NoSuchRoot => at.root >= own.states && saved.in_range(with(at.place, 0, at.state)),
        NoSuchState => at.state >= own.states && saved.in_range(with(at.place, at.root, 0)),
        _ => false,
    }
}

/// Whether the place is one that this routine does not have, and a longer one has.
fn is_place_of_others(saved: &Saved, own: Sizes, at: Standing) -> bool {
    let states_fit = at.root < own.states && at.state < own.states;
    let routine_fits = at.routine < own.routines;
    routine_fits && at.place < own.places && states_fit && !saved.in_range(at)
}

/// The program's own sheet of today, with bytes added up to the old length.
fn of_today(saved: &Saved) -> Vec<u8> {
    let mut sheet = own_sheet(&saved.program);
    sheet.resize(OLD_SHEET, 0);
    sheet
}

/// Lengths that an old sheet may not have: none, those beside the right one, and today's, unless that is
/// the right one.
pub fn wrong_lengths(today: usize) -> Vec<usize> {
    let mut lengths = vec![0, OLD_SHEET - 1, OLD_SHEET + 1, 2 * OLD_SHEET, today];
    lengths.retain(|&length| length != OLD_SHEET);
    lengths
}

/// The sheet cut short, or with bytes 0 added, to one of these lengths.
pub fn of_wrong_length(random: &mut Random, saved: &Saved) -> Vec<u8> {
    let lengths = wrong_lengths(saved.program.sizes().length());
    let mut sheet = saved.sheet.clone();
    sheet.resize(lengths[random.below(lengths.len())], 0);
    sheet
}

#[cfg(test)]
mod tests {
    use super::*;
    use crate::cases::sample;

    /// The sample has two routines, of three places and of two, and three states; five standings occur.
    #[test]
    fn damage_is_done_where_it_should() {
        let saved = Saved::of(&sample::program()).expect("a former program");
        for (damage, count) in [
            (OtherMark, 5),
            (OtherByte, OLD_SHEET - 5),
            (Gap, 5),
            (Mark, 5 * 9 - 5),
            (NoSuchRoutine, 14 * 16 * 64),
            (NoSuchPlace, 2 * 13 * 9),
            (PlaceOfOthers, 9),
            (NoSuchRoot, 5 * 5 * 3),
            (NoSuchState, 5 * 3 * 5),
        ] {
            let wanted = (0..OLD_SHEET).filter(|&number| is_wanted(&saved, damage, number));
            assert_eq!(wanted.count(), count, "{damage:?}");
        }
    }
}
