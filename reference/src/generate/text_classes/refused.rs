//! The classes of refused exchanges.
//!
//! Most of them are met by a line of some sort beside lines of any other. Where a refusal comes before
//! another, both are there to be met.

use crate::generate::exchanges::room;
use crate::generate::text_classes::{last_place, Class, Exchanging};
use crate::model::analysis::own_sheet;
use crate::model::exchange::in_order;
use crate::model::kinds::{count_of_numbers, EDITS, EXCHANGES, FRAMES, ROUTINE, STEP};
use crate::model::lines::{numbers_of_kind, numbers_of_line};
use crate::model::program::{Label, Step, EXIT, FIRST_RETURN, MOST_STEPS};
use std::collections::BTreeSet;

/// 12.
pub const NO_FRAME: [Class; 16] = [
    ("no line", |of| of.lines.is_empty()),
    ("an empty line", |of| {
        of.bad_lines().any(|line| line == b"\n")
    }),
    ("no 0A", |of| {
        of.bad_lines().any(|line| !line.ends_with(b"\n"))
    }),
    ("small letters", |of| of.bad_lines().any(has_small_letters)),
    ("an odd count", |of| of.bad_lines().any(has_odd_count)),
    ("no digit", |of| of.bad_lines().any(has_no_digit)),
    ("a frame of a file", |of| of.bad_lines().any(is_of_file)),
    ("an edit line", |of| of.bad_lines().any(is_edit)),
    ("no kind", |of| of.bad_lines().any(is_of_no_kind)),
    ("a 52 of another count", |of| has_bad_kind(of, ROUTINE)),
    ("a 53 of another count", |of| has_bad_kind(of, STEP)),
    ("the last line alone", |of| {
        of.frames.len() > 1 && last_line_alone(of)
    }),
    ("13 too", |of| !of.out_of_range().is_empty()),
    ("21 too", |of| !in_order(&of.frames)),
    ("16 too", |of| of.has_too_many()),
    ("long", |of| of.is_long()),
];

fn last_line_alone(of: &Exchanging) -> bool {
    let last = of.lines.last().copied();
    of.bad_lines().map(Some).eq([last])
}

fn has_small_letters(line: &[u8]) -> bool {
    numbers_of_line(line).is_none() && numbers_of_line(&line.to_ascii_uppercase()).is_some()
}

fn digits(line: &[u8]) -> &[u8] {
    line.strip_suffix(b"\n").unwrap_or(line)
}

fn has_odd_count(line: &[u8]) -> bool {
    digits(line).len() % 2 == 1 && !has_no_digit(line)
}

fn has_no_digit(line: &[u8]) -> bool {
    let is_digit = |byte: &u8| b"0123456789ABCDEF".contains(byte);
    !digits(line).iter().all(is_digit)
}

/// The kind that a line of digits names.
fn kind(line: &[u8]) -> Option<u8> {
    numbers_of_line(line).map(|numbers| numbers[0])
}

fn has_bad_kind(of: &Exchanging, wanted: u8) -> bool {
    of.bad_lines().any(|line| kind(line) == Some(wanted))
}

fn is_of_file(line: &[u8]) -> bool {
    let is_known = |kind| count_of_numbers(&EXCHANGES, kind).is_some();
    let numbers = numbers_of_kind(&FRAMES, line);
    numbers.map_or(false, |numbers| !is_known(numbers[0]))
}

fn is_edit(line: &[u8]) -> bool {
    numbers_of_kind(&EDITS, line).is_ok()
}

fn is_of_no_kind(line: &[u8]) -> bool {
    let kinds = [&FRAMES[..], &EDITS].concat();
    let is_unknown = |kind| count_of_numbers(&kinds, kind).is_none();
    kind(line).map_or(false, is_unknown)
}

/// 13.
pub const OUT_OF_RANGE: [Class; 21] = [
    ("one place", |of| has_count(of, 1)),
    ("65 places", |of| has_count(of, 65)),
    ("routine R", |of| {
        of.leading().map(|(routine, _)| routine) == Some(of.program.routines())
    }),
    ("from the exit", |of| {
        of.own_steps().any(|step| step.from == EXIT)
    }),
    ("past the new count only", |of| {
        own_places_are(of, |place, new, old| place >= new && place < old)
    }),
    ("past both counts", |of| {
        own_places_are(of, |place, new, old| place >= new && place >= old)
    }),
    ("action A", |of| {
        let label = Label::Action(of.program.actions);
        of.own_steps().any(|step| step.label == label)
    }),
    ("a call of R", |of| {
        let label = Label::Call(of.program.routines());
        of.own_steps().any(|step| step.label == label)
    }),
    ("a return", |of| {
        let returns = FIRST_RETURN..FIRST_RETURN + of.program.routines();
        of.own_steps()
            .any(|step| returns.contains(&step.label.number()))
    }),
    ("another, past its own count", |of| {
        of.others_steps().any(|step| is_past_own(of, &step))
    }),
    ("another, past its own count only", |of| {
        let new = of.leading().map_or(0, |(_, places)| places);
        let is_past = |step: Step| is_past_own(of, &step) && last_place(&step) < new;
        of.others_steps().any(is_past)
    }),
    ("a step of R", |of| {
        let routines = of.program.routines();
        of.others_steps().any(|step| step.routine == routines)
    }),
    ("a later 52", |of| {
        let mut later = of.out_of_range().into_iter().filter(|&at| at > 0);
        later.any(|at| of.frames[at][0] == ROUTINE)
    }),
    ("a later 52's places", |of| {
        of.steps().any(|step| is_lent_places(of, &step))
    }),
    ("no 52 first", |of| of.leading().is_none()),
    ("the last line alone", |of| {
        of.frames.len() > 1 && of.out_of_range() == [of.frames.len() - 1]
    }),
    ("after 21", |of| {
        let first = of.out_of_range().first().copied().unwrap_or(0);
        first > 0 && !in_order(&of.frames[..first])
    }),
    ("some lines after 21", |of| {
        let first = of.out_of_range().first().copied().unwrap_or(0);
        first > 3 && !in_order(&of.frames[..first - 2])
    }),
    ("21 too", |of| !in_order(&of.frames)),
    ("16 too", |of| of.has_too_many()),
    ("long", |of| of.is_long()),
];

fn has_count(of: &Exchanging, count: u8) -> bool {
    of.leading().map(|(_, places)| places) == Some(count)
}

/// Whether an own step has a highest place that stands so to the new count and to the old one.
fn own_places_are(of: &Exchanging, so: fn(u8, u8, u8) -> bool) -> bool {
    let (routine, new) = match of.leading() {
        Some(leading) => leading,
        None => return false,
    };
    let old = of.old_places(routine);
    of.own_steps().any(|step| so(last_place(&step), new, old))
}

/// Whether a step has a place that its routine does not have in the program.
fn is_past_own(of: &Exchanging, step: &Step) -> bool {
    let there = step.routine < of.program.routines();
    there && last_place(step) >= of.old_places(step.routine)
}

/// Whether a step lacks a place that a later 52 seems to give.
fn is_lent_places(of: &Exchanging, step: &Step) -> bool {
    let place = last_place(step);
    let places = of.ranges.places.get(usize::from(step.routine));
    let lacks = places.map_or(false, |&places| place >= places);
    let mut later = of.later_routines();
    lacks && later.any(|(routine, places)| routine == step.routine && place < places)
}

/// 21.
pub const OUT_OF_ORDER: [Class; 15] = [
    ("a step first", |of| of.leading().is_none()),
    ("a step first, its 52 last", |of| {
        of.leading().is_none() && of.frames.last().map(|last| last[0]) == Some(ROUTINE)
    }),
    ("the 52 again", |of| {
        of.later_routines().any(|later| Some(later) == of.leading())
    }),
    ("a later 52 of more places", |of| {
        has_later_count(of, |new, later, _| later > new)
    }),
    ("a later 52 of too few places", |of| {
        has_later_count(of, |_, later, last| later <= last)
    }),
    ("another's 52", |of| {
        of.later_routines().any(|later| later.0 != of.routine())
    }),
    ("another's step", |of| of.others_steps().next().is_some()),
    ("another's step past the new count", |of| {
        let new = of.leading().map_or(u8::MAX, |(_, places)| places);
        of.others_steps().any(|step| last_place(&step) >= new)
    }),
    ("a step below the last", |of| {
        own_pairs(of).any(|(one, next)| next < one)
    }),
    ("a step as the last", |of| {
        own_pairs(of).any(|(one, next)| next == one)
    }),
    ("a step as an earlier one", |of| {
        let ascends = own_pairs(of).all(|(one, next)| next != one);
        ascends && distinct(of) < of.own_steps().count()
    }),
    ("the last line alone", |of| {
        let before = &of.frames[..of.frames.len() - 1];
        in_order(before)
    }),
    ("16 too", |of| of.others() + distinct(of) > MOST_STEPS),
    ("16 but for what comes again", |of| {
        of.has_too_many() && of.others() + distinct(of) <= MOST_STEPS
    }),
    ("long", |of| of.is_long()),
];

/// Whether a later 52 of the same routine has a count that stands so to the leading one's and to the
/// highest place of an own step.
fn has_later_count(of: &Exchanging, so: fn(u8, u8, u8) -> bool) -> bool {
    let (routine, new) = match of.leading() {
        Some(leading) => leading,
        None => return false,
    };
    let last = of.own_steps().map(|step| last_place(&step)).max();
    let last = last.unwrap_or(0);
    let mut later = of.later_routines();
    later.any(|(again, places)| again == routine && so(new, places, last))
}

/// The own steps, each with the next.
fn own_pairs<'a>(of: &'a Exchanging) -> impl Iterator<Item = (Step, Step)> + 'a {
    of.own_steps().zip(of.own_steps().skip(1))
}

/// How many different own steps there are.
fn distinct(of: &Exchanging) -> usize {
    of.own_steps().collect::<BTreeSet<Step>>().len()
}

/// 16.
pub const TOO_MANY: [Class; 7] = [
    ("257 steps", |of| steps_wanted(of) == MOST_STEPS + 1),
    ("more than 257", |of| steps_wanted(of) > MOST_STEPS + 1),
    ("257 of the routine's own", |of| {
        of.steps().count() > MOST_STEPS
    }),
    ("many of others", |of| of.others() >= 128),
    ("few of others", |of| of.others() < 64),
    ("256 before", |of| of.program.steps.len() == MOST_STEPS),
    ("long", |of| of.is_long()),
];

fn steps_wanted(of: &Exchanging) -> usize {
    of.others() + of.steps().count()
}

/// 23.
pub const TOO_LARGE: [Class; 6] = [
    ("one place too many", |of| {
        has_count(of, room(of.program) + 1)
    }),
    ("64 places", |of| has_count(of, 64)),
    ("the longest routine", |of| {
        of.old_places(of.routine()) == of.program.sizes().places
    }),
    ("a shorter routine", |of| {
        of.old_places(of.routine()) < of.program.sizes().places
    }),
    ("a step past all that there is room for", |of| {
        of.own_steps()
            .any(|step| last_place(&step) >= room(of.program))
    }),
    ("no step", |of| of.steps().next().is_none()),
];

/// 17.
pub const FOREIGN: [Class; 3] = [
    ("for itself", |of| of.after.as_ref() == Some(of.program)),
    ("for another", |of| of.after.as_ref() != Some(of.program)),
    ("with the new sheet", |of| {
        let new = of.after.as_ref().map(own_sheet);
        new.as_deref() == Some(of.lent)
    }),
];
