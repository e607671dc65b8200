//! Damage to the texts of exchanges, so that each thing that is judged of them is met, alone and beside
//! others, on any line; and texts of thousands of lines.

use crate::generate::damage::{damage_bytes, lines_of, Lines};
use crate::generate::edits::past_range;
use crate::generate::exchanges::room;
use crate::generate::programs::other_step;
use crate::generate::random::Random;
use crate::generate::shapes::plan_within;
use crate::model::exchange::{ranges_of_text, Exchange};
use crate::model::file::Frame;
use crate::model::kinds::{kind, EDITS, FRAMES, ROUTINE, STEP};
use crate::model::lines::{line_of, numbers_of_line, text_of};
use crate::model::program::{Program, Step, EXIT, FIRST_CALL, MOST_PLACES};
use crate::model::write::frame;

/// The text of an exchange with one damage, or with a few of any sort. Some frame always stays.
pub fn damaged(random: &mut Random, program: &Program, exchange: &Exchange) -> Vec<u8> {
    let mut frames = exchange.frames();
    let mut spoilt = false;
    for _ in 0..random.pick(&[1, 1, 1, 1, 2, 2, 3]) {
        match random.below(10) {
            0..=3 => put_out_of_range(random, program, &mut frames),
            4..=7 => put_out_of_order(random, program, &mut frames),
            _ => spoilt = true,
        }
    }
    let text = text_of(&frames);
    if spoilt {
        spoilt_text(random, &text)
    } else {
        text
    }
}

/// Where a step stands among the frames; None if there is none.
fn some_step(random: &mut Random, frames: &[Frame]) -> Option<usize> {
    let steps = (0..frames.len()).filter(|&at| frames[at][0] == STEP);
    let steps: Vec<usize> = steps.collect();
    match steps.len() {
        0 => None,
        count => Some(steps[random.below(count)]),
    }
}

/// Puts frames in somewhere, side by side, and mostly not before the first.
fn insert(random: &mut Random, frames: &mut Vec<Frame>, new: &[Frame]) {
    let any = random.between(1, frames.len());
    let at = random.pick(&[any, any, any, any, frames.len(), 0]);
    frames.splice(at..at, new.iter().cloned());
}

/// The routine that the first frame names, and the count of places that its steps are held against.
fn named(program: &Program, frames: &[Frame]) -> (u8, u8) {
    let routine = frames[0][1];
    let ranges = ranges_of_text(program, frames);
    let places = ranges.places.get(usize::from(routine));
    (routine, places.copied().unwrap_or(2))
}

/// Puts a number at the end of its range or beyond, or puts in a frame that has one there.
fn put_out_of_range(random: &mut Random, program: &Program, frames: &mut Vec<Frame>) {
    let (routine, places) = named(program, frames);
    let routines = program.routines();
    let other = random.below(routines.into()) as u8;
    match random.below(9) {
        0 => {
            let count = random.pick(&[0, 1, 1, 65, 65, 255]);
            frames[0] = frame(ROUTINE, &[routine, count]);
        }
        1 => frames[0][1] = random.pick(&[routines, routines, 16, 255]),
        2 => leave_too_few_places(random, frames),
        3 => {
            let counts = [[other, 1], [other, 65], [routines, 2], [routine, 0]];
            let later = frame(ROUTINE, &random.pick(&counts));
            insert(random, frames, &[later]);
        }
        4 => {
            let past = program.places[usize::from(other)];
            let to = random.pick(&[past, past.max(places.saturating_sub(1))]);
            insert(random, frames, &[frame(STEP, &[other, 0, 0, to])]);
        }
        5 => lend_places(random, program, frames),
        _ => spoil_step(random, program, frames),
    }
}

/// Gives the first frame a count that some step hangs over, where there can be one.
fn leave_too_few_places(random: &mut Random, frames: &mut [Frame]) {
    let steps = frames.iter().filter(|frame| frame[0] == STEP);
    let last = steps.map(|step| step[2].max(step[4])).max().unwrap_or(0);
    if last >= 2 && frames[0][0] == ROUTINE {
        frames[0][2] = random.between(2, last.into()) as u8;
    }
}

/// Puts in a 52 that would lend places to the step that follows, if it were the first.
fn lend_places(random: &mut Random, program: &Program, frames: &mut Vec<Frame>) {
    let (routine, places) = named(program, frames);
    let other = random.below(program.places.len()) as u8;
    let of_other = program.places[usize::from(other)];
    let (routine, past) = random.pick(&[(routine, places), (other, of_other)]);
    let lends = frame(ROUTINE, &[routine, MOST_PLACES]);
    insert(
        random,
        frames,
        &[lends, frame(STEP, &[routine, 0, 0, past])],
    );
}

/// Puts one number of a step at the end of its range or beyond.
fn spoil_step(random: &mut Random, program: &Program, frames: &mut Vec<Frame>) {
    let (routine, places) = named(program, frames);
    match some_step(random, frames) {
        Some(at) => {
            let number = random.pick(&[1, 2, 3, 3, 4]);
            frames[at][number] = past_range(random, program, places, number);
        }
        None => frames.push(frame(STEP, &[routine, EXIT, 0, 0])),
    }
}

/// Breaks the order: what comes first, what follows it, or how the steps ascend.
fn put_out_of_order(random: &mut Random, program: &Program, frames: &mut Vec<Frame>) {
    let (routine, places) = named(program, frames);
    match random.below(10) {
        0 if frames.len() > 1 => drop(frames.remove(0)),
        1 if frames.len() > 1 => frames.rotate_left(1),
        2 => {
            let count = random.pick(&[places, 2, MOST_PLACES]);
            insert(random, frames, &[frame(ROUTINE, &[routine, count])]);
        }
        3 => {
            let other = random.below(program.places.len()) as u8;
            let count = random.between(2, MOST_PLACES.into()) as u8;
            insert(random, frames, &[frame(ROUTINE, &[other, count])]);
        }
        4..=5 => {
            let step = step_of_any(random, program);
            insert(random, frames, &[frame(STEP, &step.numbers())]);
        }
        6 => frames.extend_from_slice(&frames.clone()[1..]),
        _ => disturb_steps(random, frames),
    }
}

/// A step of any routine that is in range in this program.
fn step_of_any(random: &mut Random, program: &Program) -> Step {
    let routine = random.below(program.places.len());
    let plan = plan_within(random, program);
    other_step(random, &plan, routine, program.places[routine], true)
}

/// Repeats a step, or puts it in another's place.
fn disturb_steps(random: &mut Random, frames: &mut Vec<Frame>) {
    let (one, other) = match (some_step(random, frames), some_step(random, frames)) {
        (Some(one), Some(other)) => (one, other),
        _ => return,
    };
    match random.below(5) {
        0 => frames.swap(one, other),
        1 => frames.swap(one, one.saturating_sub(1)),
        2 => frames.insert(one, frames[one].clone()),
        3 => frames.insert(other, frames[one].clone()),
        _ => frames.push(frames[one].clone()),
    }
}

/// The text with one line that has no frame, or with no line.
fn spoilt_text(random: &mut Random, text: &[u8]) -> Vec<u8> {
    let mut lines = lines_of(text);
    let any = random.below(lines.len());
    let last = lines.len() - 1;
    let at = random.pick(&[any, any, last]);
    match random.below(12) {
        0 => return Vec::new(),
        1 => return damage_bytes(random, text),
        2 => return text[..text.len() - 1].to_vec(),
        3..=4 => lines[at] = in_lower_case(&lines[at]),
        5 => lines.insert(random.pick(&[at, last + 1]), b"\n".to_vec()),
        6 => drop(lines[at].remove(0)),
        7 => lines[at][0] = random.pick(b"gG:/@ \r\0\xFF"),
        _ => spoil_numbers(random, &mut lines, at),
    }
    lines.concat()
}

/// The line with small letters; one that has no letters gets one.
fn in_lower_case(line: &[u8]) -> Vec<u8> {
    let mut lower = line.to_ascii_lowercase();
    if lower == line {
        let last = lower.len() - 2;
        lower[last] = b'a';
    }
    lower
}

/// Gives a line another kind, or a number too many or too few.
fn spoil_numbers(random: &mut Random, lines: &mut Lines, at: usize) {
    let mut numbers = numbers_of_line(&lines[at]).expect("the line has a frame");
    match random.below(4) {
        0..=1 => {
            let of_files = random.pick(&FRAMES);
            let of_edits = random.pick(&EDITS);
            let of_none = kind(random.pick(&[0x00, 0x51, 0x56, 0xFF]), 4);
            let kind = random.pick(&[of_files, of_files, of_edits, of_none]);
            numbers[0] = kind.number;
            numbers.resize(1 + kind.follow, 0);
        }
        2 => drop(numbers.pop()),
        _ => numbers.push(random.below(3) as u8),
    }
    lines[at] = line_of(&numbers);
}

/// A text of hundreds or thousands of lines: a routine with all the steps that it can have, with steps
/// that come again and again, or with any; at times with one fault more, mostly on the last line.
pub fn long(random: &mut Random, program: &Program, exchange: &Exchange) -> Vec<u8> {
    let count = random.pick(&[300, 1_000, 2_000, 5_000, 12_000]);
    let routine = exchange.routine;
    let places = room(program);
    let mut frames = vec![frame(ROUTINE, &[routine, places])];
    frames.extend(match random.below(4) {
        0..=1 => every_step(program, routine, places).take(count).collect(),
        2 => again_and_again(exchange, count),
        _ => any_steps(random, program, routine, count),
    });
    match random.below(8) {
        0 => disturb_steps(random, &mut frames),
        1 => frames.push(frames[frames.len() - 1].clone()),
        2 => frames.push(frame(STEP, &[routine, EXIT, 0, 0])),
        3 => spoil_step(random, program, &mut frames),
        _ => {}
    }
    let text = text_of(&frames);
    if random.percent(15) {
        spoilt_text(random, &text)
    } else {
        text
    }
}

/// All steps that a routine of so many places can have, ascending.
pub fn every_step(program: &Program, routine: u8, places: u8) -> impl Iterator<Item = Frame> {
    let calls = FIRST_CALL..FIRST_CALL + program.routines();
    let labels: Vec<u8> = (0..program.actions).chain(calls).collect();
    let from = (0..places).filter(|&from| from != EXIT);
    from.flat_map(move |from| {
        let labels = labels.clone().into_iter();
        labels.flat_map(move |label| {
            (0..places).map(move |to| frame(STEP, &[routine, from, label, to]))
        })
    })
}

/// The steps of an exchange, or one if it has none, over and over.
fn again_and_again(exchange: &Exchange, count: usize) -> Vec<Frame> {
    let mut steps = exchange.frames().split_off(1);
    if steps.is_empty() {
        steps.push(frame(STEP, &[exchange.routine, 0, 0, 0]));
    }
    steps.into_iter().cycle().take(count).collect()
}

fn any_steps(random: &mut Random, program: &Program, routine: u8, count: usize) -> Vec<Frame> {
    let plan = plan_within(random, program);
    let places = room(program);
    let step = |_| other_step(random, &plan, routine.into(), places, true);
    let steps = (0..count).map(step);
    steps.map(|step| frame(STEP, &step.numbers())).collect()
}
