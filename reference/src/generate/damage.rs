//! Files damaged from a seed, and texts with one byte wrong.
//!
//! A damaged file is often mended a little afterwards (lines put in order, end count corrected), so
//! that the fault which remains is one that is judged late.

use crate::generate::random::Random;
use crate::model::kinds::{count_of_numbers, frames, END, FRAMES, ROUTINE, SIZES};
use crate::model::lines::{line_of, lines, starts_with_kind};
use crate::model::program::{FIRST_CALL, FIRST_RETURN};
use crate::model::write::end;

/// Does one damage to a file, and at times puts the lines in order and corrects the end count.
pub fn damage(random: &mut Random, file: &[u8]) -> Vec<u8> {
    let lines = lines_of(file);
    let lines = match random.below(100) {
        0..=24 => return damage_bytes(random, file),
        25..=49 => damage_lines(random, lines),
        50..=84 => damage_numbers(random, lines),
        _ => damage_frames(random, lines),
    };
    mend(random, lines)
}

/// A file's lines as text, each with its 0A.
pub type Lines = Vec<Vec<u8>>;

pub fn lines_of(file: &[u8]) -> Lines {
    lines(file).into_iter().map(<[u8]>::to_vec).collect()
}

/// Puts the lines in order and corrects the end count, each at times.
pub fn mend(random: &mut Random, mut lines: Lines) -> Vec<u8> {
    if random.percent(35) {
        lines.sort_by_cached_key(|line| (place_of_line(line), line.clone()));
    }
    if random.percent(60) {
        correct_end_count(&mut lines);
    }
    lines.concat()
}

/// Where a line stands by its kind; lines of no kind stand last.
fn place_of_line(line: &[u8]) -> usize {
    let mut kinds = FRAMES.iter();
    let place = kinds.position(|kind| starts_with_kind(line, kind.number));
    place.unwrap_or(FRAMES.len())
}

/// Makes the last line's count right, if the last line is an end frame.
pub fn correct_end_count(lines: &mut Lines) {
    let before = lines.len().saturating_sub(1);
    if let Some(last) = lines.last_mut() {
        if starts_with_kind(last, END) {
            *last = line_of(&end(before));
        }
    }
}

/// A line to damage: any, or the first, the last or any of some kind, so that the frames of which
/// a file has few are met as often as the others. None if there is no line.
fn some_line(random: &mut Random, lines: &Lines) -> Option<usize> {
    if lines.is_empty() {
        return None;
    }
    let kind = random.below(FRAMES.len());
    let of_kind: Vec<usize> = (0..lines.len())
        .filter(|&number| place_of_line(&lines[number]) == kind)
        .collect();
    if of_kind.is_empty() || random.percent(40) {
        return Some(random.below(lines.len()));
    }
    let last = of_kind.len() - 1;
    let choice = random.below(of_kind.len());
    Some(of_kind[random.pick(&[0, last, choice])])
}

/// Does one damage to the bytes of a text, whatever they say.
pub fn damage_bytes(random: &mut Random, file: &[u8]) -> Vec<u8> {
    let mut file = file.to_vec();
    let place = random.below(file.len() + 1);
    match random.below(8) {
        0 => file.truncate(place),
        1 => file.insert(place, random.byte()),
        2 => file.insert(place, random.pick(b"0123456789ABCDEF\n\nag \r")),
        3 => file.extend(bytes_at_random(random)),
        4 => file.push(random.pick(b"045\n")),
        _ if place == file.len() => file.truncate(place.saturating_sub(1)),
        5 => drop(file.remove(place)),
        6 => file[place] = random.byte(),
        _ => file[place] = random.pick(b"0123456789ABCDEFabcdef\n"),
    }
    file
}

fn damage_lines(random: &mut Random, mut lines: Lines) -> Lines {
    let line = match some_line(random, &lines) {
        Some(line) => line,
        None => return lines,
    };
    let other = random.below(lines.len());
    match random.below(9) {
        0 => drop(lines.remove(line)),
        1 => lines.insert(line, lines[line].clone()),
        2 => lines.insert(other, lines[line].clone()),
        3 => lines.swap(line, other),
        4 => lines.swap(line, line.saturating_sub(1)),
        5 => lines.insert(line, b"\n".to_vec()),
        6 => lines.push(lines[line].clone()),
        7 => lines.truncate(line),
        _ => lines[line] = lines[line].to_ascii_lowercase(),
    }
    lines
}

fn damage_numbers(random: &mut Random, lines: Lines) -> Lines {
    match some_line(random, &lines) {
        Some(line) => change_number(random, lines, line),
        None => lines,
    }
}

/// Changes one number of a line, its kind at times, or how many there are.
fn change_number(random: &mut Random, mut lines: Lines, line: usize) -> Lines {
    let mut numbers = match numbers_of(&lines[line]) {
        Some(numbers) => numbers,
        None => return lines,
    };
    let first = usize::from(numbers.len() > 1 && random.percent(88));
    let place = random.between(first, numbers.len() - 1);
    let old = numbers[place];
    match random.below(12) {
        0..=2 => numbers[place] = old.wrapping_add(1),
        3..=5 => numbers[place] = old.wrapping_sub(1),
        6..=8 => numbers[place] = telling_number(random, &lines),
        9 => numbers[place] = random.byte(),
        10 => numbers.insert(place, random.below(3) as u8),
        _ => drop(numbers.remove(place)),
    }
    lines[line] = line_of(&numbers);
    lines
}

/// The numbers on a line that is made of digits; None for any other line.
fn numbers_of(line: &[u8]) -> Option<Vec<u8>> {
    let text = std::str::from_utf8(line).ok()?.trim_end();
    if text.is_empty() || text.len() % 2 == 1 || !text.is_ascii() {
        return None;
    }
    (0..text.len() / 2)
        .map(|place| u8::from_str_radix(&text[2 * place..2 * place + 2], 16).ok())
        .collect()
}

/// A label at which some range of labels begins or ends, or just beside it, for so many routines and
/// actions.
pub fn edge_label(random: &mut Random, routines: u8, actions: u8) -> u8 {
    let (calls, returns) = (
        FIRST_CALL.wrapping_add(routines),
        FIRST_RETURN.wrapping_add(routines),
    );
    let past = random.pick(&[actions, calls, returns, 0x3F, 0x5F, 0x7F, 0x50, 0x70]);
    let last = random.pick(&[actions, calls, returns]).wrapping_sub(1);
    random.pick(&[past, past, past, last, FIRST_CALL, FIRST_RETURN])
}

/// A number at which some range begins or ends: one of the sizes in this file, a label about the last
/// of its sort, or a fixed limit.
fn telling_number(random: &mut Random, lines: &Lines) -> u8 {
    let sizes = lines.first().and_then(|line| numbers_of(line));
    let size = |place: usize| match &sizes {
        Some(sizes) => sizes.get(place).copied().unwrap_or(1),
        None => 1,
    };
    let (routines, states, actions) = (size(1), size(2), size(3));
    let about = random.pick(&[routines, states, actions]);
    let fixed = random.pick(&[0, 1, 2, 8, 9, 16, 17, 31, 32, 33, 64, 65, 255]);
    let label = edge_label(random, routines, actions);
    let below = about.wrapping_sub(1);
    random.pick(&[about, below, fixed, label])
}

/// Puts in a frame too many, or takes a routine out.
fn damage_frames(random: &mut Random, mut lines: Lines) -> Lines {
    let place = random.below(lines.len() + 1);
    let routines: Vec<usize> = (0..lines.len())
        .filter(|&number| starts_with_kind(&lines[number], ROUTINE))
        .collect();
    let after_routines = routines.last().map_or(0, |last| last + 1);
    let some_routine = routines.get(random.below(routines.len() + 1)).copied();
    match random.below(6) {
        0 => lines.insert(after_routines, extra_routine(random, routines.len())),
        1 => lines.insert(place, extra_routine(random, routines.len())),
        2 => lines.insert(place, sizes_at_random(random)),
        3 => drop(some_routine.map(|number| lines.remove(number))),
        4 => lines.insert(place, line_of(&frame_at_random(random))),
        _ => lines.insert(after_routines, line_of(&frame_at_random(random))),
    }
    lines
}

/// A routine frame for a routine that is there, or for one above it.
fn extra_routine(random: &mut Random, there: usize) -> Vec<u8> {
    let routine = random.between(there.saturating_sub(2), there + 1) as u8;
    let places = random.between(1, 17) as u8;
    line_of(&[ROUTINE, routine, random.pick(&[places, places, 64, 65])])
}

fn sizes_at_random(random: &mut Random) -> Vec<u8> {
    let routines = random.between(0, 17) as u8;
    let states = random.between(0, 17) as u8;
    line_of(&[SIZES, routines, states, random.between(0, 33) as u8])
}

/// A frame of some kind with the right count of numbers, most of them small. The kind is at times
/// one that there is not.
pub fn frame_at_random(random: &mut Random) -> Vec<u8> {
    let known = random.pick(&FRAMES).number;
    let any = random.byte();
    let kind = random.pick(&[known, known, known, known, known, known, known, any]);
    let kinds = frames(random.pick(&[8, 9]));
    let count = count_of_numbers(&kinds, kind).unwrap_or(2);
    let most = random.pick(&[1, 3, 8, 20, 255]);
    let numbers = (0..count).map(|_| random.between(0, most) as u8);
    std::iter::once(kind).chain(numbers).collect()
}

/// Spoils a line in its place: a number of it, or it repeats the line before it.
pub fn spoil(random: &mut Random, mut lines: Lines, line: usize) -> Lines {
    if random.percent(70) {
        return change_number(random, lines, line);
    }
    lines[line] = lines[line - 1].clone();
    lines
}

pub fn bytes_at_random(random: &mut Random) -> Vec<u8> {
    let length = random.pick(&[0, 1, 2, 3, 10, 100]);
    (0..length).map(|_| random.byte()).collect()
}

/// Every text that differs from this one by one byte, which is one of these or missing, or by its
/// beginning or end; each with what was done to it.
pub fn one_byte_wrong(text: &[u8], bytes: &[u8]) -> Vec<(&'static str, Vec<u8>)> {
    let mut texts = Vec::new();
    for place in 0..=text.len() {
        for &byte in bytes {
            let mut longer = text.to_vec();
            longer.insert(place, byte);
            texts.push(("a byte too many", longer));
            let mut changed = text.to_vec();
            if place < changed.len() {
                changed[place] = byte;
                texts.push(("a byte changed", changed));
            }
        }
        texts.push(("cut short", text[..place].to_vec()));
        texts.push(("begun late", text[place..].to_vec()));
        let after = text.get(place + 1..).unwrap_or(&[]);
        texts.push(("a byte left out", [&text[..place], after].concat()));
    }
    texts
}
