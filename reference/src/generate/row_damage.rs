//! Damage to the rows of a file, so that each thing that is judged of a row is met.

use crate::generate::damage::{correct_end_count, lines_of, Lines};
use crate::generate::random::Random;
use crate::generate::rules::{heard_line, rule_line};
use crate::generate::tables::line_of_row;
use crate::model::file::read;
use crate::model::kinds::{ROW, RULE};
use crate::model::lines::{line_of, numbers_of_line, starts_with_kind};
use crate::model::program::RuleLine;
use crate::model::table::Row;
use crate::model::write::end;

/// Does one damage to the rows of a file that is well-formed and has some, or to its end count.
pub fn damage_rows(random: &mut Random, file: &[u8]) -> Vec<u8> {
    let mut lines = lines_of(file);
    let rows = places_of_rows(&lines);
    let at = random.pick(&rows);
    let other = random.pick(&rows);
    match random.below(19) {
        0..=5 => lines[at] = out_of_range(random, &lines, at),
        6 => lines.swap(at, other),
        7 => lines.swap(at, random.pick(&[at - 1, at + 1])),
        8 => lines.insert(at, lines[at].clone()),
        9 => lines.insert(other, lines[at].clone()),
        10..=12 => lines[at] = other_count(random, &lines[at]),
        13..=15 => lines[at] = other_kind(random, &lines[at]),
        16 => drop(lines.remove(at)),
        17 => lines.push(lines[at].clone()),
        _ => return with_other_end_count(random, lines, rows.len()),
    }
    correct_end_count(&mut lines);
    lines.concat()
}

/// Where the rows stand among the lines, counted from 0.
fn places_of_rows(lines: &Lines) -> Vec<usize> {
    (0..lines.len())
        .filter(|&at| starts_with_kind(&lines[at], ROW))
        .collect()
}

fn numbers(line: &[u8]) -> Vec<u8> {
    numbers_of_line(line).expect("the file is well-formed")
}

/// A row with a bit or its next state past the range, where one can be, and at the edge more often
/// than not.
pub fn out_of_range(random: &mut Random, lines: &Lines, at: usize) -> Vec<u8> {
    let sizes = numbers(&lines[0]);
    let (states, actions) = (sizes[2], sizes[3]);
    let mut row = Row::of_numbers(&numbers(&lines[at])[1..]);
    match random.below(3) {
        0 if states % 8 != 0 => row.state_bits |= 1 << past(random, states, states | 7),
        1 if actions < 32 => row.action_bits |= 1 << past(random, actions, 31),
        _ => row.to = past(random, states, 255),
    }
    line_of_row(&row, states)
}

/// A number from the first to the last, mostly the first.
fn past(random: &mut Random, first: u8, last: u8) -> u8 {
    let any = random.between(first.into(), last.into()) as u8;
    random.pick(&[first, first, any])
}

/// The row with a number less or more.
fn other_count(random: &mut Random, line: &[u8]) -> Vec<u8> {
    let mut numbers = numbers(line);
    if random.percent(50) {
        numbers.pop();
    } else {
        numbers.push(random.below(3) as u8);
    }
    line_of(&numbers)
}

/// The row's numbers after another kind, mostly one that there is not.
fn other_kind(random: &mut Random, line: &[u8]) -> Vec<u8> {
    let mut numbers = numbers(line);
    numbers[0] = random.pick(&[0x15, 0x45, 0x51, 0x54, 0x56, 0x57, 0x65]);
    line_of(&numbers)
}

/// The file with an end count that is one off, that does not count the rows, or that counts the rule
/// lines which the table becomes.
fn with_other_end_count(random: &mut Random, mut lines: Lines, rows: usize) -> Vec<u8> {
    let right = lines.len() - 1;
    let sizes = numbers(&lines[0]);
    let rule = usize::from(sizes[2]) * usize::from(sizes[3]);
    let wrong = [right - 1, right + 1, right - rows, right - rows + rule];
    lines.pop();
    lines.push(line_of(&end(random.pick(&wrong))));
    lines.concat()
}

/// A file with rows that gets rule lines too, before its rows, among them or after them: one, or those
/// that its table becomes.
pub fn rule_in_both_forms(random: &mut Random, file: &[u8]) -> Vec<u8> {
    let mut lines = lines_of(file);
    let rows = places_of_rows(&lines);
    let sizes = numbers(&lines[0]);
    let one = if random.percent(70) {
        rule_line(random, sizes[2].into(), sizes[3].into())
    } else {
        heard_line(random, sizes[2].into(), sizes[1].into())
    };
    let all: Vec<RuleLine> = match read(file) {
        Ok(program) => program.rule.into_iter().collect(),
        Err(_) => vec![one],
    };
    let rule = if random.percent(60) { vec![one] } else { all };
    let rule = rule.iter().map(|line| {
        let numbers = [&[RULE], &line.numbers()[..]].concat();
        line_of(&numbers)
    });
    let (first, last, any) = (rows[0], rows[rows.len() - 1], random.pick(&rows));
    let at = random.pick(&[first, last + 1, any]);
    lines.splice(at..at, rule.collect::<Vec<_>>());
    correct_end_count(&mut lines);
    lines.concat()
}
