//! Files with rows, made from a seed: complete tables of many shapes, tables with faulty pairs, with
//! too many rows, and damaged ones.

use crate::generate::damage::{correct_end_count, damage, lines_of, mend, spoil};
use crate::generate::files::{self, program_too_large};
use crate::generate::programs::program_by_shares;
use crate::generate::random::Random;
use crate::generate::row_damage::{damage_rows, out_of_range, rule_in_both_forms};
use crate::generate::shapes::Shape;
use crate::model::kinds::ROW;
use crate::model::lines::{line_of, lines, starts_with_kind};
use crate::model::program::{Program, MOST_ACTIONS, MOST_ROWS, MOST_STATES};
use crate::model::standing::{Sizes, MOST_SHEET};
use crate::model::table::{Pair, Row};
use crate::model::write::write;
use std::collections::BTreeSet;

/// The file that belongs to a seed.
pub fn file_with_rows_of_seed(seed: u64) -> Vec<u8> {
    let random = &mut Random::new(seed);
    let program = some_program(random);
    let complete = complete_file(random, &program);
    match random.below(100) {
        0..=34 => complete,
        35..=59 => faulty_file(random, &program),
        60..=79 => damage_rows(random, &complete),
        80..=84 => rule_in_both_forms(random, &complete),
        85..=91 => damage(random, &complete),
        92..=96 => overfull(random, &program),
        _ => too_large(random),
    }
}

/// Any program that a file may hold, or one in which much can happen; at times with more states and
/// actions than it needs. Its rule does not matter.
fn some_program(random: &mut Random) -> Program {
    let shares = [
        (590, Shape::Tiny),
        (200, Shape::Recursive),
        (180, Shape::Layered),
        (28, Shape::Mixed),
        (2, Shape::Full),
    ];
    let program = if random.percent(40) {
        files::program(random)
    } else {
        program_by_shares(random, &shares)
    };
    if random.percent(15) {
        widened(&program)
    } else {
        program
    }
}

/// The program with as many states and actions as there may be. What was in range stays so.
fn widened(program: &Program) -> Program {
    let own = program.sizes();
    let fits = |&states: &u8| Sizes { states, ..own }.length() <= MOST_SHEET;
    let most = (own.states..=MOST_STATES).filter(fits).last();
    Program {
        states: most.unwrap_or(own.states),
        actions: MOST_ACTIONS,
        ..program.clone()
    }
}

/// A file with rows whose sheet would be too long; its table is complete, or at times faulty.
fn too_large(random: &mut Random) -> Vec<u8> {
    let program = program_too_large(random);
    if random.percent(70) {
        complete_file(random, &program)
    } else {
        faulty_file(random, &program)
    }
}

/// A file of the program with a complete table in the place of its rule.
pub fn complete_file(random: &mut Random, program: &Program) -> Vec<u8> {
    let rows = complete_rows(random, program.states, program.actions);
    file_with_rows(program, &rows)
}

/// The program's file with rows in the place of its rule lines.
pub fn file_with_rows(program: &Program, rows: &BTreeSet<Row>) -> Vec<u8> {
    let bare = Program {
        rule: BTreeSet::new(),
        ..program.clone()
    };
    let mut lines = lines_of(&write(&bare));
    let first = first_row(program);
    let rows = rows.iter().map(|row| line_of_row(row, program.states));
    lines.splice(first..first, rows);
    correct_end_count(&mut lines);
    lines.concat()
}

/// Where a file of the program has its first row, counted from 0.
fn first_row(program: &Program) -> usize {
    1 + program.places.len() + program.steps.len()
}

/// The row in a file with so many states.
pub fn line_of_row(row: &Row, states: u8) -> Vec<u8> {
    line_of(&[&[ROW], &row.numbers(states)[..]].concat())
}

/// Whether a file has a line that starts as a row does.
pub fn has_rows(file: &[u8]) -> bool {
    let mut lines = lines(file).into_iter();
    lines.any(|line| starts_with_kind(line, ROW))
}

/// A complete table for so many states and actions: all pairs parted into one group, a few or many,
/// a row each, and at times rows without a bit.
fn complete_rows(random: &mut Random, states: u8, actions: u8) -> BTreeSet<Row> {
    let pairs = MOST_ROWS.min(usize::from(states) * usize::from(actions));
    let few = random.between(1, pairs.min(6));
    let some = random.between(1, pairs);
    let count = random.pick(&[1, few, few, some, some, pairs]);
    let rows = parted(random, states, actions, count);
    let bare = random.pick(&[0, 0, 0, 0, 1, 1, 2, 5, 40, MOST_ROWS]);
    let all = MOST_ROWS.min(rows.len() + bare);
    random.filled(rows, all, |random| bare_row(random, states, actions))
}

/// So many rows, at most one for each pair, that meet every pair once: a row that meets them all is
/// cut in two, then one of these, and so on.
fn parted(random: &mut Random, states: u8, actions: u8, count: usize) -> BTreeSet<Row> {
    let mut parts = vec![Row {
        state_bits: all_bits(states) as u16,
        action_bits: all_bits(actions),
        to: 0,
    }];
    while parts.len() < count {
        let at = random.below(parts.len());
        if let Some((one, other)) = cut(random, parts[at]) {
            parts[at] = one;
            parts.push(other);
        }
    }
    let next_state = |part| Row {
        to: random.below(usize::from(states)) as u8,
        ..part
    };
    parts.into_iter().map(next_state).collect()
}

/// A row cut in two, by its states or by its actions; None where there is but one of them.
fn cut(random: &mut Random, row: Row) -> Option<(Row, Row)> {
    if random.percent(50) {
        let (one, other) = cut_bits(random, row.state_bits.into())?;
        let with = |bits: u32| Row {
            state_bits: bits as u16,
            ..row
        };
        Some((with(one), with(other)))
    } else {
        let (one, other) = cut_bits(random, row.action_bits)?;
        let with = |action_bits| Row { action_bits, ..row };
        Some((with(one), with(other)))
    }
}

fn cut_bits(random: &mut Random, bits: u32) -> Option<(u32, u32)> {
    if bits.count_ones() < 2 {
        return None;
    }
    let drawn = random.number() as u32 & bits;
    let one = if drawn == 0 || drawn == bits {
        1 << bits.trailing_zeros()
    } else {
        drawn
    };
    Some((one, bits ^ one))
}

fn all_bits(count: u8) -> u32 {
    ((1_u64 << count) - 1) as u32
}

fn some_bits(random: &mut Random, count: u8) -> u32 {
    random.number() as u32 & all_bits(count)
}

/// A row that meets no pair, for want of a state bit, of an action bit, or of both.
fn bare_row(random: &mut Random, states: u8, actions: u8) -> Row {
    let state_bits = some_bits(random, states) as u16;
    let action_bits = some_bits(random, actions);
    let bits = [(0, action_bits), (state_bits, 0), (0, 0)];
    let (state_bits, action_bits) = random.pick(&bits);
    Row {
        state_bits,
        action_bits,
        to: random.below(usize::from(states)) as u8,
    }
}

/// A file whose table has some faulty pairs.
fn faulty_file(random: &mut Random, program: &Program) -> Vec<u8> {
    let mut rows = complete_rows(random, program.states, program.actions);
    for _ in 0..random.pick(&[1, 2, 2, 3]) {
        rows = with_fault(random, rows, program);
    }
    file_with_rows(program, &rows)
}

/// A table with a pair, or all pairs of a row, met no more, or once more than before.
fn with_fault(random: &mut Random, mut rows: BTreeSet<Row>, program: &Program) -> BTreeSet<Row> {
    let state = random.below(usize::from(program.states)) as u8;
    let action = random.below(usize::from(program.actions)) as u8;
    let mut again = Row {
        state_bits: 1 << state,
        action_bits: 1 << action,
        to: random.below(usize::from(program.states)) as u8,
    };
    match random.below(10) {
        0..=3 => return without_pair(&rows, (state, action)),
        4 => rows.retain(|row| !row.meets((state, action))),
        5..=6 => again.state_bits |= some_bits(random, program.states) as u16,
        7..=8 => again.action_bits |= some_bits(random, program.actions),
        _ => {}
    }
    rows.insert(again);
    rows
}

/// The table with each row that meets a pair cut in two that do not.
fn without_pair(rows: &BTreeSet<Row>, pair: Pair) -> BTreeSet<Row> {
    let (state_bit, action_bit) = (1 << pair.0, 1 << pair.1);
    let without = |row: &Row| match row.meets(pair) {
        false => vec![*row],
        true => vec![
            Row {
                state_bits: row.state_bits & !state_bit,
                ..*row
            },
            Row {
                state_bits: state_bit,
                action_bits: row.action_bits & !action_bit,
                ..*row
            },
        ],
    };
    rows.iter().flat_map(without).collect()
}

/// A file with a few rows more than it may have, at times damaged as well.
fn overfull(random: &mut Random, program: &Program) -> Vec<u8> {
    let program = widened(program);
    let rows = complete_rows(random, program.states, program.actions);
    let count = random.pick(&[257, 257, 257, 258, 260, 550]);
    let rows = random.filled(rows, count, |random| {
        bare_row(random, program.states, program.actions)
    });
    let file = file_with_rows(&program, &rows);
    if random.percent(40) {
        return file;
    }
    if random.percent(40) {
        return damage_rows(random, &file);
    }
    let row_257 = first_row(&program) + MOST_ROWS;
    let mut lines = lines_of(&file);
    if random.percent(40) {
        lines[row_257] = out_of_range(random, &lines, row_257);
    } else {
        lines = spoil(random, lines, row_257);
    }
    mend(random, lines)
}

#[cfg(test)]
mod tests {
    use super::*;
    use crate::generate::classes::MetClasses;
    use crate::generate::met::Met;
    use crate::generate::pair_classes::MetPairs;
    use crate::model::file::read;
    use crate::model::program::{Event, RuleLine};
    use crate::model::refusals::{FILE_END, PAIR_MET_TWICE, PAIR_NOT_MET, SHEET_TOO_LARGE};
    use crate::model::table::{pairs, rule_of_rows};
    use std::collections::BTreeMap;

    #[test]
    fn complete_tables_are_accepted_with_a_line_for_each_pair() {
        for seed in 0..1000 {
            let random = &mut Random::new(seed);
            let program = some_program(random);
            let file = complete_file(random, &program);
            let given = read(&file).expect("a complete table is accepted");
            let wanted = Program {
                rule: given.rule.clone(),
                ..program
            };
            assert_eq!(given, wanted, "seed {seed}");
            let from = given.rule.iter().map(|line| (line.from, line.event));
            let all = pairs(given.states, given.actions);
            let all = all.map(|(state, action)| (state, Event::Action(action)));
            assert!(from.eq(all), "seed {seed}");
        }
    }

    /// The rule lines that a row stands for, gone through row by row where the model goes pair by pair.
    fn lines_of_row(row: &Row) -> Vec<RuleLine> {
        let row = *row;
        let line = move |from, action| RuleLine {
            from,
            event: Event::Action(action),
            to: row.to,
        };
        row.states()
            .flat_map(|from| row.actions().map(move |action| line(from, action)))
            .collect()
    }

    #[test]
    fn a_rule_in_rows_and_the_same_in_lines_are_one_program() {
        for seed in 0..1000 {
            let random = &mut Random::new(seed);
            let mut program = some_program(random);
            let rows = complete_rows(random, program.states, program.actions);
            program.rule = rows.iter().flat_map(lines_of_row).collect();
            assert_eq!(read(&file_with_rows(&program, &rows)), Ok(program.clone()));
            assert_eq!(read(&write(&program)), Ok(program), "seed {seed}");
        }
    }

    /// How often each pair is met, counted row by row.
    fn times_met(rows: &BTreeSet<Row>, program: &Program) -> BTreeMap<Pair, usize> {
        let all = pairs(program.states, program.actions);
        let mut times: BTreeMap<Pair, usize> = all.map(|pair| (pair, 0)).collect();
        for line in rows.iter().flat_map(lines_of_row) {
            let pair = (line.from, line.event.number());
            *times.entry(pair).or_default() += 1;
        }
        times
    }

    #[test]
    fn the_first_faulty_pair_is_the_first_that_is_not_met_once() {
        let mut met = Met::default();
        for seed in 0..1000 {
            let random = &mut Random::new(seed);
            let program = some_program(random);
            let rows = complete_rows(random, program.states, program.actions);
            let rows = with_fault(random, rows, &program);
            let rows = with_fault(random, rows, &program);
            let times = times_met(&rows, &program);
            let wanted = times.iter().find(|(_, &times)| times != 1);
            let wanted = wanted.map(|(&pair, &times)| match times {
                0 => (PAIR_NOT_MET, pair),
                _ => (PAIR_MET_TWICE, pair),
            });
            let rows: Vec<Row> = rows.into_iter().collect();
            let given = rule_of_rows(&rows, program.states, program.actions);
            assert_eq!(given.err(), wanted, "seed {seed}");
            met.note(wanted.map_or(0, |(refusal, _)| refusal));
        }
        println!("{met:?}");
        met.check([0], 5);
        met.check([PAIR_NOT_MET, PAIR_MET_TWICE], 200);
    }

    #[test]
    fn the_files_of_the_seeds_meet_every_class_and_every_refusal() {
        let (mut classes, mut met) = (MetClasses::default(), Met::default());
        let mut pairs = MetPairs::default();
        for seed in 0..5000 {
            let file = file_with_rows_of_seed(seed);
            let reading = read(&file);
            classes.note(&file, &reading);
            pairs.note(&file, &reading);
            met.note(reading.map_or_else(|refusal| refusal.number(), |_| 0));
        }
        println!("{met:?}, {classes:?}, {pairs:?}");
        classes.check(10);
        pairs.check(10);
        met.check(0..=FILE_END, 10);
        met.check([0, PAIR_NOT_MET, PAIR_MET_TWICE], 300);
        met.check([SHEET_TOO_LARGE], 50);
    }
}
