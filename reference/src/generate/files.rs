//! Files made from a seed: programs of every size up to the limits, the same with one or two
//! things damaged, and input that is hardly a file at all.

use crate::generate::damage::{
    bytes_at_random, correct_end_count, damage, edge_label, frame_at_random, lines_of, mend, spoil,
};
use crate::generate::random::Random;
use crate::generate::rules::{heard_line, rule_line};
use crate::generate::shapes::{room_for_places, LARGEST_SIZES};
use crate::model::kinds::{place_of_frame, FRAMES, RULE, SIZES, STEP};
use crate::model::lines::{line_of, numbers_of_line};
use crate::model::program::{
    Label, Program, Step, EXIT, FIRST_RETURN, MOST_ACTIONS, MOST_PLACES, MOST_ROUTINES,
    MOST_RULE_LINES, MOST_STATES, MOST_STEPS,
};
use crate::model::write::{end, write};
use std::collections::BTreeSet;

/// The file that belongs to a seed.
pub fn file_of_seed(seed: u64) -> Vec<u8> {
    let random = &mut Random::new(seed);
    match random.below(100) {
        0..=19 => write(&program(random)),
        20..=25 => with_other_label(random),
        26..=27 => with_other_size(random),
        28..=49 => damaged(random, 1),
        50..=79 => damaged(random, 2),
        80..=85 => overfull(random),
        86..=89 => too_large(random),
        90..=93 => frames_at_random(random),
        94..=96 => digits_at_random(random),
        _ => bytes_at_random(random),
    }
}

/// How large a program is to be.
struct Plan {
    routines: usize,
    most_places: usize,
    states: usize,
    actions: usize,
    steps: usize,
    rule: usize,
    calls_in_a_hundred: usize,
}

/// A program that a file may hold.
pub fn program(random: &mut Random) -> Program {
    let plan = match random.below(100) {
        0..=9 => bare(random),
        10..=39 => tiny(random),
        40..=72 => middling(random),
        73..=94 => large(random),
        _ => at_the_limits(random, MOST_STEPS, MOST_RULE_LINES),
    };
    program_to_plan(random, &fitting(plan))
}

/// The plan with no more places than leave the sheet within its limit.
fn fitting(plan: Plan) -> Plan {
    let room = room_for_places(plan.routines, plan.states);
    Plan {
        most_places: plan.most_places.min(room),
        ..plan
    }
}

/// Routines and nothing that moves.
fn bare(random: &mut Random) -> Plan {
    Plan {
        routines: random.between(1, 16),
        most_places: random.between(2, 64),
        states: random.between(1, 16),
        actions: random.between(1, 32),
        steps: 0,
        rule: 0,
        calls_in_a_hundred: 0,
    }
}

fn tiny(random: &mut Random) -> Plan {
    Plan {
        routines: random.between(1, 3),
        most_places: random.between(2, 4),
        states: random.between(1, 3),
        actions: random.between(1, 3),
        steps: random.between(0, 6),
        rule: random.between(0, 6),
        calls_in_a_hundred: random.pick(&[0, 30, 60]),
    }
}

fn middling(random: &mut Random) -> Plan {
    Plan {
        routines: random.between(1, 8),
        most_places: random.between(3, 10),
        states: random.between(1, 12),
        actions: random.between(1, 12),
        steps: random.between(4, 40),
        rule: random.between(4, 40),
        calls_in_a_hundred: random.pick(&[10, 30, 50, 100]),
    }
}

fn large(random: &mut Random) -> Plan {
    Plan {
        routines: random.between(4, 16),
        most_places: random.between(8, 64),
        states: random.between(4, 16),
        actions: random.between(8, 32),
        steps: random.between(40, 256),
        rule: random.between(20, 512),
        calls_in_a_hundred: random.pick(&[5, 20, 50, 80]),
    }
}

/// Sizes with the longest sheet and states enough, with exactly so many steps and rule lines.
fn at_the_limits(random: &mut Random, steps: usize, rule: usize) -> Plan {
    let [routines, most_places, states] = random.pick(&LARGEST_SIZES[..8]);
    Plan {
        routines,
        most_places,
        states,
        actions: random.between(31, 32),
        steps,
        rule,
        calls_in_a_hundred: random.pick(&[0, 20, 50, 90]),
    }
}

/// A program of the plan's sizes, its longest routine with as many places as planned. It has fewer steps
/// or rule lines than planned only where the sizes leave no room for so many.
fn program_to_plan(random: &mut Random, plan: &Plan) -> Program {
    let mut places: Vec<u8> = (0..plan.routines)
        .map(|_| random.between(2, plan.most_places) as u8)
        .collect();
    places[random.below(plan.routines)] = plan.most_places as u8;
    let density = random.pick(&[0, 20, 50, 100]);
    let heard_in_a_hundred = random.pick(&[0, 0, 20, 50, 80]);
    Program {
        states: plan.states as u8,
        actions: plan.actions as u8,
        steps: random.filled(BTreeSet::new(), plan.steps, |random| {
            step(random, plan, &places)
        }),
        rule: random.filled(BTreeSet::new(), plan.rule, |random| {
            if random.percent(heard_in_a_hundred) {
                heard_line(random, plan.states, plan.routines)
            } else {
                rule_line(random, plan.states, plan.actions)
            }
        }),
        starts: states_at_random(random, plan, density),
        forbidden: states_at_random(random, plan, density),
        places,
    }
}

fn step(random: &mut Random, plan: &Plan, places: &[u8]) -> Step {
    let routine = random.below(plan.routines);
    let there = usize::from(places[routine]);
    let mut from = random.below(there) as u8;
    if from == EXIT {
        from = 0;
    }
    let label = if random.percent(plan.calls_in_a_hundred) {
        Label::Call(random.below(plan.routines) as u8)
    } else {
        Label::Action(random.below(plan.actions) as u8)
    };
    Step {
        routine: routine as u8,
        from,
        label,
        to: random.below(there) as u8,
    }
}

fn states_at_random(random: &mut Random, plan: &Plan, density: usize) -> BTreeSet<u8> {
    (0..plan.states as u8)
        .filter(|_| random.percent(density))
        .collect()
}

/// A file with a table that holds a little more than it may, at times damaged as well.
fn overfull(random: &mut Random) -> Vec<u8> {
    let more = random.pick(&[1, 1, 1, 2, 4]);
    let (many_steps, many_lines) = (MOST_STEPS + more, MOST_RULE_LINES + more);
    let few_steps = random.pick(&[0, 3, 255, 256]);
    let few_lines = random.pick(&[0, 3, 257, 511, 512]);
    let (steps, rule) = random.pick(&[
        (many_steps, few_lines),
        (few_steps, many_lines),
        (many_steps, many_lines),
    ]);
    let plan = at_the_limits(random, steps, rule);
    let program = program_to_plan(random, &plan);
    let file = write(&program);
    if random.percent(40) {
        return file;
    }
    if random.percent(40) {
        return damage(random, &file);
    }
    let before = match steps > MOST_STEPS {
        true => MOST_STEPS,
        false => steps + MOST_RULE_LINES,
    };
    let first_past = 1 + program.places.len() + before;
    let lines = spoil(random, lines_of(&file), first_past);
    mend(random, lines)
}

/// A file whose sheet would be too long, by one place more than there is room for or by any, at times
/// damaged as well.
fn too_large(random: &mut Random) -> Vec<u8> {
    let file = write(&program_too_large(random));
    if random.percent(70) {
        return file;
    }
    damage(random, &file)
}

/// A plan of sizes that are too large.
fn large_sizes(random: &mut Random) -> Plan {
    let [mut routines, mut states] = [1, 1];
    while room_for_places(routines, states) >= MOST_PLACES.into() {
        (routines, states) = (random.between(1, 16), random.between(5, 16));
    }
    let past = 1 + room_for_places(routines, states);
    let any = random.between(past, MOST_PLACES.into());
    Plan {
        routines,
        most_places: random.pick(&[past, past, any]),
        states,
        ..tiny(random)
    }
}

/// A program that a file would hold but for its sizes.
pub fn program_too_large(random: &mut Random) -> Program {
    let plan = large_sizes(random);
    program_to_plan(random, &plan)
}

/// A good file with one line more, a rule line or a step, in its place by order: its label is one at
/// which some range begins or ends.
fn with_other_label(random: &mut Random) -> Vec<u8> {
    let program = program(random);
    let mut lines = lines_of(&write(&program));
    let label = edge_label(random, program.routines(), program.actions);
    let (from, to) = (random.below(2) as u8, random.below(2) as u8);
    let routine = random.below(program.places.len()) as u8;
    let a_return = FIRST_RETURN + random.below(program.places.len()) as u8;
    let line = if random.percent(70) {
        let last = program.states - 1;
        line_of(&[RULE, from.min(last), label, to.min(last)])
    } else {
        let label = random.pick(&[label, a_return]);
        line_of(&[STEP, routine, 0, label, to])
    };
    let comes_before = |other: &Vec<u8>| {
        let place = |line: &[u8]| {
            let numbers = numbers_of_line(line).expect("the file is well-formed");
            place_of_frame(numbers[0])
        };
        (place(other), other) < (place(&line), &line)
    };
    let at = lines
        .iter()
        .take_while(|&other| comes_before(other))
        .count();
    lines.insert(at, line);
    correct_end_count(&mut lines);
    lines.concat()
}

/// A good file with one of its sizes put just past its range.
fn with_other_size(random: &mut Random) -> Vec<u8> {
    let program = program(random);
    let mut lines = lines_of(&write(&program));
    let routine = random.below(program.places.len());
    let (at, number, past) = random.pick(&[
        (0, 1, MOST_ROUTINES + 1),
        (0, 2, MOST_STATES + 1),
        (0, 3, MOST_ACTIONS + 1),
        (1 + routine, 2, MOST_PLACES + 1),
    ]);
    let mut numbers = numbers_of_line(&lines[at]).expect("the file is well-formed");
    numbers[number] = past;
    lines[at] = line_of(&numbers);
    lines.concat()
}

/// A good file that is damaged so many times.
fn damaged(random: &mut Random, times: usize) -> Vec<u8> {
    let mut file = write(&program(random));
    for _ in 0..times {
        file = damage(random, &file);
    }
    file
}

/// Sizes and routines as they should be, then frames at random.
fn frames_at_random(random: &mut Random) -> Vec<u8> {
    let plan = fitting(bare(random));
    let mut good = program_to_plan(random, &plan);
    good.starts.clear();
    good.forbidden.clear();
    let mut lines = lines_of(&write(&good));
    lines.pop();
    for _ in 0..random.below(12) {
        lines.push(line_of(&frame_at_random(random)));
    }
    lines.push(line_of(&end(lines.len())));
    mend(random, lines)
}

/// Lines of digits, some of an odd count and some empty.
fn digits_at_random(random: &mut Random) -> Vec<u8> {
    let mut file = Vec::new();
    for _ in 0..random.below(6) {
        let kind = random.pick(&FRAMES).number;
        let start = random.pick(&[kind, kind, SIZES, 0]);
        file.extend(format!("{start:02X}").into_bytes());
        for _ in 0..random.below(10) {
            file.push(random.pick(b"0001234567890ABCDEF"));
        }
        file.push(b'\n');
    }
    file
}

#[cfg(test)]
mod tests {
    use super::*;
    use crate::generate::met::Met;
    use crate::generate::size_classes::MetSizes;
    use crate::model::file::read;
    use crate::model::refusals::{FILE_END, SHEET_TOO_LARGE};

    #[test]
    fn every_program_made_is_accepted_and_comes_back() {
        for seed in 0..2000 {
            let program = program(&mut Random::new(seed));
            let file = write(&program);
            assert_eq!(read(&file), Ok(program), "seed {seed}");
        }
    }

    #[test]
    fn programs_reach_the_limits() {
        let programs: Vec<_> = (0..2000)
            .map(|seed| program(&mut Random::new(seed)))
            .collect();
        let any = |wanted: fn(&Program) -> bool| programs.iter().any(wanted);
        assert!(any(
            |program| program.places.len() == 16 && program.places.contains(&16)
        ));
        assert!(any(|program| program.places.contains(&64)));
        assert!(any(
            |program| program.steps.len() == 256 && program.rule.len() == 512
        ));
        assert!(any(
            |program| program.starts.len() == 16 && program.forbidden.len() == 16
        ));
        assert!(any(
            |program| program.steps.is_empty() && program.starts.is_empty()
        ));
        assert!(any(|program| program.places == [2] && program.states == 1));
    }

    #[test]
    fn the_files_of_the_seeds_meet_every_refusal_and_pairs_of_them() {
        let (mut met, mut sizes) = (Met::default(), MetSizes::default());
        let mut pairs = [[0; 9]; 9];
        for seed in 0..15_000 {
            let file = file_of_seed(seed);
            let reading = read(&file);
            sizes.note(&file, &reading);
            let faults = match reading {
                Ok(_) => vec![0],
                Err(refusal) => refusal.faults,
            };
            met.note(faults[0]);
            for &higher in &faults[1..] {
                pairs[faults[0] as usize][higher as usize] += 1;
            }
        }
        println!("{met:?}, {sizes:?}");
        met.check((0..=FILE_END).chain([SHEET_TOO_LARGE]), 50);
        sizes.check(10);
        for (low, high) in [(4, 5), (4, 6), (4, 7), (5, 6)] {
            let times = pairs[low][high];
            assert!(times >= 5, "{low} with {high} was met {times} times");
        }
    }
}
