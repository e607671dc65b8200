//! Edit lines made from a seed.
//!
//! Most of them are accepted: a step that is there is dropped or gets another label, one that was
//! dropped comes back, or a step joins that is nearly one of those there. The others meet each of
//! the refusals 12 to 16.

use crate::generate::random::Random;
use crate::model::edit::Edit;
use crate::model::lines::{line_of, numbers_of_line};
use crate::model::program::{Label, Program, Step, EXIT, FIRST_CALL, FIRST_RETURN};
use crate::model::ranges::Ranges;

/// A line for a program as it is now, with its sheet. What it had at home, before any edit, comes
/// back at times.
pub fn line(random: &mut Random, home: &Program, now: &Program, sheet: &[u8]) -> Vec<u8> {
    let kind = random.below(100);
    let here = if random.percent(70) {
        step_that_acts(random, now, sheet)
    } else {
        some_step(random, now)
    };
    let near = near_and_absent(random, now, here);
    let label = new_label(random, now, here);
    let edit = match kind {
        0..=30 => Edit::Drop(here),
        31..=46 => Edit::Add(lost_step(random, home, now).unwrap_or(near)),
        47..=60 => Edit::Add(near),
        61..=77 => Edit::Replace(here, label),
        78..=80 => Edit::Add(here),
        81..=83 => Edit::Drop(near),
        84..=85 => Edit::Replace(near, label),
        86..=87 => Edit::Replace(here, here.label),
        88..=89 => Edit::Replace(here, twin_label(random, now, here)),
        90..=94 => return out_of_range(random, now, here),
        _ => return no_edit(random, Edit::Add(near)),
    };
    edit.line()
}

/// A line that is an edit and in range, so that only what is there decides.
pub fn edit_in_range(random: &mut Random, now: &Program) -> Vec<u8> {
    let here = some_step(random, now);
    let near = near_and_absent(random, now, here);
    let label = new_label(random, now, here);
    let edits = [
        Edit::Add(near),
        Edit::Drop(here),
        Edit::Replace(here, label),
    ];
    random.pick(&edits).line()
}

/// One of the steps that are there; any step if there is none.
fn some_step(random: &mut Random, program: &Program) -> Step {
    let steps: Vec<Step> = program.steps.iter().copied().collect();
    if steps.is_empty() {
        any_step(random, program)
    } else {
        random.pick(&steps)
    }
}

/// The steps that begin where something is marked.
pub fn steps_that_act(program: &Program, sheet: &[u8]) -> Vec<Step> {
    let sizes = program.sizes();
    let acts = |step: &&Step| sheet[sizes.numbers_at(step.routine, step.from)].contains(&1);
    program.steps.iter().filter(acts).copied().collect()
}

/// One of the steps that begin where something is marked, if there is one.
fn step_that_acts(random: &mut Random, program: &Program, sheet: &[u8]) -> Step {
    let steps = steps_that_act(program, sheet);
    if steps.is_empty() {
        some_step(random, program)
    } else {
        random.pick(&steps)
    }
}

/// A step that is there at home and not now, and for which there still are the places.
fn lost_step(random: &mut Random, home: &Program, now: &Program) -> Option<Step> {
    let ranges = Ranges::of_program(now);
    let lost = home.steps.difference(&now.steps).copied();
    let lost: Vec<Step> = lost.filter(|&step| ranges.has_step(step)).collect();
    if lost.is_empty() {
        None
    } else {
        Some(random.pick(&lost))
    }
}

fn any_step(random: &mut Random, program: &Program) -> Step {
    let routine = random.below(program.places.len()) as u8;
    Step {
        routine,
        from: place_to_leave(random, program, routine),
        label: some_label(random, program),
        to: some_place(random, program, routine),
    }
}

/// The step with one thing changed, or another one of the same routine.
fn near(random: &mut Random, program: &Program, step: Step) -> Step {
    let mut near = step;
    match random.below(5) {
        0 => near.to = some_place(random, program, step.routine),
        1 => near.from = place_to_leave(random, program, step.routine),
        2 => near.label = some_label(random, program),
        3 => {
            let any = any_step(random, program);
            let from = place_to_leave(random, program, step.routine);
            let to = some_place(random, program, step.routine);
            near = Step {
                routine: step.routine,
                from,
                to,
                ..any
            };
        }
        _ => near = any_step(random, program),
    }
    near
}

/// How often something that is not there is looked for.
const TRIES: usize = 6;

/// A step near this one that is not there, unless no try finds one.
fn near_and_absent(random: &mut Random, program: &Program, step: Step) -> Step {
    let mut found = near(random, program, step);
    for _ in 0..TRIES {
        if program.steps.contains(&found) {
            found = near(random, program, step);
        }
    }
    found
}

/// A label that no step between these places has, unless no try finds one.
fn new_label(random: &mut Random, program: &Program, step: Step) -> Label {
    let mut label = some_label(random, program);
    for _ in 0..TRIES {
        if program.steps.contains(&Step { label, ..step }) {
            label = some_label(random, program);
        }
    }
    label
}

fn some_place(random: &mut Random, program: &Program, routine: u8) -> u8 {
    random.below(usize::from(program.places[usize::from(routine)])) as u8
}

fn place_to_leave(random: &mut Random, program: &Program, routine: u8) -> u8 {
    match some_place(random, program, routine) {
        EXIT => 0,
        place => place,
    }
}

fn some_label(random: &mut Random, program: &Program) -> Label {
    if random.percent(40) {
        Label::Call(random.below(program.places.len()) as u8)
    } else {
        Label::Action(random.below(usize::from(program.actions)) as u8)
    }
}

/// The label of another step between the same places, where there is one.
fn twin_label(random: &mut Random, program: &Program, step: Step) -> Label {
    let ends = |step: &Step| (step.routine, step.from, step.to);
    let twins = program
        .steps
        .iter()
        .filter(|other| ends(other) == ends(&step));
    let labels: Vec<Label> = twins.map(|twin| twin.label).collect();
    if labels.is_empty() {
        step.label
    } else {
        random.pick(&labels)
    }
}

/// An edit of a step that is there, with one number put at the end of its range or beyond.
fn out_of_range(random: &mut Random, program: &Program, step: Step) -> Vec<u8> {
    let label = some_label(random, program);
    let edits = [
        Edit::Add(step),
        Edit::Drop(step),
        Edit::Replace(step, label),
    ];
    let mut numbers = numbers_of(random.pick(&edits));
    let places = program.places[usize::from(step.routine)];
    let at = random.between(1, numbers.len() - 1);
    numbers[at] = past_range(random, program, places, at);
    line_of(&numbers)
}

/// A number at the end of its range or beyond, for a step of a routine with so many places. After the
/// kind, a step's line has its routine, a place, a label, a place, and in an edit another label.
pub fn past_range(random: &mut Random, program: &Program, places: u8, at: usize) -> u8 {
    let routines = program.routines();
    let first_past = FIRST_CALL + routines;
    let a_return = FIRST_RETURN + random.below(routines.into()) as u8;
    let edge = random.pick(&[program.actions, first_past]);
    let labels = [edge, edge, edge, edge, 0x20, 0x3F, 0x50, 0x5F, 255];
    match at {
        1 => random.pick(&[routines, 16, 255]),
        2 => random.pick(&[EXIT, EXIT, places, 64, 255]),
        4 => random.pick(&[places, 64, 255]),
        _ if random.percent(40) => a_return,
        _ => random.pick(&labels),
    }
}

/// Whether a line would give or take the label of a return that this program has.
pub fn has_return_label(program: &Program, line: &[u8]) -> bool {
    let numbers = numbers_of_line(line).unwrap_or_default();
    let returns = FIRST_RETURN..FIRST_RETURN + program.routines();
    let is_return = |at: usize| {
        numbers
            .get(at)
            .map_or(false, |label| returns.contains(label))
    };
    is_return(3) || is_return(5)
}

fn numbers_of(edit: Edit) -> Vec<u8> {
    numbers_of_line(&edit.line()).expect("digits")
}

/// What is no edit, or not exactly one line.
fn no_edit(random: &mut Random, edit: Edit) -> Vec<u8> {
    let mut line = edit.line();
    let place = random.below(line.len());
    let mut numbers = numbers_of(edit);
    match random.below(14) {
        0 => line.clear(),
        1 => line.truncate(place),
        2 => line.extend_from_slice(&edit.line()),
        3 => line.push(random.byte()),
        4 => line.insert(0, b'\n'),
        5 => drop(line.remove(place)),
        6 => line[place] = random.pick(b"abcdefgG:/@ \r\0\xFF"),
        7 => line.insert(place, random.pick(b"0123456789ABCDEF\n")),
        8 => numbers[0] = random.pick(&[0x2A, 0x2C, 0x3C, 0x3E, 0x45, 0x53, 0x00, 0xFF]),
        9 => drop(numbers.pop()),
        10 => numbers.push(random.byte()),
        11 => numbers.extend(vec![0; random.pick(&[250, 256, 2000])]),
        12 => line = line.repeat(random.between(2, 300)),
        _ => return (0..random.below(40)).map(|_| random.byte()).collect(),
    }
    if numbers == numbers_of(edit) {
        line
    } else {
        line_of(&numbers)
    }
}

#[cfg(test)]
mod tests {
    use super::*;
    use crate::generate::met::Met;
    use crate::generate::programs::{program_of_seed, program_of_shape};
    use crate::generate::shapes::Shape;
    use crate::model::analysis::own_sheet;
    use crate::model::edit::edited_by_line;
    use crate::model::refusals::{BAD_EDIT, EDIT_RANGE, STEPS_FULL};

    #[test]
    fn most_lines_are_accepted_and_each_refusal_is_met() {
        let (mut met, mut returns) = (Met::default(), 0);
        for seed in 0..4000 {
            let random = &mut Random::new(seed);
            let home = if seed % 20 == 0 {
                program_of_shape(random, Shape::Crowded)
            } else {
                program_of_seed(seed)
            };
            let line = line(random, &home, &home, &own_sheet(&home));
            let after = edited_by_line(&home, &line);
            let refusal = after.err().unwrap_or(0);
            met.note(refusal);
            let is_return = refusal == EDIT_RANGE && has_return_label(&home, &line);
            returns += usize::from(is_return);
        }
        println!("{met:?}, labels of returns: {returns}");
        assert!(returns >= 10, "{returns}");
        met.check([0], 2000);
        met.check(BAD_EDIT..=STEPS_FULL, 20);
    }
}
