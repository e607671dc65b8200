//! Exchanges made from a seed, and their texts.
//!
//! Most of them are accepted: a routine is exchanged for itself, gets back what it had at home, is made
//! shorter or longer, loses its steps, or is made anew. Of the others some have more steps or more places
//! than there is room for, and some have a text that is damaged.

use crate::generate::programs::{other_step, routine};
use crate::generate::random::Random;
use crate::generate::shapes::{plan_within, room_for_places, Callees, Plan};
use crate::generate::text_damage::{damaged, long};
use crate::model::exchange::Exchange;
use crate::model::program::{Program, Step, MOST_PLACES, MOST_STEPS};
use std::collections::BTreeSet;

/// How many places a routine of the program may have.
pub fn room(program: &Program) -> u8 {
    room_for_places(program.places.len(), program.states.into()) as u8
}

/// A text for a program as it is now, with its sheet. What a routine had at home, before any change,
/// comes back at times.
pub fn text(random: &mut Random, home: &Program, now: &Program, sheet: &[u8]) -> Vec<u8> {
    let exchange = exchange(random, home, now, sheet);
    match random.below(100) {
        0..=69 => exchange.text(),
        70..=97 => damaged(random, now, &exchange),
        _ => long(random, now, &exchange),
    }
}

/// An exchange that is in range and in order, so that only its count of steps or of places may be too
/// large.
pub fn exchange(random: &mut Random, home: &Program, now: &Program, sheet: &[u8]) -> Exchange {
    let routine = some_routine(random, now, sheet);
    let old = Exchange::for_itself(now, routine);
    if room(now) < MOST_PLACES && random.percent(35) {
        return too_long(random, now, old);
    }
    match random.below(100) {
        0..=9 => old,
        10..=21 => Exchange::for_itself(home, routine),
        22..=30 => without_steps(random, now, old),
        31..=43 => shorter(random, old),
        44..=56 => longer(random, now, old),
        57..=68 => retouched(random, now, old),
        69..=93 => anew(random, now, routine),
        _ => filled(random, now, old),
    }
}

/// A routine to exchange: mostly one that is entered, main at times.
fn some_routine(random: &mut Random, program: &Program, sheet: &[u8]) -> u8 {
    let routines = 0..program.routines();
    let sizes = program.sizes();
    let is_entered = |routine: &u8| sheet[sizes.numbers_at(*routine, 0)].contains(&1);
    let entered: Vec<u8> = routines.filter(is_entered).collect();
    match random.below(100) {
        0..=14 => 0,
        15..=79 if !entered.is_empty() => random.pick(&entered),
        _ => random.below(program.places.len()) as u8,
    }
}

fn without_steps(random: &mut Random, program: &Program, old: Exchange) -> Exchange {
    let other = random.between(2, room(program).into()) as u8;
    Exchange {
        places: random.pick(&[old.places, other]),
        steps: BTreeSet::new(),
        ..old
    }
}

/// Fewer places, where there can be, and those of the old steps that still have theirs.
fn shorter(random: &mut Random, old: Exchange) -> Exchange {
    let places = random.between(2, usize::from(old.places).max(3) - 1) as u8;
    let fits = |step: &Step| step.from < places && step.to < places;
    let steps = old.steps.into_iter().filter(fits);
    Exchange {
        places,
        steps: steps.collect(),
        ..old
    }
}

/// More places, where there can be, the old steps, and others that lead to all places.
fn longer(random: &mut Random, program: &Program, old: Exchange) -> Exchange {
    let most = usize::from(room(program));
    let least = most.min(usize::from(old.places) + 1);
    let (any, few) = (
        random.between(least, most),
        random.between(least, most.min(least + 3)),
    );
    let places = random.pick(&[any, few, most]) as u8;
    let more = random.between(1, 8);
    with_more_steps(random, program, Exchange { places, ..old }, more)
}

/// More places than leave the sheet within its limit, by one or as many as a routine may have.
fn too_long(random: &mut Random, program: &Program, old: Exchange) -> Exchange {
    let past = room(program) + 1;
    let places = random.pick(&[past, past, MOST_PLACES]);
    let more = random.between(2, 12);
    let mut exchange = Exchange { places, ..old };
    if random.percent(25) {
        exchange.steps.clear();
        return exchange;
    }
    with_more_steps(random, program, exchange, more)
}

/// Some of the old steps, and some others.
fn retouched(random: &mut Random, program: &Program, mut old: Exchange) -> Exchange {
    old.steps.retain(|_| random.percent(75));
    let more = random.between(0, 4);
    with_more_steps(random, program, old, more)
}

fn with_more_steps(
    random: &mut Random,
    program: &Program,
    exchange: Exchange,
    more: usize,
) -> Exchange {
    let plan = plan_within(random, program);
    let (routine, places) = (exchange.routine.into(), exchange.places);
    let count = exchange.steps.len() + more;
    let one = |random: &mut Random| other_step(random, &plan, routine, places, true);
    Exchange {
        steps: random.filled(exchange.steps, count, one),
        ..exchange
    }
}

fn anew(random: &mut Random, program: &Program, number: u8) -> Exchange {
    let plan = plan_within(random, program);
    let places = random.between(plan.least_places, plan.most_places) as u8;
    Exchange {
        routine: number,
        places,
        steps: routine(random, &plan, number.into(), places),
    }
}

/// As many steps as there is room for, one less, or a few too many. With so many places, and any
/// routine to call, there mostly are more than enough.
fn filled(random: &mut Random, program: &Program, old: Exchange) -> Exchange {
    let others = program.steps.len() - old.steps.len();
    let all = MOST_STEPS + 1 - others;
    let less = random.pick(&[0, 0, 0, 1, 1, 1, 2]);
    let more = random.pick(&[0, 0, 0, 0, 0, 1, 2, 50]);
    let count = (all + more).saturating_sub(less);
    let plan = Plan {
        callees: Callees::Any,
        ..plan_within(random, program)
    };
    let number = usize::from(old.routine);
    let places = room(program);
    let one = |random: &mut Random| other_step(random, &plan, number, places, true);
    Exchange {
        places,
        steps: random.filled(BTreeSet::new(), count, one),
        ..old
    }
}

#[cfg(test)]
mod tests {
    use super::*;
    use crate::generate::met::Met;
    use crate::generate::programs::{program_of_seed, program_of_shape};
    use crate::generate::shapes::Shape;
    use crate::generate::text_classes::{Exchanging, MetTexts};
    use crate::model::analysis::own_sheet;
    use crate::model::calls::repairs::Function::ExchangeForward;
    use crate::model::change::{changed_by_text, Form};
    use crate::model::refusals::{
        BAD_EDIT, EDIT_RANGE, EXCHANGE_ORDER, SHEET_TOO_LARGE, STEPS_FULL,
    };

    #[test]
    fn most_texts_are_accepted_and_each_class_is_met() {
        let (mut met, mut classes) = (Met::default(), MetTexts::default());
        for seed in 0..5000 {
            let random = &mut Random::new(seed);
            let home = if seed % 10 == 0 {
                program_of_shape(random, Shape::Crowded)
            } else {
                program_of_seed(seed)
            };
            let own = own_sheet(&home);
            let text = text(random, &home, &home, &own);
            let after = changed_by_text(Form::Exchange, &home, &text);
            let refusal = after.as_ref().err().copied().unwrap_or(0);
            let left = after.map_or(own.clone(), |after| own_sheet(&after));
            met.note(refusal);
            let exchanging = Exchanging::new(&home, &text, &own, &left);
            classes.note(ExchangeForward, refusal, &exchanging);
        }
        println!("{met:?}, {classes:?}");
        let texts = [BAD_EDIT, EDIT_RANGE, EXCHANGE_ORDER];
        let refusals = [&[0, STEPS_FULL, SHEET_TOO_LARGE], &texts[..]].concat();
        met.check(texts, 150);
        met.check([STEPS_FULL, SHEET_TOO_LARGE], 50);
        met.check([0], 2500);
        classes.check(&[ExchangeForward], &refusals, 5);
    }
}
