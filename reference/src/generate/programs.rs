//! Programs for the analysis, made from a seed.
//!
//! Steps thrown about at random seldom lead anywhere. Here every place of a routine can be reached
//! from its entry by steps, as far as its calls return, and the rule mostly has a line where one is
//! needed, for actions and for the calls and returns that it hears. The shapes differ in what calls
//! what, and in how much there is of everything.

use crate::generate::random::Random;
use crate::generate::rules::{rule, MakeRule};
use crate::generate::shapes::{plan, shape_by_shares, Callees, Plan, Shape, Shares};
use crate::model::program::{Event, Label, Program, RuleLine, Step, EXIT};
use std::collections::BTreeSet;

/// The program that belongs to a seed. Few are full or have the longest sheet, as these take long.
pub fn program_of_seed(seed: u64) -> Program {
    let shares = [
        (360, Shape::Tiny),
        (300, Shape::Recursive),
        (60, Shape::Wide),
        (175, Shape::Mixed),
        (20, Shape::Full),
        (40, Shape::Long),
        (30, Shape::ManyStates),
        (10, Shape::Ruled),
        (5, Shape::Largest),
    ];
    program_by_shares(&mut Random::new(seed), &shares)
}

/// A program of some shape, by the shares.
pub fn program_by_shares(random: &mut Random, shares: &Shares) -> Program {
    let shape = shape_by_shares(random, shares);
    program_of_shape(random, shape)
}

pub fn program_of_shape(random: &mut Random, shape: Shape) -> Program {
    let plan = plan(random, shape);
    program_to_plan(random, &plan, rule)
}

/// A program to a plan, its rule by this maker.
pub fn program_to_plan(random: &mut Random, plan: &Plan, make_rule: MakeRule) -> Program {
    let places: Vec<u8> = (0..plan.routines)
        .map(|_| random.between(plan.least_places, plan.most_places) as u8)
        .collect();
    Program {
        states: plan.states as u8,
        actions: plan.actions as u8,
        steps: steps(random, plan, &places),
        rule: make_rule(random, plan),
        starts: some_states(random, plan, [5, 60, 25]),
        forbidden: some_states(random, plan, [15, 45, 25]),
        places,
    }
}

/// No state, one, several or all; the first three so many times out of a hundred.
fn some_states(random: &mut Random, plan: &Plan, shares: [usize; 3]) -> BTreeSet<u8> {
    let drawn = random.below(100);
    let one = random.below(plan.states) as u8;
    let all = 0..plan.states as u8;
    if drawn < shares[0] {
        BTreeSet::new()
    } else if drawn < shares[0] + shares[1] {
        BTreeSet::from([one])
    } else if drawn < shares[0] + shares[1] + shares[2] {
        all.filter(|&state| state == one || random.percent(40))
            .collect()
    } else {
        all.collect()
    }
}

/// First the steps that reach each routine's places, as far as there is room, then others, up to
/// the planned count.
fn steps(random: &mut Random, plan: &Plan, places: &[u8]) -> BTreeSet<Step> {
    let ends: Vec<bool> = (0..plan.routines)
        .map(|_| random.percent(plan.return_in_a_hundred))
        .collect();
    let mut steps = BTreeSet::new();
    for routine in 0..plan.routines {
        let needed = trail(random, plan, routine, places[routine], ends[routine]);
        let room = plan.steps.saturating_sub(steps.len());
        steps.extend(needed.into_iter().take(room));
    }
    random.filled(steps, plan.steps, |random| {
        let routine = random.below(plan.routines);
        other_step(random, plan, routine, places[routine], ends[routine])
    })
}

/// The steps of one routine: first those that reach its places, then others, up to the planned count.
pub fn routine(random: &mut Random, plan: &Plan, routine: usize, places: u8) -> BTreeSet<Step> {
    let ends = random.percent(plan.return_in_a_hundred);
    let needed = trail(random, plan, routine, places, ends);
    random.filled(needed.into_iter().collect(), plan.steps, |random| {
        other_step(random, plan, routine, places, ends)
    })
}

/// Steps that lead from the entry to every other place, the exit only where the routine ends.
fn trail(random: &mut Random, plan: &Plan, routine: usize, places: u8, ends: bool) -> Vec<Step> {
    let mut reached = vec![0];
    let mut steps = Vec::new();
    let exit_at = random.between(2, usize::from(places)) as u8;
    for place in 2..=places {
        if ends && place == exit_at {
            let from = random.pick(&reached);
            steps.push(labelled(random, plan, routine, from, EXIT));
        }
        if place < places {
            let recent = reached[reached.len() - 1];
            let any = random.pick(&reached);
            let from = random.pick(&[recent, any]);
            steps.push(labelled(random, plan, routine, from, place));
            reached.push(place);
        }
    }
    steps
}

/// Any step of a routine; one to the exit only where the routine ends.
pub fn other_step(
    random: &mut Random,
    plan: &Plan,
    routine: usize,
    places: u8,
    ends: bool,
) -> Step {
    let some_place = |random: &mut Random| random.below(usize::from(places)) as u8;
    let from = match some_place(random) {
        EXIT => 0,
        place => place,
    };
    let to = match some_place(random) {
        EXIT if !ends => 0,
        place => place,
    };
    labelled(random, plan, routine, from, to)
}

fn labelled(random: &mut Random, plan: &Plan, routine: usize, from: u8, to: u8) -> Step {
    let action = Label::Action(random.below(plan.actions) as u8);
    let label = match callee(random, plan, routine) {
        Some(callee) if random.percent(plan.calls_in_a_hundred) => Label::Call(callee),
        _ => action,
    };
    Step {
        routine: routine as u8,
        from,
        label,
        to,
    }
}

/// A routine to call; None where the shape leaves none.
fn callee(random: &mut Random, plan: &Plan, caller: usize) -> Option<u8> {
    let any = random.below(plan.routines);
    let callee = match plan.callees {
        Callees::Any => any,
        Callees::Circles => {
            let next = (caller + 1) % plan.routines;
            let last = (caller + plan.routines - 1) % plan.routines;
            random.pick(&[caller, next, next, last, 0, any])
        }
        Callees::Later | Callees::Next if caller + 1 == plan.routines => return None,
        Callees::Later => random.between(caller + 1, plan.routines - 1),
        Callees::Next => {
            let later = random.between(caller + 1, plan.routines - 1);
            random.pick(&[caller + 1, caller + 1, later])
        }
    };
    Some(callee as u8)
}

/// The program of 8 states that takes one standing as often as any could be taken while a call left the
/// state alone: main's entry calls all 16 routines, main among them, and each of these ends in all states.
pub fn hub() -> Program {
    hub_of(8)
}

/// The same with so many states.
fn hub_of(states: u8) -> Program {
    let step = |routine, label, to| Step {
        routine,
        from: 0,
        label,
        to,
    };
    let ends = (0..16).map(|routine| step(routine, Label::Action(0), EXIT));
    let calls = (0..16).map(|callee| step(0, Label::Call(callee), 2));
    let lines = (0..states).flat_map(|from| leading_to_all(from, Event::Action(0), states));
    Program {
        places: [vec![3], vec![2; 15]].concat(),
        states,
        actions: 1,
        steps: ends.chain(calls).collect(),
        rule: lines.collect(),
        starts: BTreeSet::from([0]),
        forbidden: BTreeSet::from([7]),
    }
}

/// The lines by which an event leads from a state to each of so many.
fn leading_to_all(from: u8, event: Event, states: u8) -> impl Iterator<Item = RuleLine> {
    (0..states).map(move |to| RuleLine { from, event, to })
}

/// The program of 8 states that takes one standing as often as any can be taken: as the hub, and each
/// call leads from state 0 to all roots. From other states nothing can be called.
pub fn hub_of_roots() -> Program {
    hub_of_roots_of(8)
}

/// The same with 16 states. It has 512 rule lines.
pub fn hub_of_most_roots() -> Program {
    hub_of_roots_of(16)
}

fn hub_of_roots_of(states: u8) -> Program {
    let mut program = hub_of(states);
    let heard = (0..16).flat_map(|routine| leading_to_all(0, Event::Call(routine), states));
    program.rule.extend(heard);
    program
}

/// The same where nothing ends in state 7 and a return is possible from state 7 only: the entry is
/// taken again for every exit, though these takings lead nowhere.
pub fn hub_without_returns() -> Program {
    let mut program = hub_of_roots();
    let ends_in_7 = |line: &RuleLine| line.event == Event::Action(0) && line.to == 7;
    program.rule.retain(|line| !ends_in_7(line));
    let heard = (0..16).map(|routine| RuleLine {
        from: 7,
        event: Event::Return(routine),
        to: 0,
    });
    program.rule.extend(heard);
    program
}

#[cfg(test)]
mod tests {
    use super::*;
    use crate::model::file::read;
    use crate::model::least::least_set;
    use crate::model::program::MOST_STATES;
    use crate::model::standing::{Standing, MOST_SHEET};
    use crate::model::write::write;

    const SEEDS: u64 = 1500;

    #[test]
    fn every_program_made_is_accepted() {
        for seed in 0..SEEDS {
            let program = program_of_seed(seed);
            assert_eq!(read(&write(&program)), Ok(program), "seed {seed}");
        }
    }

    #[test]
    fn full_programs_are_full_and_some_have_most_standings() {
        let mut largest = 0;
        for seed in 0..20 {
            let program = program_of_shape(&mut Random::new(seed), Shape::Full);
            assert_eq!((program.places.len(), program.states), (16, 8));
            assert!(program.steps.len() == 256 && program.rule.len() >= 256);
            largest = largest.max(least_set(&program).len());
        }
        assert!(largest > 10_000, "{largest}");
    }

    #[test]
    fn the_largest_programs_have_the_longest_sheet() {
        for seed in 0..30 {
            let program = program_of_shape(&mut Random::new(seed), Shape::Largest);
            assert_eq!(program.sizes().length(), MOST_SHEET);
        }
    }

    /// What the programs of the seeds do.
    #[derive(Debug, Default)]
    struct Met {
        no_start: usize,
        several_starts: usize,
        unreturned_calls: usize,
        main_called_in_another_state: usize,
        self_calls: usize,
        circles_of_two: usize,
        over_100: usize,
        over_1000: usize,
        over_5000: usize,
        findings: usize,
        no_findings: usize,
    }

    fn note(met: &mut Met, program: &Program) {
        let set = least_set(program);
        let exits =
            |callee, root| (0..MOST_STATES).map(move |end| Standing::exit(callee, root, end));
        let calls: Vec<(Standing, u8)> = calls_made(program, &set);
        let calls_of = |caller, callee| {
            let is_this = |call: &(Standing, u8)| call.0.routine == caller && call.1 == callee;
            calls.iter().any(is_this)
        };
        let unreturned = |&(at, callee): &(Standing, u8)| {
            !exits(callee, at.state).any(|exit| set.contains(&exit))
        };
        let other_state =
            |&(at, callee): &(Standing, u8)| callee == 0 && !program.starts.contains(&at.state);
        let finding = set.iter().any(|at| program.forbidden.contains(&at.state));
        met.no_start += usize::from(program.starts.is_empty());
        met.several_starts += usize::from(program.starts.len() > 1);
        met.unreturned_calls += usize::from(calls.iter().any(unreturned));
        met.main_called_in_another_state += usize::from(calls.iter().any(other_state));
        met.self_calls += usize::from((0..16).any(|one| calls_of(one, one)));
        met.circles_of_two += usize::from(
            (0..16).any(|one| (0..one).any(|other| calls_of(one, other) && calls_of(other, one))),
        );
        met.over_100 += usize::from(set.len() > 100);
        met.over_1000 += usize::from(set.len() > 1000);
        met.over_5000 += usize::from(set.len() > 5000);
        met.findings += usize::from(finding);
        met.no_findings += usize::from(!finding);
    }

    /// The calls that standings which can occur make: from where, and of what.
    fn calls_made(program: &Program, set: &BTreeSet<Standing>) -> Vec<(Standing, u8)> {
        let made = |at: &Standing| {
            let at = *at;
            let callees = program.callees_from(at.routine, at.place);
            callees.map(move |callee| (at, callee))
        };
        set.iter().flat_map(made).collect()
    }

    #[test]
    fn the_programs_of_the_seeds_do_all_that_programs_can_do() {
        let mut met = Met::default();
        for seed in 0..SEEDS {
            note(&mut met, &program_of_seed(seed));
        }
        println!("{met:?}");
        assert!(met.no_start >= 50 && met.several_starts >= 300, "{met:?}");
        assert!(met.unreturned_calls >= 200, "{met:?}");
        assert!(met.main_called_in_another_state >= 100, "{met:?}");
        assert!(
            met.self_calls >= 200 && met.circles_of_two >= 100,
            "{met:?}"
        );
        assert!(met.over_100 >= 200 && met.over_1000 >= 40, "{met:?}");
        assert!(met.over_5000 >= 5, "{met:?}");
        assert!(met.findings >= 500 && met.no_findings >= 300, "{met:?}");
    }
}
