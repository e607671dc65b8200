//! The proved library against what has to hold of rules that hear calls and returns, whatever the
//! reference says of them: what was before stays, and what is not heard may as well be put down.

mod desk;

use desk::lent::{self, Lending, Lent};
use reference::generate::hearing::hears_nothing;
use reference::generate::programs::{
    hub, hub_of_most_roots, hub_of_roots, program_of_seed, program_of_shape,
};
use reference::generate::random::Random;
use reference::generate::shapes::{Shape, SHAPES};
use reference::model::analysis::{analysis_of, analyze, Analysis};
use reference::model::calls::sheets::{analyze_answer, Counts, NO_LIMIT};
use reference::model::former;
use reference::model::fresh;
use reference::model::fresh::most_takings;
use reference::model::program::{Event, Program, RuleLine, MOST_RULE_LINES};
use reference::model::saved::{is_former, FORMER_SIZES};
use reference::model::standing::marked;
use reference::model::write::write;

const SEEDS: u64 = 3_000;
const SPELLED_SEEDS: u64 = 2_000;

/// The analysis by the procedure that knew nothing of what a rule hears.
fn formerly(program: &Program) -> Analysis {
    analysis_of(program, &former::work_in(program.sizes(), program))
}

/// The program with no more than the actions of its rule.
fn deafened(program: Program) -> Program {
    let lines = program.rule.into_iter();
    let actions = lines.filter(|line| matches!(line.event, Event::Action(_)));
    Program {
        rule: actions.collect(),
        ..program
    }
}

/// Sheet, counts, takings and list of findings by the library, against the former procedure's.
fn compare_formerly(name: &str, program: &Program, random: &mut Random) {
    assert!(hears_nothing(program), "{name}");
    let (file, former) = (write(program), formerly(program));
    let sheet = Lent::of_length(random, former.sheet.len());
    let work = Lent::of_length(random, former.sheet.len());
    lent::compare(
        name,
        &Lending::sheet(&file, &sheet, &work),
        |file, lent| desk::analyze(file, lent.sheet, lent.work, NO_LIMIT),
        |lent| analyze_answer(&Ok(former.clone()), lent.sheet, lent.work, NO_LIMIT),
    );
    if former.findings.len() <= 12 {
        assert_eq!(desk::listed(&file), former.findings, "{name}");
    }
}

/// Old files are safe: a rule without a line for a call or a return gives what it always gave.
#[test]
fn rules_that_hear_nothing_are_worked_as_formerly() {
    for seed in 0..SEEDS {
        let random = &mut Random::new(!seed);
        let program = deafened(program_of_seed(seed));
        compare_formerly(&format!("seed {seed}"), &program, random);
    }
    for shape in SHAPES {
        for seed in 0..4 {
            let random = &mut Random::new(seed);
            let program = deafened(program_of_shape(random, shape));
            compare_formerly(&format!("{shape:?}, seed {seed}"), &program, random);
        }
    }
    compare_formerly("hub", &hub(), &mut Random::new(0));
}

/// The program with a line that leaves the state alone, for each state, wherever a call or a return is
/// not heard; None where there is no room for the lines.
fn spelled_out(program: &Program) -> Option<Program> {
    let mut spelled = program.clone();
    for routine in 0..program.routines() {
        for event in [Event::Call(routine), Event::Return(routine)] {
            if program.rule.iter().any(|line| line.event == event) {
                continue;
            }
            let stays = |state| RuleLine {
                from: state,
                event,
                to: state,
            };
            spelled.rule.extend((0..program.states).map(stays));
        }
    }
    Some(spelled).filter(|spelled| spelled.rule.len() <= MOST_RULE_LINES)
}

/// A call or a return that is not heard is the same as one that leaves each state alone by a line.
#[test]
fn what_is_not_heard_may_be_put_down() {
    let (mut spelled, mut heard_some) = (0, 0);
    for seed in 0..SPELLED_SEEDS {
        let shapes = [Shape::Tiny, Shape::Recursive, Shape::Layered, Shape::Mixed];
        let shape = shapes[seed as usize % shapes.len()];
        let program = program_of_shape(&mut Random::new(seed), shape);
        if let Some(all) = spelled_out(&program) {
            let (one, other) = (desk::worked(&write(&program)), desk::worked(&write(&all)));
            assert_eq!(one, other, "seed {seed}");
            spelled += usize::from(all != program);
            heard_some += usize::from(all != program && !hears_nothing(&program));
        }
    }
    println!("spelled out: {spelled}, of them with something heard: {heard_some}");
    assert!(spelled >= 1_000 && heard_some >= 600);
}

/// A keeping with either of the two files leaves the same.
#[test]
fn what_is_not_heard_may_be_put_down_for_keepings() {
    let mut parted = 0;
    for seed in 0..300 {
        let random = &mut Random::new(seed);
        let program = program_of_shape(random, Shape::Tiny);
        let all = match spelled_out(&program) {
            Some(all) => all,
            None => continue,
        };
        let sheet: Vec<u8> = (0..program.sizes().length())
            .map(|_| u8::from(random.percent(80)))
            .collect();
        let kept = desk::kept(&program, &sheet);
        assert_eq!(kept, desk::kept(&all, &sheet), "seed {seed}");
        parted += usize::from(kept.len() > 1 && kept.len() < marked(&sheet).len());
    }
    assert!(parted >= 50, "{parted}");
}

/// The most takings that there can be: one standing has 1,025 of them, or 4,097 with 16 states.
#[test]
fn the_hubs_of_roots_take_as_many_takings_as_the_reference_says() {
    for program in [hub_of_roots(), hub_of_most_roots()] {
        let analysis = analyze(&program);
        let (numbers, counts) = desk::worked(&write(&program));
        assert_eq!(numbers, marked(&analysis.sheet));
        assert_eq!(counts, Counts::of(&analysis));
        assert!(counts.takings > most_takings(program.sizes()));
    }
}

/// Programs that could be put down before they had sizes of their own keep their standings, their findings
/// and their count of takings; only the numbers go by other sizes.
#[test]
fn former_programs_keep_all_but_their_numbers() {
    let mut former = 0;
    for seed in 0..1_500 {
        let program = program_of_seed(seed);
        if !is_former(&program) {
            continue;
        }
        let worked = fresh::work_in(FORMER_SIZES, &program);
        let wanted = analysis_of(&program, &worked);
        let (numbers, counts) = desk::worked(&write(&program));
        assert_eq!(counts, Counts::of(&wanted), "seed {seed}");
        let own = program.sizes();
        let given = numbers.into_iter().map(|number| own.standing(number));
        assert!(given.eq(worked.by_parts().into_keys()), "seed {seed}");
        former += 1;
    }
    assert!(former >= 1_000, "{former}");
}
