//! How long one analysis takes with a limit on the takings, beside reading its file and beside one
//! without a limit.

use crate::library::Buffers;
use crate::{mean, print_row, rates, reading, Input};
use binding::NO_LIMIT;
use std::time::{Duration, Instant};
use Side::*;

const ABOUT: &str = "\
One call of the analysis by the library through its C interface, in microseconds, with a limit on
the takings at which it gives up, and without a limit. Programs and timing are those of the table
above. Each call reads its file first, so the time of 'reading' alone is the least that it can take.
";

/// The kinds that are measured, by their names in the table above.
const KINDS: [&str; 3] = [
    "full, over 10000",
    "heard, to two states",
    "one place, all roots",
];

/// What is timed: only reading a file, or the analysis up to a limit.
#[derive(Clone, Copy)]
enum Side {
    Reading,
    UpTo(u64),
}

const SIDES: [Side; 5] = [Reading, UpTo(0), UpTo(100), UpTo(1_000), UpTo(NO_LIMIT)];

/// One turn: every program once. The answer has to be right each time.
fn turn(side: Side, inputs: &[Input], buffers: &mut Buffers) -> Duration {
    match side {
        Reading => crate::turn(reading, inputs, buffers),
        UpTo(limit) => turn_up_to(limit, inputs, buffers),
    }
}

fn turn_up_to(limit: u64, inputs: &[Input], buffers: &mut Buffers) -> Duration {
    let begin = Instant::now();
    for input in inputs {
        let [.., takings] = input.counts;
        let wanted = Some(input.counts).filter(|_| u64::from(takings) <= limit);
        let counts = buffers.analyze_up_to(limit, &input.file, input.length);
        assert_eq!(counts, wanted, "the answer is not the right one");
    }
    begin.elapsed()
}

/// The mean time of one call for each side, in microseconds.
fn measure(inputs: &[Input]) -> [f64; 5] {
    let mut buffers = Buffers::new();
    let calls_a_second = rates(inputs.len(), |side| turn(SIDES[side], inputs, &mut buffers));
    calls_a_second.map(|calls| 1e6 / calls)
}

fn measure_row(kind: &str, inputs: &[Input]) {
    let [reading, up_to_0, up_to_100, up_to_1000, no_limit] =
        measure(inputs).map(|time| format!("{time:.1}"));
    let cells = [
        mean(inputs, 2).to_string(),
        reading,
        up_to_0,
        up_to_100,
        up_to_1000,
        no_limit,
    ];
    print_row(kind, cells);
}

/// Measures and prints the table: a row for each of the kinds.
pub fn print_table(kinds: &[(&str, Vec<Input>)]) {
    println!("{ABOUT}");
    let names = [
        "takings",
        "reading",
        "limit 0",
        "limit 100",
        "limit 1000",
        "no limit",
    ];
    print_row("microseconds a call", names.map(String::from));
    for name in KINDS {
        let kind = kinds.iter().find(|(kind, _)| *kind == name);
        let (_, inputs) = kind.expect("the table above has the kind");
        measure_row(name, inputs);
    }
}
