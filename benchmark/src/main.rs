//! How many programs a second the proved analysis does, through the C interface, beside the same
//! procedure in plain Rust, written twice; how long one analysis takes with a limit on the takings; and
//! how many changes the two repairs make.
//!
//! - `library` calls the proved library.
//! - `plain` is the procedure written straight from its description, `packed` the same tuned
//!   further, and `tables` what they have in common.
//! - `programs` makes what is measured.
//! - `limits` measures the analysis with a limit.
//! - `changes` measures the repairs.

mod changes;
mod library;
mod limits;
mod packed;
mod plain;
mod programs;
mod tables;

use library::Buffers;
use reference::cases::sample;
use reference::generate::programs::{hub, hub_of_roots};
use reference::generate::shapes::Shape;
use reference::model::program::Program;
use reference::model::write::write;
use std::time::{Duration, Instant};
use tables::Tables;

/// How many programs of each kind are measured.
const PROGRAMS: usize = 6;
/// How long each side is measured for each kind, at the least.
const AT_LEAST: Duration = Duration::from_millis(1500);

const ABOUT: &str = "\
The analysis of large programs, the library through its C interface beside the same procedure in
plain Rust, written twice, all compiled for release. Each kind is several programs, all of them
analyzed in turn by one side; next is always the side that has had the least time, until each has
had enough. A first turn is not counted.
'plain' is the procedure written straight from its description. Steps are found by their place and
next states in a table, the sheet holds the marks, and what waits and the pairs are bits.
'packed' is tuned further. The marks of a place with one root are one word until the sheet is written
at the end, and the pairs are folded into one table with the moves of calls and returns.
Each 'ratio' is the library's time over that of the side before it: at 2.00 the library takes twice
the time.
Nobody clears the buffers between calls: they come as the call before left them. All sides clear
what they need, and make what they look things up in, within the time measured. The library gets
the file and reads it every time; the other two get the program decoded. 'reading' is how many
files a second the library only reads.
Standings and takings are the means over the programs of a kind.
The rules of four kinds hear calls and returns, and those of the others do not. In the
two kinds 'all heard' every call and every return permutes the states. In 'heard, to two states'
each of them leads to two, so that there are very many takings. In 'one place, all roots' calls
alone are heard and each leads to all 8 roots, so that one standing is taken 1,025 times.
The programs of the first kinds have at most 16 places a routine, 8 states and 256 rule lines.
'64 places', '16 states' and '512 rule lines' are larger in one of these, and 'F' is the small
program of examples/F.txt, whose sheet has 54 bytes.
";

/// One program in the forms that the sides take.
struct Input {
    program: Program,
    file: Vec<u8>,
    /// How long its marks are.
    length: usize,
    tables: Tables,
    counts: [u32; 3],
}

fn library(input: &Input, buffers: &mut Buffers) -> [u32; 3] {
    buffers.analyze(&input.file, input.length)
}

fn reading(input: &Input, _: &mut Buffers) -> [u32; 3] {
    let answer = binding::read(Some(&input.file));
    assert_eq!(answer.refusal, 0, "the file is accepted");
    input.counts
}

fn plain(input: &Input, buffers: &mut Buffers) -> [u32; 3] {
    plain::analyze(&input.tables, &mut buffers.marks[..input.length])
}

fn packed(input: &Input, buffers: &mut Buffers) -> [u32; 3] {
    packed::analyze(&input.tables, &mut buffers.marks[..input.length])
}

type Side = fn(&Input, &mut Buffers) -> [u32; 3];
const SIDES: [Side; 4] = [library, reading, plain, packed];

/// One turn: every program once. The counts have to be right each time.
fn turn(side: Side, inputs: &[Input], buffers: &mut Buffers) -> Duration {
    let begin = Instant::now();
    for input in inputs {
        let counts = side(input, buffers);
        assert_eq!(counts, input.counts, "the sides do not agree");
    }
    begin.elapsed()
}

/// How many items a second each side does, where `turn` is a side's time for all of them once. Next
/// is the side that has had the least time, so that what else the machine does disturbs them alike,
/// however much their speeds differ; a first turn is not counted.
fn rates<const N: usize>(items: usize, mut turn: impl FnMut(usize) -> Duration) -> [f64; N] {
    let (mut times, mut turns) = ([Duration::ZERO; N], [0; N]);
    for side in 0..N {
        turn(side);
    }
    while times.iter().any(|&time| time < AT_LEAST) {
        let next = (0..N).min_by_key(|&side| times[side]);
        let side = next.expect("some side has its time to come");
        times[side] += turn(side);
        turns[side] += 1;
    }
    let mut rates = [0.0; N];
    for side in 0..N {
        rates[side] = (turns[side] * items) as f64 / times[side].as_secs_f64();
    }
    rates
}

/// Programs a second for each side.
fn measure(inputs: &[Input]) -> [f64; 4] {
    let mut buffers = Buffers::new();
    rates(inputs.len(), |side| turn(SIDES[side], inputs, &mut buffers))
}

/// A program, after all sides have analyzed it and agree.
fn input(program: &Program) -> Input {
    let file = write(program);
    let length = library::marks_length(&file);
    let mut buffers = Buffers::new();
    let counts = buffers.analyze(&file, length);
    let marks = &buffers.marks[..length];
    let input = Input {
        program: program.clone(),
        file,
        length,
        tables: Tables::new(program),
        counts,
    };
    for side in [plain, packed] {
        let mut buffers = Buffers::new();
        assert_eq!(
            side(&input, &mut buffers),
            counts,
            "all sides count the same"
        );
        assert_eq!(&buffers.marks[..length], marks, "all sides mark the same");
    }
    input
}

/// The first of these programs that have so many standings.
fn large(programs: impl Iterator<Item = Program>, least_standings: u32) -> Vec<Input> {
    let inputs = programs.map(|program| input(&program));
    let large = inputs.filter(|input| input.counts[0] >= least_standings);
    large.take(PROGRAMS).collect()
}

/// The first programs of a shape, by seed, that have so many standings.
fn of_shape(shape: Shape, least_standings: u32) -> Vec<Input> {
    let programs = (0..).map(|seed| programs::of_shape(shape, seed));
    large(programs, least_standings)
}

fn mean(inputs: &[Input], count: usize) -> u32 {
    let sum: u32 = inputs.iter().map(|input| input.counts[count]).sum();
    sum / inputs.len() as u32
}

/// Prints a row of a table: its kind, and its cells.
fn print_row<const N: usize>(kind: &str, cells: [String; N]) {
    let cells = cells.map(|cell| format!("{cell:>11}"));
    println!("{kind:<23}{}", cells.concat());
}

fn measure_row(kind: &str, inputs: &[Input]) {
    let [library, reading, plain, packed] = measure(inputs);
    let whole = |rate: f64| format!("{rate:.0}");
    let ratio = |other: f64| format!("{:.2}", other / library);
    let cells = [
        mean(inputs, 0).to_string(),
        mean(inputs, 2).to_string(),
        whole(library),
        whole(reading),
        whole(plain),
        ratio(plain),
        whole(packed),
        ratio(packed),
    ];
    print_row(kind, cells);
}

fn main() {
    println!("{ABOUT}");
    let names = [
        "standings",
        "takings",
        "library",
        "reading",
        "plain",
        "ratio",
        "packed",
        "ratio",
    ];
    print_row("programs a second", names.map(String::from));
    let wide_heard = (0..).filter_map(programs::wide_all_heard);
    let full_heard = (0..).map(programs::full_all_heard);
    let branching = (0..).map(programs::branching);
    let long = (0..).filter_map(programs::with_most_places);
    let many_states = (0..).filter_map(programs::with_most_states);
    let ruled = (0..).filter_map(programs::with_most_rule_lines);
    let kinds = [
        ("wide, over 2000", of_shape(Shape::Wide, 2000)),
        ("recursive, over 500", of_shape(Shape::Recursive, 500)),
        ("full, over 4000", of_shape(Shape::Full, 4000)),
        ("full, over 10000", of_shape(Shape::Full, 10_000)),
        ("one place calls all 16", vec![input(&hub())]),
        ("wide, all heard", large(wide_heard, 2000)),
        ("full, all heard", large(full_heard, 8000)),
        ("heard, to two states", large(branching, 5000)),
        ("one place, all roots", vec![input(&hub_of_roots())]),
        ("64 places", large(long, 1000)),
        ("16 states", large(many_states, 1000)),
        ("512 rule lines", large(ruled, 500)),
        ("F", vec![input(&sample::program())]),
    ];
    for (kind, inputs) in &kinds {
        measure_row(kind, inputs);
    }
    println!();
    limits::print_table(&kinds);
    println!();
    changes::print_table(&kinds);
}
