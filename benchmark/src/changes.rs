//! How many changes a second, edits and exchanges, the two repairs make, beside the analysis of the
//! changed program.

use crate::library::{marks_length, Buffers};
use crate::tables::Tables;
use crate::{print_row, rates, Input};
use reference::generate::edits::steps_that_act;
use reference::model::change::Change;
use reference::model::edit::{after, Edit};
use reference::model::exchange::Exchange;
use reference::model::program::{Label, Program, Step};
use reference::model::write::write;
use std::time::{Duration, Instant};

/// How many changes of each kind a program gets.
const CHANGES: usize = 4;

const ABOUT: &str = "\
A change by the forward and by the inside-out repair beside the analysis of the changed program,
by the library through its C interface, for the same programs and timed in the same way. In
each program a few steps are chosen, spread evenly over those that begin where something is marked.
'drop' drops such a step, 'add' puts it back into the program without it, and 'replace' gives it
the next label that no step between the same places has. 'exchange' exchanges the step's routine
for itself without that step, so its programs, the old and the new, are those of 'drop'. All these
changes are accepted. Before the timing all sides were seen to leave the same marks, and the
repairs to write the changed file.
Each repair starts from the old program's own marks. For an edit copying them in is within the time
measured; an exchange only reads them, and puts its own into a second buffer. A repair reads the
old file and writes the new one, and it tests the marks (refusal 17) by a full analysis of the old
program: so it cannot be faster than one analysis of that program.
For 'add' that is the analysis in the row of 'drop', and for the others the one in the row of
'add'; but the rows are timed one after the other, so on a busy machine numbers of different rows
compare only roughly. A ratio stands after its repair; above 1 it means that the repair is faster
than the analysis of the changed program. 'plain' is how many of these analyses 'plain' of the
table above makes a second. Standings of the changed program, and marks that differ from the old
ones ('changed'), are means.
";

/// The two repairs for a change of one form. Each says how many bytes it has written.
struct Repairs {
    forward: fn(&Task, &mut Buffers) -> u32,
    inside_out: fn(&Task, &mut Buffers) -> u32,
}

const BY_EDIT_LINE: Repairs = Repairs {
    forward: |task, buffers| {
        let by = binding::repair_forward;
        buffers.repair(by, &task.old_file, &task.old_marks, &task.text)
    },
    inside_out: |task, buffers| {
        let by = binding::repair_inside_out;
        buffers.repair(by, &task.old_file, &task.old_marks, &task.text)
    },
};
const BY_EXCHANGE_TEXT: Repairs = Repairs {
    forward: |task, buffers| {
        let (file, marks) = (&task.old_file, &task.old_marks);
        let by = binding::exchange_forward;
        buffers.exchange(by, file, marks, &task.text, task.new_length)
    },
    inside_out: |task, buffers| {
        let (file, marks) = (&task.old_file, &task.old_marks);
        let by = binding::exchange_inside_out;
        buffers.exchange(by, file, marks, &task.text, task.new_length)
    },
};

/// One change, with what all sides take and what they have to answer.
struct Task {
    old_file: Vec<u8>,
    old_marks: Vec<u8>,
    repairs: Repairs,
    /// What the repairs are handed for the change: an edit line, or the text of an exchange.
    text: Vec<u8>,
    new_file: Vec<u8>,
    /// How long the new marks are.
    new_length: usize,
    new_tables: Tables,
    counts: [u32; 3],
    /// How many marks become different.
    changed: usize,
}

/// Whether a repair, which begins from the old marks, writes as much as it should.
fn forward(task: &Task, buffers: &mut Buffers) -> bool {
    (task.repairs.forward)(task, buffers) == task.new_file.len() as u32
}

fn inside_out(task: &Task, buffers: &mut Buffers) -> bool {
    (task.repairs.inside_out)(task, buffers) == task.new_file.len() as u32
}

/// Whether the analysis of the changed program counts what it should.
fn analysis(task: &Task, buffers: &mut Buffers) -> bool {
    buffers.analyze(&task.new_file, task.new_length) == task.counts
}

/// Whether `plain` counts the same for the changed program.
fn plain(task: &Task, buffers: &mut Buffers) -> bool {
    let marks = &mut buffers.marks[..task.new_length];
    crate::plain::analyze(&task.new_tables, marks) == task.counts
}

/// The repairs for a change, and the text that they are handed for it.
fn repairs_and_text(change: &Change) -> (Repairs, Vec<u8>) {
    match change {
        Change::Edit(edit) => (BY_EDIT_LINE, edit.line()),
        Change::Exchange(exchange) => (BY_EXCHANGE_TEXT, exchange.text()),
    }
}

/// A change of a program, after all sides have made it and agree.
fn task(old: &Program, change: &Change) -> Task {
    let (repairs, text) = repairs_and_text(change);
    let new = change.after(old);
    let (old_file, new_file) = (write(old), write(&new));
    let (_, old_marks) = analyzed(&old_file);
    let (counts, new_marks) = analyzed(&new_file);
    let changed = differences(old, &old_marks, &new, &new_marks);
    let task = Task {
        old_file,
        old_marks,
        repairs,
        text,
        new_file,
        new_length: new_marks.len(),
        new_tables: Tables::new(&new),
        counts,
        changed,
    };
    check_sides(&task, &new_marks);
    task
}

/// The counts and the marks of a file's program.
fn analyzed(file: &[u8]) -> ([u32; 3], Vec<u8>) {
    let (mut buffers, length) = (Buffers::new(), marks_length(file));
    let counts = buffers.analyze(file, length);
    (counts, buffers.marks[..length].to_vec())
}

/// How many standings are marked in one of two programs and not in the other.
fn differences(old: &Program, old_marks: &[u8], new: &Program, new_marks: &[u8]) -> usize {
    let old = old.sizes().standings(old_marks);
    let new = new.sizes().standings(new_marks);
    old.symmetric_difference(&new).count()
}

/// All sides have to leave these marks, and the repairs to write the new file.
fn check_sides(task: &Task, new_marks: &[u8]) {
    let mut buffers = Buffers::new();
    for side in [forward, inside_out, plain] {
        assert!(side(task, &mut buffers), "the answer is the right one");
        let marks = &buffers.marks[..task.new_length];
        assert_eq!(marks, new_marks, "all sides mark the same");
        let written = &buffers.output[..task.new_file.len()];
        assert_eq!(written, task.new_file, "the repair writes the changed file");
    }
}

/// Steps that begin where something is marked and can get another label, spread evenly over all of these.
fn chosen_steps(input: &Input) -> Vec<Step> {
    let (_, marks) = analyzed(&input.file);
    let mut steps = steps_that_act(&input.program, &marks);
    steps.retain(|&step| next_label(&input.program, step).is_some());
    let middle = |part: usize| steps[(2 * part + 1) * steps.len() / (2 * CHANGES)];
    (0..CHANGES).map(middle).collect()
}

/// The next label, after a step's own, that no step between its places has: the actions come first,
/// then the calls, and then the first action again. None where each has a step.
fn next_label(program: &Program, step: Step) -> Option<Label> {
    let actions = (0..program.actions).map(Label::Action);
    let calls = (0..program.routines()).map(Label::Call);
    let labels: Vec<Label> = actions.chain(calls).collect();
    let is_own = |&label: &Label| label == step.label;
    let is_new = |&label: &Label| !program.steps.contains(&Step { label, ..step });
    let after_own = labels
        .iter()
        .copied()
        .cycle()
        .skip_while(|one| !is_own(one));
    let mut once = after_own.take(labels.len());
    once.find(is_new)
}

fn without(program: &Program, step: Step) -> Program {
    after(program, Edit::Drop(step))
}

fn add(program: &Program, step: Step) -> Task {
    task(&without(program, step), &Change::Edit(Edit::Add(step)))
}

fn drop(program: &Program, step: Step) -> Task {
    task(program, &Change::Edit(Edit::Drop(step)))
}

fn replace(program: &Program, step: Step) -> Task {
    let label = next_label(program, step).expect("some label is new");
    let edit = Edit::Replace(step, label);
    task(program, &Change::Edit(edit))
}

fn exchange(program: &Program, step: Step) -> Task {
    let exchange = Exchange::for_itself(&without(program, step), step.routine);
    task(program, &Change::Exchange(exchange))
}

type ChangeKind = fn(&Program, Step) -> Task;
const CHANGE_KINDS: [(&str, ChangeKind); 4] = [
    ("add", add),
    ("drop", drop),
    ("replace", replace),
    ("exchange", exchange),
];

type Side = fn(&Task, &mut Buffers) -> bool;
const SIDES: [Side; 4] = [forward, inside_out, analysis, plain];

/// One turn: every change once. The answer has to be right each time.
fn turn(side: Side, tasks: &[Task], buffers: &mut Buffers) -> Duration {
    let begin = Instant::now();
    for task in tasks {
        assert!(side(task, buffers), "the answer is not the right one");
    }
    begin.elapsed()
}

/// Repairs of each kind, analyses, and those of `plain` a second.
fn measure(tasks: &[Task]) -> [f64; 4] {
    let mut buffers = Buffers::new();
    rates(tasks.len(), |side| turn(SIDES[side], tasks, &mut buffers))
}

fn measure_row(kind: &str, change: &str, tasks: &[Task]) {
    let [forward, inside_out, analyses, plain] = measure(tasks);
    let standings: u32 = tasks.iter().map(|task| task.counts[0]).sum();
    let changed: usize = tasks.iter().map(|task| task.changed).sum();
    let cells = [
        change.to_string(),
        (standings as usize / tasks.len()).to_string(),
        (changed / tasks.len()).to_string(),
        format!("{forward:.0}"),
        format!("{:.2}", forward / analyses),
        format!("{inside_out:.0}"),
        format!("{:.2}", inside_out / analyses),
        format!("{analyses:.0}"),
        format!("{plain:.0}"),
    ];
    print_row(kind, cells);
}

/// Measures and prints the table: for each kind of program a row for each kind of change.
pub fn print_table(kinds: &[(&str, Vec<Input>)]) {
    println!("{ABOUT}");
    let names = [
        "change",
        "standings",
        "changed",
        "forward",
        "ratio",
        "inside-out",
        "ratio",
        "analyses",
        "plain",
    ];
    print_row("changes a second", names.map(String::from));
    for (kind, inputs) in kinds {
        for (change, make) in CHANGE_KINDS {
            let changes = |input| {
                let tasks = chosen_steps(input).into_iter();
                tasks.map(move |step| make(&input.program, step))
            };
            let tasks: Vec<Task> = inputs.iter().flat_map(changes).collect();
            measure_row(kind, change, &tasks);
        }
    }
}
