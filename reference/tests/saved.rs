//! The proved library against the reference: saved sheets moved from the old form to frames, and back.
//!
//! Every number of every answer is compared, and every byte of what is lent, with the bytes that stand
//! about it. A mismatch names the seed or the case and shows the input.

mod desk;

use desk::lent::{self, Lending, Lent};
use reference::cases::{self, sample};
use reference::generate::damage::one_byte_wrong;
use reference::generate::files::file_of_seed;
use reference::generate::met::{holding, Met, Times};
use reference::generate::programs::{hub, hub_of_roots, program_by_shares, program_of_shape};
use reference::generate::random::Random;
use reference::generate::saved::frames::{self, FramesDamage, FRAMES_DAMAGES};
use reference::generate::saved::programs::{at_edge, every_standing, with_largest_table, EDGES};
use reference::generate::saved::sheets::{self, SheetDamage, SHEET_DAMAGES};
use reference::generate::saved::{output_length, output_lengths};
use reference::generate::saved_classes::{MetMoving, MetSaved, Moving};
use reference::generate::shapes::{Shape, SHAPES};
use reference::generate::sheets::wrong_length;
use reference::generate::tables::{complete_file, file_with_rows_of_seed};
use reference::model::analysis::own_sheet;
use reference::model::calls::saved::move_answer;
use reference::model::calls::Answer;
use reference::model::program::Program;
use reference::model::refusals::{
    BAD_LINE, FILE_END, FOREIGN_SAVED, NOT_FORMER, OUTPUT_SHORT, PAIR_MET_TWICE, PAIR_NOT_MET,
    SHEET_LENGTH, SHEET_TOO_LARGE, WORK_LENGTH,
};
use reference::model::saved::{frames_of, Fault, Saved, Way, FAULTS, OLD_SHEET, WAYS};
use reference::model::write::write;
use Way::*;

/// How often each refusal and each class has to be met, so that agreeing on it means something.
const OFTEN: usize = 50;
/// How often an old sheet and frames of a program are damaged.
const DAMAGES: usize = 4;
const PROGRAM_SEEDS: u64 = 900;
const EDGE_SEEDS: u64 = 30;
const FILE_SEEDS: u64 = 450;
const ROW_SEEDS: u64 = 350;

type Case = desk::case::Case<Option<Saved>>;

/// A file with its saved sheet.
fn case(name: String, file: Vec<u8>, seed: u64) -> Case {
    Case::new(name, file, seed, Saved::of)
}

/// What the comparisons of one way have met: the answers, and those of them where the working buffer was
/// not all zero before.
#[derive(Debug, Default)]
struct MetAnswers {
    all: Met,
    used_work: Met,
}

/// What the comparisons have met.
#[derive(Debug, Default)]
struct Tally {
    files: usize,
    calls: usize,
    over: MetAnswers,
    back: MetAnswers,
    /// What was refused with 25, by how it was made; and the frames that have one fault only.
    sheets: Times<SheetDamage>,
    frames: Times<FramesDamage>,
    alone: Times<Fault>,
    /// Old sheets and working buffers that were refused for their length.
    sheet_lengths: Times<Length>,
    work_lengths: Times<Length>,
    /// What was moved there and back, either way first.
    there_and_back: Times<Way>,
    /// Programs that meet 24, each by what would be its own frames and by others.
    too_much: usize,
    programs: MetSaved,
    moving: MetMoving,
}

/// A length that is wrong. The other sheet's is today's for an old one, and the old one's for a working
/// buffer.
#[derive(Clone, Copy, Debug, PartialEq, Eq, PartialOrd, Ord)]
enum Length {
    Nothing,
    OneShort,
    OneLonger,
    OfOtherSheet,
}

use Length::*;

const LENGTHS: [Length; 4] = [Nothing, OneShort, OneLonger, OfOtherSheet];

/// The classes of a wrong length beside the right one and that of the other sheet.
fn length_classes(length: usize, right: usize, other: usize) -> Vec<Length> {
    holding(&[
        (length == 0, Nothing),
        (length + 1 == right, OneShort),
        (length == right + 1, OneLonger),
        (length == other, OfOtherSheet),
    ])
}

impl Tally {
    fn answers(&mut self, way: Way) -> &mut MetAnswers {
        match way {
            Over => &mut self.over,
            Back => &mut self.back,
        }
    }

    fn note_file(&mut self, case: &Case) {
        self.files += 1;
        if let (Ok(program), Ok(saved)) = (&case.reading, &case.known) {
            self.programs.note(&case.file, program, saved);
        }
    }

    /// Each of these numbers has to be met so many times at the least, either way.
    fn check(&self, refusals: &[u32], least: usize) {
        for answers in [&self.over, &self.back] {
            answers.all.check(refusals.iter().copied(), least);
        }
    }

    /// What a way can be answered to an accepted file has to be met often, with a working buffer that was
    /// used before.
    fn check_answers(&self) {
        let both = [0, NOT_FORMER, WORK_LENGTH, FOREIGN_SAVED, OUTPUT_SHORT];
        self.over.used_work.check(both, OFTEN);
        self.over.used_work.check([SHEET_LENGTH], OFTEN);
        self.back.used_work.check(both, OFTEN);
        assert_eq!(self.back.all.times(SHEET_LENGTH), 0, "{self:?}");
    }
}

/// What is lent to move an old sheet or frames, with an output and a working buffer of these lengths.
fn lending(case: &mut Case, way: Way, given: &[u8], output: usize, work: usize) -> Lending {
    let random = &mut case.random;
    let lending = Lending {
        output: Lent::of_length(random, output),
        work: Lent::of_length(random, work),
        ..Lending::file(&case.file)
    };
    match way {
        Over => Lending {
            sheet: Lent::new(random, given),
            ..lending
        },
        Back => Lending {
            text: given.to_vec(),
            ..lending
        },
    }
}

/// Moves an old sheet or frames by both. What is written is handed back, or the refusal's number.
fn compare_move(
    case: &mut Case,
    way: Way,
    given: &[u8],
    [output, work]: [usize; 2],
    tally: &mut Tally,
) -> Result<Vec<u8>, u32> {
    let lending = lending(case, way, given, output, work);
    let (answer, left) = lent::compare(
        &format!("{}, {way:?}, output of {output}", case.name),
        &lending,
        |file, lent| desk::move_saved(way, file, lent),
        |lent| move_answer(way, &case.known, given, lent.output, lent.work),
    );
    let moving = Moving {
        way,
        reading: &case.reading,
        known: &case.known,
        given,
        output,
        work,
    };
    let first = moving.refusals().first().copied();
    assert_eq!(answer.refusal, first.unwrap_or(0), "{}", case.input());
    tally.calls += 1;
    tally.moving.note(&moving);
    let answers = tally.answers(way);
    answers.all.note(answer.refusal);
    if lending.work.content().iter().any(|&byte| byte != 0) {
        answers.used_work.note(answer.refusal);
    }
    written(answer, &left)
}

/// What an accepted call has written.
fn written(answer: Answer<u32>, left: &Lending) -> Result<Vec<u8>, u32> {
    match answer.refusal {
        0 => Ok(left.output.content()[..answer.value as usize].to_vec()),
        refusal => Err(refusal),
    }
}

/// Moves the program's own, with outputs of lengths around the need and of any other, and there and back.
fn compare_own(case: &mut Case, saved: &Saved, tally: &mut Tally) {
    let work = saved.program.sizes().length();
    for (way, back) in [(Over, Back), (Back, Over)] {
        let [own, form] = saved.forms(way);
        let need = form.len();
        let any = case.random.pick(&output_lengths(need));
        for length in [need - 1, need + 1, any] {
            let moved = compare_move(case, way, own, [length, work], tally);
            assert_eq!(moved.is_ok(), length >= need, "{}", case.input());
        }
        let there = compare_move(case, way, own, [need, work], tally).expect("accepted");
        let length = own.len() + case.random.below(2);
        let again = compare_move(case, back, &there, [length, work], tally);
        assert!(again.as_deref() == Ok(own), "{}", case.input());
        tally.there_and_back.note([way]);
    }
}

/// An output and a working buffer of any lengths, mostly such as are right.
fn any_lengths(random: &mut Random, saved: &Saved, way: Way) -> [usize; 2] {
    let [_, form] = saved.forms(way);
    let right = saved.program.sizes().length();
    let work = wrong_length(random, right);
    [
        output_length(random, form.len()),
        random.pick(&[right, right, right, work]),
    ]
}

/// Moves what is not the program's own, with buffers of any length.
fn compare_foreign(case: &mut Case, saved: &Saved, tally: &mut Tally) {
    for _ in 0..DAMAGES {
        let damage = case.random.pick(&SHEET_DAMAGES);
        if let Some(sheet) = sheets::damaged(&mut case.random, saved, damage) {
            let lengths = any_lengths(&mut case.random, saved, Over);
            if compare_move(case, Over, &sheet, lengths, tally) == Err(FOREIGN_SAVED) {
                tally.sheets.note([damage]);
            }
        }
        let damage = case.random.pick(&FRAMES_DAMAGES);
        if let Some(text) = frames::damaged(&mut case.random, saved, damage) {
            let lengths = any_lengths(&mut case.random, saved, Back);
            if compare_move(case, Back, &text, lengths, tally) == Err(FOREIGN_SAVED) {
                tally.frames.note([damage]);
                tally.alone.note(saved.only_fault(&text));
            }
        }
    }
}

/// Moves the program's own with a sheet or a working buffer of a wrong length.
fn compare_wrong_lengths(case: &mut Case, saved: &Saved, tally: &mut Tally) {
    let today = saved.program.sizes().length();
    let sheet = sheets::of_wrong_length(&mut case.random, saved);
    let lengths = any_lengths(&mut case.random, saved, Over);
    let moved = compare_move(case, Over, &sheet, lengths, tally);
    assert_eq!(moved, Err(SHEET_LENGTH), "{}", case.input());
    let classes = length_classes(sheet.len(), OLD_SHEET, today);
    tally.sheet_lengths.note(classes);
    for way in WAYS {
        let [own, form] = saved.forms(way);
        let work = wrong_length(&mut case.random, today);
        let output = output_length(&mut case.random, form.len());
        let moved = compare_move(case, way, own, [output, work], tally);
        assert_eq!(moved, Err(WORK_LENGTH), "{}", case.input());
        let classes = length_classes(work, today, OLD_SHEET);
        tally.work_lengths.note(classes);
    }
}

/// Moves what a program would have that meets 24, and anything else.
fn compare_too_much(case: &mut Case, program: &Program, tally: &mut Tally) {
    let sizes = program.sizes();
    let today = own_sheet(program);
    let frames = frames_of(&sizes.standings(&today));
    for is_own in [true, false] {
        let lengths = sheets::wrong_lengths(sizes.length());
        let other = lengths[case.random.below(lengths.len())];
        let mut sheet = today.clone();
        sheet.resize(if is_own { OLD_SHEET } else { other }, 0);
        let text = if is_own { &frames[..] } else { b"450000" };
        for (way, given) in [(Over, &sheet[..]), (Back, text)] {
            let output = output_length(&mut case.random, OLD_SHEET);
            let wrong = wrong_length(&mut case.random, sizes.length());
            let work = case.random.pick(&[sizes.length(), wrong]);
            let moved = compare_move(case, way, given, [output, work], tally);
            assert_eq!(moved, Err(NOT_FORMER), "{}", case.input());
        }
    }
    tally.too_much += 1;
}

/// Moves something with a file that is refused.
fn compare_refused(case: &mut Case, tally: &mut Tally) {
    let sample = Saved::of(&sample::program()).expect("a former program");
    for way in WAYS {
        let [own, form] = sample.forms(way);
        let work = case.length();
        let output = output_length(&mut case.random, form.len());
        let given = case.random.pick(&[own, b""]);
        let moved = compare_move(case, way, given, [output, work], tally);
        assert!(moved.is_err(), "{}", case.input());
    }
}

/// Holds the library against the reference on one file.
fn compare(case: &mut Case, tally: &mut Tally) {
    match (case.reading.clone(), case.known.clone()) {
        (Ok(_), Ok(Some(saved))) => {
            compare_own(case, &saved, tally);
            compare_foreign(case, &saved, tally);
            compare_wrong_lengths(case, &saved, tally);
        }
        (Ok(program), _) => compare_too_much(case, &program, tally),
        (Err(_), _) => compare_refused(case, tally),
    }
    tally.note_file(case);
}

/// Holds the library against the reference on the files of so many seeds.
fn compare_seeds(what: &str, seeds: u64, file: impl Fn(u64) -> Vec<u8>) -> Tally {
    let mut tally = Tally::default();
    for seed in 0..seeds {
        let name = format!("{what} {seed}");
        compare(&mut case(name, file(seed), seed), &mut tally);
    }
    println!("{what} of each seed: {tally:?}");
    tally
}

#[test]
fn programs_of_many_seeds_agree() {
    let shares = [
        (540, Shape::Tiny),
        (270, Shape::Recursive),
        (80, Shape::Layered),
        (30, Shape::Mixed),
        (40, Shape::Long),
        (35, Shape::ManyStates),
        (5, Shape::Wide),
    ];
    let tally = compare_seeds("program", PROGRAM_SEEDS, |seed| {
        write(&program_by_shares(&mut Random::new(seed), &shares))
    });
    tally.check_answers();
    tally.moving.check_together(20);
    tally.sheets.check(SHEET_DAMAGES, OFTEN);
    tally.frames.check(FRAMES_DAMAGES, OFTEN);
    tally.alone.check(FAULTS, 30);
    tally.sheet_lengths.check(LENGTHS, OFTEN);
    tally.work_lengths.check(LENGTHS, OFTEN);
    tally.there_and_back.check(WAYS, 500);
    tally.moving.check_outputs(OFTEN);
    tally.programs.check_standings(15);
}

/// Programs with as much as there could once be of something, and with one more, some of them with rows.
#[test]
fn programs_at_the_edges_agree() {
    let mut tally = Tally::default();
    for seed in 0..EDGE_SEEDS {
        let random = &mut Random::new(seed);
        for edge in EDGES {
            for more in [0, 1] {
                let program = at_edge(random, edge, more);
                let name = format!("{edge:?} and {more}, seed {seed}");
                compare(&mut case(name, write(&program), seed), &mut tally);
                let name = format!("{edge:?} and {more} with rows, seed {seed}");
                let program = if more == 0 {
                    with_largest_table(program)
                } else {
                    program
                };
                let file = complete_file(random, &program);
                compare(&mut case(name, file, seed), &mut tally);
            }
        }
        let shape = random.pick(&[Shape::ManyStates, Shape::Ruled]);
        let file = write(&program_of_shape(random, shape));
        compare(
            &mut case(format!("{shape:?}, seed {seed}"), file, seed),
            &mut tally,
        );
    }
    println!("edges: {tally:?}");
    tally.programs.check_edges(5);
    tally.check_answers();
    tally.moving.check_together(20);
    assert!(tally.too_much >= OFTEN, "{tally:?}");
}

/// Every shape, with its rule in lines and in rows, and the programs with most standings.
#[test]
fn large_programs_agree() {
    let mut tally = Tally::default();
    for shape in SHAPES {
        for seed in 0..2 {
            let random = &mut Random::new(seed);
            let program = program_of_shape(random, shape);
            let name = format!("{shape:?}, seed {seed}");
            compare(&mut case(name, write(&program), seed), &mut tally);
            let name = format!("{shape:?} with rows, seed {seed}");
            let file = complete_file(random, &program);
            compare(&mut case(name, file, seed), &mut tally);
        }
    }
    for (name, program) in [
        ("every standing", every_standing()),
        ("hub", hub()),
        ("hub of roots", hub_of_roots()),
    ] {
        compare(&mut case(name.to_string(), write(&program), 0), &mut tally);
    }
    println!("large programs: {tally:?}");
    tally.programs.check_large();
}

#[test]
fn damaged_files_agree() {
    let tally = compare_seeds("file", FILE_SEEDS, file_of_seed);
    let refusals: Vec<u32> = (BAD_LINE..=FILE_END).chain([SHEET_TOO_LARGE]).collect();
    tally.check(&refusals, 3);
    tally.moving.check_of_files(refusals, 1);
}

#[test]
fn files_with_rows_agree() {
    let tally = compare_seeds("file with rows", ROW_SEEDS, file_with_rows_of_seed);
    let refusals = [PAIR_NOT_MET, PAIR_MET_TWICE, SHEET_TOO_LARGE];
    tally.check(&refusals, 10);
    tally.check(&[0, NOT_FORMER], OFTEN);
    tally.moving.check_of_files(refusals, 2);
}

#[test]
fn named_files_agree() {
    let mut tally = Tally::default();
    for (place, named) in cases::files::all().into_iter().enumerate() {
        compare(&mut case(named.name, named.file, place as u64), &mut tally);
    }
    println!("named files: {tally:?}");
}

#[test]
fn cases_worked_out_by_hand() {
    let mut tally = Tally::default();
    for known in cases::saved::all() {
        let mut sheet = vec![0; OLD_SHEET];
        known.marks.iter().for_each(|&number| sheet[number] = 1);
        for (way, given, form) in [(Over, &sheet, &known.frames), (Back, &known.frames, &sheet)] {
            let written = desk::moved(way, &known.file, given, form.len());
            assert_eq!(written.as_ref(), Ok(form), "{}", known.name);
            let written = desk::moved(way, &known.file, given, form.len() - 1);
            assert_eq!(written, Err(OUTPUT_SHORT), "{}", known.name);
        }
        compare(&mut case(known.name.to_string(), known.file, 0), &mut tally);
    }
    println!("cases: {tally:?}");
}

#[test]
fn programs_without_an_old_sheet_are_refused() {
    let mut tally = Tally::default();
    for known in cases::saved::refused() {
        for way in WAYS {
            let mut held = desk::held(&[0; OLD_SHEET], b"450000\n", OLD_SHEET, 0);
            let answer = desk::move_saved(way, &known.file, &mut held.lend());
            let wanted = Answer::refused(known.refusal, 0);
            assert_eq!(answer, wanted, "{}", known.name);
        }
        compare(&mut case(known.name.to_string(), known.file, 0), &mut tally);
    }
    println!("refused: {tally:?}");
    tally.check(&[NOT_FORMER, SHEET_TOO_LARGE], 1);
}

#[test]
fn each_byte_of_an_old_sheet_counts() {
    let saved = Saved::of(&sample::program()).expect("a former program");
    for at in 0..OLD_SHEET {
        let mut sheet = saved.sheet.clone();
        sheet[at] ^= 1 + at as u8 % 2;
        let moved = desk::moved(Over, sample::FILE, &sheet, saved.frames.len());
        assert_eq!(moved, Err(FOREIGN_SAVED), "byte {at}");
    }
}

#[test]
fn each_byte_of_frames_counts() {
    for known in cases::saved::all() {
        for (what, text) in one_byte_wrong(&known.frames, b"0145DFd\n\r\0") {
            let moved = desk::moved(Back, &known.file, &text, OLD_SHEET);
            let is_own = text == known.frames;
            let name = format!("{}, {what}: {}", known.name, text.escape_ascii());
            assert_eq!(moved.is_ok(), is_own, "{name}");
            assert!(is_own || moved == Err(FOREIGN_SAVED), "{name}");
        }
    }
}

#[test]
fn an_output_has_to_hold_the_frames_and_no_more() {
    let saved = Saved::of(&sample::program()).expect("a former program");
    let need = saved.frames.len();
    for length in 0..2 * need {
        let moved = desk::moved(Over, sample::FILE, &saved.sheet, length);
        let wanted = match length < need {
            true => Err(OUTPUT_SHORT),
            false => Ok(saved.frames.clone()),
        };
        assert_eq!(moved, wanted, "{length}");
    }
}

#[test]
fn buffers_of_no_bytes_may_be_null() {
    for nothing in [None, Some(&b""[..])] {
        let given = binding::marks_to_frames(nothing, None, None, None);
        assert_eq!(given, desk::refused(8, 1));
        let given = binding::frames_to_marks(nothing, nothing, None, None);
        assert_eq!(given, desk::refused(8, 1));
    }
    let (file, saved) = (Some(sample::FILE), Saved::of(&sample::program()));
    let saved = saved.expect("a former program");
    let mut work = vec![7; 54];
    let given = binding::marks_to_frames(file, None, None, None);
    assert_eq!(given, desk::refused(9, 0));
    let given = binding::marks_to_frames(file, Some(&saved.sheet), None, None);
    assert_eq!(given, desk::refused(11, 0));
    let given = binding::marks_to_frames(file, Some(&saved.sheet), None, Some(&mut work));
    assert_eq!(given, desk::refused(10, 0));
    let given = binding::frames_to_marks(file, None, None, None);
    assert_eq!(given, desk::refused(11, 0));
    let given = binding::frames_to_marks(file, None, None, Some(&mut work));
    assert_eq!(given, desk::refused(25, 0));
    let given = binding::frames_to_marks(file, Some(&saved.frames), None, Some(&mut work));
    assert_eq!(given, desk::refused(10, 0));
}
