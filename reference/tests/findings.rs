//! The proved library against the reference: fresh workings and lists of findings that are known, byte by
//! byte and number by number.

mod desk;

use reference::cases::{self, sample};
use reference::model::analysis::{self, own_sheet, NONE};
use reference::model::calls::sheets::Counts;
use reference::model::calls::Answer;
use reference::model::file;
use reference::model::refusals::FOREIGN_SHEET;

/// How long the sample's sheet is, and that of the others here.
const LENGTH: usize = 54;

/// A limit that no program with a start state is worked within, and one that all are.
const LIMITS: [u64; 2] = [0, binding::NO_LIMIT];

#[test]
fn cases_worked_out_by_hand() {
    for case in cases::analyses::all() {
        let counts = Counts {
            standings: case.standings.len() as u32,
            findings: case.findings.len() as u32,
            takings: case.takings,
        };
        let wanted = (case.standings, counts);
        assert_eq!(desk::worked(&case.file), wanted, "{}", case.name);
        assert_eq!(desk::listed(&case.file), case.findings, "{}", case.name);
    }
}

#[test]
fn each_byte_of_a_sheet_counts() {
    let own = own_sheet(&sample::program());
    let mut work = vec![0xA5; LENGTH];
    for at in 0..LENGTH {
        let mut sheet = own.clone();
        sheet[at] = if at % 2 == 0 {
            1 - own[at]
        } else {
            own[at] ^ 2
        };
        let answer = desk::next_violation(sample::FILE, &sheet, &mut work, 0);
        assert_eq!(answer, Answer::refused(FOREIGN_SHEET, 0), "byte {at}");
    }
    let answer = desk::next_violation(sample::FILE, &own, &mut work, 0);
    assert_eq!((answer.refusal, answer.value), (0, NONE));
}

#[test]
fn a_list_can_be_asked_from_any_number() {
    let file = cases::analyses::entry_forbidden();
    let analysis = analysis::analyze(&file::read(&file).expect("accepted"));
    let mut work = vec![0; LENGTH];
    let far = (7..32).map(|power| 1 << power).chain([NONE - 1, NONE]);
    for from in (0..=100).chain(far) {
        let answer = desk::next_violation(&file, &analysis.sheet, &mut work, from);
        let wanted = analysis.next_finding(from);
        assert_eq!((answer.refusal, answer.value), (0, wanted), "from {from}");
    }
}

#[test]
fn buffers_of_no_bytes_may_be_null() {
    for nothing in [None, Some(&b""[..])] {
        for limit in LIMITS {
            let given = binding::analyze(nothing, None, None, limit);
            assert_eq!(given, desk::refused(8, 1));
        }
        let given = binding::next_violation(nothing, None, None, 0);
        assert_eq!(given, desk::refused(8, 1));
    }
    let file = Some(sample::FILE);
    for limit in LIMITS {
        let given = binding::analyze(file, None, None, limit);
        assert_eq!(given, desk::refused(9, 0));
        let mut marks = vec![7; LENGTH];
        let given = binding::analyze(file, Some(&mut marks), None, limit);
        assert_eq!(given, desk::refused(11, 0));
        assert!(marks.iter().all(|&byte| byte == 7));
    }
    let given = binding::next_violation(file, None, None, 0);
    assert_eq!(given, desk::refused(9, 0));
}
