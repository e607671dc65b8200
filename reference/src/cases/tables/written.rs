//! What accepted files with rows are written as: the same program, its rule in lines.

use crate::cases::tables::{completed, file, full, two_by_two, FOUR_ROWS, ONE_ROW};

/// A file with rows, and the file that is written for it.
pub struct WrittenCase {
    pub name: &'static str,
    pub file: Vec<u8>,
    pub written: Vec<u8>,
}

pub fn all() -> Vec<WrittenCase> {
    let two_by_two_lines = |rule: &str| file(&format!("50010202 520002 {rule}"));
    let case = |name, file, written| WrittenCase {
        name,
        file,
        written,
    };
    vec![
        case(
            "one row",
            two_by_two(ONE_ROW),
            two_by_two_lines("54000001 54000101 54010001 54010101"),
        ),
        case(
            "a row for each pair",
            two_by_two(FOUR_ROWS),
            two_by_two_lines("54000000 54000101 54010001 54010100"),
        ),
        case(
            "a row for each action",
            two_by_two("55030000000101 55030000000200"),
            two_by_two_lines("54000001 54000100 54010001 54010100"),
        ),
        case(
            "rows without a bit",
            two_by_two("55000000000000 55000000000301 55010000000000 55030000000301"),
            two_by_two_lines("54000001 54000101 54010001 54010101"),
        ),
        case(
            "a row for each number of action bits",
            file("50010420 520002 550F000000FF00 550F0000FF0001 550F00FF000002 550FFF00000003"),
            eight_actions_a_state(),
        ),
        case(
            "the completed sample",
            completed::in_rows(),
            completed::in_lines(),
        ),
        case("the largest", full::largest(), full::largest_in_lines()),
    ]
}

/// Four states and 32 actions, of which each eight lead to the same state, the lowest to state 0.
fn eight_actions_a_state() -> Vec<u8> {
    let lines = (0..4).flat_map(|from| (0..32).map(move |action| (from, action, action / 8)));
    let lines = lines.map(|(from, action, to)| format!(" 54{from:02X}{action:02X}{to:02X}"));
    file(&format!("50010420 520002{}", lines.collect::<String>()))
}

#[cfg(test)]
mod tests {
    use super::*;
    use crate::generate::tables::has_rows;
    use crate::model::file::read;
    use crate::model::write::write;

    #[test]
    fn a_table_is_written_as_the_lines_worked_out_by_hand() {
        for case in all() {
            let program = read(&case.file).expect("the file is accepted");
            assert_eq!(write(&program), case.written, "{}", case.name);
            assert!(has_rows(&case.file) && !has_rows(&case.written));
            assert_eq!(read(&case.written), Ok(program), "{}", case.name);
        }
    }
}
