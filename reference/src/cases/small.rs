//! Small programs, put down as the lines of a file.

use crate::model::edit::edited_by_line;
use crate::model::file::read;
use crate::model::lines::line_of;
use crate::model::program::Program;
use crate::model::write::end;

/// The program of these lines, set apart by spaces; the end frame is added.
pub fn program(lines: &str) -> Program {
    let lines: Vec<&str> = lines.split(' ').collect();
    let file = format!("{}\n", lines.join("\n")).into_bytes();
    let file = [file, line_of(&end(lines.len()))].concat();
    read(&file).expect("the program is accepted")
}

/// The program after an edit that it accepts, the line without its 0A.
pub fn after(program: &Program, line: &str) -> Program {
    let line = format!("{line}\n");
    edited_by_line(program, line.as_bytes()).expect("the edit is accepted")
}

/// The program without one of its steps.
pub fn dropped(program: &Program, step: &str) -> Program {
    after(program, &format!("2D{step}"))
}
