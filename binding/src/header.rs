//! The declarations of `include/palthrenni.h`, in its order and with its names.

// The archive is no part of this crate: only what calls a function of it is linked with it, and all
// else builds without it.
#[link(name = "desk", kind = "static", modifiers = "-bundle")]
extern "C" {
    pub fn palthrenni_read(file: *const u8, file_len: usize, line: *mut u32) -> u32;
    pub fn palthrenni_faulty_pair(
        file: *const u8,
        file_len: usize,
        line: *mut u32,
        state: *mut u32,
        action: *mut u32,
    ) -> u32;
    pub fn palthrenni_sizes(
        file: *const u8,
        file_len: usize,
        line: *mut u32,
        routines: *mut u32,
        places: *mut u32,
        states: *mut u32,
        marks_size: *mut u32,
    ) -> u32;
    pub fn palthrenni_write(
        file: *const u8,
        file_len: usize,
        output: *mut u8,
        output_len: usize,
        line: *mut u32,
        written: *mut u32,
    ) -> u32;
    pub fn palthrenni_analyze(
        file: *const u8,
        file_len: usize,
        marks: *mut u8,
        marks_len: usize,
        work: *mut u8,
        work_len: usize,
        limit: u64,
        line: *mut u32,
        configurations: *mut u32,
        violations: *mut u32,
        iterations: *mut u32,
    ) -> u32;
    pub fn palthrenni_next_violation(
        file: *const u8,
        file_len: usize,
        marks: *const u8,
        marks_len: usize,
        work: *mut u8,
        work_len: usize,
        from: u32,
        line: *mut u32,
        found: *mut u32,
    ) -> u32;
    pub fn palthrenni_next_blocked(
        file: *const u8,
        file_len: usize,
        marks: *const u8,
        marks_len: usize,
        work: *mut u8,
        work_len: usize,
        from: u32,
        line: *mut u32,
        found: *mut u32,
        edge: *mut u32,
    ) -> u32;
    pub fn palthrenni_prune(
        file: *const u8,
        file_len: usize,
        marks: *mut u8,
        marks_len: usize,
        work: *mut u8,
        work_len: usize,
        line: *mut u32,
    ) -> u32;
    pub fn palthrenni_repair_forward(
        file: *const u8,
        file_len: usize,
        marks: *mut u8,
        marks_len: usize,
        edit: *const u8,
        edit_len: usize,
        output: *mut u8,
        output_len: usize,
        work: *mut u8,
        work_len: usize,
        line: *mut u32,
        written: *mut u32,
    ) -> u32;
    pub fn palthrenni_repair_inside_out(
        file: *const u8,
        file_len: usize,
        marks: *mut u8,
        marks_len: usize,
        edit: *const u8,
        edit_len: usize,
        output: *mut u8,
        output_len: usize,
        work: *mut u8,
        work_len: usize,
        line: *mut u32,
        written: *mut u32,
        reanalyzed: *mut u32,
    ) -> u32;
    pub fn palthrenni_exchange_sizes(
        file: *const u8,
        file_len: usize,
        text: *const u8,
        text_len: usize,
        line: *mut u32,
        places: *mut u32,
        marks_size: *mut u32,
        work_size: *mut u32,
    ) -> u32;
    pub fn palthrenni_exchange_forward(
        file: *const u8,
        file_len: usize,
        marks: *const u8,
        marks_len: usize,
        text: *const u8,
        text_len: usize,
        output: *mut u8,
        output_len: usize,
        work: *mut u8,
        work_len: usize,
        new_marks: *mut u8,
        new_marks_len: usize,
        line: *mut u32,
        written: *mut u32,
    ) -> u32;
    pub fn palthrenni_exchange_inside_out(
        file: *const u8,
        file_len: usize,
        marks: *const u8,
        marks_len: usize,
        text: *const u8,
        text_len: usize,
        output: *mut u8,
        output_len: usize,
        work: *mut u8,
        work_len: usize,
        new_marks: *mut u8,
        new_marks_len: usize,
        line: *mut u32,
        written: *mut u32,
        reanalyzed: *mut u32,
    ) -> u32;
    pub fn palthrenni_marks_to_frames(
        file: *const u8,
        file_len: usize,
        old_marks: *const u8,
        old_marks_len: usize,
        output: *mut u8,
        output_len: usize,
        work: *mut u8,
        work_len: usize,
        line: *mut u32,
        written: *mut u32,
    ) -> u32;
    pub fn palthrenni_frames_to_marks(
        file: *const u8,
        file_len: usize,
        frames: *const u8,
        frames_len: usize,
        output: *mut u8,
        output_len: usize,
        work: *mut u8,
        work_len: usize,
        line: *mut u32,
        written: *mut u32,
    ) -> u32;
}
