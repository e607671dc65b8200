//! The generators: whatever the library and the model are tried on, the same from the same seed.
//!
//! - `random` is the source of numbers.
//! - `files` makes files for reading: programs of every size, damaged ones, and hardly files at all;
//!   `damage` does the damage.
//! - `tables` makes files with rows: complete tables, faulty ones, and damaged ones; `row_damage` does
//!   the damage to rows.
//! - `programs` makes programs for the analysis, in which much can happen, by plans for the `shapes`,
//!   and `rules` makes their rules.
//! - `edits` makes edit lines, and `exchanges` makes exchanges and their texts; `text_damage` does the
//!   damage to these.
//! - `sheets` makes sheets, `saved` makes saved ones in both forms, `limits` makes limits of fresh
//!   workings, `calls` makes the calls of a list, and `inputs` makes inputs of `bench`.
//! - `met` counts what they have met: refusals, the `classes` of files with rows, the `pair_classes` of
//!   files by the first faulty pair of their table, the `size_classes` of files, the `label_classes` of rule lines and steps, the `hearing` of rules, the `blocked_classes` of
//!   programs by where runs are cut off, the `saved_classes` of what moves saved sheets, and of exchanges
//!   the `text_classes` and the `length_classes` of what is lent to them.

pub mod blocked_classes;
pub mod calls;
pub mod classes;
pub mod damage;
pub mod edits;
pub mod exchanges;
pub mod files;
pub mod hearing;
pub mod inputs;
pub mod label_classes;
pub mod length_classes;
pub mod limits;
pub mod met;
pub mod pair_classes;
pub mod programs;
pub mod random;
pub mod row_damage;
pub mod rules;
pub mod saved;
pub mod saved_classes;
pub mod shapes;
pub mod sheets;
pub mod size_classes;
pub mod tables;
pub mod text_classes;
pub mod text_damage;
