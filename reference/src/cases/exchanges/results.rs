//! Exchanges that are worked out by hand: what is marked after them, and which routines are reopened.

use crate::cases::keepings::two_that_call_each_other;
use crate::cases::repairs::{accepted, reopenings, RepairCase};
use crate::cases::sample;
use crate::cases::small::dropped;

pub fn all() -> Vec<RepairCase> {
    let mut cases = Vec::new();
    cases.extend(of_routine_1());
    cases.extend(of_main());
    cases.extend(of_a_routine_that_never_returned());
    cases.extend(of_a_circle());
    cases.extend(of_layers());
    cases.extend(of_other_sizes());
    cases
}

/// Of the sample: the sheet becomes longer, with 2 times 64 times 9 bytes, or shorter, with 2 times 2
/// times 9.
fn of_other_sizes() -> Vec<RepairCase> {
    let sample = &sample::program();
    let far = b"520140\n530100003F\n53013F0101\n";
    let far_left = &[0, 10, 19, 576, 586, 1144];
    let uncalled = &dropped(sample, "00004102");
    let shorter_main = b"520002\n5300000001\n";
    let bare_main = b"520002\n";
    let longer_main = b"520040\n530000003F\n53003F0101\n";
    vec![
        accepted("routine 1 in 64 places", sample, far, far_left, 0b11),
        accepted(
            "main in two, it acts",
            uncalled,
            shorter_main,
            &[0, 10],
            0b01,
        ),
        accepted("main in two, bare", sample, bare_main, &[0], 0b01),
        accepted("main in 64", sample, longer_main, &[0, 10, 568], 0b01),
    ]
}

/// Of the sample. Without its steps routine 1 has no pairs, so main is reopened whatever comes instead.
/// Only in 16 places it is the longest routine, so only there the numbers change.
fn of_routine_1() -> Vec<RepairCase> {
    let sample = &sample::program();
    let five = &sample::STANDINGS;
    let uncalled = &dropped(sample, "00004102");
    let itself = b"520102\n5301000001\n";
    let two_actions = b"520103\n5301000002\n5301020101\n";
    let other_action = b"520102\n5301000101\n";
    let calls_itself = b"520102\n5301000001\n5301004101\n";
    let calls_only_itself = b"520102\n5301004101\n";
    let with_third = &[0, 10, 19, 27, 37, 46];
    let of_other = &[0, 20, 27, 38];
    let stuck = &[0, 27];
    let in_16_places = &[0, 144];
    vec![
        accepted("for itself", sample, itself, five, 0b11),
        accepted("action 0, then 1", sample, two_actions, with_third, 0b11),
        accepted("another action", sample, other_action, of_other, 0b11),
        accepted("without a step", sample, b"520102\n", stuck, 0b11),
        accepted("with more places", sample, b"520110\n", in_16_places, 0b11),
        accepted("calls itself too", sample, calls_itself, five, 0b11),
        accepted("calls itself only", sample, calls_only_itself, stuck, 0b11),
        accepted("nobody calls it", uncalled, two_actions, &[0], 0b10),
    ]
}

/// Of the sample. Routine 1 calls nobody, so it is reopened only where it gains a standing, from the
/// moment when main has no step and calls nobody. In two places main is the longest no more.
fn of_main() -> Vec<RepairCase> {
    let sample = &sample::program();
    let five = &sample::STANDINGS;
    let itself = b"520003\n5300004102\n5300020101\n";
    let call_alone = b"520002\n5300004101\n";
    let no_call = b"520003\n5300000002\n5300000102\n";
    let calls_itself = b"520003\n5300000002\n5300024001\n";
    let recursive = &[0, 4, 19, 22];
    vec![
        accepted("main for itself", sample, itself, five, 0b11),
        accepted("main without a step", sample, b"520003\n", &[0], 0b01),
        accepted("main with 16 places", sample, b"520010\n", &[0], 0b01),
        accepted(
            "main calls and ends",
            sample,
            call_alone,
            &[0, 10, 18, 28],
            0b11,
        ),
        accepted("main does not call", sample, no_call, &[0, 19, 20], 0b01),
        accepted("main calls itself", sample, calls_itself, recursive, 0b01),
    ]
}

/// Of what P5 leaves: routine 1 has no step, so it never returned, and its pairs stay none when it is
/// emptied. Main is reopened only where it gains a standing.
fn of_a_routine_that_never_returned() -> Vec<RepairCase> {
    let never = &dropped(&sample::program(), "01000001");
    let returns = b"520102\n5301000001\n";
    let turns = b"520103\n5301000002\n5301020102\n";
    let five = &sample::STANDINGS;
    vec![
        accepted("still without a step", never, b"520102\n", &[0, 27], 0b10),
        accepted("still not returning", never, turns, &[0, 27, 46], 0b10),
        accepted("returns at last", never, returns, five, 0b11),
    ]
}

/// Of two routines that call each other: 1 calls 2, and 2 ends or calls 1. Emptied, either of them is
/// a group alone, and all that call it have lost its pairs.
fn of_a_circle() -> Vec<RepairCase> {
    let circle = &two_that_call_each_other();
    let before = &[0, 4, 5, 12, 16, 17, 20, 21, 24, 28, 29];
    let leaves = b"520202\n5302000001\n";
    let calls_no_more = b"520102\n5301000001\n";
    let alone = &[0, 4, 5, 8, 12, 13];
    let never_ends = b"520202\n5302004101\n";
    let stuck = &[0, 12, 24];
    vec![
        accepted("2 without its call", circle, leaves, before, 0b111),
        accepted("1 without its call", circle, calls_no_more, alone, 0b111),
        accepted("2 without its end", circle, never_ends, stuck, 0b111),
    ]
}

/// Of routines in layers: main calls 1, 1 calls 2, 2 and 4 call 3, and 4 is called by nobody. Routine 2
/// keeps its pairs when 3 has lost its own. Where 1 is emptied, 2 and 3 are entered no more, so they
/// gain their standings when its call comes back.
fn of_layers() -> Vec<RepairCase> {
    let layers = &reopenings().0;
    let before = &[0, 4, 8, 12, 16, 24, 28, 32, 33, 36, 40];
    let main = b"520003\n5300000002\n5300004101\n";
    let first = b"520102\n5301004201\n";
    let first_acts = b"520102\n5301000001\n";
    let acts = &[0, 4, 8, 12, 16];
    let third = b"520302\n5303000001\n";
    let fourth = b"520402\n5304004301\n";
    vec![
        accepted("the top for itself", layers, main, before, 0b01111),
        accepted("the first for itself", layers, first, before, 0b01111),
        accepted("the first acts instead", layers, first_acts, acts, 0b00011),
        accepted("the third for itself", layers, third, before, 0b11100),
        accepted("the fourth for itself", layers, fourth, before, 0b10000),
    ]
}
