//! The table: a rule that is put down in rows, and the rule lines that it becomes.
//!
//! A row meets every pair of one of its states and one of its actions. In a file with rows each pair
//! of a state below Q and an action below A has to be met by exactly one row. Rows speak of actions
//! only, so a rule that is put down in them hears no call and no return.

use crate::model::program::{Event, RuleLine, MOST_ACTIONS, MOST_STATES};
use crate::model::refusals::{PAIR_MET_TWICE, PAIR_NOT_MET};
use std::collections::BTreeSet;

/// A row: bit s for state s, bit a for action a, and the next state. The fields are compared in this
/// order, which is the order of a row's numbers.
#[derive(Clone, Copy, Debug, PartialEq, Eq, PartialOrd, Ord)]
pub struct Row {
    pub state_bits: u16,
    pub action_bits: u32,
    pub to: u8,
}

impl Row {
    /// The row that six numbers say, or seven: one of state bits, or two, four of action bits, all high
    /// first, and the next state.
    pub fn of_numbers(numbers: &[u8]) -> Row {
        let (states, others) = numbers.split_at(numbers.len() - 5);
        Row {
            state_bits: states
                .iter()
                .fold(0, |bits, &low| bits << 8 | u16::from(low)),
            action_bits: u32::from_be_bytes([others[0], others[1], others[2], others[3]]),
            to: others[4],
        }
    }

    /// The row's numbers in a file with so many states, of which it has no bit past those that such a
    /// row has room for.
    pub fn numbers(self, states: u8) -> Vec<u8> {
        let state_bits = self.state_bits.to_be_bytes();
        let first = if states > 8 { 0 } else { 1 };
        let action_bits = self.action_bits.to_be_bytes();
        [&state_bits[first..], &action_bits, &[self.to]].concat()
    }

    fn has_state(self, state: u8) -> bool {
        self.state_bits >> state & 1 == 1
    }

    fn has_action(self, action: u8) -> bool {
        self.action_bits >> action & 1 == 1
    }

    pub fn states(self) -> impl Iterator<Item = u8> {
        (0..MOST_STATES).filter(move |&state| self.has_state(state))
    }

    pub fn actions(self) -> impl Iterator<Item = u8> {
        (0..MOST_ACTIONS).filter(move |&action| self.has_action(action))
    }

    /// Without a state bit, or without an action bit, no pair is met.
    pub fn meets(self, (state, action): Pair) -> bool {
        self.has_state(state) && self.has_action(action)
    }
}

/// A state and an action.
pub type Pair = (u8, u8);

/// The pairs for so many states and actions, by state, then by action.
pub fn pairs(states: u8, actions: u8) -> impl Iterator<Item = Pair> {
    (0..states).flat_map(move |state| (0..actions).map(move |action| (state, action)))
}

/// The rule lines that a table becomes, one for each pair; or the first faulty pair, with its refusal.
pub fn rule_of_rows(
    rows: &[Row],
    states: u8,
    actions: u8,
) -> Result<BTreeSet<RuleLine>, (u32, Pair)> {
    pairs(states, actions)
        .map(|pair| line_of_pair(rows, pair).map_err(|refusal| (refusal, pair)))
        .collect()
}

/// The rule line of a pair that exactly one row meets; else 19 or 20.
pub fn line_of_pair(rows: &[Row], pair: Pair) -> Result<RuleLine, u32> {
    let meeting: Vec<&Row> = rows.iter().filter(|row| row.meets(pair)).collect();
    match &meeting[..] {
        [] => Err(PAIR_NOT_MET),
        [row] => Ok(RuleLine {
            from: pair.0,
            event: Event::Action(pair.1),
            to: row.to,
        }),
        _ => Err(PAIR_MET_TWICE),
    }
}

#[cfg(test)]
mod tests {
    use super::*;

    #[test]
    fn numbers_and_rows_belong_to_each_other_in_order() {
        let numbers = [
            [0x01, 0, 0, 0, 0x01, 7],
            [0x01, 0, 0, 1, 0x00, 0],
            [0x01, 0x80, 0, 0, 0, 0],
            [0x80, 0, 0, 0, 0, 0],
        ];
        let rows = numbers.map(|row| Row::of_numbers(&row));
        assert_eq!(rows.map(|row| row.numbers(8)), numbers);
        assert!(rows.windows(2).all(|pair| pair[0] < pair[1]));
        let longer = numbers.map(|row| [&[0x02], &row[..]].concat());
        let rows = longer.clone().map(|row| Row::of_numbers(&row));
        assert_eq!(rows.map(|row| row.numbers(9)), longer);
    }

    #[test]
    fn the_first_of_two_numbers_of_state_bits_holds_the_highest_states() {
        let row = Row::of_numbers(&[0x81, 0x03, 0, 0, 0, 1, 15]);
        assert_eq!(row.states().collect::<Vec<_>>(), [0, 1, 8, 15]);
        assert!(row.meets((15, 0)) && row.meets((8, 0)) && !row.meets((7, 0)));
    }

    #[test]
    fn the_first_number_of_action_bits_holds_the_highest_actions() {
        let row = Row::of_numbers(&[0x81, 0x81, 0x40, 0x20, 0x11, 5]);
        assert_eq!(row.states().collect::<Vec<_>>(), [0, 7]);
        assert_eq!(row.actions().collect::<Vec<_>>(), [0, 4, 13, 22, 24, 31]);
        assert!(row.meets((7, 31)) && row.meets((0, 13)));
        assert!(!row.meets((1, 31)) && !row.meets((7, 30)));
    }

    #[test]
    fn each_pair_becomes_a_line() {
        let row = |state_bits, action_bits, to| Row {
            state_bits,
            action_bits,
            to,
        };
        let rows = [row(0b01, 0b11, 1), row(0b10, 0b01, 0), row(0b10, 0b10, 1)];
        let lines = rule_of_rows(&rows, 2, 2).expect("each pair is met once");
        let lines: Vec<_> = lines.into_iter().map(RuleLine::numbers).collect();
        assert_eq!(lines, [[0, 0, 1], [0, 1, 1], [1, 0, 0], [1, 1, 1]]);
        let faulty = |rows: &[Row], actions| rule_of_rows(rows, 2, actions).unwrap_err();
        assert_eq!(faulty(&rows[1..], 2), (PAIR_NOT_MET, (0, 0)));
        assert_eq!(faulty(&rows, 3), (PAIR_NOT_MET, (0, 2)));
        let twice = [&rows[..], &[row(0b11, 0b10, 0)]].concat();
        assert_eq!(faulty(&twice, 2), (PAIR_MET_TWICE, (0, 1)));
    }
}
