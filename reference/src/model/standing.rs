//! Standings: where a program can be, in which state of the rule, and with which root; and sheets,
//! which mark some of them, each by its number in the program's own sizes.

use crate::model::program::EXIT;
use std::collections::BTreeSet;
use std::ops::Range;

/// How many bytes a sheet has at the most.
pub const MOST_SHEET: usize = 16_384;

/// Routine, place, root and present state. The fields are compared in this order, which is the
/// order of the numbers, whatever the sizes.
#[derive(Clone, Copy, Debug, PartialEq, Eq, PartialOrd, Ord)]
pub struct Standing {
    pub routine: u8,
    pub place: u8,
    pub root: u8,
    pub state: u8,
}

impl Standing {
    /// The standing in which a routine begins: its root is a start state, or the state after the move
    /// of the call.
    pub fn entry(routine: u8, root: u8) -> Standing {
        Standing {
            routine,
            place: 0,
            root,
            state: root,
        }
    }

    /// The standing in which a routine that began with this root ends.
    pub fn exit(routine: u8, root: u8, state: u8) -> Standing {
        Standing {
            routine,
            place: EXIT,
            root,
            state,
        }
    }

    /// The standing that the numbers f n r q say.
    pub fn of_numbers(numbers: &[u8]) -> Standing {
        Standing {
            routine: numbers[0],
            place: numbers[1],
            root: numbers[2],
            state: numbers[3],
        }
    }

    pub fn numbers(self) -> [u8; 4] {
        [self.routine, self.place, self.root, self.state]
    }

    /// The standing at another place of the same activation.
    pub fn at(self, place: u8, state: u8) -> Standing {
        Standing {
            place,
            state,
            ..self
        }
    }
}

/// The sizes by which standings are numbered: how many routines there are, how many places the longest
/// of them has, and how many states. A place that a shorter routine does not have has numbers too.
#[derive(Clone, Copy, Debug, PartialEq, Eq, PartialOrd, Ord)]
pub struct Sizes {
    pub routines: u8,
    pub places: u8,
    pub states: u8,
}

impl Sizes {
    /// How many standings have a number, and so the bytes of a sheet.
    pub fn length(self) -> usize {
        usize::from(self.routines) * usize::from(self.places) * self.standings_at_a_place()
    }

    /// One for each root and state.
    fn standings_at_a_place(self) -> usize {
        usize::from(self.states) * usize::from(self.states)
    }

    pub fn number(self, standing: Standing) -> usize {
        let (places, states) = (usize::from(self.places), usize::from(self.states));
        let place = usize::from(standing.routine) * places + usize::from(standing.place);
        (place * states + usize::from(standing.root)) * states + usize::from(standing.state)
    }

    /// The standing of a number below the length.
    pub fn standing(self, number: usize) -> Standing {
        let (places, states) = (usize::from(self.places), usize::from(self.states));
        let place = number / self.standings_at_a_place();
        Standing {
            routine: (place / places) as u8,
            place: (place % places) as u8,
            root: (number / states % states) as u8,
            state: (number % states) as u8,
        }
    }

    /// The numbers of all standings at a place, which stand side by side.
    pub fn numbers_at(self, routine: u8, place: u8) -> Range<usize> {
        let first = self.number(Standing {
            routine,
            place,
            root: 0,
            state: 0,
        });
        first..first + self.standings_at_a_place()
    }

    /// The standings that a sheet marks.
    pub fn standings(self, sheet: &[u8]) -> BTreeSet<Standing> {
        let numbers = marked(sheet).into_iter();
        numbers.map(|number| self.standing(number)).collect()
    }
}

/// The numbers that a sheet marks, by any byte other than 0.
pub fn marked(sheet: &[u8]) -> Vec<usize> {
    (0..sheet.len()).filter(|&at| sheet[at] != 0).collect()
}

#[cfg(test)]
mod tests {
    use super::*;
    use crate::model::program::{MOST_PLACES, MOST_ROUTINES, MOST_STATES};

    /// All sizes that a program can have.
    fn admitted() -> Vec<Sizes> {
        let mut admitted = Vec::new();
        for routines in 1..=MOST_ROUTINES {
            for places in 2..=MOST_PLACES {
                admitted.extend((1..=MOST_STATES).map(|states| Sizes {
                    routines,
                    places,
                    states,
                }));
            }
        }
        admitted.retain(|sizes| sizes.length() <= MOST_SHEET);
        admitted
    }

    fn check(sizes: Sizes) {
        let all = (0..sizes.length()).map(|number| sizes.standing(number));
        let all: Vec<Standing> = all.collect();
        for (number, &at) in all.iter().enumerate() {
            assert_eq!(sizes.number(at), number, "{sizes:?}");
            assert!(at.routine < sizes.routines && at.place < sizes.places);
            assert!(at.root < sizes.states && at.state < sizes.states);
            assert!(sizes.numbers_at(at.routine, at.place).contains(&number));
        }
        assert!(all.windows(2).all(|pair| pair[0] < pair[1]), "{sizes:?}");
    }

    #[test]
    fn numbers_and_standings_belong_to_each_other_in_order() {
        let admitted = admitted();
        let largest = admitted.iter().filter(|one| one.length() == MOST_SHEET);
        assert_eq!(largest.count(), 9);
        for &sizes in admitted.iter().step_by(7) {
            check(sizes);
        }
        for sizes in admitted
            .into_iter()
            .filter(|one| one.length() == MOST_SHEET)
        {
            check(sizes);
        }
    }

    #[test]
    fn the_sample_has_54_numbers() {
        let sizes = Sizes {
            routines: 2,
            places: 3,
            states: 3,
        };
        assert_eq!(sizes.length(), 54);
        assert_eq!(sizes.number(Standing::entry(1, 0)), 27);
        assert_eq!(sizes.number(Standing::exit(1, 0, 1)), 37);
        assert_eq!(sizes.number(Standing::exit(1, 2, 2)), 44);
    }
}
