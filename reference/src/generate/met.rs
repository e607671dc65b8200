//! Counts of what was met, so that agreeing on it means something.

use crate::model::refusals::ANSWERS;
use std::collections::BTreeMap;
use std::fmt::Debug;

/// Those of the classes that hold.
pub fn holding<K: Copy, C: FromIterator<K>>(classes: &[(bool, K)]) -> C {
    let holding = classes.iter().filter(|(holds, _)| *holds);
    holding.map(|&(_, class)| class).collect()
}

/// How often each number was answered, 0 where nothing was refused.
#[derive(Clone, Debug, Default, PartialEq, Eq)]
pub struct Met {
    times: [usize; ANSWERS],
}

impl Met {
    pub fn note(&mut self, refusal: u32) {
        self.times[refusal as usize] += 1;
    }

    pub fn times(&self, refusal: u32) -> usize {
        self.times[refusal as usize]
    }

    /// Each of these numbers has to be met so many times at the least.
    pub fn check(&self, refusals: impl IntoIterator<Item = u32>, least: usize) {
        for refusal in refusals {
            let times = self.times(refusal);
            assert!(times >= least, "{refusal} was met {times} times: {self:?}");
        }
    }
}

/// How often each thing was met, of things that are not numbered.
#[derive(Clone, Debug)]
pub struct Times<K> {
    times: BTreeMap<K, usize>,
}

impl<K> Default for Times<K> {
    fn default() -> Times<K> {
        Times {
            times: BTreeMap::new(),
        }
    }
}

impl<K: Copy + Debug + Ord> Times<K> {
    pub fn note(&mut self, met: impl IntoIterator<Item = K>) {
        for one in met {
            *self.times.entry(one).or_default() += 1;
        }
    }

    pub fn of(&self, one: K) -> usize {
        self.times.get(&one).copied().unwrap_or(0)
    }

    /// Each of these has to be met so many times at the least.
    pub fn check(&self, all: impl IntoIterator<Item = K>, least: usize) {
        for one in all {
            let times = self.of(one);
            assert!(times >= least, "{one:?} was met {times} times: {self:?}");
        }
    }
}
