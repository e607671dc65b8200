//! Limits of fresh workings, made from a seed about a program's count of takings, and classes of them,
//! so that it shows which were met.

use crate::generate::met::Times;
use crate::generate::random::Random;
use crate::model::calls::sheets::NO_LIMIT;
use crate::model::refusals::GAVE_UP;

/// How a limit stands to a program's count of takings.
#[derive(Clone, Copy, Debug, PartialEq, Eq, PartialOrd, Ord)]
pub enum Stands {
    /// 0, and the program takes something.
    NothingAllowed,
    /// One below the count, and further below.
    OneShort,
    Short,
    /// 0, and the program takes nothing.
    NothingNeeded,
    /// The count itself, one above it, and further above.
    Exact,
    OneOver,
    Over,
    /// Above the count, and below it if only 32 bits were kept.
    ShortIn32Bits,
    Largest,
}

use Stands::*;

/// Those at which a working gives up, and those at which it answers.
const NOT_ENOUGH: [Stands; 3] = [NothingAllowed, OneShort, Short];
const ENOUGH: [Stands; 6] = [NothingNeeded, Exact, OneOver, Over, ShortIn32Bits, Largest];

/// How often each class was met with each answer, of the limits for files that are accepted.
#[derive(Clone, Debug, Default)]
pub struct MetLimits {
    times: Times<(Stands, u32)>,
}

impl MetLimits {
    /// Notes a limit for a program with so many takings, and what was answered.
    pub fn note(&mut self, limit: u64, takings: u32, refusal: u32) {
        let classes = classes(limit, takings).into_iter();
        self.times.note(classes.map(|class| (class, refusal)));
    }

    /// Each class has to be met so many times at the least with its own answer.
    pub fn check(&self, least: usize) {
        let given_up = NOT_ENOUGH.map(|class| (class, GAVE_UP));
        let answered = ENOUGH.map(|class| (class, 0));
        self.times.check(given_up, least);
        self.times.check(answered, least);
    }

    /// Each class at which a working gives up has to be met so many times with each of these refusals,
    /// which come before.
    pub fn check_refused_before(&self, refusals: &[u32], least: usize) {
        for class in NOT_ENOUGH {
            let before = refusals.iter().map(|&refusal| (class, refusal));
            self.times.check(before, least);
        }
    }
}

/// The classes of a limit for a program with so many takings.
pub fn classes(limit: u64, takings: u32) -> Vec<Stands> {
    let count = u64::from(takings);
    let (lacking, spare) = (count.saturating_sub(limit), limit.saturating_sub(count));
    let in_32_bits = limit & u64::from(u32::MAX);
    let classes = [
        (limit == 0 && count > 0, NothingAllowed),
        (lacking == 1, OneShort),
        (lacking > 1, Short),
        (limit == 0 && count == 0, NothingNeeded),
        (limit == count && count > 0, Exact),
        (spare == 1, OneOver),
        (spare > 1, Over),
        (spare > 0 && in_32_bits < count, ShortIn32Bits),
        (limit == NO_LIMIT, Largest),
    ];
    let holding = classes.iter().filter(|(holds, _)| *holds);
    holding.map(|&(_, class)| class).collect()
}

/// Limits about a count, ascending: 0, any below it, its neighbours and itself, any, one that is below
/// it but for one high bit, and the largest.
pub fn about(random: &mut Random, takings: u32) -> Vec<u64> {
    let count = u64::from(takings);
    let short = random.below(takings.max(1) as usize) as u64;
    let high_bit = 1 << random.between(32, 63);
    let any = random.number() >> random.below(64);
    let mut limits = vec![
        0,
        short,
        count.saturating_sub(1),
        count,
        count + 1,
        any,
        high_bit + short,
        NO_LIMIT,
    ];
    limits.sort_unstable();
    limits.dedup();
    limits
}

/// One of these.
pub fn some(random: &mut Random, takings: u32) -> u64 {
    let limits = about(random, takings);
    random.pick(&limits)
}

#[cfg(test)]
mod tests {
    use super::*;

    #[test]
    fn limits_have_the_classes_that_they_show() {
        let high = 1 << 32;
        assert_eq!(classes(0, 6), [NothingAllowed, Short]);
        assert_eq!(classes(0, 1), [NothingAllowed, OneShort]);
        assert_eq!(classes(4, 6), [Short]);
        assert_eq!(classes(5, 6), [OneShort]);
        assert_eq!(classes(6, 6), [Exact]);
        assert_eq!(classes(7, 6), [OneOver]);
        assert_eq!(classes(8, 6), [Over]);
        assert_eq!(classes(high + 5, 6), [Over, ShortIn32Bits]);
        assert_eq!(classes(high + 6, 6), [Over]);
        assert_eq!(classes(NO_LIMIT, 6), [Over, Largest]);
        assert_eq!(classes(0, 0), [NothingNeeded]);
        assert_eq!(classes(1, 0), [OneOver]);
    }

    #[test]
    fn the_limits_about_a_count_ascend_and_have_both_sides() {
        let random = &mut Random::new(0);
        for takings in [0, 1, 2, 3, 6, 1000] {
            let limits = about(random, takings);
            let count = u64::from(takings);
            assert!(limits.windows(2).all(|pair| pair[0] < pair[1]));
            assert!([0, count, count + 1, NO_LIMIT]
                .iter()
                .all(|limit| limits.contains(limit)));
            assert!(takings == 0 || limits.contains(&(count - 1)));
        }
    }
}
