//! [`Lookups`]: how many keys were looked up, and where they were answered.

use crate::counts::Count;
use crate::striped::Striped;
use ucstore::{Error, LookupSource};

/// Of how many lookups one is asked where it is answered.
const SHARE: u64 = 64;

/// The number of keys looked up, and where some of them were answered.
#[derive(Default)]
pub(crate) struct Lookups {
    all: Striped<Count>,
    by_memtable: Count,
    by_filters: Count,
    by_runs: Count,
}

impl Lookups {
    /// Counts a lookup. If it is one of those that are asked, so is its source.
    pub(crate) fn add(&self, source: impl FnOnce() -> Result<LookupSource, Error>) {
        let number = self.all.own().add(1);
        self.ask(number, source);
    }

    /// The number of the calling thread's next lookup, if that comes soon.
    pub(crate) fn next(&self) -> u64 {
        self.all.own().get()
    }

    /// Asks the source of a lookup, if it is one of those that are asked. A source that is refused isn't counted.
    pub(crate) fn ask(&self, number: u64, source: impl FnOnce() -> Result<LookupSource, Error>) {
        if is_asked(number) {
            if let Ok(source) = source() {
                self.asked(source).add(1);
            }
        }
    }

    /// Counts lookups that were made together.
    pub(crate) fn add_many(&self, count: u64) {
        self.all.own().add(count);
    }

    /// Their number.
    pub(crate) fn count(&self) -> u64 {
        self.all.iter().map(Count::get).sum()
    }

    /// About how many of them were answered there.
    pub(crate) fn estimate(&self, source: LookupSource) -> u64 {
        SHARE * self.asked(source).get()
    }

    /// The number of asked lookups that were answered there.
    fn asked(&self, source: LookupSource) -> &Count {
        match source {
            LookupSource::Memtable => &self.by_memtable,
            LookupSource::Filters => &self.by_filters,
            LookupSource::Runs => &self.by_runs,
        }
    }
}

/// Whether the lookup with a number is asked: one in [`SHARE`], spread by the golden ratio (Knuth, "Sorting and Searching",
/// 6.4), so that where lookups go in turns each of them is met as often.
fn is_asked(number: u64) -> bool {
    let spread = number.wrapping_add(1).wrapping_mul(0x9E37_79B9_7F4A_7C15);
    spread < u64::MAX / SHARE
}

#[cfg(test)]
mod tests {
    use super::*;
    use LookupSource::{Filters, Memtable, Runs};

    /// The number of a thousand times [`SHARE`] lookups that are asked, in one turn of some.
    fn asked_of(turn: u64, turns: u64) -> usize {
        let numbers = (0..1000 * SHARE).map(|round| round * turns + turn);
        numbers.filter(|&number| is_asked(number)).count()
    }

    #[test]
    fn each_turn_is_asked_as_often() {
        for turns in [1, 2, 3, 5, 8, 13, 21, 32, 64, 100] {
            for turn in 0..turns {
                let asked = asked_of(turn, turns);
                assert!((980..=1020).contains(&asked), "{turn} of {turns}: {asked}");
            }
        }
    }

    #[test]
    fn sources_are_counted_by_their_share() {
        let lookups = Lookups::default();
        for number in 0..100 * SHARE {
            let sources = [Ok(Memtable), Ok(Filters), Ok(Runs), Err(Error::OutOfMemory)];
            lookups.add(|| sources[number as usize % 4]);
        }
        assert_eq!(lookups.count(), 100 * SHARE);
        for source in [Memtable, Filters, Runs] {
            let count = lookups.estimate(source) / SHARE;
            assert!((23..=27).contains(&count), "{source:?}: {count}");
        }
    }

    #[test]
    fn a_few_lookups_tell_nothing() {
        let lookups = Lookups::default();
        lookups.add(|| Ok(Runs));
        lookups.add_many(2);
        assert_eq!((lookups.count(), lookups.next()), (3, 3));
        assert_eq!(lookups.estimate(Runs), 0);
    }
}
