//! [`SyncTimes`]: how long the last syncs took.

use crate::lock;
use std::collections::VecDeque;
use std::sync::Mutex;
use std::time::Duration;

/// The number of syncs that are kept.
const KEPT: usize = 1024;

/// The times that the last syncs took, the oldest first.
#[derive(Default)]
pub(crate) struct SyncTimes(Mutex<VecDeque<Duration>>);

impl SyncTimes {
    /// Adds a sync, and forgets the oldest one of many.
    pub(crate) fn add(&self, took: Duration) {
        let mut times = lock(&self.0);
        if times.len() == KEPT {
            times.pop_front();
        }
        times.push_back(took);
    }

    /// For each of the percentages the least time that as many percent of the syncs kept to; zero if there were none.
    pub(crate) fn percentiles<const N: usize>(&self, percentages: [usize; N]) -> [Duration; N] {
        let mut times = Vec::from_iter(lock(&self.0).iter().copied());
        times.sort_unstable();
        percentages.map(|percent| {
            let place = (times.len() * percent).div_ceil(100).saturating_sub(1);
            times.get(place).copied().unwrap_or_default()
        })
    }
}

#[cfg(test)]
mod tests {
    use super::*;

    #[test]
    fn percentiles_are_those_of_the_last_syncs() {
        let times = SyncTimes::default();
        assert_eq!(times.percentiles([50, 99]), [Duration::ZERO; 2]);
        times.add(Duration::from_micros(7));
        assert_eq!(times.percentiles([1, 99]), [Duration::from_micros(7); 2]);
        for micros in 0..3000 {
            times.add(Duration::from_micros(micros));
        }
        // The syncs from 1,976 to 2,999 are kept.
        let wanted = [2487, 2989, 2999].map(Duration::from_micros);
        assert_eq!(times.percentiles([50, 99, 100]), wanted);
    }
}
