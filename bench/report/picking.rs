//! Which neighbouring runs universal compaction compacts next, in plain Rust.

/// The options of universal compaction.
#[derive(Clone, Copy)]
pub(crate) struct Options {
    pub(crate) memtable: u64,
    pub(crate) trigger: usize,
    pub(crate) ratio: u128,
    pub(crate) percent: u128,
    pub(crate) least: usize,
    pub(crate) greatest: usize,
}

impl Options {
    /// RocksDB's own, with memtables of 4 MiB.
    pub(crate) const USUAL: Options = Options {
        memtable: 4_194_304,
        trigger: 4,
        ratio: 1,
        percent: 200,
        least: 2,
        greatest: 4_294_967_295,
    };
}

/// A number of runs after the first ones.
#[derive(Clone, Copy)]
pub(crate) struct Stretch {
    pub(crate) first: usize,
    pub(crate) count: usize,
}

/// All runs, where the newer ones are too large for the oldest.
fn all_runs(options: &Options, sizes: &[u64]) -> Option<Stretch> {
    let (oldest, newer) = sizes.split_last()?;
    let sum: u128 = newer.iter().copied().map(u128::from).sum();
    let is_amplified = 100 * sum > options.percent * u128::from(*oldest);
    (sizes.len() >= 2 && is_amplified).then_some(Stretch {
        first: 0,
        count: sizes.len(),
    })
}

/// The number of runs that are collected from the first on.
fn collected(options: &Options, sizes: &[u64]) -> usize {
    let mut sum = 0;
    let mut count = 0;
    for size in sizes.iter().copied().map(u128::from) {
        let is_near = 100 * size <= (100 + options.ratio) * sum;
        if count > 0 && (count >= options.greatest || !is_near) {
            break;
        }
        count += 1;
        sum += size;
    }
    count
}

/// The first runs of which enough are collected.
fn near_runs(options: &Options, sizes: &[u64]) -> Option<Stretch> {
    let mut stretches = (0..sizes.len()).map(|first| Stretch {
        first,
        count: collected(options, &sizes[first..]),
    });
    stretches.find(|stretch| stretch.count >= options.least)
}

/// The newest runs, where there are more than the trigger.
fn newest_runs(options: &Options, runs: usize) -> Option<Stretch> {
    (runs > options.trigger).then(|| Stretch {
        first: 0,
        count: runs.min(runs - options.trigger + 1).min(options.greatest),
    })
}

/// The next compaction, by the sizes of the runs, the newest first.
pub(crate) fn picked(options: &Options, sizes: &[u64]) -> Option<Stretch> {
    if sizes.len() < options.trigger {
        return None;
    }
    all_runs(options, sizes)
        .or_else(|| near_runs(options, sizes))
        .or_else(|| newest_runs(options, sizes.len()))
}
