//! [`Stats`]: what a database holds and did, in numbers.

use crate::lock;
use crate::shared::Shared;
use std::fmt;
use std::time::Duration;
use ucstore::LookupSource;

/// Figures of what a database holds, and of what it did since it was opened. Shown, it is a table with a line for each number.
#[derive(Clone, Copy, Debug, Default, PartialEq, Eq)]
#[non_exhaustive]
pub struct Stats {
    /// For how long it is open.
    pub uptime: Duration,
    /// The sequence of the last write.
    pub last: u64,
    /// The number of runs.
    pub runs: u64,
    /// The bytes of all runs.
    pub bytes: u64,
    /// The number of writes that no run has yet.
    pub gathered: u64,
    /// The bytes of the logs that no checkpoint holds.
    pub log_bytes: u64,
    /// The number of batches taken.
    pub batches: u64,
    /// The number of records of the log that they shared.
    pub groups: u64,
    /// The bytes of the batches.
    pub user_bytes: u64,
    /// The bytes that were appended to logs for them.
    pub logged_bytes: u64,
    /// The bytes that checkpoints wrote: run files, lists of these, and bases.
    pub base_bytes: u64,
    /// The number of run files that checkpoints wrote.
    pub run_files: u64,
    /// The bytes of the run files that checkpoints kept, each counted by every checkpoint that names it and didn't write it.
    pub kept_bytes: u64,
    /// The bytes that the opening cut off the end of a log, where a crash had left them, and [set aside](crate::Event::SetAside).
    pub set_aside_bytes: u64,
    /// The number of keys looked up, in it and in its snapshots.
    pub lookups: u64,
    /// About how many of the lookups the memtables answered, as
    /// [`LookupSource::Memtable`](ucstore::LookupSource::Memtable) says. Of 64 lookups one is asked, and counts for all of
    /// them: a few hundred lookups tell little.
    pub lookups_by_memtable: u64,
    /// About how many of them filters answered: no write of a run touched the key.
    pub lookups_by_filters: u64,
    /// About how many of them runs answered.
    pub lookups_by_runs: u64,
    /// The number of syncs of a log.
    pub syncs: u64,
    /// The time that half of the last 1,024 syncs kept to.
    pub sync_p50: Duration,
    /// The time that 99 percent of the last 1,024 syncs kept to.
    pub sync_p99: Duration,
    /// The number of times that writes began to be slowed, or waited for a compaction.
    pub stalls: u64,
    /// The number of groups of writes that were slowed because there were many runs.
    pub slowed: u64,
    /// For how long writes were slowed or waited.
    pub stalled: Duration,
    /// The number of runs made of gathered writes, but for those that the store made itself.
    pub flushes: u64,
    /// The number of compactions, but for those that the store made itself.
    pub compactions: u64,
    /// The bytes of the runs that these flushes made.
    pub flush_bytes: u64,
    /// The bytes of the runs that these compactions read.
    pub compaction_read: u64,
    /// The bytes of the runs that these compactions made.
    pub compaction_written: u64,
    /// The number of checkpoints made.
    pub checkpoints: u64,
    /// Whether nothing can be written any more.
    pub is_read_only: bool,
}

impl Stats {
    /// The figures of a database.
    pub(crate) fn of(shared: &Shared) -> Stats {
        let log_bytes = shared.log_bytes();
        let report = lock(&shared.store).report();
        let counts = &shared.counts;
        let [sync_p50, sync_p99] = counts.sync_times.percentiles([50, 99]);
        Stats {
            uptime: counts.opened.elapsed(),
            last: report.last,
            runs: report.runs,
            bytes: report.bytes,
            gathered: report.gathered,
            log_bytes,
            batches: counts.batches.get(),
            groups: counts.groups.get(),
            user_bytes: counts.user_bytes.get(),
            logged_bytes: counts.logged_bytes.get(),
            base_bytes: counts.base_bytes.get(),
            run_files: counts.run_files.get(),
            kept_bytes: counts.kept_bytes.get(),
            set_aside_bytes: counts.set_aside_bytes.get(),
            lookups: counts.lookups.count(),
            lookups_by_memtable: counts.lookups.estimate(LookupSource::Memtable),
            lookups_by_filters: counts.lookups.estimate(LookupSource::Filters),
            lookups_by_runs: counts.lookups.estimate(LookupSource::Runs),
            syncs: counts.syncs.get(),
            sync_p50,
            sync_p99,
            stalls: counts.stalls.get(),
            slowed: counts.slowed.get(),
            stalled: Duration::from_micros(counts.stalled.get()),
            flushes: counts.flushes.get(),
            compactions: counts.compactions.get(),
            flush_bytes: counts.flush_bytes.get(),
            compaction_read: counts.compaction_read.get(),
            compaction_written: counts.compaction_written.get(),
            checkpoints: counts.checkpoints.get(),
            is_read_only: shared.check().is_err(),
        }
    }

    /// The bytes written to files for each byte of the batches: 0 if there were none.
    pub fn write_amplification(&self) -> f64 {
        match self.user_bytes {
            0 => 0.0,
            bytes => (self.logged_bytes + self.base_bytes) as f64 / bytes as f64,
        }
    }

    /// The bytes of runs made by flushes and compactions for each byte that was flushed: 0 if nothing was. The more runs may
    /// be, the lower it is.
    pub fn run_amplification(&self) -> f64 {
        match self.flush_bytes {
            0 => 0.0,
            bytes => (bytes + self.compaction_written) as f64 / bytes as f64,
        }
    }

    /// The average number of batches in a record of the log: 0 if there were none.
    fn batches_a_group(&self) -> f64 {
        self.batches as f64 / self.groups.max(1) as f64
    }
}

/// A number of bytes, in the largest unit of which it has one.
struct Bytes(u64);

impl fmt::Display for Bytes {
    fn fmt(&self, formatter: &mut fmt::Formatter<'_>) -> fmt::Result {
        const UNITS: [&str; 4] = ["KiB", "MiB", "GiB", "TiB"];
        let unit = (self.0.max(1).ilog2() / 10).min(UNITS.len() as u32);
        match unit {
            0 => write!(formatter, "{} B", self.0),
            unit => {
                let count = self.0 as f64 / (1u64 << (10 * unit)) as f64;
                write!(formatter, "{count:.1} {}", UNITS[unit as usize - 1])
            }
        }
    }
}

/// A number that is estimated.
struct About(u64);

impl fmt::Display for About {
    fn fmt(&self, formatter: &mut fmt::Formatter<'_>) -> fmt::Result {
        write!(formatter, "~{}", self.0)
    }
}

/// A duration, in milliseconds.
struct Millis(Duration);

impl fmt::Display for Millis {
    fn fmt(&self, formatter: &mut fmt::Formatter<'_>) -> fmt::Result {
        write!(formatter, "{:.3} ms", self.0.as_secs_f64() * 1000.0)
    }
}

impl fmt::Display for Stats {
    fn fmt(&self, formatter: &mut fmt::Formatter<'_>) -> fmt::Result {
        let rows: [(&str, &dyn fmt::Display); 32] = [
            ("last sequence", &self.last),
            ("runs", &self.runs),
            ("bytes of runs", &Bytes(self.bytes)),
            ("writes in the memtable", &self.gathered),
            ("bytes of logs", &Bytes(self.log_bytes)),
            ("batches", &self.batches),
            ("groups", &self.groups),
            ("batches a group", &format!("{:.2}", self.batches_a_group())),
            ("bytes of batches", &Bytes(self.user_bytes)),
            ("bytes written to logs", &Bytes(self.logged_bytes)),
            ("bytes of checkpoints", &Bytes(self.base_bytes)),
            ("run files written", &self.run_files),
            ("bytes of runs kept", &Bytes(self.kept_bytes)),
            ("bytes set aside", &Bytes(self.set_aside_bytes)),
            (
                "write amplification",
                &format!("{:.2}", self.write_amplification()),
            ),
            ("lookups", &self.lookups),
            ("lookups, by memtables", &About(self.lookups_by_memtable)),
            ("lookups, by filters", &About(self.lookups_by_filters)),
            ("lookups, by runs", &About(self.lookups_by_runs)),
            ("syncs", &self.syncs),
            ("sync, p50", &Millis(self.sync_p50)),
            ("sync, p99", &Millis(self.sync_p99)),
            ("stalls", &self.stalls),
            ("slowed groups", &self.slowed),
            ("stalled", &Millis(self.stalled)),
            ("flushes", &self.flushes),
            ("compactions", &self.compactions),
            ("bytes flushed", &Bytes(self.flush_bytes)),
            ("bytes compacted", &Bytes(self.compaction_read)),
            ("bytes made by that", &Bytes(self.compaction_written)),
            (
                "run amplification",
                &format!("{:.2}", self.run_amplification()),
            ),
            ("checkpoints", &self.checkpoints),
        ];
        let seconds = self.uptime.as_secs_f64();
        writeln!(formatter, "** Database, open for {seconds:.1} s **")?;
        for (name, value) in rows {
            writeln!(formatter, "{name:<24} {:>14}", value.to_string())?;
        }
        write!(formatter, "{:<24} {:>14}", "read only", self.is_read_only)
    }
}

#[cfg(test)]
mod tests {
    use super::*;

    #[test]
    fn bytes_are_shown_in_their_unit() {
        let shown = [0, 1, 1023, 1024, 1536, 1 << 20, u64::MAX].map(|it| Bytes(it).to_string());
        let wanted = [
            "0 B",
            "1 B",
            "1023 B",
            "1.0 KiB",
            "1.5 KiB",
            "1.0 MiB",
            "16777216.0 TiB",
        ];
        assert_eq!(shown, wanted);
    }

    #[test]
    fn stats_are_a_table() {
        let stats = Stats {
            batches: 7,
            groups: 2,
            user_bytes: 100,
            logged_bytes: 110,
            base_bytes: 40,
            lookups_by_filters: 640,
            flush_bytes: 1000,
            compaction_read: 1 << 20,
            compaction_written: 2500,
            sync_p99: Duration::from_micros(1234),
            ..Default::default()
        };
        let text = stats.to_string();
        for line in [
            "batches                               7",
            "batches a group                    3.50",
            "write amplification                1.50",
            "lookups, by filters                ~640",
            "sync, p99                      1.234 ms",
            "bytes compacted                 1.0 MiB",
            "run amplification                  3.50",
            "read only                         false",
        ] {
            assert!(text.lines().any(|it| it == line), "{text}");
        }
    }
}
