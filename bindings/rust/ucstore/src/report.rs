//! [`Report`]: statistics of a store.

use crate::sys;

/// Statistics of a store.
#[derive(Clone, Copy, Debug, Default, PartialEq, Eq)]
pub struct Report {
    /// Number of runs.
    pub runs: u64,
    /// Number of sequence numbers that snapshots protect.
    pub snapshots: u64,
    /// Number of points in the runs: puts, deletions and merges of keys.
    pub points: u64,
    /// Number of fragments of range deletions in the runs.
    pub fragments: u64,
    /// Size of the runs in bytes, with 8 bytes for each sequence number.
    pub bytes: u64,
    /// Number of writes in the memtables.
    pub gathered: u64,
    /// Last sequence number.
    pub last: u64,
}

impl Report {
    /// The answer of a call that fails for no open handle.
    pub(crate) fn by(tell: impl FnOnce(*mut sys::ucstore_report) -> i32) -> Report {
        let mut report = sys::ucstore_report {
            size: std::mem::size_of::<sys::ucstore_report>(),
            ..Default::default()
        };
        assert_eq!(tell(&mut report), sys::UCSTORE_OK, "the store answers");
        Report {
            runs: report.runs,
            snapshots: report.snapshots,
            points: report.points,
            fragments: report.fragments,
            bytes: report.bytes,
            gathered: report.gathered,
            last: report.last,
        }
    }
}
