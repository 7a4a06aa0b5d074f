//! [`Options`] of a store, and its merge [`Operator`].

use crate::sys;

/// Options of a store, with the names of RocksDB's options (its wiki, "Universal Compaction").
///
/// The defaults are `write_buffer_size` 4 MiB, `compaction_trigger` 4, `stop_trigger` 36, `size_ratio` 1,
/// `max_size_amplification_percent` 200, `min_merge_width` 2, no limit for `max_merge_width`, `compacts_itself` true, and
/// `max_write_buffer_number` 1.
///
/// ```
/// let options = ucstore::Options { write_buffer_size: 1 << 20, ..Default::default() };
/// assert_eq!(options.compaction_trigger, 4);
/// ```
#[derive(Clone, Copy, Debug, PartialEq, Eq)]
pub struct Options {
    /// Size in bytes at which the memtable is full, at least 1.
    pub write_buffer_size: u64,
    /// Number of runs at which compaction starts, at least 1.
    pub compaction_trigger: u32,
    /// Number of runs at which a write that flushes compacts first, `compaction_trigger` to 255.
    pub stop_trigger: u32,
    /// Percentage by which a run may exceed the newer ones that are compacted with it.
    pub size_ratio: u32,
    /// Size of the newer runs, in percent of the oldest, above which all are compacted.
    pub max_size_amplification_percent: u32,
    /// Minimum number of runs compacted by size ratio, at least 2.
    pub min_merge_width: u32,
    /// Maximum number of runs in a compaction, at least `min_merge_width`.
    pub max_merge_width: u32,
    /// True to compact after each flush, false to compact only at `stop_trigger` runs.
    pub compacts_itself: bool,
    /// Maximum number of memtables, at least 1. With 1, a write that finds the memtable full flushes it. With more, a
    /// [job](crate::Store::take_job) does, and a write only when all are full.
    pub max_write_buffer_number: u32,
}

impl Options {
    /// The options as C has them.
    pub(crate) fn to_c(self) -> sys::ucstore_options {
        sys::ucstore_options {
            size: std::mem::size_of::<sys::ucstore_options>(),
            write_buffer_size: self.write_buffer_size,
            compaction_trigger: self.compaction_trigger,
            stop_trigger: self.stop_trigger,
            size_ratio: self.size_ratio,
            max_size_amplification_percent: self.max_size_amplification_percent,
            min_merge_width: self.min_merge_width,
            max_merge_width: self.max_merge_width,
            compacts_itself: self.compacts_itself.into(),
            max_write_buffer_number: self.max_write_buffer_number,
        }
    }
}

impl Default for Options {
    fn default() -> Options {
        let mut options = sys::ucstore_options::default();
        // It always answers that it did.
        unsafe { sys::ucstore_options_init(&mut options) };
        Options {
            write_buffer_size: options.write_buffer_size,
            compaction_trigger: options.compaction_trigger,
            stop_trigger: options.stop_trigger,
            size_ratio: options.size_ratio,
            max_size_amplification_percent: options.max_size_amplification_percent,
            min_merge_width: options.min_merge_width,
            max_merge_width: options.max_merge_width,
            compacts_itself: options.compacts_itself != 0,
            max_write_buffer_number: options.max_write_buffer_number,
        }
    }
}

/// Merge operators. An operator combines a key's operands and its value.
#[derive(Clone, Copy, Debug, PartialEq, Eq, Hash)]
#[repr(u32)]
pub enum Operator {
    /// Byte strings joined by commas.
    Append = 0,
    /// Sum of 64-bit numbers, 8 bytes each, little-endian. Any other value counts as 0.
    Counter = 1,
    /// The greater byte string.
    Maximum = 2,
    /// The last four bytes of the byte strings joined.
    Tail = 3,
    /// The operators that each [`Operand`](crate::Operand) names.
    Mixed = 4,
}
