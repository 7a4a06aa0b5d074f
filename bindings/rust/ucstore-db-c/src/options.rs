//! [`COptions`]: options of a database, as C has them.

use crate::call::{call, Refusal};
use crate::events::{events_of, progress_of, EventFunction, ProgressFunction};
use crate::memory::{items, read_sized, write_sized};
use crate::status::Status;
use db::{ucstore, Operator, Options, Sync};
use std::ffi::c_void;
use std::mem::offset_of;
use std::time::Duration;

/// The number of the directory's own operator.
const OWN: u32 = 255;

const SYNC_ALWAYS: u32 = 0;
const SYNC_EVERY: u32 = 1;
const SYNC_NEVER: u32 = 2;

/// The sequence that gives up nothing.
const TO_THE_END: u64 = u64::MAX;

/// The size of the smallest struct of options that there was: it ended before `recover_to`.
const LEAST_SIZE: usize = offset_of!(COptions, recover_to);

/// `struct ucstore_db_options`.
#[derive(Clone, Copy)]
#[repr(C)]
pub struct COptions {
    /// Size of the struct.
    pub size: usize,
    /// Number of the merge operator.
    pub merge_operator: u32,
    /// Time at which an acknowledged write becomes durable.
    pub sync: u32,
    /// Period of syncs in milliseconds.
    pub sync_milliseconds: u64,
    /// Size in bytes at which the memtable is flushed.
    pub write_buffer_size: u64,
    /// Number of runs at which compaction starts.
    pub compaction_trigger: u32,
    /// Number of runs at which a writer compacts before it writes.
    pub stop_trigger: u32,
    /// Percentage by which a run may exceed the newer ones that are compacted with it.
    pub size_ratio: u32,
    /// Size of the newer runs, in percent of the oldest, above which all are compacted.
    pub max_size_amplification_percent: u32,
    /// Minimum number of runs compacted by size ratio.
    pub min_merge_width: u32,
    /// Maximum number of runs in a compaction.
    pub max_merge_width: u32,
    /// Number of compaction threads.
    pub compactors: u32,
    /// Number of runs at which each write is delayed.
    pub slow_trigger: u32,
    /// Size of the logs, as a multiple of the data's, at which a checkpoint is made.
    pub checkpoint_ratio: u64,
    /// Minimum size of the logs in bytes for a checkpoint.
    pub checkpoint_least: u64,
    /// Nonzero to open a corrupted database up to the corruption.
    pub recovers_to_fault: u32,
    /// Called with the progress of an opening.
    pub progress: ProgressFunction,
    /// First argument of `progress`.
    pub progress_context: *mut c_void,
    /// Called with each event.
    pub event: EventFunction,
    /// First argument of `event`.
    pub event_context: *mut c_void,
    /// Sequence number after which all writes are discarded.
    pub recover_to: u64,
    /// Last sequence number at which a discarded batch may begin.
    pub give_up_until: u64,
    /// Sequence numbers to take snapshots at.
    pub marks: *const u64,
    /// Number of `marks`.
    pub marks_count: usize,
    /// Nonzero to fail instead of creating a database.
    pub must_exist: u32,
    /// Nonzero to open a database to read it.
    pub read_only: u32,
    /// Milliseconds without a write after which the database is compacted to one run; 0 for never.
    pub compact_when_idle_milliseconds: u64,
    /// Maximum bytes of run files that a checkpoint writes in a second; 0 for no limit.
    pub checkpoint_bytes_per_second: u64,
}

impl COptions {
    /// The options at an address, as large as their first field says: those that an older program doesn't know have their defaults.
    /// Bytes that this library doesn't know must be 0.
    ///
    /// # Safety
    ///
    /// The caller guarantees a struct of that size.
    pub(crate) unsafe fn at(options: *const COptions) -> Result<COptions, Refusal> {
        // SAFETY: The caller guarantees this.
        unsafe { read_sized(options, LEAST_SIZE, COptions::default()) }
    }

    /// The options of the database.
    ///
    /// # Safety
    ///
    /// The caller guarantees the marks.
    pub(crate) unsafe fn read(&self) -> Result<Options, Refusal> {
        // SAFETY: The caller guarantees this.
        let marks = unsafe { items(self.marks, self.marks_count) }?;
        Ok(Options {
            operator: operator_or_own(self.merge_operator)?,
            sync: self.read_sync()?,
            store: self.read_store(),
            compactors: self.compactors as usize,
            compact_when_idle: match self.compact_when_idle_milliseconds {
                0 => None,
                milliseconds => Some(Duration::from_millis(milliseconds)),
            },
            slow_trigger: self.slow_trigger,
            checkpoint_ratio: self.checkpoint_ratio,
            checkpoint_least: self.checkpoint_least,
            checkpoint_bytes_per_second: match self.checkpoint_bytes_per_second {
                0 => None,
                bytes => Some(bytes),
            },
            must_exist: self.must_exist != 0,
            read_only: self.read_only != 0,
            recover_to_fault: self.recovers_to_fault != 0,
            recover_to: (self.recover_to != TO_THE_END).then_some(self.recover_to),
            give_up_until: self.give_up_until,
            marks: marks.to_vec(),
            progress: progress_of(self.progress, self.progress_context),
            events: events_of(self.event, self.event_context),
        })
    }

    fn read_sync(&self) -> Result<Sync, Refusal> {
        match self.sync {
            SYNC_ALWAYS => Ok(Sync::Always),
            SYNC_EVERY => Ok(Sync::EveryMs(self.sync_milliseconds)),
            SYNC_NEVER => Ok(Sync::Never),
            _ => Err(Status::BadOption.into()),
        }
    }

    fn read_store(&self) -> ucstore::Options {
        ucstore::Options {
            write_buffer_size: self.write_buffer_size,
            compaction_trigger: self.compaction_trigger,
            stop_trigger: self.stop_trigger,
            size_ratio: self.size_ratio,
            max_size_amplification_percent: self.max_size_amplification_percent,
            min_merge_width: self.min_merge_width,
            max_merge_width: self.max_merge_width,
            ..Default::default()
        }
    }
}

impl Default for COptions {
    /// The database's own defaults.
    fn default() -> COptions {
        let options = Options::default();
        COptions {
            size: size_of::<COptions>(),
            merge_operator: options.operator.map_or(OWN, |operator| operator as u32),
            sync: SYNC_ALWAYS,
            sync_milliseconds: 100,
            write_buffer_size: options.store.write_buffer_size,
            compaction_trigger: options.store.compaction_trigger,
            stop_trigger: options.store.stop_trigger,
            size_ratio: options.store.size_ratio,
            max_size_amplification_percent: options.store.max_size_amplification_percent,
            min_merge_width: options.store.min_merge_width,
            max_merge_width: options.store.max_merge_width,
            compactors: options.compactors as u32,
            slow_trigger: options.slow_trigger,
            checkpoint_ratio: options.checkpoint_ratio,
            checkpoint_least: options.checkpoint_least,
            recovers_to_fault: options.recover_to_fault.into(),
            progress: None,
            progress_context: std::ptr::null_mut(),
            event: None,
            event_context: std::ptr::null_mut(),
            recover_to: TO_THE_END,
            give_up_until: options.give_up_until,
            marks: std::ptr::null(),
            marks_count: 0,
            must_exist: options.must_exist.into(),
            read_only: options.read_only.into(),
            compact_when_idle_milliseconds: options
                .compact_when_idle
                .map_or(0, |after| after.as_millis() as u64),
            checkpoint_bytes_per_second: options.checkpoint_bytes_per_second.unwrap_or(0),
        }
    }
}

/// The operator of a number, or none for the directory's own.
fn operator_or_own(number: u32) -> Result<Option<Operator>, Refusal> {
    match number {
        OWN => Ok(None),
        named => operator_of(named).map(Some),
    }
}

/// The operator of a number.
fn operator_of(number: u32) -> Result<Operator, Refusal> {
    match number {
        0 => Ok(Operator::Append),
        1 => Ok(Operator::Counter),
        2 => Ok(Operator::Maximum),
        3 => Ok(Operator::Tail),
        4 => Ok(Operator::Mixed),
        _ => Err(Status::UnknownOperator.into()),
    }
}

/// Sets the default options, in a struct of the caller's size.
#[no_mangle]
pub unsafe extern "C" fn ucstore_db_options_init(options: *mut COptions, size: usize) -> i32 {
    call(|| {
        if size < LEAST_SIZE {
            return Err(Status::BadSize.into());
        }
        let whole = COptions {
            size,
            ..COptions::default()
        };
        // SAFETY: The caller guarantees as many bytes.
        unsafe { write_sized(options, &whole, size) }
    })
}
