//! [`CStats`]: statistics of a database, as C has them.

use crate::call::call;
use crate::handle::{DbHandle, Handle};
use crate::memory::{write_sized, Place, Room};
use crate::status::Status;
use db::Stats;
use std::ffi::c_char;
use std::mem::offset_of;
use std::time::Duration;

/// The size of the smallest struct of these that there was: it ended before `lookups_by_memtable`.
const LEAST_SIZE: usize = offset_of!(CStats, lookups_by_memtable);

/// `struct ucstore_db_stats`.
#[derive(Clone, Copy)]
#[repr(C)]
pub struct CStats {
    /// Size of the struct.
    pub size: usize,
    /// Time since the database was opened, in microseconds.
    pub uptime: u64,
    /// Sequence number of the last write.
    pub last: u64,
    /// Number of runs.
    pub runs: u64,
    /// Size of the runs in bytes.
    pub bytes: u64,
    /// Number of writes in the memtables.
    pub gathered: u64,
    /// Size in bytes of the logs that no checkpoint covers.
    pub log_bytes: u64,
    /// Number of batches written.
    pub batches: u64,
    /// Number of log records they were written in.
    pub groups: u64,
    /// Bytes of the batches.
    pub user_bytes: u64,
    /// Bytes appended to logs.
    pub logged_bytes: u64,
    /// Bytes of the checkpoints written.
    pub base_bytes: u64,
    /// Number of keys looked up.
    pub lookups: u64,
    /// Number of syncs of logs.
    pub syncs: u64,
    /// Median duration of the last 1,024 syncs, in microseconds.
    pub sync_p50: u64,
    /// 99th percentile of the same.
    pub sync_p99: u64,
    /// Number of times that writes started to be slowed or stopped.
    pub stalls: u64,
    /// Number of log records whose writes were slowed.
    pub slowed: u64,
    /// Total time for which writes were slowed or stopped, in microseconds.
    pub stalled: u64,
    /// Number of flushes.
    pub flushes: u64,
    /// Number of compactions.
    pub compactions: u64,
    /// Bytes of the runs made by flushes.
    pub flush_bytes: u64,
    /// Bytes of the runs read by compactions.
    pub compaction_read: u64,
    /// Bytes of the runs made by compactions.
    pub compaction_written: u64,
    /// Number of checkpoints.
    pub checkpoints: u64,
    /// Estimated number of lookups that the memtables answered.
    pub lookups_by_memtable: u64,
    /// Estimated number of lookups that the filters answered.
    pub lookups_by_filters: u64,
    /// Estimated number of lookups that the runs answered.
    pub lookups_by_runs: u64,
    /// Bytes that opening cut off the last log and set aside.
    pub set_aside_bytes: u64,
    /// Number of run files that checkpoints wrote.
    pub run_files: u64,
    /// Bytes of the run files that checkpoints kept.
    pub kept_bytes: u64,
}

impl From<Stats> for CStats {
    fn from(stats: Stats) -> CStats {
        let micros = |duration: Duration| duration.as_micros() as u64;
        CStats {
            size: size_of::<CStats>(),
            uptime: micros(stats.uptime),
            last: stats.last,
            runs: stats.runs,
            bytes: stats.bytes,
            gathered: stats.gathered,
            log_bytes: stats.log_bytes,
            batches: stats.batches,
            groups: stats.groups,
            user_bytes: stats.user_bytes,
            logged_bytes: stats.logged_bytes,
            base_bytes: stats.base_bytes,
            lookups: stats.lookups,
            syncs: stats.syncs,
            sync_p50: micros(stats.sync_p50),
            sync_p99: micros(stats.sync_p99),
            stalls: stats.stalls,
            slowed: stats.slowed,
            stalled: micros(stats.stalled),
            flushes: stats.flushes,
            compactions: stats.compactions,
            flush_bytes: stats.flush_bytes,
            compaction_read: stats.compaction_read,
            compaction_written: stats.compaction_written,
            checkpoints: stats.checkpoints,
            lookups_by_memtable: stats.lookups_by_memtable,
            lookups_by_filters: stats.lookups_by_filters,
            lookups_by_runs: stats.lookups_by_runs,
            set_aside_bytes: stats.set_aside_bytes,
            run_files: stats.run_files,
            kept_bytes: stats.kept_bytes,
        }
    }
}

/// Stores statistics.
#[no_mangle]
pub unsafe extern "C" fn ucstore_db_stats(db: *const DbHandle, stats: *mut CStats) -> i32 {
    call(|| {
        // SAFETY: The caller guarantees the handle.
        let db = unsafe { Handle::get(db) }?;
        if stats.is_null() {
            return Err(Status::Null.into());
        }
        // SAFETY: The caller guarantees a struct that begins with its size.
        let size = unsafe { stats.cast::<usize>().read() };
        if size < LEAST_SIZE {
            return Err(Status::BadSize.into());
        }
        let whole = CStats {
            size,
            ..CStats::from(db.stats())
        };
        // SAFETY: The caller guarantees as many bytes.
        unsafe { write_sized(stats, &whole, size) }
    })
}

/// Writes statistics as a table.
#[no_mangle]
pub unsafe extern "C" fn ucstore_db_stats_text(
    db: *const DbHandle,
    room: *mut c_char,
    room_length: usize,
    size: *mut usize,
) -> i32 {
    call(|| {
        // SAFETY: The caller guarantees the handle and the memory.
        let (db, mut room, size) = unsafe {
            let room = Room::<u8>::of(room.cast(), room_length)?;
            (Handle::get(db)?, room, Place::of(size)?)
        };
        let text = db.stats().to_string();
        // The last byte of the buffer is for the zero.
        let kept = text.len().min(room.left().saturating_sub(1));
        room.push(&text.as_bytes()[..kept]);
        room.push(&[0]);
        size.put(text.len());
        Ok(())
    })
}
