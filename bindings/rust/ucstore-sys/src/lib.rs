//! The functions of `ucstore.h`, under the same names. The header documents them and the requirements on the caller; the crate
//! `ucstore` calls them safely.
#![allow(non_camel_case_types)]

use std::ffi::c_void;

/// Success.
pub const UCSTORE_OK: i32 = 0;
/// Out of memory.
pub const UCSTORE_OUT_OF_MEMORY: i32 = 1;
/// Store is not open.
pub const UCSTORE_NO_STORE: i32 = 2;
/// Store is already open.
pub const UCSTORE_HAS_STORE: i32 = 3;
/// Key not found.
pub const UCSTORE_NOT_FOUND: i32 = 4;
/// No snapshot at this sequence number.
pub const UCSTORE_NOT_PROTECTED: i32 = 5;
/// Unknown merge operator.
pub const UCSTORE_UNKNOWN_OPERATOR: i32 = 6;
/// Option out of range.
pub const UCSTORE_BAD_OPTION: i32 = 7;
/// Unsupported struct size.
pub const UCSTORE_BAD_SIZE: i32 = 8;
/// Run IDs exhausted.
pub const UCSTORE_IDS_SPENT: i32 = 9;
/// Sequence numbers exhausted.
pub const UCSTORE_SEQUENCES_SPENT: i32 = 10;
/// Key or value too long.
pub const UCSTORE_TOO_LONG: i32 = 11;
/// Malformed write batch.
pub const UCSTORE_NOT_A_BATCH: i32 = 12;
/// Invalid log position.
pub const UCSTORE_BAD_PLACE: i32 = 13;
/// Buffer too small.
pub const UCSTORE_ROOM: i32 = 14;
/// No more batches in the log.
pub const UCSTORE_LOG_ENDS: i32 = 15;
/// Sequence number not above the last one.
pub const UCSTORE_SEQUENCE_BACK: i32 = 16;
/// Key lengths do not match the keys.
pub const UCSTORE_BAD_KEYS: i32 = 17;
/// Batch full.
pub const UCSTORE_BATCH_FULL: i32 = 18;
/// View is not open.
pub const UCSTORE_NO_VIEW: i32 = 19;
/// View is already open.
pub const UCSTORE_HAS_VIEW: i32 = 20;
/// Job is not open.
pub const UCSTORE_NO_JOB: i32 = 21;
/// Job is already open.
pub const UCSTORE_HAS_JOB: i32 = 22;
/// Job of another store.
pub const UCSTORE_NOT_OF_STORE: i32 = 23;
/// Run limit reached.
pub const UCSTORE_RUNS_CLAIMED: i32 = 24;
/// Job already ended.
pub const UCSTORE_JOB_ENDED: i32 = 25;
/// Checkpoint is not open.
pub const UCSTORE_NO_CHECKPOINT: i32 = 26;
/// Checkpoint is already open.
pub const UCSTORE_HAS_CHECKPOINT: i32 = 27;
/// Gap in sequence numbers.
pub const UCSTORE_SEQUENCE_GAP: i32 = 28;
/// Log missing.
pub const UCSTORE_LOG_MISSING: i32 = 29;
/// Folder is not open.
pub const UCSTORE_NO_FOLDER: i32 = 30;
/// Malformed operand.
pub const UCSTORE_BAD_OPERAND: i32 = 31;
/// Read has changed.
pub const UCSTORE_READ_CHANGED: i32 = 32;
/// Corrupted run file.
pub const UCSTORE_RUN_DAMAGED: i32 = 33;
/// Invalid run.
pub const UCSTORE_BAD_RUN: i32 = 34;

/// The memtables: they hold a put or a deletion of the key, or a range deletion over it.
pub const UCSTORE_MEMTABLE: u32 = 0;
/// The filters: the memtables do not answer, and no run has a write of the key.
pub const UCSTORE_FILTERS: u32 = 1;
/// The runs: the memtables do not answer, and a run has a write of the key.
pub const UCSTORE_RUNS: u32 = 2;

/// Adds a number.
pub const UCSTORE_ADD: u32 = 1;
/// Keeps the greater byte string.
pub const UCSTORE_MAX_BYTES: u32 = 2;
/// Keeps the lesser byte string.
pub const UCSTORE_MIN_BYTES: u32 = 3;
/// Replaces the value.
pub const UCSTORE_SET: u32 = 4;
/// Appends the delimiter and the payload.
pub const UCSTORE_APPEND_BYTES: u32 = 5;
/// Byte by byte, the bits of either.
pub const UCSTORE_OR: u32 = 6;
/// Byte by byte, the bits of both.
pub const UCSTORE_AND: u32 = 7;
/// Byte by byte, the bits of one of both.
pub const UCSTORE_XOR: u32 = 8;
/// Byte by byte, the greater byte.
pub const UCSTORE_MAX_REGISTERS: u32 = 9;
/// Appends the payload, and keeps the last bytes.
pub const UCSTORE_TAIL_BYTES: u32 = 10;
/// Keeps the greater number.
pub const UCSTORE_MAX_U64: u32 = 11;
/// Keeps the lesser number.
pub const UCSTORE_MIN_U64: u32 = 12;
pub const UCSTORE_ADD_U64: u32 = 13;
pub const UCSTORE_SET_UNION: u32 = 14;

/// A handle to a store. All zeros: no store.
#[repr(C)]
pub struct ucstore {
    pub at: *mut c_void,
}

/// A batch. All zeros: no operations.
#[repr(C)]
pub struct ucstore_batch {
    pub at: *mut c_void,
}

/// The reads of a transaction. All zeros: no reads.
#[repr(C)]
pub struct ucstore_reads {
    pub at: *mut c_void,
}

/// A handle to a view. All zeros: no view.
#[repr(C)]
pub struct ucstore_view {
    pub at: *mut c_void,
}

/// A handle to a checkpoint. All zeros: no checkpoint.
#[repr(C)]
pub struct ucstore_checkpoint {
    pub at: *mut c_void,
}

/// The bytes of a run's file. All zeros: no run.
#[repr(C)]
pub struct ucstore_run {
    pub at: *mut c_void,
}

/// The file of a run that is read. All zeros: no file.
#[repr(C)]
pub struct ucstore_run_file {
    pub at: *mut c_void,
}

/// A handle to a job. All zeros: no job.
#[repr(C)]
pub struct ucstore_job {
    pub at: *mut c_void,
}

/// Options of a store.
#[repr(C)]
#[derive(Clone, Copy, Debug, Default)]
pub struct ucstore_options {
    pub size: usize,
    pub write_buffer_size: u64,
    pub compaction_trigger: u32,
    pub stop_trigger: u32,
    pub size_ratio: u32,
    pub max_size_amplification_percent: u32,
    pub min_merge_width: u32,
    pub max_merge_width: u32,
    pub compacts_itself: u32,
    /// Maximum number of memtables, at least 1.
    pub max_write_buffer_number: u32,
}

/// Statistics of a store.
#[repr(C)]
#[derive(Clone, Copy, Debug, Default)]
pub struct ucstore_report {
    pub size: usize,
    pub runs: u64,
    pub snapshots: u64,
    pub points: u64,
    pub fragments: u64,
    pub bytes: u64,
    pub gathered: u64,
    pub last: u64,
}

/// Where and why reading a log ended.
#[repr(C)]
#[derive(Clone, Copy, Debug, Default)]
pub struct ucstore_ended {
    pub kind: u32,
    pub fault: u32,
    pub place: u64,
}

/// A position in a log, between two batches.
#[repr(C)]
#[derive(Clone, Copy, Debug, Default)]
pub struct ucstore_log_place {
    pub offset: u64,
    pub last: u64,
    pub batches: u64,
}

/// A base that the folder of a database lists.
#[repr(C)]
#[derive(Clone, Copy, Debug, Default, PartialEq, Eq)]
pub struct ucstore_folder_base {
    pub number: u64,
    pub past: u64,
}

/// A log that the folder of a database lists.
#[repr(C)]
#[derive(Clone, Copy, Debug, Default, PartialEq, Eq)]
pub struct ucstore_folder_listed {
    pub number: u64,
    pub is_used: bool,
}

/// The files to read when the folder of a database is opened.
#[repr(C)]
#[derive(Clone, Copy, Debug, Default, PartialEq, Eq)]
pub struct ucstore_folder_found {
    pub base: u64,
    pub past: u64,
    pub least: u64,
    pub log: u64,
    pub top: u64,
    pub is_there: bool,
}

/// The machine of a folder.
#[repr(C)]
#[derive(Clone, Copy, Debug, Default, PartialEq, Eq)]
pub struct ucstore_folder_state {
    pub log: u64,
    pub count: u64,
    pub synced: u64,
    pub base: u64,
    pub least: u64,
    pub tried: u64,
    pub past: u64,
    pub at: u64,
    pub top: u64,
    pub number: u64,
    pub part: u64,
    pub writer: u32,
    pub next: u32,
    pub checkpointer: u32,
    pub is_sealed: bool,
}

/// A file operation.
#[repr(C)]
#[derive(Clone, Copy, Debug, Default, PartialEq, Eq)]
pub struct ucstore_folder_step {
    pub number: u64,
    pub count: u64,
    pub kind: u32,
}

/// The machine of a folder whose checkpoints are lists of run files.
#[repr(C)]
#[derive(Clone, Copy, Debug, Default, PartialEq, Eq)]
pub struct ucstore_run_folder_state {
    pub next: u64,
    pub number: u64,
    pub past: u64,
    pub run: u64,
    pub last: u64,
    pub phase: u32,
    pub is_read: bool,
}

extern "C" {
    pub fn ucstore_version() -> u32;
    pub fn ucstore_options_init(options: *mut ucstore_options) -> i32;
    pub fn ucstore_create(
        store: *mut ucstore,
        merge_operator: u32,
        options: *const ucstore_options,
    ) -> i32;
    pub fn ucstore_open(
        store: *mut ucstore,
        merge_operator: u32,
        options: *const ucstore_options,
        log: *const u8,
        log_length: usize,
        ended: *mut ucstore_ended,
    ) -> i32;
    pub fn ucstore_close(store: *mut ucstore) -> i32;

    pub fn ucstore_batch_put(
        batch: *mut ucstore_batch,
        key: *const u8,
        key_length: usize,
        value: *const u8,
        value_length: usize,
    ) -> i32;
    pub fn ucstore_batch_merge(
        batch: *mut ucstore_batch,
        key: *const u8,
        key_length: usize,
        operand: *const u8,
        operand_length: usize,
    ) -> i32;
    pub fn ucstore_batch_delete(
        batch: *mut ucstore_batch,
        key: *const u8,
        key_length: usize,
    ) -> i32;
    pub fn ucstore_batch_delete_range(
        batch: *mut ucstore_batch,
        begin: *const u8,
        begin_length: usize,
        end: *const u8,
        end_length: usize,
    ) -> i32;
    pub fn ucstore_batch_clear(batch: *mut ucstore_batch) -> i32;
    pub fn ucstore_batch_count(batch: *mut ucstore_batch, count: *mut u64) -> i32;
    pub fn ucstore_batch_bytes(
        batch: *mut ucstore_batch,
        room: *mut u8,
        room_length: usize,
        size: *mut usize,
    ) -> i32;
    pub fn ucstore_batch_close(batch: *mut ucstore_batch) -> i32;

    pub fn ucstore_write(store: *mut ucstore, batch: *mut ucstore_batch) -> i32;
    pub fn ucstore_write_bytes(store: *mut ucstore, batch: *const u8, batch_length: usize) -> i32;
    pub fn ucstore_put(
        store: *mut ucstore,
        key: *const u8,
        key_length: usize,
        value: *const u8,
        value_length: usize,
    ) -> i32;
    pub fn ucstore_delete(store: *mut ucstore, key: *const u8, key_length: usize) -> i32;
    pub fn ucstore_merge(
        store: *mut ucstore,
        key: *const u8,
        key_length: usize,
        operand: *const u8,
        operand_length: usize,
    ) -> i32;
    pub fn ucstore_delete_range(
        store: *mut ucstore,
        begin: *const u8,
        begin_length: usize,
        end: *const u8,
        end_length: usize,
    ) -> i32;

    pub fn ucstore_prepare(
        store: *mut ucstore,
        batch: *mut ucstore_batch,
        log_length: u64,
        room: *mut u8,
        room_length: usize,
        size: *mut usize,
    ) -> i32;
    pub fn ucstore_prepare_bytes(
        store: *mut ucstore,
        batch: *const u8,
        batch_length: usize,
        log_length: u64,
        room: *mut u8,
        room_length: usize,
        size: *mut usize,
    ) -> i32;
    pub fn ucstore_prepare_marked(
        store: *mut ucstore,
        batch: *const u8,
        batch_length: usize,
        unsynced: u64,
        log_length: u64,
        room: *mut u8,
        room_length: usize,
        size: *mut usize,
    ) -> i32;
    pub fn ucstore_reads_key(reads: *mut ucstore_reads, key: *const u8, key_length: usize) -> i32;
    pub fn ucstore_reads_range(
        reads: *mut ucstore_reads,
        low: *const u8,
        low_length: usize,
        high: *const u8,
        high_length: usize,
        bounded: bool,
    ) -> i32;
    pub fn ucstore_reads_clear(reads: *mut ucstore_reads) -> i32;
    pub fn ucstore_reads_count(reads: *mut ucstore_reads, count: *mut usize) -> i32;
    pub fn ucstore_reads_close(reads: *mut ucstore_reads) -> i32;
    pub fn ucstore_prepare_if(
        store: *mut ucstore,
        view: *mut ucstore_view,
        reads: *mut ucstore_reads,
        batch: *const u8,
        batch_length: usize,
        log_length: u64,
        room: *mut u8,
        room_length: usize,
        size: *mut usize,
        changed: *mut usize,
    ) -> i32;
    pub fn ucstore_first_changed(
        store: *mut ucstore,
        view: *mut ucstore_view,
        reads: *mut ucstore_reads,
        changed: *mut usize,
    ) -> i32;
    pub fn ucstore_commit(store: *mut ucstore) -> i32;
    pub fn ucstore_commit_report(store: *mut ucstore, report: *mut ucstore_report) -> i32;
    pub fn ucstore_give_up(store: *mut ucstore) -> i32;

    pub fn ucstore_flush(store: *mut ucstore) -> i32;
    pub fn ucstore_snapshot(store: *mut ucstore, seq: *mut u64) -> i32;
    pub fn ucstore_release(store: *mut ucstore, seq: u64) -> i32;
    pub fn ucstore_snapshots(
        store: *mut ucstore,
        room: *mut u64,
        room_length: usize,
        count: *mut usize,
    ) -> i32;
    pub fn ucstore_last(store: *mut ucstore, seq: *mut u64) -> i32;

    pub fn ucstore_get(
        store: *mut ucstore,
        key: *const u8,
        key_length: usize,
        room: *mut u8,
        room_length: usize,
        size: *mut usize,
    ) -> i32;
    pub fn ucstore_source(
        store: *mut ucstore,
        key: *const u8,
        key_length: usize,
        source: *mut u32,
    ) -> i32;
    pub fn ucstore_get_at(
        store: *mut ucstore,
        key: *const u8,
        key_length: usize,
        at: u64,
        room: *mut u8,
        room_length: usize,
        size: *mut usize,
    ) -> i32;
    pub fn ucstore_get_many(
        store: *mut ucstore,
        keys: *const u8,
        keys_length: usize,
        key_lengths: *const u64,
        count: usize,
        value_lengths: *mut u64,
        value_count: usize,
        room: *mut u8,
        room_length: usize,
        size: *mut usize,
    ) -> i32;
    pub fn ucstore_scan(
        store: *mut ucstore,
        low: *const u8,
        low_length: usize,
        high: *const u8,
        high_length: usize,
        bounded: bool,
        limit: u64,
        room: *mut u8,
        room_length: usize,
        size: *mut usize,
        rows: *mut u64,
    ) -> i32;
    pub fn ucstore_scan_at(
        store: *mut ucstore,
        low: *const u8,
        low_length: usize,
        high: *const u8,
        high_length: usize,
        bounded: bool,
        at: u64,
        limit: u64,
        room: *mut u8,
        room_length: usize,
        size: *mut usize,
        rows: *mut u64,
    ) -> i32;

    pub fn ucstore_view(store: *mut ucstore, view: *mut ucstore_view) -> i32;
    pub fn ucstore_view_again(view: *mut ucstore_view, again: *mut ucstore_view) -> i32;
    pub fn ucstore_view_get(
        view: *mut ucstore_view,
        key: *const u8,
        key_length: usize,
        room: *mut u8,
        room_length: usize,
        size: *mut usize,
    ) -> i32;
    pub fn ucstore_view_source(
        view: *mut ucstore_view,
        key: *const u8,
        key_length: usize,
        source: *mut u32,
    ) -> i32;
    pub fn ucstore_view_get_at(
        view: *mut ucstore_view,
        key: *const u8,
        key_length: usize,
        at: u64,
        room: *mut u8,
        room_length: usize,
        size: *mut usize,
    ) -> i32;
    pub fn ucstore_view_get_many(
        view: *mut ucstore_view,
        keys: *const u8,
        keys_length: usize,
        key_lengths: *const u64,
        count: usize,
        value_lengths: *mut u64,
        value_count: usize,
        room: *mut u8,
        room_length: usize,
        size: *mut usize,
    ) -> i32;
    pub fn ucstore_view_scan(
        view: *mut ucstore_view,
        low: *const u8,
        low_length: usize,
        high: *const u8,
        high_length: usize,
        bounded: bool,
        limit: u64,
        room: *mut u8,
        room_length: usize,
        size: *mut usize,
        rows: *mut u64,
    ) -> i32;
    pub fn ucstore_view_scan_back(
        view: *mut ucstore_view,
        low: *const u8,
        low_length: usize,
        high: *const u8,
        high_length: usize,
        bounded: bool,
        limit: u64,
        room: *mut u8,
        room_length: usize,
        size: *mut usize,
        rows: *mut u64,
    ) -> i32;
    pub fn ucstore_view_scan_at(
        view: *mut ucstore_view,
        low: *const u8,
        low_length: usize,
        high: *const u8,
        high_length: usize,
        bounded: bool,
        at: u64,
        limit: u64,
        room: *mut u8,
        room_length: usize,
        size: *mut usize,
        rows: *mut u64,
    ) -> i32;
    pub fn ucstore_view_last(view: *mut ucstore_view, seq: *mut u64) -> i32;
    pub fn ucstore_view_report(view: *mut ucstore_view, report: *mut ucstore_report) -> i32;
    pub fn ucstore_view_close(view: *mut ucstore_view) -> i32;

    pub fn ucstore_checkpoint(view: *mut ucstore_view, checkpoint: *mut ucstore_checkpoint) -> i32;
    pub fn ucstore_checkpoint_next(
        checkpoint: *mut ucstore_checkpoint,
        log_length: u64,
        most: u64,
        room: *mut u8,
        room_length: usize,
        size: *mut usize,
        done: *mut bool,
    ) -> i32;
    pub fn ucstore_checkpoint_close(checkpoint: *mut ucstore_checkpoint) -> i32;

    pub fn ucstore_view_run(
        view: *mut ucstore_view,
        place: usize,
        id: *mut u64,
        low: *mut u64,
        high: *mut u64,
    ) -> i32;
    pub fn ucstore_run(view: *mut ucstore_view, place: usize, run: *mut ucstore_run) -> i32;
    pub fn ucstore_run_size(run: *mut ucstore_run, size: *mut u64) -> i32;
    pub fn ucstore_run_read(
        run: *mut ucstore_run,
        offset: usize,
        room: *mut u8,
        room_length: usize,
        count: *mut usize,
    ) -> i32;
    pub fn ucstore_run_close(run: *mut ucstore_run) -> i32;
    pub fn ucstore_add_run(
        store: *mut ucstore,
        file: *const u8,
        file_length: usize,
        id: *mut u64,
        offset: *mut usize,
    ) -> i32;
    pub fn ucstore_run_file_open(file: *mut ucstore_run_file, size: usize) -> i32;
    pub fn ucstore_run_file_append(
        file: *mut ucstore_run_file,
        piece: *const u8,
        piece_length: usize,
    ) -> i32;
    pub fn ucstore_run_file_read(
        file: *mut ucstore_run_file,
        low: *mut u64,
        high: *mut u64,
        offset: *mut usize,
    ) -> i32;
    pub fn ucstore_add_run_file(
        store: *mut ucstore,
        file: *mut ucstore_run_file,
        id: *mut u64,
    ) -> i32;
    pub fn ucstore_run_file_close(file: *mut ucstore_run_file) -> i32;

    pub fn ucstore_job(store: *mut ucstore, job: *mut ucstore_job, taken: *mut bool) -> i32;
    pub fn ucstore_job_run(job: *mut ucstore_job) -> i32;
    pub fn ucstore_job_end(store: *mut ucstore, job: *mut ucstore_job, installed: *mut bool)
        -> i32;
    pub fn ucstore_job_input_bytes(job: *mut ucstore_job, bytes: *mut u64) -> i32;
    pub fn ucstore_job_close(job: *mut ucstore_job) -> i32;

    pub fn ucstore_compact(store: *mut ucstore, compacted: *mut bool) -> i32;
    pub fn ucstore_report(store: *mut ucstore, report: *mut ucstore_report) -> i32;
    pub fn ucstore_log_next(
        log: *const u8,
        log_length: usize,
        place: *mut ucstore_log_place,
        room: *mut u8,
        room_length: usize,
        size: *mut usize,
        writes: *mut u64,
        ended: *mut ucstore_ended,
    ) -> i32;
    pub fn ucstore_replay(
        store: *mut ucstore,
        log: *const u8,
        log_length: usize,
        place: *mut ucstore_log_place,
        may_skip: bool,
        ended: *mut ucstore_ended,
    ) -> i32;
    pub fn ucstore_log_first_told(
        log: *const u8,
        log_length: usize,
        end: u64,
        last: u64,
        told: *mut bool,
        place: *mut u64,
    ) -> i32;
    pub fn ucstore_log_mark(
        batch: *const u8,
        batch_length: usize,
        marked: *mut bool,
        unsynced: *mut u64,
    ) -> i32;
    pub fn ucstore_log_mark_bytes(
        unsynced: u64,
        room: *mut u8,
        room_length: usize,
        size: *mut usize,
    ) -> i32;
    pub fn ucstore_operand(
        part: u32,
        parameter: u32,
        payload: *const u8,
        payload_length: usize,
        room: *mut u8,
        room_length: usize,
        size: *mut usize,
    ) -> i32;
    pub fn ucstore_operand_check(operand: *const u8, operand_length: usize) -> i32;
    pub fn ucstore_folder_find(
        bases: *const ucstore_folder_base,
        bases_length: usize,
        logs: *const ucstore_folder_listed,
        logs_length: usize,
        found: *mut ucstore_folder_found,
        missing: *mut u64,
    ) -> i32;
    pub fn ucstore_folder_open(
        found: *const ucstore_folder_found,
        count: u64,
        is_sealed: bool,
        state: *mut ucstore_folder_state,
    ) -> i32;
    pub fn ucstore_folder_next_write(
        state: *const ucstore_folder_state,
        step: *mut ucstore_folder_step,
    ) -> i32;
    pub fn ucstore_folder_next_make(
        state: *const ucstore_folder_state,
        step: *mut ucstore_folder_step,
    ) -> i32;
    pub fn ucstore_folder_next_sync(
        state: *const ucstore_folder_state,
        step: *mut ucstore_folder_step,
    ) -> i32;
    pub fn ucstore_folder_next_checkpoint(
        state: *const ucstore_folder_state,
        step: *mut ucstore_folder_step,
    ) -> i32;
    pub fn ucstore_folder_told_write(state: *mut ucstore_folder_state, is_done: bool) -> i32;
    pub fn ucstore_folder_told_make(state: *mut ucstore_folder_state, is_done: bool) -> i32;
    pub fn ucstore_folder_told_sync(state: *mut ucstore_folder_state, is_done: bool) -> i32;
    pub fn ucstore_folder_told_checkpoint(state: *mut ucstore_folder_state, is_done: bool) -> i32;
    pub fn ucstore_folder_submit(state: *mut ucstore_folder_state) -> i32;
    pub fn ucstore_folder_append(
        state: *mut ucstore_folder_state,
        step: *mut ucstore_folder_step,
    ) -> i32;
    pub fn ucstore_folder_ask_sync(state: *mut ucstore_folder_state) -> i32;
    pub fn ucstore_folder_ask_next(state: *mut ucstore_folder_state) -> i32;
    pub fn ucstore_folder_ask_switch(state: *mut ucstore_folder_state) -> i32;
    pub fn ucstore_folder_ask_checkpoint(
        state: *mut ucstore_folder_state,
        number: u64,
        past: u64,
    ) -> i32;
    pub fn ucstore_run_folder_find(
        named: *const u64,
        named_length: usize,
        listed: *const u64,
        listed_length: usize,
        next: *mut u64,
        missing: *mut u64,
    ) -> i32;
    pub fn ucstore_run_folder_open(
        state: *const ucstore_folder_state,
        next: u64,
        runs: *mut ucstore_run_folder_state,
    ) -> i32;
    pub fn ucstore_run_folder_next_checkpoint(
        state: *const ucstore_folder_state,
        runs: *const ucstore_run_folder_state,
        step: *mut ucstore_folder_step,
    ) -> i32;
    pub fn ucstore_run_folder_told_checkpoint(
        state: *mut ucstore_folder_state,
        runs: *mut ucstore_run_folder_state,
        is_done: bool,
    ) -> i32;
    pub fn ucstore_run_folder_ask_checkpoint(
        state: *const ucstore_folder_state,
        runs: *mut ucstore_run_folder_state,
        number: u64,
        past: u64,
        kept: *const u64,
        kept_length: usize,
        named: *const u64,
        named_length: usize,
        count: u64,
    ) -> i32;
    pub fn ucstore_run_folder_next_removal(
        state: *const ucstore_folder_state,
        runs: *const ucstore_run_folder_state,
        run: u64,
        named: *const u64,
        named_length: usize,
        step: *mut ucstore_folder_step,
    ) -> i32;
}
