/* An embedded key-value store in memory: an LSM tree without files, threads or locks. Every function is proved against its contract.
 *
 * A store is reached through a handle, which its owner initializes to zeros:
 *
 *     struct ucstore store = {0};
 *
 * Each function of a store takes a pointer to the handle first. Each function except `ucstore_version` returns one of the statuses
 * below. On any status but UCSTORE_OK no write takes effect and no output is written, except as stated at `ucstore_prepare`,
 * `ucstore_prepare_bytes`, `ucstore_prepare_marked`, `ucstore_prepare_if`, `ucstore_checkpoint_next`, `ucstore_run`, `ucstore_add_run`,
 * `ucstore_run_file_open`, `ucstore_run_file_read`, `ucstore_add_run_file`, `ucstore_log_next`, `ucstore_replay`, `ucstore_log_mark_bytes` and
 * `ucstore_operand`.
 *
 * Writes go to a memtable, which is flushed to a run when it is full, and runs are compacted. By default the calling thread does
 * both, automatically. With jobs, other threads do.
 *
 * A batch holds operations that are written together, any number of times. It is initialized to zeros too:
 *
 *     struct ucstore_batch batch = {0};
 *
 * A view is a read-only copy of a store's state, at the time it is taken:
 *
 *     struct ucstore_view view = {0};
 *
 * Nothing that happens to the store changes a view, not even closing the store. Threads read views while another thread writes, each
 * thread through its own handle. A view copies no run, but keeps the memory of its runs until it is closed. A snapshot is the
 * alternative: it is read through its store only, and costs no such memory. Each compaction keeps the values that it reads, until
 * it is released.
 *
 * A checkpoint writes the rows of a view as a log, piece by piece:
 *
 *     struct ucstore_checkpoint checkpoint = {0};
 *
 * A program shortens its log with it: it writes the pieces to a new file in order, and then the batches written after the view was taken.
 *
 * A run of a view is written to a file once, since no run changes, and read back into an empty store:
 *
 *     struct ucstore_run run = {0};
 *     struct ucstore_run_file file = {0};
 *
 * A job is a flush or a compaction that runs outside its store:
 *
 *     struct ucstore_job job = {0};
 *
 * `ucstore_job` takes it out of the store, `ucstore_job_run` makes the new run, and `ucstore_job_end` installs that in the store. The
 * first and the last are short calls on the store. In between any thread runs the job, while the store is written and read. The
 * store does not compact the runs of a job until the job ends. Several jobs may be out, at most one of them a flush, and end in any
 * order, each on the store it was taken from; another store rejects it. A job that has ended keeps its memory until
 * `ucstore_job_close`, which any thread may call.
 *
 * A store is in memory only. To make it durable, write each batch in this order, and open the store from the bytes of the log next time:
 * 1. `ucstore_prepare` validates the batch, allocates all memory for it, and returns its log record. If it fails, leave the log unchanged.
 * 2. Append the record to the log, and sync the file. If that fails, truncate the file to the start of the record, and call
 *    `ucstore_give_up`.
 * 3. `ucstore_commit` makes the batch visible. It cannot fail.
 * Reads, views and jobs are allowed between 1 and 3. A write, a flush or a snapshot discards the prepared batch, and then the file must
 * be truncated too. Batches written by other functions are not in such a log.
 *
 * Requirements on the caller:
 * - The contents of a handle, batch, view, checkpoint, run or job must not be copied, changed or freed except by these functions. Each
 *   may be stored anywhere and moved between calls, and must be closed before its memory is reused.
 * - A handle takes one call at a time, reads included, and so do a batch, a view, a checkpoint, a run and a job. Two threads may use two
 *   of them at the same time, and each may move between threads.
 * - Each pointer must lead to as much memory as its type or its length says. If a length is 0, its pointer is not read and may be
 *   null. No other pointer may be null. Memory that a function writes to must not overlap its other arguments.
 * - Memory that a function writes to must be initialized: `bool compacted = false;`.
 * - malloc, realloc and free must be those of one allocator, whose blocks are aligned for any type and may be freed by any thread. No
 *   function may be called from a signal handler, or in a forked child of a process with threads.
 */
#ifndef UCSTORE_H
#define UCSTORE_H

#include <stdbool.h>
#include <stddef.h>
#include <stdint.h>

#ifdef __cplusplus
extern "C" {
#endif

/* The version of the library, and the version of its binary interface. */
#define UCSTORE_VERSION "0.2.0"
#define UCSTORE_ABI 2

/* A handle to a store. All zeros: no store. */
struct ucstore {
    void *at;
};

/* A batch. All zeros: no operations. */
struct ucstore_batch {
    void *at;
};

/* The reads of a transaction. All zeros: no reads. */
struct ucstore_reads {
    void *at;
};

/* A handle to a view. All zeros: no view. */
struct ucstore_view {
    void *at;
};

/* A handle to a checkpoint. All zeros: no checkpoint. */
struct ucstore_checkpoint {
    void *at;
};

/* The bytes of a run's file. All zeros: no run. */
struct ucstore_run {
    void *at;
};

/* The file of a run that is read. All zeros: no file. */
struct ucstore_run_file {
    void *at;
};

/* A handle to a job. All zeros: no job. */
struct ucstore_job {
    void *at;
};

/* Results of functions. */
enum ucstore_status {
    UCSTORE_OK = 0,                /* Success. */
    UCSTORE_OUT_OF_MEMORY = 1,     /* Out of memory. */
    UCSTORE_NO_STORE = 2,          /* Store is not open. */
    UCSTORE_HAS_STORE = 3,         /* Store is already open. */
    UCSTORE_NOT_FOUND = 4,         /* Key not found. */
    UCSTORE_NOT_PROTECTED = 5,     /* No snapshot at this sequence number. */
    UCSTORE_UNKNOWN_OPERATOR = 6,  /* Unknown merge operator. */
    UCSTORE_BAD_OPTION = 7,        /* Option out of range. */
    UCSTORE_BAD_SIZE = 8,          /* Unsupported struct size. */
    UCSTORE_IDS_SPENT = 9,         /* Run IDs exhausted: the greatest is 2^64 - 2. */
    UCSTORE_SEQUENCES_SPENT = 10,  /* Sequence numbers exhausted: the greatest is 2^56 - 1. */
    UCSTORE_TOO_LONG = 11,         /* Key or value too long: it has 2^32 bytes or more. */
    UCSTORE_NOT_A_BATCH = 12,      /* Malformed write batch. */
    UCSTORE_BAD_PLACE = 13,        /* Invalid log position. */
    UCSTORE_ROOM = 14,             /* Buffer too small. */
    UCSTORE_LOG_ENDS = 15,         /* No more batches in the log. */
    UCSTORE_SEQUENCE_BACK = 16,    /* Sequence number not above the last one. */
    UCSTORE_BAD_KEYS = 17,         /* Key lengths do not match the keys: their sum differs, or the output has another count. */
    UCSTORE_BATCH_FULL = 18,       /* Batch full: it has 2^32 - 1 operations. */
    UCSTORE_NO_VIEW = 19,          /* View is not open. */
    UCSTORE_HAS_VIEW = 20,         /* View is already open. */
    UCSTORE_NO_JOB = 21,           /* Job is not open. */
    UCSTORE_HAS_JOB = 22,          /* Job is already open. */
    UCSTORE_NOT_OF_STORE = 23,     /* Job of another store. */
    UCSTORE_RUNS_CLAIMED = 24,     /* Run limit reached: jobs hold the runs that would be compacted. End one. */
    UCSTORE_JOB_ENDED = 25,        /* Job already ended. */
    UCSTORE_NO_CHECKPOINT = 26,    /* Checkpoint is not open. */
    UCSTORE_HAS_CHECKPOINT = 27,   /* Checkpoint is already open. */
    UCSTORE_SEQUENCE_GAP = 28,     /* Gap in sequence numbers: the next batch of the log does not follow the last write. */
    UCSTORE_LOG_MISSING = 29,      /* Log missing: the folder lists later logs, and not this one. */
    UCSTORE_NO_FOLDER = 30,        /* Folder is not open: its state was not set, or was changed. */
    UCSTORE_BAD_OPERAND = 31,      /* Malformed operand. */
    UCSTORE_READ_CHANGED = 32,     /* Read has changed: a key of the transaction has another value now. */
    UCSTORE_RUN_DAMAGED = 33,      /* Corrupted run file. */
    UCSTORE_BAD_RUN = 34           /* Invalid run: it is not open, or the view has none there, or the store cannot take it. */
};

/* Merge operators. An operator combines a key's operands and its value. */
enum ucstore_operator {
    UCSTORE_APPEND = 0,   /* Byte strings joined by commas. */
    UCSTORE_COUNTER = 1,  /* Sum of 64-bit numbers, 8 bytes each, little-endian. */
    UCSTORE_MAXIMUM = 2,  /* The greater byte string. */
    UCSTORE_TAIL = 3,     /* The last four bytes of the byte strings joined. */
    UCSTORE_MIXED = 4     /* The operators that each operand names: `ucstore_operand` makes operands. */
};

/* Operators that an operand of UCSTORE_MIXED names. A number has 8 bytes, little-endian; any other value counts as 0. "Byte by byte" fills
 * the shorter byte string with zeros. */
enum ucstore_part {
    UCSTORE_ADD = 1,            /* Adds a number. Sums wrap at 2^64. */
    UCSTORE_MAX_BYTES = 2,      /* Keeps the greater byte string. */
    UCSTORE_MIN_BYTES = 3,      /* Keeps the lesser byte string. */
    UCSTORE_SET = 4,            /* Replaces the value, as a put does. */
    UCSTORE_APPEND_BYTES = 5,   /* Appends the delimiter, which is the parameter, and then the payload. */
    UCSTORE_OR = 6,             /* Byte by byte, the bits of either. */
    UCSTORE_AND = 7,            /* Byte by byte, the bits of both. */
    UCSTORE_XOR = 8,            /* Byte by byte, the bits of one of both. */
    UCSTORE_MAX_REGISTERS = 9,  /* Byte by byte, the greater byte. */
    UCSTORE_TAIL_BYTES = 10,    /* Appends the payload, and keeps the last bytes, at most as many as the parameter, below 2^16. */
    UCSTORE_MAX_U64 = 11,       /* Keeps the greater number. */
    UCSTORE_MIN_U64 = 12,       /* Keeps the lesser number. */
    UCSTORE_ADD_U64 = 13,       /* Adds a number without a sign. A sum is at most 2^64 - 1. */
    UCSTORE_SET_UNION = 14      /* Adds members to a set, in ascending order, each 2 bytes of its length, little-endian, and its bytes. */
};

/* Part of the store that answers a lookup. */
enum ucstore_source {
    UCSTORE_MEMTABLE = 0, /* The memtables: they hold a put or a deletion of the key, or a range deletion over it. */
    UCSTORE_FILTERS = 1,  /* The filters: the memtables do not answer, and no run has a write of the key. */
    UCSTORE_RUNS = 2      /* The runs: the memtables do not answer, and a run has a write of the key. */
};

/* Returns the message of a status. */
static inline const char *ucstore_status_text(int32_t status) {
    static const char *const texts[] = {
        "success",
        "out of memory",
        "store is not open",
        "store is already open",
        "key not found",
        "no snapshot at this sequence number",
        "unknown merge operator",
        "option out of range",
        "unsupported struct size",
        "run IDs exhausted",
        "sequence numbers exhausted",
        "key or value too long",
        "malformed write batch",
        "invalid log position",
        "buffer too small",
        "no more batches in the log",
        "sequence number not above the last one",
        "key lengths do not match the keys",
        "batch full",
        "view is not open",
        "view is already open",
        "job is not open",
        "job is already open",
        "job of another store",
        "run limit reached",
        "job already ended",
        "checkpoint is not open",
        "checkpoint is already open",
        "gap in sequence numbers",
        "log missing",
        "folder is not open",
        "malformed operand",
        "read has changed",
        "corrupted run file",
        "invalid run",
    };
    return status >= 0 && (size_t)status < sizeof texts / sizeof texts[0] ? texts[status] : "unknown status";
}

/* Options of a store, with RocksDB's names (RocksDB wiki, "Universal Compaction"). `ucstore_options_init` sets the defaults. Fields are
 * added only with another UCSTORE_ABI, and then the shared library has another name. */
struct ucstore_options {
    size_t size;                              /* sizeof(struct ucstore_options). */
    uint64_t write_buffer_size;               /* Size in bytes at which the memtable is full, at least 1. */
    uint32_t compaction_trigger;              /* Number of runs at which compaction starts, at least 1. */
    uint32_t stop_trigger;                    /* Number of runs at which a write that flushes compacts first, `compaction_trigger` to 255.
                                               * Ending a flush job never compacts. */
    uint32_t size_ratio;                      /* Percentage by which a run may exceed the newer ones that are compacted with it. */
    uint32_t max_size_amplification_percent;  /* Size of the newer runs, in percent of the oldest, above which all are compacted. */
    uint32_t min_merge_width;                 /* Minimum number of runs compacted by size ratio, at least 2. */
    uint32_t max_merge_width;                 /* Maximum number of runs in a compaction, at least `min_merge_width`. */
    uint32_t compacts_itself;                 /* Nonzero to compact after each flush, 0 to compact only at `stop_trigger` runs. */
    uint32_t max_write_buffer_number;         /* Maximum number of memtables, at least 1. With 1, a write that finds the memtable full
                                               * flushes it. With more, a job does, and a write only when all are full. */
};

/* Ways in which reading a log ends. */
enum ucstore_end {
    UCSTORE_CLEAN = 0,       /* At the end of the log. */
    UCSTORE_TORN = 1,        /* At an incomplete record or payload, at the offset `place`: it was being written at a crash. */
    UCSTORE_LOG_FAULT = 2,   /* At a fault, at the offset `place`. */
    UCSTORE_BATCH_FAULT = 3  /* At a payload that is not a valid next batch: number `place`, from 1. */
};

/* Where and why reading a log ended. `fault` with UCSTORE_LOG_FAULT: 1 length past the end of the block, 2 checksum mismatch, 3 unknown
 * record type, 4 MIDDLE and 5 LAST without a FIRST, 6 FULL and 7 FIRST before a LAST. `fault` with UCSTORE_BATCH_FAULT: 1 fewer bytes
 * than a header, 2 sequence number not above the last, 3 sequence number of 2^56 or more, 4 unknown tag, 5 truncated record, 6 number
 * above 32 bits, 7 another column family, 8 wrong count. Otherwise `fault` is 0. */
struct ucstore_ended {
    uint32_t kind;
    uint32_t fault;
    uint64_t place;
};

/* Statistics of a store. Points, fragments and bytes are sums over the runs, and stop at 2^64 - 1. Fields are added only with another
 * UCSTORE_ABI. */
struct ucstore_report {
    size_t size;         /* sizeof(struct ucstore_report), set by the caller. */
    uint64_t runs;
    uint64_t snapshots;  /* Number of sequence numbers that snapshots protect. */
    uint64_t points;     /* Writes of a single key. */
    uint64_t fragments;  /* Disjoint key ranges covered by range deletions. */
    uint64_t bytes;      /* Bytes of both, with 8 bytes for each sequence number. */
    uint64_t gathered;   /* Writes in the memtables. */
    uint64_t last;       /* Sequence number of the last write; 0 if there is none. */
};

/* A position in a log, between two batches. All zeros: the start of the log. */
struct ucstore_log_place {
    uint64_t offset;   /* Number of bytes before it. */
    uint64_t last;     /* Last sequence number before it; 0 if there is none. */
    uint64_t batches;  /* Number of batches before it. */
};

/* A base that the folder of a database lists. */
struct ucstore_folder_base {
    uint64_t number;   /* Its number. */
    uint64_t past;     /* Number of batches that it has of the log of that number. */
};

/* A log that the folder of a database lists. */
struct ucstore_folder_listed {
    uint64_t number;   /* Its number. */
    bool is_used;      /* True if a whole batch is at its start. */
};

/* The files to read when the folder of a database is opened. */
struct ucstore_folder_found {
    uint64_t base;     /* Number of the newest base; 1 if there is none. */
    uint64_t past;     /* Number of batches that it has of the log of that number; 0 if there is none. */
    uint64_t least;    /* Least number of a log or a base. Those below `base` may be removed. */
    uint64_t log;      /* Number of the log that goes on: the last one that is used, and not below `base`. */
    uint64_t top;      /* Greatest number of a log, not below `log`. Those above `log` may be removed. */
    bool is_there;     /* True if the log that goes on is listed. Only the first log may be missing, and then no batch is there. */
};

/* The machine of a folder. `ucstore_folder_open` sets it, and only the functions of folders change it. */
struct ucstore_folder_state {
    uint64_t log;           /* Number of the log that is written. */
    uint64_t count;         /* Number of batches that it has. */
    uint64_t synced;        /* Number of these that may be acknowledged as synced. */
    uint64_t base;          /* Number of the newest base whose name is durable. */
    uint64_t least;         /* No log or base has a lower number. */
    uint64_t tried;         /* Number of the newest base that may have its name. */
    uint64_t past;          /* Number of batches that it has of the log of that number. */
    uint64_t at;            /* The fields from here on are the phases. */
    uint64_t top;
    uint64_t number;
    uint64_t part;
    uint32_t writer;
    uint32_t next;
    uint32_t checkpointer;
    bool is_sealed;
};

/* A file operation. */
struct ucstore_folder_step {
    uint64_t number;        /* Number of the log or base; 0 if it has none. */
    uint64_t count;         /* Number of batches; 0 if it has none. */
    uint32_t kind;          /* One of `enum ucstore_folder_kind`. */
};

/* File operations. N is `number`, C is `count`. */
enum ucstore_folder_kind {
    UCSTORE_FOLDER_NOTHING = 0,      /* There is nothing to do. */
    UCSTORE_FOLDER_CREATE_LOG = 1,   /* Create log N, without bytes. */
    UCSTORE_FOLDER_APPEND = 2,       /* Append the batch to log N, with a mark: C of its batches are durable. */
    UCSTORE_FOLDER_SYNC_LOG = 3,     /* Sync log N. C batches were there when this was asked for. */
    UCSTORE_FOLDER_CUT_LOG = 4,      /* Truncate log N after C batches, and sync it. */
    UCSTORE_FOLDER_SYNC_NAMES = 5,   /* Sync the directory. */
    UCSTORE_FOLDER_SET_ASIDE = 6,    /* Keep the bytes after the batches of log N in a file that nothing reads. */
    UCSTORE_FOLDER_COPY_LOG = 7,     /* Write the first C batches of log N to a new file with a temporary name. */
    UCSTORE_FOLDER_SYNC_COPY = 8,    /* Sync that file. */
    UCSTORE_FOLDER_NAME_COPY = 9,    /* Rename it to log N. */
    UCSTORE_FOLDER_WRITE_BASE = 10,  /* Write the rows of the logs before N, and of C batches of log N, to a new file. */
    UCSTORE_FOLDER_SYNC_BASE = 11,   /* Sync that file. */
    UCSTORE_FOLDER_NAME_BASE = 12,   /* Rename it to such a base. */
    UCSTORE_FOLDER_REMOVE_LOG = 13,  /* Remove log N, if it is there. */
    UCSTORE_FOLDER_REMOVE_BASE = 14  /* Remove the bases of number N, if there are any. */
};

/* The machine of a folder whose checkpoints are lists of run files, beside its `struct ucstore_folder_state`.
 * `ucstore_run_folder_open` sets it, and only the functions of these folders change it. */
struct ucstore_run_folder_state {
    uint64_t next;          /* Number of the next run. */
    uint64_t number;        /* The fields from here on are the phase. */
    uint64_t past;
    uint64_t run;
    uint64_t last;
    uint32_t phase;
    bool is_read;           /* True if the newest list was read back with its runs. */
};

/* File operations on runs, after those of `enum ucstore_folder_kind`. N is `number`. */
enum ucstore_run_folder_kind {
    UCSTORE_RUN_FOLDER_WRITE_RUN = 15,  /* Write run N to a new file. */
    UCSTORE_RUN_FOLDER_SYNC_RUN = 16,   /* Sync that file. */
    UCSTORE_RUN_FOLDER_READ_BACK = 17,  /* Read the newest list and its runs, and compare their checksums. */
    UCSTORE_RUN_FOLDER_REMOVE_RUN = 18  /* Remove run N, if it is there. */
};

/* Returns UCSTORE_ABI of the linked library. It changes when a function or a status changes its meaning, or a struct its size. A shared
 * library with another number has another name. */
uint32_t ucstore_version(void);

/* Sets the defaults and the size: `write_buffer_size` 4 MiB, `compaction_trigger` 4, `stop_trigger` 36, `size_ratio` 1,
 * `max_size_amplification_percent` 200, `min_merge_width` 2, no limit for `max_merge_width`, `compacts_itself` 1,
 * `max_write_buffer_number` 1. Returns UCSTORE_OK. */
int32_t ucstore_options_init(struct ucstore_options *options);

/* Creates an empty store in a handle.
 * UCSTORE_HAS_STORE, UCSTORE_BAD_SIZE, UCSTORE_UNKNOWN_OPERATOR, UCSTORE_BAD_OPTION, UCSTORE_OUT_OF_MEMORY. */
int32_t ucstore_create(struct ucstore *store, uint32_t merge_operator, const struct ucstore_options *options);

/* Opens a store from the bytes of a write-ahead log. The store gets all writes before the first fault of the log, and no snapshots;
 * `ended` says whether and where there was a fault. Before appending to the log, truncate it where a walk by `ucstore_log_next` ends.
 * UCSTORE_HAS_STORE, UCSTORE_BAD_SIZE, UCSTORE_UNKNOWN_OPERATOR, UCSTORE_BAD_OPTION, UCSTORE_IDS_SPENT,
 * UCSTORE_OUT_OF_MEMORY. */
int32_t ucstore_open(struct ucstore *store, uint32_t merge_operator, const struct ucstore_options *options,
                     const uint8_t *log, size_t log_length, struct ucstore_ended *ended);

/* Frees a store. Its handle can then be used for another one.
 * UCSTORE_NO_STORE. */
int32_t ucstore_close(struct ucstore *store);

/* Adds a put to a batch. On failure the batch is unchanged.
 * UCSTORE_TOO_LONG, UCSTORE_BATCH_FULL, UCSTORE_OUT_OF_MEMORY. */
int32_t ucstore_batch_put(struct ucstore_batch *batch, const uint8_t *key, size_t key_length, const uint8_t *value,
                          size_t value_length);

/* Adds a merge to a batch. Otherwise like `ucstore_batch_put`. */
int32_t ucstore_batch_merge(struct ucstore_batch *batch, const uint8_t *key, size_t key_length, const uint8_t *operand,
                            size_t operand_length);

/* Adds a deletion to a batch. Otherwise like `ucstore_batch_put`. */
int32_t ucstore_batch_delete(struct ucstore_batch *batch, const uint8_t *key, size_t key_length);

/* Adds a deletion of all keys from `begin` (inclusive) to `end` (exclusive) to a batch; the range may be empty. Otherwise like
 * `ucstore_batch_put`. */
int32_t ucstore_batch_delete_range(struct ucstore_batch *batch, const uint8_t *begin, size_t begin_length, const uint8_t *end,
                                   size_t end_length);

/* Removes all operations from a batch, and keeps its memory for new ones. Returns UCSTORE_OK. */
int32_t ucstore_batch_clear(struct ucstore_batch *batch);

/* Stores the number of operations in `count`. Returns UCSTORE_OK. */
int32_t ucstore_batch_count(struct ucstore_batch *batch, uint64_t *count);

/* Copies up to `room_length` bytes of the batch to `room`, in RocksDB's format with the sequence number 0, and stores the number of all
 * its bytes in `size`. Returns UCSTORE_OK. */
int32_t ucstore_batch_bytes(struct ucstore_batch *batch, uint8_t *room, size_t room_length, size_t *size);

/* Frees a batch. It is all zeros then, and can be used again. Returns UCSTORE_OK. */
int32_t ucstore_batch_close(struct ucstore_batch *batch);

/* Writes the operations of a batch atomically, with the sequence numbers after the last one. The batch is not changed.
 * UCSTORE_NO_STORE, UCSTORE_SEQUENCES_SPENT, UCSTORE_IDS_SPENT, UCSTORE_RUNS_CLAIMED, UCSTORE_OUT_OF_MEMORY. */
int32_t ucstore_write(struct ucstore *store, struct ucstore_batch *batch);

/* Writes a batch in RocksDB's format: 8 bytes of sequence number, 4 bytes of count, and that number of records. The operations get the
 * sequence number of the batch and those that follow it, or, if it is 0, the ones after the last write. UCSTORE_SEQUENCES_SPENT is
 * returned also if the batch's own sequence number is above 2^56 - 1.
 * UCSTORE_NO_STORE, UCSTORE_NOT_A_BATCH, UCSTORE_SEQUENCE_BACK, UCSTORE_SEQUENCES_SPENT, UCSTORE_IDS_SPENT,
 * UCSTORE_RUNS_CLAIMED, UCSTORE_OUT_OF_MEMORY. */
int32_t ucstore_write_bytes(struct ucstore *store, const uint8_t *batch, size_t batch_length);

/* Sets a key to a value.
 * UCSTORE_NO_STORE, UCSTORE_TOO_LONG, UCSTORE_SEQUENCES_SPENT, UCSTORE_IDS_SPENT, UCSTORE_RUNS_CLAIMED,
 * UCSTORE_OUT_OF_MEMORY. */
int32_t ucstore_put(struct ucstore *store, const uint8_t *key, size_t key_length, const uint8_t *value, size_t value_length);

/* Deletes a key. It is no error if the key has no value. Otherwise like `ucstore_put`. */
int32_t ucstore_delete(struct ucstore *store, const uint8_t *key, size_t key_length);

/* Merges an operand into a key's value, without reading it. Otherwise like `ucstore_put`. */
int32_t ucstore_merge(struct ucstore *store, const uint8_t *key, size_t key_length, const uint8_t *operand,
                      size_t operand_length);

/* Deletes all keys from `begin` (inclusive) to `end` (exclusive). The range may be empty. Otherwise like `ucstore_put`. */
int32_t ucstore_delete_range(struct ucstore *store, const uint8_t *begin, size_t begin_length, const uint8_t *end,
                             size_t end_length);

/* Prepares a batch for `ucstore_commit`. No read sees it before that. Copies the bytes to append to a log of `log_length` bytes to `room`,
 * and stores their number in `size`: zero bytes up to the next block if a header does not fit the current one, and the records of the
 * batch with its sequence number. A batch prepared earlier is discarded. The head of this file says how to use the record. The batch is
 * not changed.
 *
 * UCSTORE_ROOM: the record does not fit. Nothing is prepared or copied, and `size` gets the length that is needed. The other statuses are
 * those of `ucstore_write`. */
int32_t ucstore_prepare(struct ucstore *store, struct ucstore_batch *batch, uint64_t log_length, uint8_t *room,
                        size_t room_length, size_t *size);

/* Prepares a batch in RocksDB's format, as `ucstore_prepare` does.
 * UCSTORE_ROOM, and those of `ucstore_write_bytes`. */
int32_t ucstore_prepare_bytes(struct ucstore *store, const uint8_t *batch, size_t batch_length, uint64_t log_length,
                              uint8_t *room, size_t room_length, size_t *size);

/* Prepares a batch in RocksDB's format, as `ucstore_prepare_bytes` does, with a mark (see `ucstore_log_mark`): `unsynced` bytes of the log
 * before the batch's record are not durable for certain.
 * UCSTORE_ROOM, UCSTORE_BAD_PLACE (`unsynced` is 2^63 or more), and those of `ucstore_write_bytes`. */
int32_t ucstore_prepare_marked(struct ucstore *store, const uint8_t *batch, size_t batch_length, uint64_t unsynced,
                               uint64_t log_length, uint8_t *room, size_t room_length, size_t *size);

/* Adds the read of a key, found or not, to the reads of a transaction. On failure they are unchanged.
 * UCSTORE_OUT_OF_MEMORY. */
int32_t ucstore_reads_key(struct ucstore_reads *reads, const uint8_t *key, size_t key_length);

/* Adds the scan of the keys from `low` to below `high`, or to the last key if `bounded` is false. A scan that stopped early has read the
 * keys up to its last row: `high` is then that row's key with a zero byte after it. Otherwise like `ucstore_reads_key`. */
int32_t ucstore_reads_range(struct ucstore_reads *reads, const uint8_t *low, size_t low_length, const uint8_t *high,
                            size_t high_length, bool bounded);

/* Removes all reads, and keeps the memory of their list for new ones. Returns UCSTORE_OK. */
int32_t ucstore_reads_clear(struct ucstore_reads *reads);

/* Stores the number of reads in `count`. Returns UCSTORE_OK. */
int32_t ucstore_reads_count(struct ucstore_reads *reads, size_t *count);

/* Frees the reads. They are all zeros then, and can be used again. Returns UCSTORE_OK. */
int32_t ucstore_reads_close(struct ucstore_reads *reads);

/* Prepares a batch in RocksDB's format, as `ucstore_prepare_bytes` does, if each key that was read has the value that it has in `view`.
 * So a transaction that reads in a view, and commits by this, is serial: it reads as right before its own writes. The view must be one
 * of this store. The view and the reads are not changed.
 * UCSTORE_READ_CHANGED: nothing happens, and `changed` gets the place of the first read that has changed, counted from 0.
 * UCSTORE_NO_VIEW, and those of `ucstore_prepare_bytes`. */
int32_t ucstore_prepare_if(struct ucstore *store, struct ucstore_view *view, struct ucstore_reads *reads, const uint8_t *batch,
                           size_t batch_length, uint64_t log_length, uint8_t *room, size_t room_length, size_t *size,
                           size_t *changed);

/* Judges the reads alone, as `ucstore_prepare_if` does.
 * UCSTORE_READ_CHANGED: `changed` gets the place of the first read that has changed.
 * UCSTORE_NO_STORE, UCSTORE_NO_VIEW, UCSTORE_OUT_OF_MEMORY. */
int32_t ucstore_first_changed(struct ucstore *store, struct ucstore_view *view, struct ucstore_reads *reads, size_t *changed);

/* Makes the prepared batch visible. Does nothing if there is none. Allocates no memory.
 * UCSTORE_NO_STORE. */
int32_t ucstore_commit(struct ucstore *store);

/* Makes the prepared batch visible, as `ucstore_commit` does, and stores statistics, as `ucstore_report` does.
 * UCSTORE_NO_STORE, UCSTORE_BAD_SIZE (the batch stays prepared). */
int32_t ucstore_commit_report(struct ucstore *store, struct ucstore_report *report);

/* Discards the prepared batch, if there is one.
 * UCSTORE_NO_STORE. */
int32_t ucstore_give_up(struct ucstore *store);

/* Flushes the memtables.
 * UCSTORE_NO_STORE, UCSTORE_IDS_SPENT, UCSTORE_RUNS_CLAIMED, UCSTORE_OUT_OF_MEMORY. */
int32_t ucstore_flush(struct ucstore *store);

/* Flushes the memtables, takes a snapshot at the last sequence number, and stores that in `seq`. A snapshot taken twice must be
 * released twice.
 * UCSTORE_NO_STORE, UCSTORE_IDS_SPENT, UCSTORE_RUNS_CLAIMED, UCSTORE_OUT_OF_MEMORY. */
int32_t ucstore_snapshot(struct ucstore *store, uint64_t *seq);

/* Releases a snapshot.
 * UCSTORE_NO_STORE, UCSTORE_NOT_PROTECTED. */
int32_t ucstore_release(struct ucstore *store, uint64_t seq);

/* Copies up to `room_length` sequence numbers of snapshots to `room`, in ascending order and each once, and stores the number of all of
 * them in `count`.
 * UCSTORE_NO_STORE. */
int32_t ucstore_snapshots(struct ucstore *store, uint64_t *room, size_t room_length, size_t *count);

/* Stores the last sequence number in `seq`: 0 if nothing was written.
 * UCSTORE_NO_STORE. */
int32_t ucstore_last(struct ucstore *store, uint64_t *seq);

/* Looks up a key at the last sequence number. Copies up to `room_length` bytes of its value to `room`, and stores the length of the value
 * in `size`.
 * UCSTORE_NO_STORE, UCSTORE_NOT_FOUND, UCSTORE_OUT_OF_MEMORY. */
int32_t ucstore_get(struct ucstore *store, const uint8_t *key, size_t key_length, uint8_t *room, size_t room_length,
                    size_t *size);

/* Stores the part of the store that answers a lookup of a key at the last sequence number, one of enum ucstore_source. It costs at most
 * a lookup.
 * UCSTORE_NO_STORE, UCSTORE_OUT_OF_MEMORY. */
int32_t ucstore_source(struct ucstore *store, const uint8_t *key, size_t key_length, uint32_t *source);

/* Looks up a key at a snapshot, as `ucstore_get` does.
 * UCSTORE_NO_STORE, UCSTORE_NOT_PROTECTED, UCSTORE_NOT_FOUND, UCSTORE_OUT_OF_MEMORY. */
int32_t ucstore_get_at(struct ucstore *store, const uint8_t *key, size_t key_length, uint64_t at, uint8_t *room,
                       size_t room_length, size_t *size);

/* Looks up `count` keys at the last sequence number. `keys` holds the keys one after the other, in any order. For each key in turn, the
 * length of its value is stored in `value_lengths`, or UINT64_MAX if it has none. The values found are copied to `room` one after the
 * other, up to `room_length` bytes, and `size` gets their total length. `value_count` must be `count`.
 * UCSTORE_NO_STORE, UCSTORE_BAD_KEYS, UCSTORE_OUT_OF_MEMORY. */
int32_t ucstore_get_many(struct ucstore *store, const uint8_t *keys, size_t keys_length, const uint64_t *key_lengths,
                         size_t count, uint64_t *value_lengths, size_t value_count, uint8_t *room, size_t room_length,
                         size_t *size);

/* Scans the keys from `low` to below `high`, or to the last key if `bounded` is false, at the last sequence number. Finds the first
 * `limit` rows, and copies those that fit to `room`: each as 8 bytes of key length, little-endian, the key, 8 bytes of value length, and
 * the value. `rows` gets the number of rows copied, and `size` the length of all rows found: if it is above `room_length`, some were
 * not copied. To read page by page, set a limit, and start the next page after the last key.
 * UCSTORE_NO_STORE, UCSTORE_OUT_OF_MEMORY. */
int32_t ucstore_scan(struct ucstore *store, const uint8_t *low, size_t low_length, const uint8_t *high, size_t high_length,
                     bool bounded, uint64_t limit, uint8_t *room, size_t room_length, size_t *size, uint64_t *rows);

/* Scans at a snapshot, as `ucstore_scan` does.
 * UCSTORE_NO_STORE, UCSTORE_NOT_PROTECTED, UCSTORE_OUT_OF_MEMORY. */
int32_t ucstore_scan_at(struct ucstore *store, const uint8_t *low, size_t low_length, const uint8_t *high, size_t high_length,
                        bool bounded, uint64_t at, uint64_t limit, uint8_t *room, size_t room_length, size_t *size,
                        uint64_t *rows);

/* Takes a view of a store as it is now. A prepared batch is not in it, and stays prepared.
 * UCSTORE_HAS_VIEW, UCSTORE_NO_STORE, UCSTORE_OUT_OF_MEMORY. */
int32_t ucstore_view(struct ucstore *store, struct ucstore_view *view);

/* Creates another handle to a view, for another thread. Copies no data. Close both handles.
 * UCSTORE_HAS_VIEW, UCSTORE_NO_VIEW, UCSTORE_OUT_OF_MEMORY. */
int32_t ucstore_view_again(struct ucstore_view *view, struct ucstore_view *again);

/* Looks up a key in a view, as `ucstore_get` does in a store.
 * UCSTORE_NO_VIEW, UCSTORE_NOT_FOUND, UCSTORE_OUT_OF_MEMORY. */
int32_t ucstore_view_get(struct ucstore_view *view, const uint8_t *key, size_t key_length, uint8_t *room, size_t room_length,
                         size_t *size);

/* Stores the part of a view that answers a lookup, as `ucstore_source` does for a store.
 * UCSTORE_NO_VIEW, UCSTORE_OUT_OF_MEMORY. */
int32_t ucstore_view_source(struct ucstore_view *view, const uint8_t *key, size_t key_length, uint32_t *source);

/* Looks up a key in a view, at a snapshot that the store had when the view was taken, as `ucstore_get_at` does.
 * UCSTORE_NO_VIEW, UCSTORE_NOT_PROTECTED, UCSTORE_NOT_FOUND, UCSTORE_OUT_OF_MEMORY. */
int32_t ucstore_view_get_at(struct ucstore_view *view, const uint8_t *key, size_t key_length, uint64_t at, uint8_t *room,
                            size_t room_length, size_t *size);

/* Looks up `count` keys in a view, as `ucstore_get_many` does in a store.
 * UCSTORE_NO_VIEW, UCSTORE_BAD_KEYS, UCSTORE_OUT_OF_MEMORY. */
int32_t ucstore_view_get_many(struct ucstore_view *view, const uint8_t *keys, size_t keys_length, const uint64_t *key_lengths,
                              size_t count, uint64_t *value_lengths, size_t value_count, uint8_t *room, size_t room_length,
                              size_t *size);

/* Scans a view, as `ucstore_scan` does a store. The first scan through a handle sorts the memtables, also for the handles that
 * `ucstore_view_again` creates from it later. Rows are copied to `room` as they are found.
 * UCSTORE_NO_VIEW, UCSTORE_OUT_OF_MEMORY (the contents of `room` are unspecified). */
int32_t ucstore_view_scan(struct ucstore_view *view, const uint8_t *low, size_t low_length, const uint8_t *high,
                          size_t high_length, bool bounded, uint64_t limit, uint8_t *room, size_t room_length, size_t *size,
                          uint64_t *rows);

/* Scans a view in the reverse of the keys' byte order: the last rows of the range, the greatest key first. Otherwise like
 * `ucstore_view_scan`.
 * UCSTORE_NO_VIEW, UCSTORE_OUT_OF_MEMORY. */
int32_t ucstore_view_scan_back(struct ucstore_view *view, const uint8_t *low, size_t low_length, const uint8_t *high,
                               size_t high_length, bool bounded, uint64_t limit, uint8_t *room, size_t room_length,
                               size_t *size, uint64_t *rows);

/* Scans a view, at a snapshot that the store had when the view was taken, as `ucstore_view_scan` does.
 * UCSTORE_NO_VIEW, UCSTORE_NOT_PROTECTED, UCSTORE_OUT_OF_MEMORY. */
int32_t ucstore_view_scan_at(struct ucstore_view *view, const uint8_t *low, size_t low_length, const uint8_t *high,
                             size_t high_length, bool bounded, uint64_t at, uint64_t limit, uint8_t *room,
                             size_t room_length, size_t *size, uint64_t *rows);

/* Stores the last sequence number of a view in `seq`: 0 if nothing was written.
 * UCSTORE_NO_VIEW. */
int32_t ucstore_view_last(struct ucstore_view *view, uint64_t *seq);

/* Stores the statistics of a view, as `ucstore_report` does for a store.
 * UCSTORE_NO_VIEW, UCSTORE_BAD_SIZE. */
int32_t ucstore_view_report(struct ucstore_view *view, struct ucstore_report *report);

/* Frees a view handle. Other handles to the view stay valid.
 * UCSTORE_NO_VIEW. */
int32_t ucstore_view_close(struct ucstore_view *view);

/* Starts a checkpoint of a view. The view stays open; close both. The memtables of the view are sorted, once.
 * UCSTORE_HAS_CHECKPOINT, UCSTORE_NO_VIEW, UCSTORE_OUT_OF_MEMORY. */
int32_t ucstore_checkpoint(struct ucstore_view *view, struct ucstore_checkpoint *checkpoint);

/* Copies the next piece of a checkpoint to `room`: the bytes to append to a log of `log_length` bytes. Their number is stored in `size`.
 * A piece is a batch of `most` rows, clamped to 1 to 65,536; only the last one has fewer. `done` gets true, and `size` 0, if no row was
 * left.
 *
 * Appended in order to an empty log, the pieces read back as puts of exactly the rows that the view has at its last sequence number,
 * numbered from 1. That number of rows is at most the sequence number, so later batches can follow in the same log.
 *
 * UCSTORE_ROOM: the piece does not fit. The checkpoint does not advance, and `size` gets the length that is needed.
 * UCSTORE_NO_CHECKPOINT, UCSTORE_TOO_LONG, UCSTORE_SEQUENCES_SPENT, UCSTORE_OUT_OF_MEMORY. */
int32_t ucstore_checkpoint_next(struct ucstore_checkpoint *checkpoint, uint64_t log_length, uint64_t most, uint8_t *room,
                                size_t room_length, size_t *size, bool *done);

/* Frees a checkpoint. Its view stays open.
 * UCSTORE_NO_CHECKPOINT. */
int32_t ucstore_checkpoint_close(struct ucstore_checkpoint *checkpoint);

/* Stores the ID of the run at `place` of a view, 0 for the newest, and the least and the greatest sequence number of its writes. No other
 * run of the store gets the ID until the store is closed. `ucstore_view_report` has the number of runs.
 * UCSTORE_NO_VIEW, UCSTORE_BAD_RUN. */
int32_t ucstore_view_run(struct ucstore_view *view, size_t place, uint64_t *id, uint64_t *low, uint64_t *high);

/* Opens the file of the run at `place` of a view, 0 for the newest, as bytes to be read. Computes the checksums of the file, and copies no
 * point. Closes the run that `run` has first. The view stays open.
 * UCSTORE_NO_VIEW, UCSTORE_BAD_RUN, UCSTORE_OUT_OF_MEMORY: `run` is closed then. */
int32_t ucstore_run(struct ucstore_view *view, size_t place, struct ucstore_run *run);

/* Stores the size of the file in bytes.
 * UCSTORE_BAD_RUN. */
int32_t ucstore_run_size(struct ucstore_run *run, uint64_t *size);

/* Copies the bytes of the file from `offset` on to `room`, as many as fit, and stores their number in `count`: 0 only at the end of the
 * file, or if `room` is empty.
 * UCSTORE_BAD_RUN. */
int32_t ucstore_run_read(struct ucstore_run *run, size_t offset, uint8_t *room, size_t room_length, size_t *count);

/* Frees the bytes of a run. Its view stays open.
 * UCSTORE_BAD_RUN. */
int32_t ucstore_run_close(struct ucstore_run *run);

/* Adds the run of a file to a store. The last sequence number of the store becomes that of the run, and `id` gets the ID of the run. The
 * bytes are copied once.
 *
 * A store that was created empty reads as a view does, if all runs of that view are added to it, the oldest first. Writes in memtables are
 * in no run: `gathered` of `ucstore_view_report` has to be 0. Snapshots are in no run either. `ucstore_replay` then adds the batches of
 * a log.
 *
 * UCSTORE_RUN_DAMAGED: the bytes are not those of a run's file. `offset` gets the offset of the first piece of 64 KiB, point or fragment
 * that is not as it was written, or `file_length` if the fault is elsewhere.
 * UCSTORE_BAD_RUN: the sequence numbers of the run do not all exceed the last one of the store; or the store has writes in memtables, a
 * prepared batch, jobs, 256 runs, or no run ID left.
 * UCSTORE_NO_STORE, UCSTORE_OUT_OF_MEMORY. */
int32_t ucstore_add_run(struct ucstore *store, const uint8_t *file, size_t file_length, uint64_t *id, size_t *offset);

/* Opens the file of a run, and allocates memory for `size` bytes; it may get more or fewer. Closes the file that `file` has first. No
 * function of files but the last needs a store, so several threads can each read one.
 * UCSTORE_OUT_OF_MEMORY: `file` is closed then. */
int32_t ucstore_run_file_open(struct ucstore_run_file *file, size_t size);

/* Appends the next bytes of the file.
 * UCSTORE_BAD_RUN: the file was read already, or is not open. UCSTORE_OUT_OF_MEMORY. */
int32_t ucstore_run_file_append(struct ucstore_run_file *file, const uint8_t *piece, size_t piece_length);

/* Reads the run of the file's bytes, and stores the least and the greatest sequence number of its writes. The bytes become the run's: none is
 * copied.
 * UCSTORE_RUN_DAMAGED: as `ucstore_add_run`. `file` is closed then. UCSTORE_OUT_OF_MEMORY: the same.
 * UCSTORE_BAD_RUN: the file was read already, or is not open. */
int32_t ucstore_run_file_read(struct ucstore_run_file *file, uint64_t *low, uint64_t *high, size_t *offset);

/* Adds the run of a file that was read to a store, as `ucstore_add_run` does, and closes the file.
 * UCSTORE_BAD_RUN: as `ucstore_add_run`, and `file` is closed; or the file was not read, and stays open.
 * UCSTORE_NO_STORE: the file stays open. UCSTORE_OUT_OF_MEMORY: `file` is closed. */
int32_t ucstore_add_run_file(struct ucstore *store, struct ucstore_run_file *file, uint64_t *id);

/* Frees a file.
 * UCSTORE_BAD_RUN. */
int32_t ucstore_run_file_close(struct ucstore_run_file *file);

/* Does the next compaction that is due, and stores in `compacted` whether there was one. Optional if the store compacts automatically.
 * UCSTORE_NO_STORE, UCSTORE_IDS_SPENT, UCSTORE_OUT_OF_MEMORY. */
int32_t ucstore_compact(struct ucstore *store, bool *compacted);

/* Takes a job out of a store, and stores in `taken` whether there was one: the flush of the memtables, if
 * `max_write_buffer_number` is above 1, a memtable is full and no flush is out, or else the next compaction that is due. Until the job
 * ends the store does not compact its runs, and works otherwise.
 * UCSTORE_HAS_JOB, UCSTORE_NO_STORE, UCSTORE_OUT_OF_MEMORY. */
int32_t ucstore_job(struct ucstore *store, struct ucstore_job *job, bool *taken);

/* Runs a job in the calling thread, unless it was run already. Uses no store.
 * UCSTORE_NO_JOB, UCSTORE_JOB_ENDED, UCSTORE_OUT_OF_MEMORY. */
int32_t ucstore_job_run(struct ucstore_job *job);

/* Ends a job on the store it was taken from, and installs its run in place of its runs or memtables. `installed` gets false if it was
 * not run, or if run IDs are exhausted; its runs are then free for other compactions. For a flush it is false also if the run limit is
 * reached, if an allocation fails, or if a write, a flush or a snapshot has since flushed the memtables. In no case is a write lost or
 * the result of a read changed. The memory of the job is kept until `ucstore_job_close`. Ending a compaction allocates no memory.
 * UCSTORE_NO_JOB, UCSTORE_JOB_ENDED, UCSTORE_NO_STORE, UCSTORE_NOT_OF_STORE: nothing changes, so the job can still be ended on its own
 * store. */
int32_t ucstore_job_end(struct ucstore *store, struct ucstore_job *job, bool *installed);

/* Stores the total size of the runs that a job compacts, as `ucstore_report` counts bytes: 0 for a flush. The size of the new run is this
 * plus the change of the store's bytes when the job ends.
 * UCSTORE_NO_JOB. */
int32_t ucstore_job_input_bytes(struct ucstore_job *job, uint64_t *bytes);

/* Frees a job, with the runs and memtables that nothing else uses; this takes about 15 ms for a million writes. Uses no store. If the job
 * has not ended, its store never compacts its runs again, and flushes its memtables itself.
 * UCSTORE_NO_JOB. */
int32_t ucstore_job_close(struct ucstore_job *job);

/* Stores the statistics of a store. Takes time proportional to the number of runs.
 * UCSTORE_NO_STORE, UCSTORE_BAD_SIZE. */
int32_t ucstore_report(struct ucstore *store, struct ucstore_report *report);

/* Reads the next batch of a log at `place`, and moves `place` past it. The writes of the batch are copied to `room` one after the other:
 * each as 8 bytes of sequence number, little-endian, 1 byte of kind (0 deletion, 1 put, 2 merge, 15 range deletion), 8 bytes of length
 * and the bytes of the first argument, and the same of the second, which is empty for a deletion. `writes` gets the number of writes,
 * and `size` their length in bytes.
 *
 * UCSTORE_ROOM: the writes do not fit. `place` does not move, and `size` gets the length that is needed.
 * UCSTORE_LOG_ENDS: there is no next batch. `place` does not move, and `ended` gets the reason, as in `ucstore_open`. A log truncated at
 * `place->offset` can be appended to.
 * UCSTORE_BAD_PLACE: there are more batches than bytes before `place`, or it is past the end of the log.
 * UCSTORE_OUT_OF_MEMORY. */
int32_t ucstore_log_next(const uint8_t *log, size_t log_length, struct ucstore_log_place *place, uint8_t *room,
                         size_t room_length, size_t *size, uint64_t *writes, struct ucstore_ended *ended);

/* Writes the next batch of a log at `place` to a store, with its sequence numbers, and moves `place` past it. A walk starts with an offset
 * and a number of batches of 0, and `last` of the store. This reads a log of several files, or one that follows a checkpoint, batch by
 * batch; `ucstore_open` reads a whole log. A prepared batch is discarded.
 *
 * UCSTORE_SEQUENCE_GAP: the batch does not start right after the last sequence number, and `may_skip` is false.
 * UCSTORE_LOG_ENDS: there is no next batch, and `ended` gets the reason, as in `ucstore_log_next`.
 * UCSTORE_BAD_PLACE: there are more batches than bytes before `place`, it is past the end of the log, or its `last` is not the store's.
 * UCSTORE_NO_STORE, UCSTORE_IDS_SPENT, UCSTORE_RUNS_CLAIMED, UCSTORE_OUT_OF_MEMORY. */
int32_t ucstore_replay(struct ucstore *store, const uint8_t *log, size_t log_length, struct ucstore_log_place *place,
                       bool may_skip, struct ucstore_ended *ended);

/* Finds the first batch after a fault of a log that tells damage. The whole batches of the log end at the offset `end`, with the sequence
 * number `last`. Each batch of a database's log has a mark, which says up to where the log was durable when the batch was written. `told`
 * gets true if a later batch says so of bytes after `end`, and `place` gets its offset: a batch that was durable is damaged, which no crash
 * leaves. `log` may start at any block of the log, of 32,768 bytes; the offsets are then relative to that block.
 *
 * UCSTORE_BAD_PLACE: `end` is past the end of the log.
 * UCSTORE_OUT_OF_MEMORY. */
int32_t ucstore_log_first_told(const uint8_t *log, size_t log_length, uint64_t end, uint64_t last, bool *told, uint64_t *place);

/* Reads the mark of a batch that is given as bytes. `marked` gets false if it has none, and `unsynced` else the number of bytes of its log
 * before its record that were not durable for certain when it was written. */
int32_t ucstore_log_mark(const uint8_t *batch, size_t batch_length, bool *marked, uint64_t *unsynced);

/* Copies the bytes of a mark to `room`, at most 12, and stores their length in `size`. They belong right after the 12 bytes of a batch's
 * header.
 *
 * UCSTORE_ROOM: they do not fit. `size` gets the length that is needed.
 * UCSTORE_BAD_PLACE: `unsynced` is 2^63 or more.
 * UCSTORE_OUT_OF_MEMORY. */
int32_t ucstore_log_mark_bytes(uint64_t unsynced, uint8_t *room, size_t room_length, size_t *size);

/* Copies the operand that applies an operator of `enum ucstore_part` to `room`, and stores its length in `size`: at most 8 bytes more than
 * the payload. `parameter` is 0 for the operators that have none. Operands in turn, the first one first, are one operand that does what
 * they do. A store of UCSTORE_MIXED gets them by `ucstore_merge` and `ucstore_batch_merge`.
 *
 * UCSTORE_ROOM: it does not fit. `size` gets the length that is needed.
 * UCSTORE_UNKNOWN_OPERATOR: there is no operator with this number, or the parameter is out of range.
 * UCSTORE_BAD_OPERAND: a number does not have 8 bytes, or a set is not ascending members.
 * UCSTORE_TOO_LONG: the payload has 2^32 bytes or more.
 * UCSTORE_OUT_OF_MEMORY. */
int32_t ucstore_operand(uint32_t part, uint32_t parameter, const uint8_t *payload, size_t payload_length, uint8_t *room,
                        size_t room_length, size_t *size);

/* Checks the bytes of an operand of UCSTORE_MIXED. A merge takes others too: they replace the value.
 *
 * UCSTORE_BAD_OPERAND: the bytes are not operands in turn, a number does not have 8 bytes, or a set is not ascending members. */
int32_t ucstore_operand_check(const uint8_t *operand, size_t operand_length);

/* Finds the files to read when the folder of a database is opened: the newest base, and the logs from its number to `found->log`. The
 * logs and bases that the folder lists may be in any order. Logs in the order of their numbers take linear time.
 *
 * UCSTORE_LOG_MISSING: a log in this range is not listed. `missing` gets the first one's number. */
int32_t ucstore_folder_find(const struct ucstore_folder_base *bases, size_t bases_length,
                            const struct ucstore_folder_listed *logs, size_t logs_length, struct ucstore_folder_found *found,
                            uint64_t *missing);

/* Sets `state` to the machine of a folder in which `ucstore_folder_find` has found files. `count` is the number of batches that are kept
 * of the log that goes on, and no fewer than a base has of it. Those after them are given up: they are gone once the writer has nothing
 * more to do. To give up batches of several logs, do this for each of them, the last log first. `is_sealed`: all batches of the log are
 * kept and durable, as the record says by which a log was closed; then the log is not copied.
 *
 * The machine says which file operation comes next, so that a crash at any moment loses nothing that was acknowledged as synced. The
 * caller asks for the next operation (`next_*`), does it, and reports whether it was done (`told_*`), in any number of threads, one call
 * at a time. An operation that failed in any way is reported as not done. Of `state` the caller reads `log`, `count` and `synced`: the
 * number of the log, its batches, and how many of these may be acknowledged as synced. All batches of older logs may. */
int32_t ucstore_folder_open(const struct ucstore_folder_found *found, uint64_t count, bool is_sealed,
                            struct ucstore_folder_state *state);

/* Returns the next operation of the writer, of the log after the present one, of the sync of the log, or of the checkpointer.
 * UCSTORE_NO_FOLDER. */
int32_t ucstore_folder_next_write(const struct ucstore_folder_state *state, struct ucstore_folder_step *step);
int32_t ucstore_folder_next_make(const struct ucstore_folder_state *state, struct ucstore_folder_step *step);
int32_t ucstore_folder_next_sync(const struct ucstore_folder_state *state, struct ucstore_folder_step *step);
int32_t ucstore_folder_next_checkpoint(const struct ucstore_folder_state *state, struct ucstore_folder_step *step);

/* Reports whether that operation was done.
 * UCSTORE_NO_FOLDER. */
int32_t ucstore_folder_told_write(struct ucstore_folder_state *state, bool is_done);
int32_t ucstore_folder_told_make(struct ucstore_folder_state *state, bool is_done);
int32_t ucstore_folder_told_sync(struct ucstore_folder_state *state, bool is_done);
int32_t ucstore_folder_told_checkpoint(struct ucstore_folder_state *state, bool is_done);

/* Asks for an append of a batch, a sync of all that was appended, the next log, going on in it, or a base of the logs before `number` and
 * of `past` batches of the log of that number. Nothing changes if this is not possible now, and then the next operation is another one.
 * UCSTORE_NO_FOLDER. */
int32_t ucstore_folder_submit(struct ucstore_folder_state *state);
int32_t ucstore_folder_ask_sync(struct ucstore_folder_state *state);
int32_t ucstore_folder_ask_next(struct ucstore_folder_state *state);
int32_t ucstore_folder_ask_switch(struct ucstore_folder_state *state);
int32_t ucstore_folder_ask_checkpoint(struct ucstore_folder_state *state, uint64_t number, uint64_t past);

/* Asks for an append of a batch, as `ucstore_folder_submit` does, and returns the writer's next operation.
 * UCSTORE_NO_FOLDER. */
int32_t ucstore_folder_append(struct ucstore_folder_state *state, struct ucstore_folder_step *step);

/* Sets `next` to the number of the next run of a folder that lists the run files `listed`, in any order, and whose newest list names the
 * runs `named`; and `missing` to 0. If a run of the list is not listed, `missing` gets its number, and `next` 0. If a run has the greatest
 * number, no number follows, and both get 0. */
int32_t ucstore_run_folder_find(const uint64_t *named, size_t named_length, const uint64_t *listed, size_t listed_length,
                                uint64_t *next, uint64_t *missing);

/* Sets `runs` to the machine of a folder that `ucstore_folder_open` has opened. Its checkpoints are lists, each of which is a base for
 * `state`: a file that names runs. A run is written once, to a file of its own number. `next` is the number from
 * `ucstore_run_folder_find`. The checkpointer of `state` is asked by these functions alone, its other operations as before.
 * UCSTORE_NO_FOLDER. */
int32_t ucstore_run_folder_open(const struct ucstore_folder_state *state, uint64_t next, struct ucstore_run_folder_state *runs);

/* Returns the next operation of the checkpointer: of `enum ucstore_folder_kind`, where a base is a list, or of
 * `enum ucstore_run_folder_kind`. Nothing is removed before UCSTORE_RUN_FOLDER_READ_BACK is reported as done.
 * UCSTORE_NO_FOLDER. */
int32_t ucstore_run_folder_next_checkpoint(const struct ucstore_folder_state *state, const struct ucstore_run_folder_state *runs,
                                           struct ucstore_folder_step *step);

/* Reports whether that operation was done. The number of a run that failed is not used again.
 * UCSTORE_NO_FOLDER. */
int32_t ucstore_run_folder_told_checkpoint(struct ucstore_folder_state *state, struct ucstore_run_folder_state *runs, bool is_done);

/* Asks for a list of the logs before `number`, and of `past` batches of the log of that number. It names the runs `kept`, each of which
 * is one of the newest list's (`named`), and `count` new ones, with the numbers from `runs->next` on. Nothing changes if this is not
 * possible now: `number` has to exceed that of each list before, and nothing is kept of a list that could not be read back.
 * UCSTORE_NO_FOLDER. */
int32_t ucstore_run_folder_ask_checkpoint(const struct ucstore_folder_state *state, struct ucstore_run_folder_state *runs,
                                          uint64_t number, uint64_t past, const uint64_t *kept, size_t kept_length,
                                          const uint64_t *named, size_t named_length, uint64_t count);

/* Returns the operation that removes a run, if the newest list, which names the runs `named`, is the only one that can be read, and was
 * read back, and does not name it. Otherwise there is nothing to do.
 * UCSTORE_NO_FOLDER. */
int32_t ucstore_run_folder_next_removal(const struct ucstore_folder_state *state, const struct ucstore_run_folder_state *runs,
                                        uint64_t run, const uint64_t *named, size_t named_length, struct ucstore_folder_step *step);

#ifdef __cplusplus
}
#endif

#endif
