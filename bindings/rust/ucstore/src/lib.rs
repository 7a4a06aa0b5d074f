//! An embedded key-value store in memory: an LSM tree with merge operators, range deletions and snapshots, proved against its
//! contracts.
//!
//! ```
//! use ucstore::{Batch, Operator, Options, Store};
//!
//! # fn main() -> Result<(), ucstore::Error> {
//! let store = Store::create(Operator::Counter, &Options::default())?;
//! let mut batch = Batch::new();
//! batch.merge("visits", 2u64.to_le_bytes())?.merge("visits", 3u64.to_le_bytes())?;
//! store.write(&batch)?;
//! assert_eq!(store.get("visits")?, Some(5u64.to_le_bytes().to_vec()));
//! # Ok(())
//! # }
//! ```
//!
//! # Durability
//!
//! A store is in memory only. To make it durable, keep a log in a file: append the bytes that [`Store::prepare`] returns before
//! calling [`Store::commit`], and read the file with [`Store::open`]. [`LogWrites::end`] returns the offset to continue at.
//!
//! ```
//! # use ucstore::{Batch, Ended, Operator, Options, Store};
//! # fn main() -> Result<(), ucstore::Error> {
//! let mut log = Vec::new();
//! # let store = Store::create(Operator::Append, &Options::default())?;
//! let mut batch = Batch::new();
//! log.extend(store.prepare(log.len() as u64, batch.put("colour", "blue")?)?);
//! store.commit();
//!
//! let (again, ended) = Store::open(Operator::Append, &Options::default(), &log)?;
//! assert_eq!(ended, Ended::Clean);
//! assert_eq!(again.get("colour")?, Some(b"blue".to_vec()));
//! # Ok(())
//! # }
//! ```
//!
//! # Threads
//!
//! A store takes one call at a time. Other threads read [`View`]s, each thread its own, and run the flushes and compactions that
//! [`Store::take_job`] takes out.
//!
//! # Building
//!
//! The build links `libucstore.a` from the directory `UCSTORE_LIB_DIR`, or finds it with pkg-config. `tools/install` in the
//! repository installs it. With the feature `no-link` the library is not needed, and the crate can only be checked and
//! documented.
//!
//! # Soundness
//!
//! Pointers are those of references and slices, which outlive the call; none is null unless its length is 0. Memory that is
//! written is borrowed mutably, so it overlaps no other argument. A handle is in a type that threads can't share, no call calls
//! back into one, and it is closed when its owner is dropped. A store rejects the jobs of other stores.
#![warn(missing_docs)]

mod batch;
mod checkpoint;
mod ended;
mod error;
mod folder;
mod job;
mod log;
mod log_end;
mod lookup_source;
mod memory;
mod operands;
mod options;
mod read_set;
mod reads;
mod record;
mod replay;
mod report;
mod run_file;
mod run_folder;
mod runs;
mod scan;
mod snapshot;
mod source;
mod store;
mod view;

use ucstore_sys as sys;

pub use batch::Batch;
pub use checkpoint::Checkpoint;
pub use ended::{BatchFault, Ended, LogFault};
pub use error::Error;
pub use folder::{FolderAction, FolderFiles, FolderMachine, ListedBase, ListedLog, MissingLog};
pub use job::{EndedJob, Job};
pub use log::{log_writes, log_writes_at, LogPlace, LogWrites, Operation, Write};
pub use log_end::{first_told, mark_bytes, mark_of};
pub use lookup_source::LookupSource;
pub use operands::{
    check_operand, int_of, set_bytes, set_of, MergeParts, Operand, Part, ReadParts,
};
pub use options::{Operator, Options};
pub use read_set::ReadSet;
pub use replay::{Replay, Replayed};
pub use report::Report;
pub use run_file::{LoadedRun, RunFile};
pub use run_folder::{next_run, RunFolderAction, RunFolderFault, RunFolderMachine};
pub use runs::{Run, RunBytes, RunError, Runs};
pub use scan::{end_of_prefix, KeyValue, Scan};
pub use snapshot::Snapshot;
pub use source::{BackSource, Source};
pub use store::Store;
pub use view::View;
