//! The functions of `bindings/c/ucstore_db.h` over [`db::Db`]. The header documents them and the requirements on the caller. Read
//! `call.rs` and `handle.rs` first. `bindings/check_db_header` compares the header with this crate.
//!
//! # Soundness
//!
//! The header lets C pass pointers to its own memory, with lengths, and pointers that the library has returned. Null pointers are
//! rejected. Memory that is returned to C belongs to a handle, and stays valid until the call that the header names. A panic
//! becomes a status.
#![deny(unsafe_op_in_unsafe_fn)]
#![warn(missing_docs, clippy::undocumented_unsafe_blocks)]
// The header says what a caller must ensure.
#![allow(clippy::missing_safety_doc)]

mod batch;
mod call;
mod cursor;
mod database;
mod events;
mod handle;
mod memory;
mod operands;
mod options;
mod process;
mod snapshot;
mod stats;
mod status;
mod transaction;

pub use batch::*;
pub use call::ucstore_db_error_text;
pub use cursor::*;
pub use database::*;
pub use events::{CEvent, CProgress, EventFunction, ProgressFunction};
pub use handle::{BatchHandle, CursorHandle, DbHandle, Handle, SnapshotHandle, TransactionHandle};
pub use operands::*;
pub use options::{ucstore_db_options_init, COptions};
pub use snapshot::*;
pub use stats::{ucstore_db_stats, ucstore_db_stats_text, CStats};
pub use status::Status;
pub use transaction::*;

/// The version of the binary interface. It changes when a function or a status changes its meaning.
pub const ABI: u32 = 2;

/// Returns [`ABI`].
#[no_mangle]
pub extern "C" fn ucstore_db_version() -> u32 {
    ABI
}
