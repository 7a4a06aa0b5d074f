//! [`Options`] and [`Sync`]: how a database is kept.

use crate::error::Error;
use crate::event::{Event, Listener, Progress};
use std::time::Duration;
use ucstore::{Operator, Store};

/// When a write is on the device.
#[derive(Clone, Copy, Debug, PartialEq, Eq)]
pub enum Sync {
    /// When it is acknowledged.
    Always,
    /// About as many milliseconds after it was acknowledged, at least 1.
    EveryMs(u64),
    /// When the operating system puts it there, or a log ends. A process that ends loses nothing by it.
    Never,
}

/// The options of a database.
///
/// ```
/// # use ucstore_db::{Options, Sync};
/// let options = Options { sync: Sync::EveryMs(100), ..Default::default() };
/// assert_eq!(options.compactors, 2);
/// ```
#[derive(Clone, Debug, PartialEq, Eq)]
pub struct Options {
    /// The operator that merges a key's operands into its value. With `None`, the default, it is the one that the folder was made with,
    /// which its file `OPERATOR` names ([`Operator::Append`] for an old folder without that file), and [`Operator::Mixed`] for a new
    /// database. Another one than the folder's is rejected.
    pub operator: Option<Operator>,
    /// When a write is on the device.
    pub sync: Sync,
    /// The options of the store in memory. It flushes and compacts by itself if there are no `compactors`; else it gathers at
    /// least two memtables.
    pub store: ucstore::Options,
    /// The number of threads that compact; one more is kept for flushes. With 0, writes flush and compact.
    pub compactors: usize,
    /// Time without a write after which the database is compacted to one run, by a thread of its own: at least a millisecond. With `None`, the
    /// default, it isn't, nor without `compactors`. It makes reads faster, and takes up to twice the data's memory meanwhile. The thread notices
    /// within as much time again, takes at most a tenth of a processor, and compacts only what `stop_trigger` flushes of the memtables
    /// hold. A write ends its work, and doesn't wait for it.
    pub compact_when_idle: Option<Duration>,
    /// From how many runs on writes are slowed, by a millisecond each time.
    pub slow_trigger: u32,
    /// By how many times the logs exceed the data when a checkpoint is made. A checkpoint writes only the runs that no older one has, so
    /// the default is 0: `checkpoint_least` alone decides. With more, logs are longer, and so are openings.
    pub checkpoint_ratio: u64,
    /// The least size of the logs in bytes at which a checkpoint is made. With [`u64::MAX`] none is made by itself.
    pub checkpoint_least: u64,
    /// The most bytes of run files that a checkpoint writes in a second. With `None`, the default, it writes as fast as the device.
    pub checkpoint_bytes_per_second: Option<u64>,
    /// Refuses to make a database: there has to be one in the folder. Nothing is made there then.
    pub must_exist: bool,
    /// Opens a database to read it, also while another process has it open: there has to be one, nothing is locked, nothing in its folder
    /// is changed, and writes are rejected. It has each write that was acknowledged before; [`Db::refresh`](crate::Db::refresh) catches up
    /// with later ones. What is torn at the end of the last log isn't read, and stays there. What is read may not be durable yet.
    pub read_only: bool,
    /// Opens a damaged folder up to the damage. Nothing can be written then. If the file `OPERATOR` is damaged, name the `operator`.
    pub recover_to_fault: bool,
    /// Gives up what the files have after this sequence, whatever it is: to be called when another log says which batches were
    /// acknowledged. It has to be the end of a batch; those of writers that come together are one. What is given up is cut off
    /// before the first write. Until then the folder stays as it was, also if the database is closed.
    pub recover_to: Option<u64>,
    /// Up to which sequence a batch may begin that is given up. One that begins later shows that another one in between was
    /// acknowledged: then the opening is refused.
    pub give_up_until: u64,
    /// Sequences at which snapshots are made while the folder is read, which [`Db::take_mark`](crate::Db::take_mark) gives out. Each
    /// has to be the end of a batch, and no checkpoint goes beyond it.
    pub marks: Vec<u64>,
    /// Is told how far the opening of a folder is: after each MiB, and each file.
    pub progress: Option<Listener<Progress>>,
    /// Is told what the database does.
    pub events: Option<Listener<Event>>,
}

impl Options {
    /// Checks that each option is in its range, before anything is made.
    pub(crate) fn check(&self) -> Result<(), Error> {
        if self.sync == Sync::EveryMs(0) {
            return Err(ucstore::Error::BadOption.into());
        }
        Store::create(self.operator(), &self.to_store())?;
        Ok(())
    }

    /// The operator, once the folder's is known.
    pub(crate) fn operator(&self) -> Operator {
        self.operator.unwrap_or(Operator::Mixed)
    }

    /// The options of the store in memory.
    pub(crate) fn to_store(&self) -> ucstore::Options {
        let compacts_itself = self.compactors == 0;
        // One memtable is written to while a thread flushes the other.
        let least = if compacts_itself { 1 } else { 2 };
        ucstore::Options {
            compacts_itself,
            max_write_buffer_number: self.store.max_write_buffer_number.max(least),
            ..self.store
        }
    }

    /// From how many gathered bytes on writes are slowed while a flush is under way.
    pub(crate) fn much_gathered(&self) -> u64 {
        self.most_gathered() - self.store.write_buffer_size / 4
    }

    /// The most bytes that are gathered: a write that finds more waits for a flush.
    pub(crate) fn most_gathered(&self) -> u64 {
        let store = self.to_store();
        store
            .write_buffer_size
            .saturating_mul(store.max_write_buffer_number.into())
    }
}

impl Default for Options {
    fn default() -> Options {
        Options {
            operator: None,
            sync: Sync::Always,
            store: ucstore::Options::default(),
            compactors: 2,
            compact_when_idle: None,
            slow_trigger: 20,
            checkpoint_ratio: 0,
            checkpoint_least: 64 << 20,
            checkpoint_bytes_per_second: None,
            must_exist: false,
            read_only: false,
            recover_to_fault: false,
            recover_to: None,
            give_up_until: u64::MAX,
            marks: vec![],
            progress: None,
            events: None,
        }
    }
}
