//! [`LookupSource`]: the part of a store that answers a lookup.

use crate::error::Error;
use crate::sys;

/// The part of a store that answers a lookup at the last sequence number, from [`Store::source`](crate::Store::source) and
/// [`View::source`](crate::View::source).
#[derive(Clone, Copy, Debug, PartialEq, Eq, Hash)]
pub enum LookupSource {
    /// The memtables: they hold a put or a deletion of the key, or a range deletion over it. No run is searched.
    Memtable,
    /// The filters: the memtables do not answer, and no run has a write of the key. A run is searched only if its filter admits the
    /// key by chance.
    Filters,
    /// The runs: the memtables do not answer, and a run has a write of the key.
    Runs,
}

impl LookupSource {
    /// That with a number of C.
    pub(crate) fn of(number: u32) -> Result<LookupSource, Error> {
        match number {
            sys::UCSTORE_MEMTABLE => Ok(LookupSource::Memtable),
            sys::UCSTORE_FILTERS => Ok(LookupSource::Filters),
            sys::UCSTORE_RUNS => Ok(LookupSource::Runs),
            other => Err(Error::Unexpected(other as i32)),
        }
    }
}
