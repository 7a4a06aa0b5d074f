//! [`ReadSource`]: the view or store in which a key is looked up.

use std::mem::MaybeUninit;
use ucstore::{Error, LookupSource, Store, View};

/// The view or store in which a key is looked up.
pub(crate) enum ReadSource<'a> {
    View(&'a View),
    /// The store itself, which is locked meanwhile.
    Store(&'a Store),
}

impl ReadSource<'_> {
    /// The value under a key, if there is one.
    pub(crate) fn get(&self, key: &[u8]) -> Result<Option<Vec<u8>>, Error> {
        match self {
            ReadSource::View(view) => view.get(key),
            ReadSource::Store(store) => store.get(key),
        }
    }

    /// Where a lookup of a key is answered.
    pub(crate) fn source(&self, key: &[u8]) -> Result<LookupSource, Error> {
        match self {
            ReadSource::View(view) => view.source(key),
            ReadSource::Store(store) => store.source(key),
        }
    }

    /// Puts the value under a key into a vector, and tells whether there is one.
    pub(crate) fn get_into(&self, key: &[u8], value: &mut Vec<u8>) -> Result<bool, Error> {
        match self {
            ReadSource::View(view) => view.get_into(key, value),
            ReadSource::Store(store) => store.get_into(key, value),
        }
    }

    /// Copies the value under a key into a buffer, and returns the size of all of it, if there is one.
    pub(crate) fn get_to_room(
        &self,
        key: &[u8],
        buf: &mut [MaybeUninit<u8>],
    ) -> Result<Option<usize>, Error> {
        match self {
            ReadSource::View(view) => view.get_to_room(key, buf),
            ReadSource::Store(store) => store.get_to_room(key, buf),
        }
    }
}
