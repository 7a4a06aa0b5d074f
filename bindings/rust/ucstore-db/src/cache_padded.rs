//! [`CachePadded`]: a thing on cache lines of its own.

use std::ops::Deref;

/// A thing on cache lines of its own, so that what threads do to it slows nothing beside it. Processors fetch two lines of 64 bytes
/// together.
#[derive(Default)]
#[repr(align(128))]
pub(crate) struct CachePadded<T>(pub(crate) T);

impl<T> Deref for CachePadded<T> {
    type Target = T;

    fn deref(&self) -> &T {
        &self.0
    }
}
