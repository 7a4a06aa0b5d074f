//! [`Striped`]: values that are spread over threads.

use crate::cache_padded::CachePadded;
use std::sync::atomic::{AtomicUsize, Ordering};

/// The number of stripes.
const STRIPES: usize = 16;

/// The number of the next thread.
static NEXT: AtomicUsize = AtomicUsize::new(0);

thread_local! {
    /// The number of a thread among those that came here.
    static NUMBER: usize = NEXT.fetch_add(1, Ordering::Relaxed);
}

/// Some equal values, each on cache lines of its own. A thread uses one of them, and shares it with few others.
#[derive(Default)]
pub(crate) struct Striped<T> {
    stripes: [CachePadded<T>; STRIPES],
}

impl<T> Striped<T> {
    /// The stripe of the calling thread.
    pub(crate) fn own(&self) -> &T {
        &self.stripes[own_place()].0
    }

    /// The stripe of the calling thread, and the next one.
    pub(crate) fn own_and_next(&self) -> [&T; 2] {
        let own = own_place();
        [own, (own + 1) % STRIPES].map(|place| &self.stripes[place].0)
    }

    /// All of them.
    pub(crate) fn iter(&self) -> impl Iterator<Item = &T> {
        self.stripes.iter().map(|stripe| &stripe.0)
    }
}

/// The place of the calling thread's own.
pub(crate) fn own_place() -> usize {
    NUMBER.with(|number| number % STRIPES)
}
