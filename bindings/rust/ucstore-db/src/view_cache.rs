//! [`ViewCache`]: the view that readers share, and the last ones before it.

use crate::error::Error;
use crate::striped::own_place;
use crate::versioned_view::VersionedView;
use std::collections::VecDeque;
use std::mem;

/// The number of views before the shown one that stay.
const MOST_BEFORE: usize = 8;

/// The view that readers share, and the last ones before it.
///
/// While one thread alone writes, these stay until their readers have renewed theirs, so that it frees them too. What a view holds is
/// the writer's memory: a reader that frees it waits for the allocator, and the writer waits for the reader.
#[derive(Default)]
pub(crate) struct ViewCache {
    newest: Option<VersionedView>,
    before: VecDeque<VersionedView>,
    /// The place of the thread that wrote last.
    writer: usize,
}

impl ViewCache {
    /// Shows a view. Returns one that stays no longer.
    #[must_use = "it is freed behind the lock"]
    pub(crate) fn show(&mut self, next: VersionedView) -> Option<VersionedView> {
        self.before.extend(self.newest.replace(next));
        let is_full = self.before.len() > MOST_BEFORE;
        is_full.then(|| self.before.pop_front()).flatten()
    }

    /// Shows a view after a write. Returns those that stay no longer: all, if another thread wrote last.
    #[must_use = "they are freed behind the lock"]
    pub(crate) fn show_written(
        &mut self,
        next: VersionedView,
    ) -> (VecDeque<VersionedView>, Option<VersionedView>) {
        let place = own_place();
        let is_same = mem::replace(&mut self.writer, place) == place;
        let old = self.show(next);
        let others = if is_same {
            VecDeque::new()
        } else {
            mem::take(&mut self.before)
        };
        (others, old)
    }

    /// The shown view, if it has at least this many groups.
    pub(crate) fn share(&self, least: u64) -> Result<Option<VersionedView>, Error> {
        let shown = self.newest.as_ref().filter(|shown| shown.taken >= least);
        shown.map(VersionedView::again).transpose()
    }

    /// Takes out the views before the shown one, and that too if it has fewer groups.
    pub(crate) fn take_old(&mut self, least: u64) -> VecDeque<VersionedView> {
        let mut old = mem::take(&mut self.before);
        old.extend(self.newest.take_if(|shown| shown.taken < least));
        old
    }

    /// The number of groups in each view.
    #[cfg(test)]
    pub(crate) fn taken(&self) -> impl Iterator<Item = u64> + '_ {
        let all = self.before.iter().chain(&self.newest);
        all.map(|shown| shown.taken)
    }
}
