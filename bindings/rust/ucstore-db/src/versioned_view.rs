//! [`VersionedView`]: a view, and the number of groups in it.

use crate::error::Error;
use crate::read_views::sort;
use ucstore::View;

/// A view, and the number of groups in it.
pub(crate) struct VersionedView {
    pub(crate) view: View,
    /// The number of groups taken, or changes of the runs.
    pub(crate) taken: u64,
    /// The number of groups among these.
    pub(crate) groups: u64,
    /// Whether what no run has yet is sorted in it.
    pub(crate) is_sorted: bool,
}

impl VersionedView {
    /// It once more, for another thread.
    pub(crate) fn again(&self) -> Result<VersionedView, Error> {
        Ok(VersionedView {
            view: self.view.again()?,
            taken: self.taken,
            groups: self.groups,
            is_sorted: self.is_sorted,
        })
    }

    /// Sorts what no run has yet, for it and those that are made of it.
    pub(crate) fn sort(&mut self) -> Result<(), Error> {
        if !self.is_sorted {
            sort(&self.view)?;
            self.is_sorted = true;
        }
        Ok(())
    }
}
