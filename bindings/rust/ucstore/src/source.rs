//! [`Source`]: what a scan reads.

use crate::error::Error;
use crate::reads::Range;
use crate::store::Store;
use crate::sys;
use crate::view::View;
use std::fmt;
use std::mem::MaybeUninit;

/// A page's memory, which has no values before rows are copied there.
pub(crate) type Buffer<'a> = &'a mut [MaybeUninit<u8>];

/// The source of a [`Scan`](crate::Scan): a store or a view.
pub trait Source: sealed::Rows + fmt::Debug {}

/// The source of a [`Scan`](crate::Scan) that goes both ways: a view.
pub trait BackSource: Source + sealed::RowsBack {}

pub(crate) mod sealed {
    use super::{Buffer, Error, Range};

    /// The rows of a range. No type outside this crate has them.
    pub trait Rows {
        /// The first rows, as many as fit the buffer: their number, and the size of all.
        #[allow(private_interfaces)]
        fn rows(&self, range: &Range<'_>, room: Buffer<'_>) -> Result<(u64, usize), Error>;
    }

    /// The rows of a range in reverse. No type outside this crate has them.
    pub trait RowsBack {
        /// The last rows, the greatest key first, as many as fit the buffer: how many these are, and the size of all.
        #[allow(private_interfaces)]
        fn rows_back(&self, range: &Range<'_>, buffer: Buffer<'_>) -> Result<(u64, usize), Error>;
    }
}

impl Source for &Store {}
impl Source for &View {}
impl Source for View {}
impl BackSource for &View {}
impl BackSource for View {}

impl sealed::Rows for &Store {
    #[allow(private_interfaces)]
    fn rows(&self, range: &Range<'_>, room: Buffer<'_>) -> Result<(u64, usize), Error> {
        self.reads().rows(range, room)
    }
}

impl sealed::Rows for &View {
    #[allow(private_interfaces)]
    fn rows(&self, range: &Range<'_>, room: Buffer<'_>) -> Result<(u64, usize), Error> {
        self.reads().rows(range, room)
    }
}

impl sealed::Rows for View {
    #[allow(private_interfaces)]
    fn rows(&self, range: &Range<'_>, room: Buffer<'_>) -> Result<(u64, usize), Error> {
        self.reads().rows(range, room)
    }
}

impl sealed::RowsBack for &View {
    #[allow(private_interfaces)]
    fn rows_back(&self, range: &Range<'_>, buffer: Buffer<'_>) -> Result<(u64, usize), Error> {
        self.reads()
            .rows_by(sys::ucstore_view_scan_back, range, buffer)
    }
}

impl sealed::RowsBack for View {
    #[allow(private_interfaces)]
    fn rows_back(&self, range: &Range<'_>, buffer: Buffer<'_>) -> Result<(u64, usize), Error> {
        (&self).rows_back(range, buffer)
    }
}
