//! [`Scan`]: the rows of a range of keys.

use crate::error::Error;
use crate::memory::copy;
use crate::reads::Range;
use crate::source::{BackSource, Buffer, Source};
use std::borrow::Cow;
use std::iter::FusedIterator;
use std::ops::{self, Bound, RangeBounds};

/// The most rows of the first page: many scans read no more. Each page may have twice as many as the one before.
const FIRST_ROWS: u64 = 16;

/// The most rows of a page.
const PAGE_ROWS: u64 = 1024;

/// The bytes of the first page, and the most of a later one unless a row is larger. Each page is found by a search in each run, so a long
/// scan reads large pages.
const FIRST_BYTES: usize = 4 * 1024;
const PAGE_BYTES: usize = 64 * 1024;

/// The bytes of a length.
const LENGTH: usize = 8;

/// A key and its value.
pub type KeyValue = (Vec<u8>, Vec<u8>);

/// A borrowed key and its value.
type Row<'a> = (&'a [u8], &'a [u8]);

/// Where a key and its value are in a page.
type Place = (ops::Range<usize>, ops::Range<usize>);

/// The ends of a range of keys: its least key, and the least one above it, if there is one.
pub(crate) fn ends_of<'a, K: AsRef<[u8]> + 'a>(
    range: &'a impl RangeBounds<K>,
) -> (Cow<'a, [u8]>, Option<Cow<'a, [u8]>>) {
    let low = match range.start_bound() {
        Bound::Included(key) => Cow::Borrowed(key.as_ref()),
        Bound::Excluded(key) => Cow::Owned(after(key.as_ref())),
        Bound::Unbounded => Cow::default(),
    };
    let high = match range.end_bound() {
        Bound::Included(key) => Some(Cow::Owned(after(key.as_ref()))),
        Bound::Excluded(key) => Some(Cow::Borrowed(key.as_ref())),
        Bound::Unbounded => None,
    };
    (low, high)
}

/// The least key above a key.
fn after(key: &[u8]) -> Vec<u8> {
    [key, &[0]].concat()
}

/// Returns the least key above all keys with a prefix, or `None` if there is none. So `prefix..end_of_prefix(prefix)` are those keys.
pub fn end_of_prefix(prefix: &[u8]) -> Option<Vec<u8>> {
    let last = prefix.iter().rposition(|byte| *byte != u8::MAX)?;
    let mut end = prefix[..=last].to_vec();
    end[last] += 1;
    Some(end)
}

/// Rows that were fetched from one end of a range, the one nearest to that end first.
#[derive(Debug)]
struct Page {
    bytes: Vec<u8>,
    /// Where the next row begins.
    next: usize,
    /// The number of rows that are left.
    left: usize,
    /// Where the farthest row begins.
    farthest: usize,
    /// Where each row that is left begins, if rows were taken from the page's far end.
    starts: Vec<usize>,
    /// The most rows that the next page has.
    limit: u64,
    /// The size of the last page's rows.
    size: usize,
}

impl Page {
    fn new() -> Page {
        Page {
            bytes: Vec::new(),
            next: 0,
            left: 0,
            farthest: 0,
            starts: Vec::new(),
            limit: FIRST_ROWS,
            size: 0,
        }
    }

    /// Fetches a page, and tells whether no row is left to be fetched. After a page whose rows don't all fit, the next one asks for no
    /// more rows than did; after one that is less than half full it asks for twice as many. The buffer grows with them, and beyond
    /// [`PAGE_BYTES`] only if the first row doesn't fit.
    fn fetch(
        &mut self,
        rows: impl Fn(u64, Buffer<'_>) -> Result<(u64, usize), Error>,
    ) -> Result<bool, Error> {
        self.bytes.clear();
        self.starts.clear();
        // Twice what twice as many rows took on average.
        let least = self.size.saturating_mul(4).clamp(FIRST_BYTES, PAGE_BYTES);
        self.bytes.try_reserve_exact(least)?;
        loop {
            let (count, size) = rows(self.limit, self.bytes.spare_capacity_mut())?;
            let all_fit = size <= self.bytes.capacity();
            if all_fit || count > 0 {
                (self.next, self.left) = (0, count as usize);
                // SAFETY: This many rows were copied there.
                let (farthest, end) = unsafe { last_of_rows(self.bytes.as_ptr(), count) };
                unsafe { self.bytes.set_len(end) };
                self.farthest = farthest;
                self.size = size;
                let is_last = all_fit && count < self.limit;
                if !all_fit {
                    self.limit = count;
                } else if 2 * size <= PAGE_BYTES {
                    self.limit = PAGE_ROWS.min(2 * self.limit);
                }
                return Ok(is_last);
            }
            if self.limit == 1 {
                self.bytes.try_reserve_exact(size)?;
            }
            self.limit = 1;
        }
    }

    /// Takes the row nearest to the end from which the page was fetched.
    fn take_near(&mut self) -> Option<Place> {
        self.left = self.left.checked_sub(1)?;
        let (key, value) = self.row_at(self.next);
        self.next = value.end;
        Some((key, value))
    }

    /// Takes the row farthest from that end.
    fn take_far(&mut self) -> Result<Option<Place>, Error> {
        if self.left == 0 {
            return Ok(None);
        }
        if self.starts.is_empty() {
            self.starts.try_reserve_exact(self.left)?;
            let mut start = self.next;
            for _ in 0..self.left {
                self.starts.push(start);
                start = self.row_at(start).1.end;
            }
        }
        self.left -= 1;
        Ok(self.starts.pop().map(|start| self.row_at(start)))
    }

    /// The key of the farthest row, if there are rows.
    fn farthest_key(&self) -> Option<&[u8]> {
        (self.left > 0).then(|| &self.bytes[self.bytes_at(self.farthest)])
    }

    /// Where the row that begins at a place is: each of key and value follows its length.
    fn row_at(&self, start: usize) -> Place {
        let key = self.bytes_at(start);
        let value = self.bytes_at(key.end);
        (key, value)
    }

    fn bytes_at(&self, start: usize) -> ops::Range<usize> {
        let length = self.bytes[start..].first_chunk().expect("a length");
        let begin = start + LENGTH;
        begin..begin + u64::from_le_bytes(*length) as usize
    }

    fn row(&self, (key, value): Place) -> Row<'_> {
        (&self.bytes[key], &self.bytes[value])
    }
}

/// Where the last of some rows begins, and where it ends.
///
/// # Safety
///
/// The rows are at the address.
unsafe fn last_of_rows(page: *const u8, rows: u64) -> (usize, usize) {
    let (mut start, mut end) = (0, 0);
    for _ in 0..rows {
        start = end;
        for _ in 0..2 {
            // SAFETY: A length begins there.
            let length = unsafe { page.add(end).cast::<[u8; LENGTH]>().read() };
            end += LENGTH + u64::from_le_bytes(length) as usize;
        }
    }
    (start, end)
}

/// The keys of a range in order, each with its value, from [`Store::scan`](crate::Store::scan) or
/// [`View::scan`](crate::View::scan). Rows are fetched in pages. A scan of a store at its last sequence number sees writes made
/// between two pages.
///
/// As an iterator it copies each row. [`next_row`](Scan::next_row) returns references instead:
///
/// ```
/// # use ucstore::{Operator, Options, Store};
/// # fn main() -> Result<(), ucstore::Error> {
/// let store = Store::create(Operator::Append, &Options::default())?;
/// store.put("colour", "blue")?;
/// let mut rows = store.scan("", None);
/// while let Some((key, value)) = rows.next_row()? {
///     assert_eq!((key, value), (&b"colour"[..], &b"blue"[..]));
/// }
/// # Ok(())
/// # }
/// ```
///
/// A scan of a view at its last sequence number goes both ways:
///
/// ```
/// # use ucstore::{Operator, Options, Store};
/// # fn main() -> Result<(), ucstore::Error> {
/// let store = Store::create(Operator::Append, &Options::default())?;
/// store.put("a", "1")?;
/// store.put("b", "2")?;
/// let view = store.view()?;
/// let rows = view.scan("", None).rev().collect::<Result<Vec<_>, _>>()?;
/// assert_eq!(rows[0], (b"b".to_vec(), b"2".to_vec()));
/// # Ok(())
/// # }
/// ```
#[derive(Debug)]
pub struct Scan<S> {
    source: S,
    /// The sequence of a snapshot, or the last one.
    at: Option<u64>,
    /// The bounds of the rows that aren't fetched yet.
    low: Vec<u8>,
    high: Option<Vec<u8>>,
    /// Whether no row is between these bounds.
    is_fetched: bool,
    /// An error of the scan's making, for the first row.
    failure: Option<Error>,
    /// The rows before those that aren't fetched, and those after them.
    front: Page,
    back: Page,
}

impl<S: Source> Scan<S> {
    pub(crate) fn of(source: S, low: &[u8], high: Option<&[u8]>, at: Option<u64>) -> Scan<S> {
        let bounds = copy(low).and_then(|low| Ok((low, high.map(copy).transpose()?)));
        let failure = bounds.as_ref().err().copied();
        let (low, high) = bounds.unwrap_or_default();
        Scan {
            source,
            at,
            low,
            high,
            is_fetched: false,
            failure,
            front: Page::new(),
            back: Page::new(),
        }
    }

    /// Returns the next key and its value, valid until the next call, or `None` after the last row.
    ///
    /// # Errors
    ///
    /// Those of the scan. After an error there are no more rows.
    pub fn next_row(&mut self) -> Result<Option<Row<'_>>, Error> {
        if self.front.left == 0 && !self.is_fetched {
            self.fetch_front().inspect_err(|_| self.end())?;
        }
        if let Some(place) = self.front.take_near() {
            return Ok(Some(self.front.row(place)));
        }
        let place = self.back.take_far().inspect_err(|_| self.end())?;
        Ok(place.map(|place| self.back.row(place)))
    }

    /// Fetches rows from the front. Those that aren't fetched then begin after the last of these: no key is between that and itself
    /// with a zero byte.
    fn fetch_front(&mut self) -> Result<(), Error> {
        if let Some(failure) = self.failure.take() {
            return Err(failure);
        }
        self.is_fetched = self.front.fetch(|limit, buffer| {
            let range = Range {
                low: &self.low,
                high: self.high.as_deref(),
                at: self.at,
                limit,
            };
            self.source.rows(&range, buffer)
        })?;
        if let Some(key) = self.front.farthest_key() {
            self.low.clear();
            self.low.try_reserve(key.len() + 1)?;
            self.low.extend_from_slice(key);
            self.low.push(0);
        }
        Ok(())
    }

    /// Lets no row follow.
    fn end(&mut self) {
        self.is_fetched = true;
        (self.front.left, self.back.left) = (0, 0);
    }
}

impl<S: BackSource> Scan<S> {
    /// Returns the last key that wasn't returned yet and its value, valid until the next call, or `None` if there is none.
    ///
    /// # Errors
    ///
    /// The errors of the scan, and [`Error::NotProtected`] for a scan at a snapshot's sequence number, which only goes forward. After an
    /// error there are no more rows.
    pub fn next_row_back(&mut self) -> Result<Option<Row<'_>>, Error> {
        if self.back.left == 0 && !self.is_fetched {
            self.fetch_back().inspect_err(|_| self.end())?;
        }
        if let Some(place) = self.back.take_near() {
            return Ok(Some(self.back.row(place)));
        }
        let place = self.front.take_far().inspect_err(|_| self.end())?;
        Ok(place.map(|place| self.front.row(place)))
    }

    /// Fetches rows from the back. Those that aren't fetched then end before the last of these.
    fn fetch_back(&mut self) -> Result<(), Error> {
        if let Some(failure) = self.failure.take() {
            return Err(failure);
        }
        if self.at.is_some() {
            return Err(Error::NotProtected);
        }
        self.is_fetched = self.back.fetch(|limit, buffer| {
            let range = Range {
                low: &self.low,
                high: self.high.as_deref(),
                at: None,
                limit,
            };
            self.source.rows_back(&range, buffer)
        })?;
        if let Some(key) = self.back.farthest_key() {
            let high = self.high.get_or_insert_with(Vec::new);
            high.clear();
            high.try_reserve(key.len())?;
            high.extend_from_slice(key);
        }
        Ok(())
    }
}

/// Copies a row.
fn owned(row: Result<Option<Row<'_>>, Error>) -> Option<Result<KeyValue, Error>> {
    let row = row.transpose()?;
    Some(row.and_then(|(key, value)| Ok((copy(key)?, copy(value)?))))
}

impl<S: Source> Iterator for Scan<S> {
    type Item = Result<KeyValue, Error>;

    fn next(&mut self) -> Option<Self::Item> {
        owned(self.next_row())
    }
}

impl<S: BackSource> DoubleEndedIterator for Scan<S> {
    fn next_back(&mut self) -> Option<Self::Item> {
        owned(self.next_row_back())
    }
}

impl<S: Source> FusedIterator for Scan<S> {}

#[cfg(test)]
mod tests {
    use super::*;
    use crate::source::{sealed, Buffer};
    use std::cell::Cell;

    /// Values of some lengths under the keys from 0 on, and how often rows were asked for.
    #[derive(Debug)]
    struct Values {
        lengths: Vec<usize>,
        asked: Cell<usize>,
    }

    impl Source for &Values {}

    impl sealed::Rows for &Values {
        #[allow(private_interfaces)]
        fn rows(&self, range: &Range<'_>, buffer: Buffer<'_>) -> Result<(u64, usize), Error> {
            self.asked.set(self.asked.get() + 1);
            let (mut rows, mut size) = (0, 0);
            let keys = (0u64..).map(u64::to_be_bytes).zip(&self.lengths);
            let above = keys.skip_while(|(key, _)| key[..] < *range.low);
            for (key, length) in above.take(range.limit as usize) {
                let row = [
                    &8u64.to_le_bytes()[..],
                    &key,
                    &(*length as u64).to_le_bytes(),
                    &vec![7; *length],
                ]
                .concat();
                let end = size + row.len();
                if let Some(place) = buffer.get_mut(size..end) {
                    for (at, byte) in place.iter_mut().zip(row) {
                        at.write(byte);
                    }
                    rows += 1;
                }
                size = end;
            }
            Ok((rows, size))
        }
    }

    /// The number of times that a scan asks for rows, of values of these lengths.
    fn asked(lengths: Vec<usize>) -> usize {
        let values = Values {
            lengths,
            asked: Cell::new(0),
        };
        let mut scan = Scan::of(&values, b"", None, None);
        let mut key = 0u64;
        while let Some((found, value)) = scan.next_row().unwrap() {
            assert_eq!(found, key.to_be_bytes());
            assert_eq!(value, vec![7; values.lengths[key as usize]]);
            key += 1;
        }
        assert_eq!(key as usize, values.lengths.len());
        values.asked.get()
    }

    #[test]
    fn a_scan_asks_for_more_rows_each_time() {
        // 16, 32, 64, .. and 1,024 rows of 25 bytes: the last ones take less than half a page.
        let small = asked(vec![1; 10_000]);
        assert!(small < 20, "{small}");
        assert_eq!(asked(vec![]), 1);
    }

    #[test]
    fn one_large_row_makes_no_small_pages() {
        let mut lengths = vec![1; 10_000];
        let small = asked(lengths.clone());
        lengths[3] = 100_000;
        let large = asked(lengths);
        assert!(large <= small + 15, "{large} and {small}");
    }
}
