//! [`Moment`]: the state of a database between two writes, at which transactions read.

use crate::error::Error;
use crate::lock;
use std::cell::Cell;
use std::sync::atomic::{AtomicUsize, Ordering};
use std::sync::{Arc, Mutex};
use ucstore::{Store, View};

/// A moment between two writes. Until the next write the store has the same contents, so a transaction that commits earlier needs no
/// view. The writer of the next group makes a view if a transaction still reads there.
pub(crate) struct Moment {
    /// The sequence of the last write before it. Each later write has a greater one: while this is the store's last, nothing was written.
    last: u64,
    /// The number of transactions that read in it.
    readers: AtomicUsize,
    view: Mutex<Option<Result<View, ucstore::Error>>>,
}

/// A transaction's reference to a moment, until it ends or is judged.
pub(crate) struct MomentReader {
    moment: Arc<Moment>,
    is_over: Cell<bool>,
}

/// The moment after the last write, if a transaction has begun since.
#[derive(Default)]
pub(crate) struct LastMoment {
    moment: Mutex<Option<Arc<Moment>>>,
}

impl LastMoment {
    /// Returns a reader of the moment, if there is one.
    pub(crate) fn reader(&self) -> Option<MomentReader> {
        lock(&self.moment).as_ref().map(MomentReader::of)
    }

    /// Returns a reader of the store's moment. Requires `store` held.
    pub(crate) fn reader_of(&self, store: &Store) -> MomentReader {
        let mut held = lock(&self.moment);
        let moment = held.get_or_insert_with(|| Arc::new(Moment::of(store.last(), None)));
        MomentReader::of(moment)
    }

    /// Makes a view for the transactions that read at the moment. Requires `store` held until the write is taken: if it fails, this is
    /// called again before the next attempt.
    pub(crate) fn leave(&self, store: &Store) {
        let Some(moment) = lock(&self.moment).take() else {
            return;
        };
        // No other transaction begins there: it is taken out.
        if moment.readers.load(Ordering::Acquire) > 0 {
            lock(&moment.view).get_or_insert_with(|| store.view());
        }
    }
}

impl Moment {
    fn of(last: u64, view: Option<View>) -> Moment {
        Moment {
            last,
            readers: AtomicUsize::new(0),
            view: Mutex::new(view.map(Ok)),
        }
    }

    /// Returns a handle of the moment's view, if there is one.
    fn kept(&self) -> Result<Option<View>, Error> {
        match &*lock(&self.view) {
            Some(Ok(view)) => Ok(Some(view.again()?)),
            Some(Err(error)) => Err((*error).into()),
            None => Ok(None),
        }
    }
}

impl MomentReader {
    fn of(moment: &Arc<Moment>) -> MomentReader {
        moment.readers.fetch_add(1, Ordering::Relaxed);
        MomentReader {
            moment: Arc::clone(moment),
            is_over: Cell::new(false),
        }
    }

    /// The moment of a view.
    pub(crate) fn of_view(view: View) -> MomentReader {
        MomentReader::of(&Arc::new(Moment::of(view.last(), Some(view))))
    }

    /// The sequence of the last write before the moment.
    pub(crate) fn last(&self) -> u64 {
        self.moment.last
    }

    /// Returns true if nothing was written since the moment. Requires `store` held.
    pub(crate) fn is_now(&self, store: &Store) -> bool {
        store.last() == self.moment.last
    }

    /// Whether a view of it was kept.
    pub(crate) fn is_kept(&self) -> bool {
        lock(&self.moment.view).is_some()
    }

    /// A view of the moment: the one that was kept, or else one that has each write before this call.
    pub(crate) fn view(&self, newest: impl FnOnce() -> Result<View, Error>) -> Result<View, Error> {
        if let Some(kept) = self.moment.kept()? {
            return Ok(kept);
        }
        let newest = newest()?;
        if newest.last() == self.moment.last {
            return Ok(newest);
        }
        let kept = self.moment.kept()?;
        Ok(kept.expect("the write after the moment kept a view"))
    }

    /// Calls a function with the moment's view. Requires that something was written since.
    pub(crate) fn judge<T>(
        &self,
        judge: impl FnOnce(&View) -> Result<T, ucstore::Error>,
    ) -> Result<T, ucstore::Error> {
        match &*lock(&self.moment.view) {
            Some(Ok(view)) => judge(view),
            Some(Err(error)) => Err(*error),
            None => unreachable!("the write after the moment kept a view"),
        }
    }

    /// Releases the moment: its transaction reads there no more.
    pub(crate) fn release(&self) {
        if !self.is_over.replace(true) {
            self.moment.readers.fetch_sub(1, Ordering::Release);
        }
    }
}

impl Drop for MomentReader {
    fn drop(&mut self) {
        self.release();
    }
}

#[cfg(test)]
mod tests {
    use super::*;
    use ucstore::{Operator, Options};

    fn store() -> Store {
        let store = Store::create(Operator::Append, &Options::default()).unwrap();
        store.put("a", "1").unwrap();
        store
    }

    #[test]
    fn a_view_is_kept_for_those_who_read() {
        let (store, last) = (store(), LastMoment::default());
        assert!(last.reader().is_none());
        let one = last.reader_of(&store);
        let other = last.reader().unwrap();
        assert!(Arc::ptr_eq(&one.moment, &other.moment));
        assert!(one.is_now(&store) && one.last() == 1 && !one.is_kept());
        let now = one.view(|| Ok(store.view()?)).unwrap();
        assert_eq!(now.last(), 1);
        drop(one);
        last.leave(&store);
        store.put("a", "2").unwrap();
        assert!(last.reader().is_none() && other.is_kept() && !other.is_now(&store));
        let view = other.view(|| panic!("one was kept")).unwrap();
        assert_eq!(view.get("a").unwrap(), Some(b"1".to_vec()));
        assert_eq!(other.judge(|view| Ok(view.last())), Ok(1));
        // The next write leaves another moment.
        let next = last.reader_of(&store);
        assert_eq!(next.last(), 2);
    }

    #[test]
    fn no_view_is_made_without_readers() {
        let (store, last) = (store(), LastMoment::default());
        let [one, other] = [(); 2].map(|()| last.reader_of(&store));
        one.release();
        one.release();
        let moment = Arc::clone(&other.moment);
        drop(other);
        last.leave(&store);
        assert!(lock(&moment.view).is_none());
        assert_eq!(moment.readers.load(Ordering::Relaxed), 0);
    }

    #[test]
    fn a_moment_that_a_write_left_is_found_by_a_late_reader() {
        let (store, last) = (store(), LastMoment::default());
        let reader = last.reader_of(&store);
        let view = reader.view(|| {
            last.leave(&store);
            store.put("a", "2").unwrap();
            Ok(store.view()?)
        });
        assert_eq!(view.unwrap().get("a").unwrap(), Some(b"1".to_vec()));
    }
}
