//! [`ReadViews`]: the views that readers share.

use crate::cache_padded::CachePadded;
use crate::error::Error;
use crate::last_write_table::LastWriteTable;
use crate::moment::{LastMoment, MomentReader};
use crate::read_source::ReadSource;
use crate::spin_wait::SpinWait;
use crate::striped::Striped;
use crate::versioned_view::VersionedView;
use crate::view_cache::ViewCache;
use crate::{lock, try_lock};
use std::sync::atomic::{fence, AtomicBool, AtomicU32, AtomicU64, Ordering};
use std::sync::{Mutex, MutexGuard};
use ucstore::{Store, View};

/// From how many scans between two groups on the writer sorts the next view for them.
const MANY_SCANS: u32 = 2;

/// The most writes that a writer sorts.
const MOST_TO_SORT: u64 = 1024;

/// The number of times that a thread asks the store itself between two groups. Then it has a view, and needs no lock that threads share.
pub(crate) const MOST_ASKED: u32 = 4;

/// The newest views of a store.
///
/// A read needs the groups that were taken before it began, and no more: so those who wait for a view together share it.
/// A thread looks keys up in the view of a slot, which is locked for it alone. A key that no group has written since is in an old view
/// as it is now. For another key it asks the store itself, unless that isn't free soon or was asked often since the last group: then it
/// renews the view from the shown one. So threads that write and read make few views, and each one makes the store's memtables more.
/// The writer of the next group shows the next one if this one was used. Else the first reader after it does. After many scans it
/// also sorts that for them, so that no thread that scans has to.
///
/// There are 26 views at most: those of 16 slots, one for scans, the shown one, and eight before it.
/// A view holds the memtables and runs that the store had. A thread that changes the runs releases all views before that, whether anyone
/// reads or not. So for long these hold only the runs that the store has, and of what is gathered copies that it has put together
/// since. What was replaced they hold for as long as a lookup or a sort takes that began before.
///
/// Locks are taken in the order of these fields, and the store's before that of `shown`.
#[derive(Default)]
pub(crate) struct ReadViews {
    /// The number of groups taken, or changes of the runs. It is raised while the store is locked.
    taken: CachePadded<AtomicU64>,
    /// Their number at the last change of the runs.
    changed: CachePadded<AtomicU64>,
    slots: Striped<Mutex<Slot>>,
    /// A view for scans, in which what no run has yet is sorted.
    sorted: Mutex<Option<VersionedView>>,
    /// It is locked for no longer than a share takes.
    shown: CachePadded<Mutex<ViewCache>>,
    /// Whether the shown view was used.
    is_used: CachePadded<AtomicBool>,
    /// The number of scans since then, up to [`MANY_SCANS`].
    scans: CachePadded<AtomicU32>,
    last_writes: LastWriteTable,
    /// The moment at which transactions begin. Locked after `store`.
    moment: CachePadded<LastMoment>,
}

/// The view in which a thread looks keys up.
#[derive(Default)]
struct Slot {
    shown: Option<VersionedView>,
    /// The number of times that the store was to be asked instead, at a number of groups.
    asked: u32,
    asked_at: u64,
}

impl Slot {
    /// Whether the store may be asked at this number of groups. Then it is counted.
    fn may_ask(&mut self, taken: u64) -> bool {
        if self.asked_at != taken {
            (self.asked, self.asked_at) = (0, taken);
        }
        self.asked += 1;
        self.asked <= MOST_ASKED
    }
}

impl ReadViews {
    /// Notes the group that the store takes next. Only who writes it calls this.
    pub(crate) fn note(&self, batch: &[u8]) {
        self.last_writes.record(batch);
    }

    /// Notes that the store's next group may write each key, as [`note`](ReadViews::note) does.
    pub(crate) fn note_all(&self) {
        self.last_writes.record_all();
    }

    /// The moment now, for a transaction. If the store stays locked, it has a view of its own.
    pub(crate) fn moment(&self, store: &Mutex<Store>) -> Result<MomentReader, Error> {
        if let Some(reader) = self.moment.0.reader() {
            return Ok(reader);
        }
        match SpinWait::Short.spin_until(|| try_lock(store)) {
            Some(store) => Ok(self.moment.0.reader_of(&store)),
            None => Ok(MomentReader::of_view(self.view(store)?)),
        }
    }

    /// Leaves the moment. Requires `store` held until the group is taken.
    pub(crate) fn leave_moment(&self, store: &Store) {
        self.moment.0.leave(store);
    }

    /// Tells that the store has taken a group, before it is unlocked. It waits for no reader: one of these shows the view if it can't.
    pub(crate) fn raise(&self, store: &Store) {
        self.last_writes.count();
        self.publish(store, || {
            SpinWait::Short.spin_until(|| try_lock(&self.shown.0))
        });
    }

    /// Tells that the store's runs were changed, before it is unlocked. Then the caller releases older views.
    pub(crate) fn change(&self, store: &Store) {
        self.publish(store, || Some(lock(&self.shown.0)));
    }

    /// Looks a key up in what has it as each group leaves it that was taken before the call: a view, or the store itself.
    pub(crate) fn read<T>(
        &self,
        key: &[u8],
        store: &Mutex<Store>,
        read: impl FnOnce(ReadSource<'_>) -> Result<T, ucstore::Error>,
    ) -> Result<T, Error> {
        let least = self.taken();
        let slots = self.slots.own_and_next().into_iter();
        let mut free = slots.filter_map(|slot| Some((slot, try_lock(slot)?)));
        let Some((slot, mut held)) = free.next() else {
            return Ok(read(ReadSource::View(&self.shown(least, store)?.view))?);
        };
        let has_key = |shown: &VersionedView| {
            shown.taken >= least || self.last_writes.is_as_of(key, shown.groups)
        };
        if !held.shown.as_ref().is_some_and(has_key) {
            let ask = || SpinWait::Short.spin_until(|| try_lock(store));
            if let Some(store) = held.may_ask(least).then(ask).flatten() {
                let old = held.shown.as_ref().map(|shown| shown.taken);
                drop(held);
                let value = read(ReadSource::Store(&store));
                drop(store);
                // The slot was locked here when others may have released old views.
                if let Some(taken) = old {
                    self.end_use(taken, || self.let_go_of(slot));
                }
                return Ok(value?);
            }
            held.shown = None;
            held.shown = Some(self.shown(least, store)?);
        }
        let shown = held.shown.as_ref().expect("it was renewed");
        let (value, taken) = (read(ReadSource::View(&shown.view)), shown.taken);
        drop(held);
        self.end_use(taken, || self.let_go_of(slot));
        Ok(value?)
    }

    /// A view that has each group that was taken before the call.
    pub(crate) fn view(&self, store: &Mutex<Store>) -> Result<View, Error> {
        Ok(self.shown(self.taken(), store)?.view)
    }

    /// A view as [`view`](ReadViews::view) gives it, in which what no run has yet is sorted. Scans of it don't sort again. Who comes
    /// while it is sorted does so too: to wait takes longer.
    pub(crate) fn sorted_view(&self, store: &Mutex<Store>) -> Result<View, Error> {
        let least = self.taken();
        self.count_scan();
        let sorted = lock(&self.sorted);
        if let Some(shown) = sorted.as_ref().filter(|it| it.taken >= least) {
            let (view, taken) = (shown.view.again(), shown.taken);
            drop(sorted);
            self.end_use(taken, || self.let_go_of_sorted());
            return Ok(view?);
        }
        drop(sorted);
        let mut shown = self.shown(least, store)?;
        shown.sort()?;
        let (taken, again) = (shown.taken, shown.again()?);
        let mut sorted = lock(&self.sorted);
        let is_newer = sorted.as_ref().is_none_or(|it| it.taken < taken);
        let old = is_newer.then(|| sorted.replace(again));
        drop(sorted);
        drop(old);
        self.end_use(taken, || self.let_go_of_sorted());
        Ok(shown.view)
    }

    /// Shows what there is to readers that come while the store is locked for long. Changes of the runs are shown meanwhile.
    pub(crate) fn renew(&self, store: &Mutex<Store>) -> Result<(), Error> {
        self.shown(self.taken(), store).map(drop)
    }

    /// Releases the views that miss a change of the runs, which the caller has made. It doesn't hold the store any more.
    ///
    /// It waits for no reader: one that uses a view releases it itself. The shown one goes first: a thread that takes another from it meanwhile
    /// uses that.
    pub(crate) fn let_go(&self) {
        let least = self.taken();
        self.changed.0.fetch_max(least, Ordering::Relaxed);
        // Either this finds a view that is unlocked, or its user finds the change.
        fence(Ordering::SeqCst);
        let old = lock(&self.shown.0).take_old(least);
        // Memory that only they hold is freed while nobody waits.
        drop(old);
        for slot in self.slots.iter() {
            self.let_go_of(slot);
        }
        self.let_go_of_sorted();
    }

    /// Releases a view at a number of groups, which was used and is unlocked, if the runs were changed since.
    fn end_use(&self, taken: u64, let_go: impl FnOnce()) {
        fence(Ordering::SeqCst);
        if taken < self.changed.0.load(Ordering::Relaxed) {
            let_go();
        }
    }

    /// Releases a slot's view that misses a change of the runs, unless it is used.
    fn let_go_of(&self, slot: &Mutex<Slot>) {
        let old = try_lock(slot).and_then(|mut slot| self.take_old(&mut slot.shown));
        drop(old);
    }

    /// Releases the view for scans if it misses a change of the runs, unless it is used.
    fn let_go_of_sorted(&self) {
        let old = try_lock(&self.sorted).and_then(|mut held| self.take_old(&mut held));
        drop(old);
    }

    /// Takes out a view that misses a change of the runs.
    fn take_old(&self, held: &mut Option<VersionedView>) -> Option<VersionedView> {
        let least = self.changed.0.load(Ordering::Relaxed);
        held.take_if(|shown| shown.taken < least)
    }

    /// The number of groups taken.
    fn taken(&self) -> u64 {
        self.taken.0.load(Ordering::Acquire)
    }

    /// A view that has at least this many groups.
    fn shown(&self, least: u64, store: &Mutex<Store>) -> Result<VersionedView, Error> {
        self.use_shown();
        if let Some(shown) = lock(&self.shown.0).share(least)? {
            return Ok(shown);
        }
        let store = lock(store);
        // It may be there by now.
        if let Some(shown) = lock(&self.shown.0).share(least)? {
            return Ok(shown);
        }
        let shown = VersionedView {
            view: store.view()?,
            taken: self.taken(),
            groups: self.last_writes.groups(),
            is_sorted: false,
        };
        let old = lock(&self.shown.0).show(shown.again()?);
        drop(store);
        drop(old);
        Ok(shown)
    }

    /// Whether there were many scans after the last group, or change of the runs.
    pub(crate) fn is_scanned(&self) -> bool {
        self.scans.0.load(Ordering::Relaxed) >= MANY_SCANS
    }

    /// Counts a scan, as far as it matters.
    fn count_scan(&self) {
        let scans = self.scans.0.load(Ordering::Relaxed);
        if scans < MANY_SCANS {
            self.scans.0.store(scans + 1, Ordering::Relaxed);
        }
    }

    /// Notes that the shown view is used. Threads share the note's cache line while it is there.
    fn use_shown(&self) {
        if !self.is_used.0.load(Ordering::Relaxed) {
            self.is_used.0.store(true, Ordering::Relaxed);
        }
    }

    /// Counts what the store has taken, and shows it if the shown view was used. Who reads in the next one finds that it is counted:
    /// so nobody who reads after that sees less.
    fn publish<'a>(
        &self,
        store: &Store,
        shown: impl FnOnce() -> Option<MutexGuard<'a, ViewCache>>,
    ) {
        let is_scanned = self.scans.0.swap(0, Ordering::Relaxed) >= MANY_SCANS
            && store.report().gathered <= MOST_TO_SORT;
        let is_used = self.is_used.0.swap(false, Ordering::Relaxed) || is_scanned;
        let mut next = is_used.then(|| self.next(store).ok()).flatten();
        if let Some(next) = next.as_mut().filter(|_| is_scanned) {
            let _ = next.sort();
        }
        let shown = next.and_then(|next| Some((next, shown()?)));
        self.taken.0.fetch_add(1, Ordering::Release);
        if let Some((next, mut shown)) = shown {
            let old = shown.show_written(next);
            drop(shown);
            drop(old);
        }
    }

    /// Returns the view to publish next.
    fn next(&self, store: &Store) -> Result<VersionedView, Error> {
        Ok(VersionedView {
            view: store.view()?,
            taken: self.taken() + 1,
            groups: self.last_writes.groups(),
            is_sorted: false,
        })
    }
}

/// Sorts what no run has yet in a view, for it and those that are made of it: its first scan does so.
pub(crate) fn sort(view: &View) -> Result<(), Error> {
    view.scan("", Some(b"")).next_row()?;
    Ok(())
}

#[cfg(test)]
mod tests;
