//! The views that readers share, and when.

use super::*;
use crate::flushes;
use crate::options::Options;
use crate::shared::Shared;
use crate::striped::own_place;
use std::thread;
use ucstore::Batch;

/// The number of threads that read: some share a slot.
const READERS: usize = 24;

impl ReadViews {
    /// The number of groups in each view that is held.
    fn held(&self) -> Vec<u64> {
        let taken = |held: &Option<VersionedView>| held.as_ref().map(|shown| shown.taken);
        let slots = self
            .slots
            .iter()
            .filter_map(|slot| taken(&lock(slot).shown));
        let others = slots.chain(taken(&lock(&self.sorted)));
        lock(&self.shown.0).taken().chain(others).collect()
    }

    /// Whether readers find a view of all groups without the store.
    fn is_shown(&self) -> bool {
        let shown = lock(&self.shown.0).share(self.taken()).unwrap();
        shown.is_some()
    }
}

fn in_memory() -> Shared {
    Shared::open(None, &Options::default()).unwrap()
}

fn batch_of(key: &str, number: u64) -> Vec<u8> {
    let mut batch = Batch::new();
    batch.put(key, number.to_le_bytes()).unwrap();
    batch.bytes()
}

fn put(shared: &Shared, number: u64) {
    shared.write(batch_of("k", number), false).unwrap();
}

fn get(shared: &Shared) -> u64 {
    let value = shared.read(b"k", |source| source.get(b"k")).unwrap();
    value.map_or(0, |text| u64::from_le_bytes(text.try_into().unwrap()))
}

/// Gets until the thread has a view.
fn get_by_view(shared: &Shared) -> u64 {
    for _ in 0..MOST_ASKED {
        get(shared);
    }
    get(shared)
}

/// Reads by threads that have slots of their own, and by a scan.
fn read_by_all(shared: &Shared) {
    thread::scope(|scope| {
        for _ in 0..READERS {
            scope.spawn(|| get_by_view(shared));
        }
    });
    shared.newest.sorted_view(&shared.store).unwrap();
}

#[test]
fn a_read_waits_for_no_group_that_came_behind_its_begin() {
    let shared = in_memory();
    put(&shared, 1);
    let least = shared.newest.taken();
    assert_eq!(get_by_view(&shared), 1);
    // A writer has taken a group that isn't shown, and has the store still.
    let store = lock(&shared.store);
    shared.newest.note(&batch_of("k", 1));
    shared.newest.last_writes.count();
    shared.newest.taken.0.fetch_add(1, Ordering::Release);
    let view = shared.newest.shown(least, &shared.store).unwrap().view;
    assert_eq!(view.last(), 1);
    drop(store);
    assert!(!shared.newest.is_shown());
    assert_eq!(get_by_view(&shared), 1);
    assert!(shared.newest.is_shown());
}

#[test]
fn a_few_lookups_behind_a_write_ask_the_store() {
    let shared = in_memory();
    for number in 1..5 {
        put(&shared, number);
        for _ in 0..MOST_ASKED {
            assert_eq!(get(&shared), number);
        }
        assert_eq!(shared.newest.held(), []);
    }
    assert_eq!(get(&shared), 4);
    assert!(shared.newest.is_shown());
}

#[test]
fn a_lookup_waits_for_no_store_if_a_view_is_shown() {
    let shared = in_memory();
    put(&shared, 1);
    let view = shared.view().unwrap();
    let store = lock(&shared.store);
    assert_eq!(get(&shared), 1);
    drop(store);
    assert_eq!(view.last(), 1);
}

#[test]
fn a_view_has_the_keys_that_were_not_written_since() {
    let shared = in_memory();
    put(&shared, 1);
    assert_eq!(get_by_view(&shared), 1);
    let held = shared.newest.held();
    for number in 0..10 {
        shared.write(batch_of("l", number), false).unwrap();
        shared.newest.is_used.0.store(false, Ordering::Relaxed);
        // It asks neither the store nor for a new view.
        assert_eq!(get_by_view(&shared), 1);
    }
    assert_eq!(shared.newest.held()[1..], held[1..]);
    put(&shared, 2);
    assert_eq!(get_by_view(&shared), 2);
    assert!(shared.newest.is_shown());
}

#[test]
fn writers_show_a_view_if_the_last_one_was_used() {
    let shared = in_memory();
    put(&shared, 1);
    assert_eq!(shared.newest.held(), []);
    for round in 2..20 {
        assert_eq!(get_by_view(&shared), round - 1);
        put(&shared, round);
        assert!(shared.newest.is_shown());
        // So no reader waits for the store.
        let store = lock(&shared.store);
        assert_eq!(get(&shared), round);
        drop(store);
    }
    put(&shared, 20);
    put(&shared, 21);
    assert!(!shared.newest.is_shown());
    // As many stay as there are slots and views before the shown one.
    assert!(shared.newest.held().len() <= 10);
}

#[test]
fn a_few_views_stay_while_one_thread_writes() {
    let shared = in_memory();
    let shown = || lock(&shared.newest.shown.0).taken().count();
    for round in 0..40 {
        put(&shared, round);
        get_by_view(&shared);
    }
    assert_eq!(shown(), 9);
    // A thread whose place is another one writes.
    let own = own_place();
    let write = || {
        let is_other = own_place() != own;
        if is_other {
            put(&shared, 40);
        }
        is_other
    };
    while !thread::scope(|scope| scope.spawn(write).join().unwrap()) {}
    assert_eq!(shown(), 1);
}

/// Scans until the next writer sorts.
fn scan_often(shared: &Shared) {
    for _ in 0..MANY_SCANS {
        shared.newest.sorted_view(&shared.store).unwrap();
    }
}

#[test]
fn a_writer_sorts_for_scans() {
    let shared = in_memory();
    let is_sorted = || {
        let shown = lock(&shared.newest.shown.0).share(shared.newest.taken());
        shown.unwrap().map(|shown| shown.is_sorted)
    };
    put(&shared, 1);
    assert_eq!(is_sorted(), None);
    scan_often(&shared);
    put(&shared, 2);
    assert_eq!(is_sorted(), Some(true));
    let view = shared.newest.sorted_view(&shared.store).unwrap();
    assert_eq!((view.last(), view.scan("", None).count()), (2, 1));
    // One scan is none too many, and what is much is sorted by who scans it.
    put(&shared, 3);
    assert_ne!(is_sorted(), Some(true));
    for number in 0..MOST_TO_SORT {
        shared.newest.scans.0.store(0, Ordering::Relaxed);
        put(&shared, number);
    }
    scan_often(&shared);
    put(&shared, 0);
    assert_ne!(is_sorted(), Some(true));
}

#[test]
fn a_writer_flushes_for_scans() {
    let shared = in_memory();
    let runs = || lock(&shared.store).report().runs;
    put(&shared, 1);
    shared
        .gathered
        .store(flushes::MOST_SORTED, Ordering::Relaxed);
    put(&shared, 2);
    assert_eq!(runs(), 0);
    scan_often(&shared);
    put(&shared, 3);
    assert_eq!((runs(), get(&shared)), (1, 3));
    // Little is sorted instead.
    scan_often(&shared);
    put(&shared, 4);
    assert_eq!(runs(), 1);
}

#[test]
fn what_there_is_is_shown_before_a_long_group() {
    let shared = in_memory();
    put(&shared, 1);
    assert_eq!(shared.newest.held(), []);
    let mut batch = Batch::new();
    batch.put("l", vec![7; 64 << 10]).unwrap();
    shared.write(batch.bytes(), false).unwrap();
    // The writer goes on to show what is used.
    assert!(shared.newest.is_shown());
}

#[test]
fn a_change_of_the_runs_is_shown() {
    let shared = in_memory();
    for round in 0..4 {
        put(&shared, round);
        shared.flush().unwrap();
        assert!(shared.newest.is_shown());
        assert_eq!(get_by_view(&shared), round);
    }
    assert!(shared.compact().unwrap());
    assert!(shared.newest.is_shown());
}

#[test]
fn slots_that_are_locked_are_passed_over() {
    let shared = in_memory();
    for number in 1..5 {
        put(&shared, number);
        let [own, next] = shared.newest.slots.own_and_next();
        let _own = lock(own);
        assert_eq!(get(&shared), number);
        let _next = lock(next);
        assert_eq!(get(&shared), number);
    }
}

/// All views that are held have the last change of the runs.
fn check_held(shared: &Shared) {
    let (newest, held) = (shared.newest.taken(), shared.newest.held());
    assert!(
        held.iter().all(|taken| *taken == newest),
        "{held:?} at {newest}"
    );
}

#[test]
fn views_are_let_go_when_runs_change() {
    let shared = in_memory();
    for round in 0..4 {
        put(&shared, round);
        read_by_all(&shared);
        assert!(shared.newest.held().len() > 3);
        shared.flush().unwrap();
        check_held(&shared);
        assert_eq!(shared.newest.held().len(), 1);
    }
    read_by_all(&shared);
    assert!(shared.newest.held().len() > 3);
    // A compaction of the four runs.
    assert!(shared.compact().unwrap());
    check_held(&shared);
    assert_eq!(shared.newest.held().len(), 1);
    assert_eq!(get(&shared), 3);
    // Nobody has read since the last one.
    let step = |number| {
        put(&shared, number);
        put(&shared, number);
        let store = lock(&shared.store);
        store.flush().unwrap();
        shared.newest.change(&store);
        drop(store);
        shared.newest.let_go();
    };
    step(4);
    assert_eq!(shared.newest.held(), []);
}

#[test]
fn views_are_let_go_when_the_store_flushes_by_itself() {
    let shared = in_memory();
    put(&shared, 1);
    read_by_all(&shared);
    for key in 0..200u8 {
        let mut batch = Batch::new();
        batch.delete_range([key], [key, 0]).unwrap();
        shared.write(batch.bytes(), false).unwrap();
    }
    assert!(lock(&shared.store).report().runs > 0);
    assert_eq!(shared.newest.held(), []);
    // One of them has the key.
    assert_eq!(get(&shared), 0);
}

#[test]
fn views_are_let_go_beside_reads() {
    let shared = in_memory();
    for round in 0..200 {
        let is_over = AtomicBool::new(false);
        thread::scope(|scope| {
            for _ in 0..3 {
                scope.spawn(|| {
                    while !is_over.load(Ordering::Relaxed) {
                        assert!(get(&shared) <= round);
                    }
                });
            }
            put(&shared, round);
            shared.flush().unwrap();
            shared.compact().unwrap();
            is_over.store(true, Ordering::Relaxed);
        });
        // Nothing was written since.
        check_held(&shared);
    }
}
