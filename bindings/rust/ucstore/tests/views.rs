//! Views that threads read, and jobs that threads run, while the store goes on.

use std::mem::MaybeUninit;
use std::sync::mpsc;
use std::thread;
use ucstore::{Ended, Error, Job, LookupSource, Operator, Options, Store, View};

/// A store that leaves its compactions to jobs.
fn empty(operator: Operator) -> Store {
    let options = Options {
        compacts_itself: false,
        ..Default::default()
    };
    Store::create(operator, &options).unwrap()
}

fn number(value: Option<Vec<u8>>) -> u64 {
    value.map_or(0, |text| u64::from_le_bytes(text.try_into().unwrap()))
}

/// Some runs, which are worth compacting.
fn write_runs(store: &Store, runs: u32) {
    for run in 0..runs {
        store.put(run.to_be_bytes(), "v").unwrap();
        store.flush().unwrap();
    }
}

#[test]
fn a_view_stays_what_it_is() {
    let store = empty(Operator::Append);
    store.put("a", "1").unwrap();
    store.put("b", "2").unwrap();
    let view = store.view().unwrap();
    store.delete_range("", "z").unwrap();
    store.flush().unwrap();
    while store.compact().unwrap() {}
    let again = view.again().unwrap();
    let last = store.last();
    drop((view, store));
    assert_eq!(again.get("a").unwrap(), Some(b"1".to_vec()));
    assert_eq!(again.get("c").unwrap(), None);
    let found = again.get_many(["b", "c"]).unwrap();
    assert_eq!(found, [Some(b"2".to_vec()), None]);
    assert_eq!((again.last(), again.report().last, last), (2, 2, 3));
    assert_eq!(again.scan("", None).count(), 2);
    assert_eq!(again.clone().prefix("b").count(), 1);
    let mut rows = again.into_prefix("");
    assert_eq!(rows.next_row(), Ok(Some((&b"a"[..], &b"1"[..]))));
    assert_eq!(rows.map(Result::unwrap).count(), 1);
}

#[test]
fn a_store_and_its_views_say_where_they_look() {
    use LookupSource::{Filters, Memtable, Runs};
    let store = empty(Operator::Append);
    store.put("flushed", "1").unwrap();
    store.put("merged", "1").unwrap();
    store.flush().unwrap();
    store.merge("merged", "2").unwrap();
    store.merge("alone", "1").unwrap();
    store.put("put", "1").unwrap();
    store.delete("deleted").unwrap();
    store.delete_range("r", "s").unwrap();
    let view = store.view().unwrap();
    let wanted = [
        ("flushed", Runs),
        ("merged", Runs),
        ("alone", Filters),
        ("nowhere", Filters),
        ("put", Memtable),
        ("deleted", Memtable),
        ("range", Memtable),
    ];
    for (key, source) in wanted {
        assert_eq!(store.source(key), Ok(source), "{key}");
    }
    store.flush().unwrap();
    for (key, source) in wanted {
        assert_eq!(view.source(key), Ok(source), "{key}");
        let is_written = key != "nowhere";
        assert_eq!(
            store.source(key),
            Ok(if is_written { Runs } else { Filters })
        );
    }
}

#[test]
fn values_are_read_into_memory_that_is_there() {
    let store = empty(Operator::Append);
    let long = vec![7; 3000];
    store.put("empty", "").unwrap();
    store.put("long", &long).unwrap();
    store.merge("joined", "a").unwrap();
    store.merge("joined", "b").unwrap();
    let view = store.view().unwrap();
    let mut value = b"before".to_vec();
    for (key, wanted) in [("joined", &b"a,b"[..]), ("long", &long), ("empty", b"")] {
        assert_eq!(view.get_into(key, &mut value), Ok(true));
        assert_eq!(value, wanted);
        assert_eq!(view.get(key).unwrap().as_deref(), Some(wanted));
    }
    let memory = value.as_ptr();
    assert_eq!(view.get_into("long", &mut value), Ok(true));
    assert!(value == long && value.as_ptr() == memory);
    assert_eq!(view.get_into("none", &mut value), Ok(false));
    assert!(value.is_empty() && value.capacity() >= long.len());
    assert_eq!(view.get_into("empty", &mut Vec::new()), Ok(true));
}

#[test]
fn a_room_takes_as_much_of_a_value_as_fits() {
    let store = empty(Operator::Append);
    store.put("k", "abcdef").unwrap();
    let view = store.view().unwrap();
    for (length, wanted) in [(0, "........"), (4, "abcd...."), (8, "abcdef..")] {
        let mut room = [MaybeUninit::new(b'.'); 8];
        assert_eq!(view.get_to_room("k", &mut room[..length]), Ok(Some(6)));
        // SAFETY: All of it had values before.
        assert_eq!(
            room.map(|byte| unsafe { byte.assume_init() }),
            wanted.as_bytes()
        );
        assert_eq!(view.get_to_room("none", &mut room), Ok(None));
    }
}

#[test]
fn a_view_reads_the_snapshots_that_were_there() {
    let store = empty(Operator::Append);
    store.put("k", "old").unwrap();
    let sequence = store.take_snapshot().unwrap();
    let view = store.view().unwrap();
    store.release(sequence).unwrap();
    assert_eq!(view.get_at("k", sequence).unwrap(), Some(b"old".to_vec()));
    assert_eq!(view.scan_at("", None, sequence).count(), 1);
    assert_eq!(view.get_at("k", 7), Err(Error::NotProtected));
}

#[test]
fn a_store_opens_from_the_checkpoint_of_a_view() {
    let store = empty(Operator::Append);
    for number in 0..300u32 {
        store.put(number.to_be_bytes(), "old").unwrap();
        store.merge(number.to_be_bytes(), "new").unwrap();
    }
    store.put("long", vec![b'v'; 1 << 20]).unwrap();
    store
        .delete_range(7u32.to_be_bytes(), 9u32.to_be_bytes())
        .unwrap();
    let view = store.view().unwrap();
    let checkpoint = view.checkpoint().unwrap();
    store.put("later", "1").unwrap();
    drop(store);
    let pieces: Vec<_> = checkpoint.map(Result::unwrap).collect();
    // Only a row that is larger makes a larger piece.
    let (last, others) = pieces.split_last().unwrap();
    assert!(last.len() > 1 << 20 && others.len() > 1);
    assert!(others.iter().all(|piece| piece.len() <= 64 << 10));
    let (again, ended) =
        Store::open(Operator::Append, &Options::default(), &pieces.concat()).unwrap();
    assert_eq!((ended, again.last()), (Ended::Clean, 299));
    assert!(again.scan("", None).eq(view.scan("", None)));
}

#[test]
fn the_checkpoint_of_nothing_has_no_piece() {
    let mut checkpoint = empty(Operator::Tail).view().unwrap().checkpoint().unwrap();
    assert_eq!(checkpoint.next_piece(), Ok(None));
    assert_eq!(checkpoint.next_piece(), Ok(None));
}

/// Counts what a view has of one key, which never falls from view to view.
fn read_all(views: mpsc::Receiver<View>) -> usize {
    let (mut least, mut count) = (0, 0);
    for view in views {
        let now = number(view.get("k").unwrap());
        assert!(now >= least && now == view.last());
        (least, count) = (now, count + 1);
    }
    count
}

#[test]
fn threads_read_views_while_the_store_is_written() {
    let store = empty(Operator::Counter);
    let mut readers = vec![];
    for _ in 0..3 {
        let (sender, views) = mpsc::channel();
        readers.push((sender, thread::spawn(move || read_all(views))));
    }
    for write in 0..3000 {
        store.merge("k", 1u64.to_le_bytes()).unwrap();
        if write % 10 == 0 {
            let view = store.view().unwrap();
            for (sender, _) in &readers {
                sender.send(view.clone()).unwrap();
            }
        }
    }
    for (sender, reader) in readers {
        drop(sender);
        assert_eq!(reader.join().unwrap(), 300);
    }
}

#[test]
fn a_job_is_run_beside_writes() {
    let store = empty(Operator::Append);
    write_runs(&store, 8);
    let mut job = store.take_job().unwrap().unwrap();
    let worker = thread::spawn(move || {
        job.run().unwrap();
        job
    });
    store.put("k", "v").unwrap();
    assert!(store
        .end_job(worker.join().unwrap())
        .unwrap()
        .is_installed());
    assert!(store.report().runs < 8);
    assert_eq!(store.scan("", None).count(), 9);
    assert_eq!(store.get("k").unwrap(), Some(b"v".to_vec()));
}

#[test]
fn a_job_that_was_not_run_gives_its_runs_back() {
    let store = empty(Operator::Append);
    assert!(store.take_job().unwrap().is_none());
    write_runs(&store, 8);
    let job = store.take_job().unwrap().unwrap();
    assert!(!store.end_job(job).unwrap().is_installed());
    assert_eq!(store.report().runs, 8);
    let mut again = store.take_job().unwrap().unwrap();
    again.run().unwrap();
    assert!(store.end_job(again).unwrap().is_installed());
}

/// A store that leaves memtables of 100 bytes to jobs, up to three of them.
fn leaving() -> Store {
    let options = Options {
        write_buffer_size: 100,
        max_write_buffer_number: 3,
        ..Default::default()
    };
    Store::create(Operator::Append, &options).unwrap()
}

/// Writes until there is a job, which is a flush.
fn write_until_full(store: &Store) -> Job {
    let runs = store.report().runs;
    loop {
        store.put("k", "v").unwrap();
        assert_eq!(store.report().runs, runs);
        if let Some(job) = store.take_job().unwrap() {
            return job;
        }
    }
}

#[test]
fn a_full_memtable_is_flushed_beside_writes() {
    let store = leaving();
    let mut job = write_until_full(&store);
    let last = store.last();
    let worker = thread::spawn(move || {
        job.run().unwrap();
        job
    });
    store.put("behind", "it").unwrap();
    assert!(store.take_job().unwrap().is_none());
    let ended = store.end_job(worker.join().unwrap()).unwrap();
    assert!(ended.is_installed());
    assert_eq!((store.report().runs, store.report().gathered), (1, 1));
    assert_eq!(store.last(), last + 1);
    assert_eq!(store.get("k").unwrap(), Some(b"v".to_vec()));
}

#[test]
fn a_flush_that_comes_late_installs_nothing() {
    let store = leaving();
    let mut job = write_until_full(&store);
    store.flush().unwrap();
    job.run().unwrap();
    assert!(!store.end_job(job).unwrap().is_installed());
    assert_eq!(store.report().runs, 1);
    // One that is forgotten is flushed by a write, once three memtables are full.
    drop(write_until_full(&store));
    while store.report().runs == 1 {
        assert!(store.report().gathered < 100);
        assert!(store.take_job().unwrap().is_none());
        store.put("k", "v").unwrap();
    }
    let job = write_until_full(&store);
    assert!(!store.end_job(job).unwrap().is_installed());
}

#[test]
fn a_job_ends_on_its_own_store_alone() {
    let (store, other) = (empty(Operator::Append), empty(Operator::Append));
    write_runs(&store, 8);
    write_runs(&other, 8);
    let mut job = store.take_job().unwrap().unwrap();
    job.run().unwrap();
    let back = other.end_job(job).unwrap_err();
    assert_eq!(other.report().runs, 8);
    assert!(store.end_job(back).unwrap().is_installed());
}

#[test]
fn a_full_store_says_that_jobs_have_its_runs() {
    let options = Options {
        write_buffer_size: 1,
        compaction_trigger: 255,
        stop_trigger: 255,
        compacts_itself: false,
        ..Default::default()
    };
    let store = Store::create(Operator::Append, &options).unwrap();
    write_runs(&store, 255);
    let mut job = store.take_job().unwrap().unwrap();
    assert!(store.take_job().unwrap().is_none());
    write_runs(&store, 1);
    store.put("k", "v").unwrap();
    assert_eq!(store.put("k", "w"), Err(Error::RunsClaimed));
    assert_eq!(store.flush(), Err(Error::RunsClaimed));
    job.run().unwrap();
    assert!(store.end_job(job).unwrap().is_installed());
    store.put("k", "w").unwrap();
    assert_eq!(store.get("k").unwrap(), Some(b"w".to_vec()));
}

#[test]
fn a_job_outlives_its_store() {
    let store = empty(Operator::Append);
    write_runs(&store, 8);
    let mut job = store.take_job().unwrap().unwrap();
    drop(store);
    job.run().unwrap();
}
