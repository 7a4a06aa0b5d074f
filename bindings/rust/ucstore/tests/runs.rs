//! Runs of views as files, and stores that are opened from them.

use std::io::Read;
use ucstore::{Batch, Operator, Options, Replayed, Run, RunError, Store, View};

/// A store that leaves its compactions to its owner.
fn empty() -> Store {
    let options = Options {
        compacts_itself: false,
        ..Default::default()
    };
    Store::create(Operator::Append, &options).unwrap()
}

/// Runs with a merged key, a key that one of them deletes, and one that a range deletion covers.
fn view_of_runs() -> View {
    let store = empty();
    for turn in 0..4u8 {
        store.merge("merged", [b'a' + turn]).unwrap();
        store.put([b'k', turn], "v").unwrap();
        store.flush().unwrap();
    }
    store.delete([b'k', 0]).unwrap();
    store.delete_range([b'k', 1], [b'k', 2]).unwrap();
    store.flush().unwrap();
    store.view().unwrap()
}

/// The files of a view's runs, the oldest first.
fn files_of(view: &View) -> Vec<Vec<u8>> {
    let read = |run: Run<'_>| {
        let mut bytes = run.bytes().unwrap();
        let mut file = Vec::new();
        bytes.read_to_end(&mut file).unwrap();
        assert_eq!(
            (bytes.size(), bytes.read(&mut [0; 9]).unwrap()),
            (file.len() as u64, 0)
        );
        file
    };
    view.runs().rev().map(read).collect()
}

fn opened(files: &[Vec<u8>]) -> Result<Store, RunError> {
    Store::from_runs(Operator::Append, &Options::default(), files)
}

fn rows_of(view: &View) -> Vec<(Vec<u8>, Vec<u8>)> {
    view.scan("", None).map(Result::unwrap).collect()
}

#[test]
fn a_store_reads_as_the_view_whose_runs_it_has() {
    let view = view_of_runs();
    let again = opened(&files_of(&view)).unwrap();
    assert_eq!(again.last(), view.last());
    assert_eq!(again.get("merged").unwrap(), Some(b"a,b,c,d".to_vec()));
    assert_eq!(rows_of(&again.view().unwrap()), rows_of(&view));
    assert_eq!(rows_of(&view).len(), 3);
    // Its compactions and later writes change no other row.
    again.merge("merged", "e").unwrap();
    again.flush().unwrap();
    while again.compact().unwrap() {}
    assert_eq!(again.get("merged").unwrap(), Some(b"a,b,c,d,e".to_vec()));
    assert_eq!(again.view().unwrap().scan("", None).count(), 3);
}

#[test]
fn runs_have_ids_and_ranges_of_sequences() {
    let view = view_of_runs();
    let runs = Vec::from_iter(view.runs());
    assert_eq!((runs.len(), view.runs().len()), (5, 5));
    let ids = Vec::from_iter(runs.iter().map(|run| run.id()));
    assert_eq!(ids, [5, 4, 3, 2, 1]);
    assert_eq!(runs[0].sequences(), 9..=10);
    assert_eq!(runs[4].sequences(), 1..=2);
}

#[test]
fn a_log_goes_on_after_runs() {
    let store = empty();
    store.put("a", "1").unwrap();
    store.flush().unwrap();
    let files = files_of(&store.view().unwrap());
    let log = store
        .prepare(0, Batch::new().merge("a", "2").unwrap())
        .unwrap();
    store.commit();
    let again = opened(&files).unwrap();
    let mut replay = again.replay(&log);
    assert!(matches!(
        replay.write_next(false),
        Ok(Replayed::Batch { .. })
    ));
    assert_eq!(again.get("a").unwrap(), Some(b"1,2".to_vec()));
    assert_eq!(again.last(), store.last());
}

#[test]
fn no_runs_open_an_empty_store() {
    let again = opened(&files_of(&empty().view().unwrap())).unwrap();
    assert_eq!((again.last(), again.view().unwrap().runs().count()), (0, 0));
}

#[test]
fn damage_is_told_with_its_file_and_offset() {
    let mut files = files_of(&view_of_runs());
    let size = files[2].len();
    files[2][3] ^= 1;
    let first = RunError::Damaged { file: 2, offset: 0 };
    assert_eq!(opened(&files).unwrap_err(), first);
    files[2][3] ^= 1;
    files[2].pop();
    let cut = RunError::Damaged {
        file: 2,
        offset: size - 1,
    };
    assert_eq!(opened(&files).unwrap_err(), cut);
    files[2].clear();
    let none = RunError::Damaged { file: 2, offset: 0 };
    assert_eq!(opened(&files).unwrap_err(), none);
}

#[test]
fn a_later_piece_is_told_by_its_offset() {
    let store = empty();
    for key in 0..3000u32 {
        store.put(key.to_be_bytes(), [b'v'; 60]).unwrap();
    }
    store.flush().unwrap();
    let mut files = files_of(&store.view().unwrap());
    assert!(files[0].len() > 3 << 16);
    files[0][(2 << 16) + 5] ^= 0x80;
    let third = RunError::Damaged {
        file: 0,
        offset: 2 << 16,
    };
    assert_eq!(opened(&files).unwrap_err(), third);
}

#[test]
fn runs_out_of_order_are_refused() {
    let mut files = files_of(&view_of_runs());
    files.swap(1, 2);
    assert_eq!(opened(&files).unwrap_err(), RunError::Unfit { file: 2 });
    files.swap(1, 2);
    files.insert(3, files[2].clone());
    assert_eq!(opened(&files).unwrap_err(), RunError::Unfit { file: 3 });
}

#[test]
fn a_store_with_writes_or_jobs_takes_no_run() {
    let files = files_of(&view_of_runs());
    let store = empty();
    assert_eq!(store.add_run(&files[0]), Ok(1));
    store
        .prepare(0, Batch::new().put("a", "1").unwrap())
        .unwrap();
    assert_eq!(store.add_run(&files[1]), Err(RunError::Unfit { file: 0 }));
    store.give_up();
    for file in &files[1..4] {
        store.add_run(file).unwrap();
    }
    let job = store.take_job().unwrap().expect("four runs");
    assert_eq!(store.add_run(&files[4]), Err(RunError::Unfit { file: 0 }));
    drop(store.end_job(job).unwrap());
    assert_eq!(store.add_run(&files[4]), Ok(5));
    assert_eq!(store.get("merged").unwrap(), Some(b"a,b,c,d".to_vec()));
}
