//! Processes that are ended by signal 9, and a folder that a process has open.

mod common;

use common::{is_long, seed, Numbers, Temporary};
use std::collections::HashMap;
use std::env;
use std::fs;
use std::io::{self, BufRead, BufReader, Write};
use std::path::Path;
use std::process::{Child, Command, Stdio};
use std::thread;
use std::time::{Duration, Instant};
use ucstore_db::{Batch, Db, Error, Operator, Options};

const THREADS: u64 = 8;

/// The variable that names the folder to the process that is ended.
const FOLDER: &str = "UCSTORE_DB_FOLDER";

fn options() -> Options {
    let mut options = Options {
        operator: Some(Operator::Counter),
        checkpoint_least: 20_000,
        ..Default::default()
    };
    options.store.write_buffer_size = 2000;
    options
}

fn number(value: Option<Vec<u8>>) -> u64 {
    value.map_or(0, |text| u64::from_le_bytes(text.try_into().unwrap()))
}

/// Both counters of a thread, which are equal at each moment.
fn both(db: &Db, thread: u64) -> u64 {
    let keys = [format!("a{thread}"), format!("b{thread}")];
    let values: Vec<u64> = db.get_many(keys).unwrap().into_iter().map(number).collect();
    assert_eq!(values[0], values[1]);
    values[0]
}

/// Counts, and says each number once it is acknowledged.
fn count(db: &Db, thread: u64) {
    let begun = Instant::now();
    let mut counted = both(db, thread);
    while begun.elapsed() < Duration::from_secs(10) {
        let mut batch = Batch::new();
        for kind in ["a", "b"] {
            let key = format!("{kind}{thread}");
            batch.merge(key, 1u64.to_le_bytes()).unwrap();
        }
        db.write(&batch).unwrap();
        counted += 1;
        let line = format!("\ncounted {thread} {counted}\n");
        io::stdout().write_all(line.as_bytes()).unwrap();
        assert!(both(db, (thread + counted) % THREADS) > 0 || counted < 99);
        if thread == 0 && counted.is_multiple_of(20) {
            db.checkpoint().unwrap();
        }
    }
}

/// The work of the process that is ended. On its own it does nothing.
#[test]
#[ignore]
fn child() {
    let Some(folder) = env::var_os(FOLDER) else {
        return;
    };
    let db = Db::open(folder, &options()).unwrap();
    thread::scope(|scope| {
        for thread in 0..THREADS {
            let db = &db;
            scope.spawn(move || count(db, thread));
        }
    });
}

fn start(folder: &Path) -> Child {
    Command::new(env::current_exe().unwrap())
        .args(["--exact", "child", "--ignored", "--nocapture"])
        .env(FOLDER, folder)
        .stdout(Stdio::piped())
        .stderr(Stdio::null())
        .spawn()
        .unwrap()
}

/// The last number that each thread said.
fn said(child: &mut Child) -> HashMap<u64, u64> {
    let mut said = HashMap::new();
    let lines = BufReader::new(child.stdout.take().unwrap()).split(b'\n');
    for line in lines.map_while(Result::ok) {
        let line = String::from_utf8_lossy(&line).into_owned();
        let words: Vec<&str> = line.split(' ').collect();
        if let ["counted", thread, counted] = words[..] {
            said.insert(thread.parse().unwrap(), counted.parse().unwrap());
        }
    }
    said
}

#[test]
fn a_process_that_is_ended_loses_nothing() {
    let folder = Temporary::new("ended");
    let mut numbers = Numbers(seed(7));
    let mut whole = 0;
    for _ in 0..if is_long() { 500 } else { 50 } {
        let mut child = start(folder.path());
        thread::sleep(Duration::from_millis(20 + numbers.below(150)));
        child.kill().unwrap();
        let said = said(&mut child);
        child.wait().unwrap();
        let db = Db::open(folder.path(), &options()).unwrap();
        whole = 0;
        for thread in 0..THREADS {
            let counted = both(&db, thread);
            let least = said.get(&thread).copied().unwrap_or(0);
            assert!(least <= counted, "{counted} of {least} are there");
            // A thread has one write under way. Threads that said nothing counted before.
            assert!(counted <= least + 1 || least == 0);
            whole += counted;
        }
    }
    assert!(whole > 0);
}

#[test]
fn a_second_process_is_refused() {
    let folder = Temporary::new("refused");
    let mut child = start(folder.path());
    let mut lines = BufReader::new(child.stdout.take().unwrap()).lines();
    lines.find(|line| line.as_ref().is_ok_and(|line| line.starts_with("counted")));
    let refused = Db::open(folder.path(), &options());
    child.kill().unwrap();
    child.wait().unwrap();
    match refused {
        Err(Error::Locked { file }) => assert!(file.ends_with("LOCK")),
        other => panic!("{other:?}"),
    }
    let db = Db::open(folder.path(), &options()).unwrap();
    assert!(matches!(
        Db::open(folder.path(), &options()),
        Err(Error::Locked { .. })
    ));
    db.close().unwrap();
    Db::open(folder.path(), &options()).unwrap();
}

/// The work of another process in another directory. On its own it does nothing.
#[test]
#[ignore]
fn wanderer() {
    let Some(folder) = env::var_os(FOLDER) else {
        return;
    };
    let by_hand = Options {
        checkpoint_least: u64::MAX,
        ..options()
    };
    let folder = Path::new(&folder);
    for (place, key) in [("there", "other"), ("here", "mine")] {
        let db = Db::open(folder.join(place).join("data"), &by_hand).unwrap();
        db.put(key, 1u64.to_le_bytes()).unwrap();
        db.close().unwrap();
    }
    env::set_current_dir(folder.join("here")).unwrap();
    let db = Db::open("data", &by_hand).unwrap();
    env::set_current_dir(folder.join("there")).unwrap();
    db.checkpoint().unwrap();
    db.put("more", 2u64.to_le_bytes()).unwrap();
    db.checkpoint().unwrap();
    db.close().unwrap();
}

#[test]
fn a_relative_path_stays_the_same_folder() {
    let folder = Temporary::new("wanders");
    let ended = Command::new(env::current_exe().unwrap())
        .args(["--exact", "wanderer", "--ignored", "--nocapture"])
        .env(FOLDER, folder.path())
        .stdout(Stdio::null())
        .status()
        .unwrap();
    assert!(ended.success());
    let keys = |place: &str| -> Vec<Vec<u8>> {
        let db = Db::open(folder.path().join(place).join("data"), &options()).unwrap();
        db.iter().unwrap().map(|row| row.unwrap().0).collect()
    };
    assert_eq!(keys("here"), [b"mine".to_vec(), b"more".to_vec()]);
    assert_eq!(keys("there"), [b"other".to_vec()]);
}

#[test]
fn a_database_that_must_exist_is_not_made() {
    let above = Temporary::new("must-exist");
    let folder = above.path().join("data");
    let must_exist = Options {
        must_exist: true,
        ..options()
    };
    let refused = Db::open(&folder, &must_exist).unwrap_err();
    assert!(matches!(refused, Error::Missing { .. }), "{refused}");
    assert!(!above.path().exists());
    // A directory without a database, also if it had one.
    fs::create_dir_all(&folder).unwrap();
    for name in ["notes.txt", "OPERATOR"] {
        let refused = Db::open(&folder, &must_exist).unwrap_err();
        assert!(matches!(refused, Error::Missing { .. }), "{refused}");
        assert!(!folder.join("LOCK").exists());
        fs::write(folder.join(name), "counter\n").unwrap();
    }
    let refused = Db::open(&folder, &must_exist).unwrap_err();
    assert!(matches!(refused, Error::Missing { .. }), "{refused}");
    Db::open(&folder, &options()).unwrap().close().unwrap();
    // One without its lock, as of a backup, is there.
    fs::remove_file(folder.join("LOCK")).unwrap();
    let db = Db::open(&folder, &must_exist).unwrap();
    db.put("k", 1u64.to_le_bytes()).unwrap();
}

#[test]
fn the_folders_above_are_made() {
    let above = Temporary::new("above");
    let folder = above.path().join("one/other");
    let db = Db::open(&folder, &options()).unwrap();
    db.put("k", "v").unwrap();
    db.close().unwrap();
    let db = Db::open(&folder, &options()).unwrap();
    assert_eq!(db.get("k").unwrap(), Some(b"v".to_vec()));
}

extern "C" {
    fn fork() -> i32;
    fn waitpid(process: i32, status: *mut i32, options: i32) -> i32;
    fn _exit(status: i32) -> !;
}

/// The status of a child that does something with what its parent has, or none if it isn't done in time.
fn status_of_child(work: impl FnOnce() -> bool) -> Option<i32> {
    const NO_WAIT: i32 = 1;
    // SAFETY: The child calls nothing but the database, and ends.
    let child = unsafe { fork() };
    if child == 0 {
        let status = i32::from(!work());
        // SAFETY: It has no other thread.
        unsafe { _exit(status) }
    }
    let begun = Instant::now();
    let mut status = 0;
    // SAFETY: It is this process's child.
    while unsafe { waitpid(child, &mut status, NO_WAIT) } == 0 {
        if begun.elapsed() > Duration::from_secs(10) {
            let _ = Command::new("kill")
                .args(["-9", &child.to_string()])
                .status();
            return None;
        }
        thread::sleep(Duration::from_millis(1));
    }
    Some(status)
}

#[test]
fn a_forked_child_drops_what_its_parent_has() {
    let folder = Temporary::new("forked");
    let db = Db::open(folder.path(), &options()).unwrap();
    db.merge("a0", 1u64.to_le_bytes()).unwrap();
    let child = db.clone();
    let closed = status_of_child(|| matches!(child.close(), Err(Error::Closed)));
    assert_eq!(closed, Some(0));
    drop(child);
    let mut owned = Some(db);
    let dropped = status_of_child(|| owned.take().is_some());
    assert_eq!(dropped, Some(0));
    // The parent's goes on, and is locked.
    let db = owned.unwrap();
    db.merge("a0", 1u64.to_le_bytes()).unwrap();
    assert_eq!(number(db.get("a0").unwrap()), 2);
    let refused = Db::open(folder.path(), &options());
    assert!(matches!(refused, Err(Error::Locked { .. })));
    db.close().unwrap();
}
