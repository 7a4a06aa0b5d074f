//! A database that is closed while a base is written.

mod common;

use common::{map_of, Temporary};
use std::io;
use std::sync::{Arc, Barrier};
use std::thread;
use std::time::Duration;
use ucstore_db::{Db, DiskFolder, Error, File, Folder, Options};

/// A folder of the file system, where one file gets its name once that is let.
struct Held {
    folder: DiskFolder,
    /// The end of its name.
    name: &'static str,
    /// Tells that it wants its name, and waits.
    gate: Arc<(Barrier, Barrier)>,
}

impl Held {
    fn wait(&self, name: &str) {
        if name.ends_with(self.name) {
            self.gate.0.wait();
            self.gate.1.wait();
        }
    }
}

impl Folder for Held {
    fn names(&self) -> io::Result<Vec<String>> {
        self.folder.names()
    }

    fn length(&self, name: &str) -> io::Result<u64> {
        self.folder.length(name)
    }

    fn read(&self, name: &str) -> io::Result<Vec<u8>> {
        self.folder.read(name)
    }

    fn create(&self, name: &str) -> io::Result<Box<dyn File>> {
        self.wait(name);
        self.folder.create(name)
    }

    fn open(&self, name: &str) -> io::Result<Box<dyn File>> {
        self.folder.open(name)
    }

    fn rename(&self, from: &str, to: &str) -> io::Result<()> {
        self.wait(to);
        self.folder.rename(from, to)
    }

    fn remove(&self, name: &str) -> io::Result<()> {
        self.folder.remove(name)
    }

    fn sync(&self) -> io::Result<()> {
        self.folder.sync()
    }
}

/// Closes a database while a file of a checkpoint wants its name: the close waits for it, and the directory may be opened then. Tells
/// whether there is a checkpoint then, and its outcome.
fn close_while_held(name: &'static str) -> (bool, Result<(), Error>) {
    let temporary = Temporary::new(name);
    let gate = Arc::new((Barrier::new(2), Barrier::new(2)));
    let folder = Held {
        folder: DiskFolder::open(temporary.path()).unwrap(),
        name,
        gate: Arc::clone(&gate),
    };
    let db = Db::open_on(Arc::new(folder), &Options::default()).unwrap();
    db.put("a", "1").unwrap();
    let again = db.clone();
    let is_list = name.contains("runs");
    let base = thread::spawn(move || match is_list {
        true => again.checkpoint(),
        false => again.checkpoint_to(&again.snapshot().unwrap()),
    });
    gate.0.wait();
    db.put("b", "2").unwrap();
    let closing = thread::spawn(move || db.close());
    thread::sleep(Duration::from_millis(100));
    let open = || Db::open(temporary.path(), &Options::default());
    assert!(!closing.is_finished());
    assert!(matches!(open(), Err(Error::Locked { .. })));
    gate.1.wait();
    closing.join().unwrap().unwrap();
    assert_eq!(map_of(&open().unwrap()).len(), 2);
    let outcome = base.join().unwrap();
    let kind = if is_list { "runs" } else { "base" };
    let made = temporary.path().join(format!("000002-1.{kind}"));
    let new = temporary.path().join(format!("000002.{kind}.new"));
    assert!(!new.exists());
    (made.exists(), outcome)
}

#[test]
fn a_close_waits_for_the_name_of_a_base() {
    assert!(matches!(close_while_held(".base"), (true, Ok(()))));
    assert!(matches!(close_while_held(".runs"), (true, Ok(()))));
}

#[test]
fn a_base_ends_if_its_database_is_closed() {
    for name in [".base.new", ".runs.new"] {
        let ended = close_while_held(name);
        assert!(matches!(ended, (false, Err(Error::Closed))), "{ended:?}");
    }
}
