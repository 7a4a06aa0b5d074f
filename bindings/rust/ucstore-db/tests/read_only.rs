//! Openings that only read, and files that are read without an opening.

mod common;

use common::{map_of, Device, Temporary};
use std::collections::BTreeMap;
use std::fs;
use std::os::unix::fs::MetadataExt;
use std::path::Path;
use std::sync::Arc;
use ucstore_db::ucstore::{log_writes, Ended, Write};
use ucstore_db::{
    files_of, operator_of, read_writes, Db, DiskFolder, Error, FileKind, Folder, Operator, Options,
};

/// The files of a folder: their bytes, and when they were changed.
fn files(path: &Path) -> BTreeMap<String, (Vec<u8>, i64, i64)> {
    let entries = fs::read_dir(path).unwrap().map(Result::unwrap);
    let file = |entry: fs::DirEntry| {
        let name = entry.file_name().to_str().unwrap().to_string();
        let at = entry.metadata().unwrap();
        let bytes = fs::read(entry.path()).unwrap();
        (name, (bytes, at.mtime(), at.mtime_nsec()))
    };
    entries.map(file).collect()
}

fn to_append() -> Options {
    Options {
        operator: Some(Operator::Append),
        ..Default::default()
    }
}

fn to_read() -> Options {
    Options {
        read_only: true,
        ..Default::default()
    }
}

/// A folder with a checkpoint, two logs, and a torn end, as a crash leaves it.
fn torn(path: &Path) {
    let db = Db::open(path, &to_append()).unwrap();
    db.put("a", "1").unwrap();
    db.checkpoint().unwrap();
    db.put("b", "2").unwrap();
    db.next_log().unwrap();
    db.put("c", "3").unwrap();
    db.close().unwrap();
    let log = path.join("000003.log");
    let bytes = fs::read(&log).unwrap();
    // The record of the close is torn.
    fs::write(&log, &bytes[..bytes.len() - 1]).unwrap();
}

#[test]
fn nothing_is_changed() {
    let folder = Temporary::new("unchanged");
    torn(folder.path());
    fs::remove_file(folder.path().join("LOCK")).unwrap();
    fs::write(folder.path().join("000001.base.new"), "half").unwrap();
    let before = files(folder.path());
    let db = Db::open(folder.path(), &to_read()).unwrap();
    assert_eq!(map_of(&db).len(), 3);
    for refused in [db.put("d", "4"), db.checkpoint(), db.sync(), db.next_log()] {
        let error = refused.unwrap_err();
        assert!(matches!(error, Error::ReadOnly { .. }), "{error}");
        assert_eq!(
            error.to_string(),
            "nothing can be written: the database was opened to be read"
        );
    }
    db.flush().unwrap();
    db.compact().unwrap();
    assert_eq!(map_of(&db).len(), 3);
    assert!(db.stats().is_read_only);
    db.close().unwrap();
    assert_eq!(files(folder.path()), before);
    // An owner may still open it.
    assert_eq!(
        map_of(&Db::open(folder.path(), &Options::default()).unwrap()).len(),
        3
    );
}

#[test]
fn many_read_and_one_writes() {
    let folder = Temporary::new("many");
    torn(folder.path());
    let locked = DiskFolder::open_to_read(folder.path()).unwrap();
    let db = Db::open(folder.path(), &to_read()).unwrap();
    // A folder is locked by who lists its files, and not by who reads the database.
    assert!(matches!(
        Db::open(folder.path(), &Options::default()),
        Err(Error::Locked { .. })
    ));
    drop(locked);
    let owner = Db::open(folder.path(), &Options::default()).unwrap();
    owner.put("d", "4").unwrap();
    assert_eq!(map_of(&db).len(), 3);
    assert!(matches!(
        DiskFolder::open_to_read(folder.path()),
        Err(Error::Locked { .. })
    ));
    let other = Db::open(folder.path(), &to_read()).unwrap();
    assert_eq!(map_of(&other).len(), 4);
    assert_eq!(db.refresh().unwrap(), 4);
    assert_eq!(map_of(&db).len(), 4);
}

#[test]
fn there_has_to_be_a_database() {
    let folder = Temporary::new("absent");
    assert!(matches!(
        Db::open(folder.path(), &to_read()),
        Err(Error::Missing { .. })
    ));
    assert!(!folder.path().exists());
    fs::create_dir(folder.path()).unwrap();
    assert!(matches!(
        Db::open(folder.path(), &to_read()),
        Err(Error::Missing { .. })
    ));
    assert_eq!(fs::read_dir(folder.path()).unwrap().count(), 0);
    let device = Device::default();
    let opened = Db::open_on(Arc::new(device.clone()), &to_read());
    assert!(matches!(opened, Err(Error::Missing { .. })));
    assert!(device.names().unwrap().is_empty());
}

#[test]
fn a_folder_that_is_read_takes_no_changes() {
    let folder = Temporary::new("refused");
    torn(folder.path());
    let before = files(folder.path());
    let opened = DiskFolder::open_to_read(folder.path()).unwrap();
    assert!(opened.create("new").is_err() && opened.open("000003.log").is_err());
    assert!(opened.remove("000003.log").is_err());
    assert!(opened.rename("000003.log", "000004.log").is_err());
    assert_eq!(files(folder.path()), before);
}

#[test]
fn damage_is_found_and_left() {
    let folder = Temporary::new("damage");
    torn(folder.path());
    let log = folder.path().join("000002.log");
    let mut bytes = fs::read(&log).unwrap();
    bytes[10] ^= 1;
    fs::write(&log, bytes).unwrap();
    let before = files(folder.path());
    let refused = Db::open(folder.path(), &to_read()).unwrap_err();
    assert!(matches!(refused, Error::Damaged { ref file, offset: 0, .. } if file == "000002.log"));
    let options = Options {
        recover_to_fault: true,
        ..to_read()
    };
    let db = Db::open(folder.path(), &options).unwrap();
    assert_eq!(map_of(&db).into_keys().collect::<Vec<_>>(), [b"a"]);
    assert_eq!(files(folder.path()), before);
}

#[test]
fn files_are_listed_in_the_order_of_their_writes() {
    let folder = Temporary::new("listed");
    torn(folder.path());
    for name in [
        "000001.log",
        "notes.txt",
        "000003.log.lost",
        "000004.base.new",
        "000004.runs.new",
        "000007.run",
    ] {
        fs::write(folder.path().join(name), "text").unwrap();
    }
    let opened = DiskFolder::open_to_read(folder.path()).unwrap();
    let found: Vec<_> = files_of(&opened)
        .unwrap()
        .into_iter()
        .map(|file| (file.name, file.kind, file.is_read))
        .collect();
    let wanted = [
        ("000001.log", FileKind::Log, false),
        ("000002-1.runs", FileKind::Checkpoint, true),
        ("000002.log", FileKind::Log, true),
        ("000003.log", FileKind::Log, true),
        ("000001.run", FileKind::Run, true),
        ("000007.run", FileKind::Run, false),
        ("000003.log.lost", FileKind::SetAside, false),
        ("000004.base.new", FileKind::Unfinished, false),
        ("000004.runs.new", FileKind::Unfinished, false),
        ("LOCK", FileKind::Lock, false),
        ("OPERATOR", FileKind::Operator, true),
        ("notes.txt", FileKind::Foreign, false),
    ];
    assert_eq!(
        found,
        wanted.map(|(name, kind, is_read)| (name.to_string(), kind, is_read))
    );
    assert_eq!(operator_of(&opened).unwrap(), Some(Operator::Append));
    assert_eq!(operator_of(&Device::default()).unwrap(), None);
}

/// The writes of a file of a folder, and what was read.
fn read(folder: &dyn Folder, name: &str) -> (Vec<Write>, ucstore_db::WritesRead) {
    let mut writes = vec![];
    let read = read_writes(folder, name, |write| {
        let own = |operation: ucstore_db::ucstore::Operation<&[u8]>| {
            use ucstore_db::ucstore::Operation::*;
            match operation {
                Put { key, value } => Put {
                    key: key.to_vec(),
                    value: value.to_vec(),
                },
                Delete { key } => Delete { key: key.to_vec() },
                Merge { key, operand } => Merge {
                    key: key.to_vec(),
                    operand: operand.to_vec(),
                },
                DeleteRange { begin, end } => DeleteRange {
                    begin: begin.to_vec(),
                    end: end.to_vec(),
                },
            }
        };
        writes.push(Write {
            sequence: write.sequence,
            operation: own(write.operation),
        });
        Ok::<(), Error>(())
    });
    (writes, read.unwrap())
}

#[test]
fn the_writes_of_a_long_file_are_read_window_by_window() {
    let folder = Temporary::new("long");
    let db = Db::open(folder.path(), &to_append()).unwrap();
    for number in 0..12u32 {
        // Some are larger than a window.
        let value = vec![number as u8; 1 << (number % 3 * 5 + 11)];
        db.put(format!("key {number}"), value).unwrap();
        db.merge("other", "text").unwrap();
        db.delete("none").unwrap();
        db.delete_range("x", "y").unwrap();
    }
    db.close().unwrap();
    let opened = DiskFolder::open_to_read(folder.path()).unwrap();
    let bytes = fs::read(folder.path().join("000001.log")).unwrap();
    let (found, told) = read(&opened, "000001.log");
    let wanted: Vec<Write> = log_writes(&bytes).map(Result::unwrap).collect();
    assert_eq!(found.len(), 48);
    assert!(found == wanted);
    assert_eq!(
        (told.batches, told.writes, told.first, told.last),
        (48, 48, Some(1), 48)
    );
    assert_eq!(
        (told.end, told.length, told.ended),
        (bytes.len() as u64, bytes.len() as u64, Ended::Clean)
    );
    // Cut anywhere, it has the first of them.
    for length in (0..bytes.len()).step_by(bytes.len() / 9) {
        let device = Device::of(&BTreeMap::from([(
            "000001.log".into(),
            bytes[..length].to_vec(),
        )]));
        let (found, told) = read(&device, "000001.log");
        let wanted: Vec<Write> = log_writes(&bytes[..length]).map(Result::unwrap).collect();
        assert!(found == wanted);
        assert!(told.end <= length as u64);
    }
}

#[test]
fn other_names_are_refused() {
    let device = Device::default();
    for name in ["OPERATOR", "000001.log.lost", "../000001.log", "000001.log"] {
        read_writes(&device, name, |_| Ok::<(), Error>(())).unwrap_err();
    }
}
