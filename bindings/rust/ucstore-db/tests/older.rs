//! A directory that an older version wrote, whose new databases had the operator `append` and whose checkpoints were rows.
//!
//! `tests/counter` is what it left of
//!
//! ```text
//! let counter = Options { operator: Operator::Counter, ..Default::default() };
//! let db = Db::open("counter", &counter)?;
//! db.merge("visits", 5u64.to_le_bytes())?;
//! db.merge("visits", (u64::MAX - 1).to_le_bytes())?;
//! db.put("put", 7u64.to_le_bytes())?;
//! db.merge("put", 1u64.to_le_bytes())?;
//! db.put("text", "abc")?;
//! db.merge("gone", 1u64.to_le_bytes())?;
//! db.checkpoint()?;
//! db.merge("visits", 10u64.to_le_bytes())?;
//! db.merge("text", 4u64.to_le_bytes())?;
//! db.delete_range("g", "h")?;
//! db.close()?;
//! ```

use std::fs;
use std::path::{Path, PathBuf};
use ucstore_db::{Db, Error, MergeParts, Operator, Options, ReadParts};

/// A copy of the folder, which a test may change.
fn copy(name: &str) -> PathBuf {
    let own = Path::new(env!("CARGO_MANIFEST_DIR")).join("tests/counter");
    let target = std::env::temp_dir().join(format!("ucstore-older-{name}-{}", std::process::id()));
    let _ = fs::remove_dir_all(&target);
    fs::create_dir(&target).unwrap();
    for entry in fs::read_dir(own).unwrap() {
        let entry = entry.unwrap();
        fs::copy(entry.path(), target.join(entry.file_name())).unwrap();
    }
    target
}

/// The rows of the database.
fn rows(db: &Db) -> Vec<(Vec<u8>, Vec<u8>)> {
    let snapshot = db.snapshot().unwrap();
    let keys = [&b"gone"[..], b"put", b"text", b"visits"];
    let found = keys.map(|key| Some((key.to_vec(), snapshot.get(key).unwrap()?)));
    found.into_iter().flatten().collect()
}

fn wanted(visits: u64) -> Vec<(Vec<u8>, Vec<u8>)> {
    let row = |key: &str, number: u64| (key.into(), number.to_le_bytes().to_vec());
    vec![row("put", 8), row("text", 4), row("visits", visits)]
}

#[test]
fn a_counter_of_an_older_library_is_opened_by_its_operator() {
    let named = Options {
        operator: Some(Operator::Counter),
        ..Options::default()
    };
    for (name, options) in [("named", named), ("unnamed", Options::default())] {
        let folder = copy(name);
        let db = Db::open(&folder, &options).unwrap();
        assert_eq!(rows(&db), wanted(13));
        db.merge("visits", 2u64.to_le_bytes()).unwrap();
        assert_eq!(db.get_int("visits").unwrap(), Some(15));
        db.compact().unwrap();
        db.checkpoint().unwrap();
        db.close().unwrap();
        let db = Db::open(&folder, &Options::default()).unwrap();
        assert_eq!(rows(&db), wanted(15));
        // A part has no meaning here: its bytes count as the number 0.
        db.add("visits", 1).unwrap();
        assert_eq!(rows(&db), wanted(15));
        db.close().unwrap();
        fs::remove_dir_all(folder).unwrap();
    }
}

#[test]
fn a_counter_of_an_older_library_is_opened_by_no_other_operator() {
    let folder = copy("other");
    for asked in [Operator::Mixed, Operator::Append] {
        let options = Options {
            operator: Some(asked),
            ..Options::default()
        };
        let refused = Db::open(&folder, &options).err().unwrap();
        let is_right = matches!(
            refused,
            Error::OtherOperator { made: Operator::Counter, asked: found } if found == asked
        );
        assert!(is_right, "{refused:?}");
    }
    assert_eq!(fs::read(folder.join("OPERATOR")).unwrap(), b"counter\n");
    fs::remove_dir_all(folder).unwrap();
}
