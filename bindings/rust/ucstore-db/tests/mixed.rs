//! The operator `mixed`, and the operator of a folder.

use std::collections::BTreeSet;
use ucstore_db::ucstore::Error as StoreError;
use ucstore_db::{Batch, Db, Error, MergeParts, Operator, Options, Part, ReadParts};

#[test]
fn one_database_has_several_operators() {
    let folder = std::env::temp_dir().join(format!("ucstore-mixed-{}", std::process::id()));
    let _ = std::fs::remove_dir_all(&folder);
    let options = Options {
        operator: Some(Operator::Mixed),
        ..Options::default()
    };
    let db = Db::open(&folder, &options).unwrap();
    let mut batch = Batch::new();
    batch
        .add("visits", 2)
        .unwrap()
        .maximum("last", "2026-01-02")
        .unwrap();
    batch.append("feed", b',', "login").unwrap();
    db.write(&batch).unwrap();
    let snapshot = db.snapshot().unwrap();
    db.add("visits", 3).unwrap();
    db.maximum("last", "2026-01-01").unwrap();
    db.append("feed", b',', "logout").unwrap();
    db.merge_part("visitors", Part::MaxRegisters(&[0, 3]))
        .unwrap();
    db.merge_part("visitors", Part::MaxRegisters(&[2])).unwrap();
    let then = |key: &str| snapshot.get(key).unwrap().unwrap();
    assert_eq!(then("visits").as_ref() as &[u8], 2i64.to_le_bytes());
    assert_eq!(
        (
            then("feed").as_ref() as &[u8],
            then("last").as_ref() as &[u8]
        ),
        (&b"login"[..], &b"2026-01-02"[..])
    );
    drop(snapshot);
    db.compact().unwrap();
    db.close().unwrap();

    let counter = Options {
        operator: Some(Operator::Counter),
        ..Options::default()
    };
    let error = Db::open(&folder, &counter).err().unwrap();
    assert!(matches!(
        error,
        Error::OtherOperator {
            made: Operator::Mixed,
            asked: Operator::Counter
        }
    ));
    let db = Db::open(&folder, &options).unwrap();
    assert_eq!(db.get_int("visits").unwrap(), Some(5));
    let now = |key: &str| db.get(key).unwrap().unwrap();
    assert_eq!(now("feed").as_ref() as &[u8], b"login,logout");
    assert_eq!(now("visitors").as_ref() as &[u8], [2, 3]);
    db.close().unwrap();
    std::fs::remove_dir_all(&folder).unwrap();
}

/// A set of these members.
fn set(members: &[&str]) -> Option<BTreeSet<Vec<u8>>> {
    Some(
        members
            .iter()
            .map(|member| member.as_bytes().to_vec())
            .collect(),
    )
}

#[test]
fn a_set_has_the_members_of_all_unions() {
    let db = Db::in_memory(&Options::default()).unwrap();
    assert_eq!(db.get_set("tags").unwrap(), None);
    db.union("tags", ["new", "blue", "new"]).unwrap();
    let snapshot = db.snapshot().unwrap();
    let mut batch = Batch::new();
    batch.union("tags", ["", "blue", "old"]).unwrap();
    batch.union::<&str>("none", []).unwrap();
    db.write(&batch).unwrap();
    db.compact().unwrap();
    assert_eq!(
        db.get_set("tags").unwrap(),
        set(&["", "blue", "new", "old"])
    );
    assert_eq!(db.get_set("none").unwrap(), set(&[]));
    assert_eq!(snapshot.get_set("tags").unwrap(), set(&["blue", "new"]));
    assert_eq!(
        db.get("tags").unwrap().unwrap(),
        b"\0\0\x04\0blue\x03\0new\x03\0old"
    );
    db.put("tags", b"\x01\0b\x01\0a\x09\0cut").unwrap();
    db.union("tags", ["c"]).unwrap();
    assert_eq!(db.get_set("tags").unwrap(), set(&["a", "b", "c"]));
}

#[test]
fn a_set_out_of_order_is_rejected() {
    let db = Db::in_memory(&Options::default()).unwrap();
    let sets: [&[u8]; 5] = [
        b"\x01\0b\x01\0a",
        b"\x01\0a\x01\0a",
        b"\x01\0a\x02\0b",
        b"\x01",
        b"\x01\0a\0",
    ];
    for set in sets {
        let refused = db.merge_part("k", Part::Union(set)).unwrap_err();
        assert!(
            matches!(refused, Error::Store(StoreError::BadOperand)),
            "{set:?}"
        );
    }
    let long = vec![0; 1 << 16];
    let refused = db.union("k", [&long]).unwrap_err();
    assert!(matches!(refused, Error::Store(StoreError::TooLong)));
    db.union("k", [&long[1..]]).unwrap();
    assert_eq!(db.get_set("k").unwrap().unwrap().len(), 1);
}

#[test]
fn sums_stop_at_the_greatest_number() {
    let db = Db::in_memory(&Options::default()).unwrap();
    db.merge_part("n", Part::AddU64(u64::MAX - 3)).unwrap();
    db.merge_part("n", Part::AddU64(2)).unwrap();
    let number = |db: &Db| db.get_int("n").unwrap().unwrap() as u64;
    assert_eq!(number(&db), u64::MAX - 1);
    db.merge_part("n", Part::AddU64(2)).unwrap();
    assert_eq!(number(&db), u64::MAX);
}

#[test]
fn a_merge_of_bytes_that_are_no_operand_is_rejected() {
    let db = Db::in_memory(&Options::default()).unwrap();
    db.put("k", "value").unwrap();
    let refused = db.merge("k", "text").unwrap_err();
    assert!(matches!(refused, Error::Store(StoreError::BadOperand)));
    assert_eq!(db.get("k").unwrap().unwrap(), b"value");
}

#[test]
fn a_folder_keeps_its_operator_if_none_is_named() {
    for made in [None, Some(Operator::Counter), Some(Operator::Append)] {
        let folder = std::env::temp_dir().join(format!("ucstore-kept-{}", std::process::id()));
        let _ = std::fs::remove_dir_all(&folder);
        let options = Options {
            operator: made,
            ..Options::default()
        };
        Db::open(&folder, &options).unwrap().close().unwrap();
        let file = std::fs::read_to_string(folder.join("OPERATOR")).unwrap();
        let word = match made {
            None => "mixed\n",
            Some(Operator::Counter) => "counter\n",
            _ => "append\n",
        };
        assert_eq!(file, word);
        let db = Db::open(&folder, &Options::default()).unwrap();
        match made {
            None => db.add("k", 2).unwrap(),
            Some(_) => db.merge("k", 2u64.to_le_bytes()).unwrap(),
        }
        assert_eq!(db.get_int("k").unwrap(), Some(2));
        db.close().unwrap();
        let other = Options {
            operator: Some(Operator::Maximum),
            ..Options::default()
        };
        let refused = Db::open(&folder, &other).err().unwrap();
        assert!(matches!(refused, Error::OtherOperator { .. }));
        assert_eq!(
            std::fs::read_to_string(folder.join("OPERATOR")).unwrap(),
            word
        );
        std::fs::remove_dir_all(&folder).unwrap();
    }
}

#[test]
fn a_folder_that_names_no_operator_appends() {
    let folder = std::env::temp_dir().join(format!("ucstore-unnamed-{}", std::process::id()));
    let _ = std::fs::remove_dir_all(&folder);
    let append = Options {
        operator: Some(Operator::Append),
        ..Options::default()
    };
    let db = Db::open(&folder, &append).unwrap();
    db.merge("k", "a").unwrap();
    db.close().unwrap();
    std::fs::remove_file(folder.join("OPERATOR")).unwrap();
    let db = Db::open(&folder, &Options::default()).unwrap();
    db.merge("k", "b").unwrap();
    assert_eq!(db.get("k").unwrap().unwrap(), b"a,b");
    db.close().unwrap();
    std::fs::remove_dir_all(&folder).unwrap();
}
