//! Merges by the operators of `Operator::Mixed`, worked by hand. `bindings/python/tests/test_mixed.py` draws more, beside a model.

use ucstore::{
    int_of, Batch, Error, MergeParts, Operand, Operator, Options, Part, ReadParts, Store,
};

fn store() -> Store {
    Store::create(Operator::Mixed, &Options::default()).unwrap()
}

/// The value of a key after parts, if there was this one before.
fn after(before: Option<&[u8]>, parts: &[Part<'_>]) -> Vec<u8> {
    let store = store();
    if let Some(value) = before {
        store.put("k", value).unwrap();
    }
    for part in parts {
        store.merge_part("k", *part).unwrap();
    }
    let lone = store.get("k").unwrap().unwrap();
    store.flush().unwrap();
    store.compact().unwrap();
    assert_eq!(store.get("k").unwrap().as_ref(), Some(&lone), "compacted");
    lone
}

#[test]
fn each_part_has_its_value() {
    let number = |n: u64| n.to_le_bytes().to_vec();
    let none: Option<&[u8]> = None;
    assert_eq!(
        after(none, &[Part::Add(5), Part::Add(-7)]),
        (-2i64).to_le_bytes()
    );
    assert_eq!(after(Some(b"abc"), &[Part::Add(5)]), number(5), "no number");
    assert_eq!(
        after(none, &[Part::Maximum(b"a"), Part::Maximum(b"ab")]),
        b"ab"
    );
    assert_eq!(
        after(Some(b"b"), &[Part::Minimum(b"c"), Part::Minimum(b"ab")]),
        b"ab"
    );
    assert_eq!(
        after(none, &[Part::Minimum(b"c")]),
        b"c",
        "no value is no empty value"
    );
    assert_eq!(after(Some(b"b"), &[Part::Set(b"c"), Part::Set(b"")]), b"");
    let appended = |delimiter, bytes| Part::Append { delimiter, bytes };
    let feed = [
        appended(b',', b"a"),
        appended(b',', b"b"),
        appended(b';', b"c"),
    ];
    assert_eq!(after(none, &feed), b"a,b;c");
    assert_eq!(after(Some(b""), &feed[..1]), b",a");
    assert_eq!(after(Some(&[1]), &[Part::Or(&[2, 8])]), [3, 8]);
    assert_eq!(after(Some(&[7, 1]), &[Part::And(&[6])]), [6, 0]);
    assert_eq!(after(Some(&[7]), &[Part::Xor(&[6, 1])]), [1, 1]);
    assert_eq!(
        after(Some(&[7, 1]), &[Part::MaxRegisters(&[6, 2, 3])]),
        [7, 2, 3]
    );
    let tail = |count, bytes| Part::Tail { count, bytes };
    assert_eq!(after(none, &[tail(2, b"abc"), tail(2, b"d")]), b"cd");
    assert_eq!(after(Some(b"abc"), &[tail(0, b"d")]), b"");
    assert_eq!(
        after(none, &[Part::MaxU64(256), Part::MaxU64(3)]),
        number(256)
    );
    assert_eq!(
        after(none, &[Part::MinU64(256), Part::MinU64(3)]),
        number(3)
    );
}

#[test]
fn parts_of_several_operators_are_applied_in_turn() {
    let parts = [
        Part::Add(5),
        Part::Or(&[8]),
        Part::Append {
            delimiter: b'!',
            bytes: b"x",
        },
    ];
    assert_eq!(after(None, &parts), b"\x0d\0\0\0\0\0\0\0!x");
    let operand = Operand::of(parts[0]).unwrap();
    let operand = operand
        .then(parts[1])
        .and_then(|it| it.then(parts[2]))
        .unwrap();
    let store = store();
    store.merge("k", &operand).unwrap();
    assert_eq!(store.get("k").unwrap().unwrap(), b"\x0d\0\0\0\0\0\0\0!x");
    assert_eq!(Operand::from_bytes(operand.as_ref().to_vec()), Ok(operand));
}

#[test]
fn bytes_that_are_no_operand_replace_the_value() {
    for bytes in [&b""[..], b"\xff", b"abc", &[0, 15], &[2, 4]] {
        assert_eq!(
            Operand::from_bytes(bytes.to_vec()),
            Err(Error::BadOperand),
            "{bytes:?}"
        );
        let store = store();
        store.put("k", "before").unwrap();
        store.merge("k", bytes).unwrap();
        assert_eq!(store.get("k").unwrap().unwrap(), bytes);
    }
    let misshapen = [1, 1, 1];
    assert_eq!(
        Operand::from_bytes(misshapen.to_vec()),
        Err(Error::BadOperand)
    );
}

#[test]
fn stores_and_batches_have_calls_for_parts() {
    let store = store();
    store.add("visits", 2).unwrap();
    let mut batch = Batch::new();
    batch.add("visits", 3).unwrap();
    batch
        .append("feed", b';', "a")
        .unwrap()
        .append("feed", b';', "b")
        .unwrap();
    batch
        .maximum("best", "b")
        .unwrap()
        .minimum("least", "b")
        .unwrap();
    batch.bit_or("seen", [1, 2]).unwrap();
    store.write(&batch).unwrap();
    assert_eq!(store.get_int("visits"), Ok(Some(5)));
    assert_eq!(store.get_int("none"), Ok(None));
    assert_eq!(store.get("feed").unwrap().unwrap(), b"a;b");
    assert_eq!(store.get("seen").unwrap().unwrap(), [1, 2]);
    assert_eq!((int_of(b"abc"), int_of(&[255; 8])), (0, -1));
}

#[test]
fn a_log_is_opened_again() {
    let store = store();
    let mut log = Vec::new();
    for amount in [1, 2, 3] {
        let mut batch = Batch::new();
        batch.add("k", amount).unwrap();
        log.extend(store.prepare(log.len() as u64, &batch).unwrap());
        store.commit();
    }
    let (again, _) = Store::open(Operator::Mixed, &Options::default(), &log).unwrap();
    assert_eq!(again.get_int("k"), Ok(Some(6)));
}
