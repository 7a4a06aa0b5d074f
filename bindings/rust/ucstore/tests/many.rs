//! Lookups of many keys at once in large runs.

use ucstore::{Operator, Options, Store, View};

const KEYS: u32 = 30_000;

/// A store of three runs: one with all keys, one that appends to each third key, and a small one of deletions. A key's value shows which
/// runs have it.
fn runs_of(key: impl Fn(u32) -> Vec<u8>) -> Store {
    let options = Options {
        compacts_itself: false,
        write_buffer_size: 64 << 20,
        ..Default::default()
    };
    let store = Store::create(Operator::Append, &options).unwrap();
    for number in 0..KEYS {
        store.put(key(number), number.to_string()).unwrap();
    }
    store.flush().unwrap();
    for number in (0..KEYS).step_by(3) {
        store.merge(key(number), "+").unwrap();
    }
    store.flush().unwrap();
    for number in (0..KEYS).step_by(1_000) {
        store.delete(key(number)).unwrap();
    }
    store.flush().unwrap();
    store
}

fn value_of(number: u32) -> Option<Vec<u8>> {
    let value = match number {
        _ if number >= KEYS || number % 1_000 == 0 => return None,
        _ if number % 3 == 0 => format!("{number},+"),
        _ => number.to_string(),
    };
    Some(value.into_bytes())
}

/// Looks up lists of keys of several lengths, in drawn order, with some that aren't there, by both ways.
fn look_up(store: &Store, view: &View, key: impl Fn(u32) -> Vec<u8>) {
    let mut number = 1_u32;
    for length in [1, 2, 31, 32, 33, 64, 65, 1_000] {
        let mut drawn = || {
            number = number.wrapping_mul(1_664_525).wrapping_add(1_013_904_223);
            (number >> 8) % (KEYS + KEYS / 8)
        };
        let numbers: Vec<u32> = (0..length).map(|_| drawn()).collect();
        let keys: Vec<Vec<u8>> = numbers.iter().map(|number| key(*number)).collect();
        let wanted: Vec<_> = numbers.iter().map(|number| value_of(*number)).collect();
        assert_eq!(store.get_many(&keys).unwrap(), wanted);
        assert_eq!(view.get_many(&keys).unwrap(), wanted);
    }
}

#[test]
fn keys_with_a_common_front_are_found() {
    let key = |number: u32| format!("key-{number:012}").into_bytes();
    let store = runs_of(key);
    look_up(&store, &store.view().unwrap(), key);
    // Keys that don't begin as all others do, shorter and longer ones, and the first and last of all.
    let odd: [&[u8]; 8] = [
        b"",
        b"k",
        b"key-",
        b"zzz",
        b"aaa-000000000001",
        b"key-000000000001x",
        b"key-000000000001",
        b"key-000000029999",
    ];
    let mut wanted = vec![None; 6];
    wanted.extend([value_of(1), value_of(29_999)]);
    assert_eq!(store.get_many(odd).unwrap(), wanted);
}

#[test]
fn keys_without_a_common_front_are_found() {
    let key = |number: u32| number.wrapping_mul(0x9e37_79b1).to_be_bytes().to_vec();
    let store = runs_of(key);
    look_up(&store, &store.view().unwrap(), key);
}

#[test]
fn keys_with_equal_prefixes_are_found() {
    // Of these all prefixes of fences are equal but for the ends.
    let key = |number: u32| {
        let mut key = vec![0; 20];
        key.extend(number.to_be_bytes());
        key
    };
    let store = runs_of(key);
    store.put([9; 30], "last").unwrap();
    store.put([0; 1], "first").unwrap();
    store.flush().unwrap();
    while store.compact().unwrap() {}
    look_up(&store, &store.view().unwrap(), key);
    let found = store.get_many([&[9_u8; 30][..], &[0; 1], &[0; 2]]).unwrap();
    assert_eq!(
        found,
        [Some(b"last".to_vec()), Some(b"first".to_vec()), None]
    );
}
