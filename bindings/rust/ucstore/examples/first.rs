//! Counts visits, and reads how many there were before.

use ucstore::{Operator, Options, Store};

fn main() -> Result<(), ucstore::Error> {
    let store = Store::create(Operator::Counter, &Options::default())?;
    store.merge("visits", 2u64.to_le_bytes())?;
    let before = store.snapshot()?;
    store.merge("visits", 3u64.to_le_bytes())?;
    let number = |text: Option<Vec<u8>>| u64::from_le_bytes(text.unwrap().try_into().unwrap());
    let (then, now) = (before.get("visits")?, store.get("visits")?);
    println!("{} visits, {} before", number(now), number(then));
    Ok(())
}
