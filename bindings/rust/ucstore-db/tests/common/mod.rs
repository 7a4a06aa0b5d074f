//! Shared by the tests: a device that crashes and fails, and drawn histories beside a map.
#![allow(dead_code, unused_imports)]

mod around;
mod counted;
mod device;
mod history;

pub use around::{Around, Over};
pub use counted::{batch_of, counts_of, number, of_owner, of_reader, Ends, OPERATIONS, WRITERS};
pub use device::{Call, Device, Extent};
pub use history::{map_of, open, Histories, History, Map, Run};

use std::env;
use std::fs;
use std::path::{Path, PathBuf};

/// Numbers below a limit, by Knuth's constants.
pub struct Numbers(pub u64);

impl Numbers {
    pub fn below(&mut self, limit: u64) -> u64 {
        self.0 = self
            .0
            .wrapping_mul(6364136223846793005)
            .wrapping_add(1442695040888963407);
        (self.0 >> 33) % limit
    }
}

/// A folder of the file system, which is removed after a test.
pub struct Temporary(PathBuf);

impl Temporary {
    pub fn new(name: &str) -> Temporary {
        let path = env::temp_dir().join(format!("ucstore-db-{name}-{}", std::process::id()));
        let _ = fs::remove_dir_all(&path);
        Temporary(path)
    }

    pub fn path(&self) -> &Path {
        &self.0
    }
}

impl Drop for Temporary {
    fn drop(&mut self) {
        let _ = fs::remove_dir_all(&self.0);
    }
}

/// The seed of what is drawn, of several that a test draws from.
pub fn seed(number: u64) -> u64 {
    let seed = env::var("SEED").map_or(1, |text| text.parse().expect("SEED is a number"));
    seed * 1000 + number
}

/// Whether the tests may take their time.
pub fn is_long() -> bool {
    env::var_os("LONG").is_some()
}
