//! [`Around`]: a device of which a test changes some calls.

use super::Device;
use std::io;
use ucstore_db::{File, Folder};

/// A device of which a test changes some calls. The others go to the device.
pub trait Around: Send + Sync {
    fn device(&self) -> &Device;

    fn names(&self) -> io::Result<Vec<String>> {
        self.device().names()
    }

    fn read(&self, name: &str) -> io::Result<Vec<u8>> {
        self.device().read(name)
    }

    fn read_at(&self, name: &str, offset: u64, length: usize) -> io::Result<Vec<u8>> {
        self.device().read_at(name, offset, length)
    }

    fn create(&self, name: &str) -> io::Result<Box<dyn File>> {
        self.device().create(name)
    }

    fn open(&self, name: &str) -> io::Result<Box<dyn File>> {
        self.device().open(name)
    }

    fn rename(&self, from: &str, to: &str) -> io::Result<()> {
        self.device().rename(from, to)
    }

    fn remove(&self, name: &str) -> io::Result<()> {
        self.device().remove(name)
    }

    fn sync(&self) -> io::Result<()> {
        self.device().sync()
    }
}

/// The folder of such a device.
pub struct Over<T>(pub T);

impl<T: Around> Folder for Over<T> {
    fn names(&self) -> io::Result<Vec<String>> {
        self.0.names()
    }

    fn length(&self, name: &str) -> io::Result<u64> {
        self.0.device().length(name)
    }

    fn read(&self, name: &str) -> io::Result<Vec<u8>> {
        self.0.read(name)
    }

    fn read_at(&self, name: &str, offset: u64, length: usize) -> io::Result<Vec<u8>> {
        self.0.read_at(name, offset, length)
    }

    fn create(&self, name: &str) -> io::Result<Box<dyn File>> {
        self.0.create(name)
    }

    fn open(&self, name: &str) -> io::Result<Box<dyn File>> {
        self.0.open(name)
    }

    fn rename(&self, from: &str, to: &str) -> io::Result<()> {
        self.0.rename(from, to)
    }

    fn remove(&self, name: &str) -> io::Result<()> {
        self.0.remove(name)
    }

    fn sync(&self) -> io::Result<()> {
        self.0.sync()
    }
}
