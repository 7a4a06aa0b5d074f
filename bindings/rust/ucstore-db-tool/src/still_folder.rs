//! [`StillFolder`]: the files of a directory at one moment, while its owner may change it.

use std::collections::BTreeMap;
use std::fs;
use std::io::{self, ErrorKind};
use std::os::unix::fs::FileExt;
use std::path::Path;
use std::thread;
use std::time::Duration;
use ucstore_db::{files_of, DiskFolder, Error, File, FileKind, Folder};

/// The most times that a directory is listed until it stays as it is while its files are opened.
const MOST_TRIES: u32 = 200;

/// The longest time between two of them.
const LONGEST: Duration = Duration::from_millis(16);

/// The files of a directory at one moment. They are open, so an owner that removes one doesn't take it away; and each ends where it
/// ended at that moment, so a log that grows stays as it was.
pub struct StillFolder {
    files: BTreeMap<String, StillFile>,
}

/// A file, with its length in bytes.
struct StillFile {
    /// There is none of a file that no opening reads.
    file: Option<fs::File>,
    length: u64,
}

impl StillFolder {
    /// Opens the files of a directory in which there is a database.
    ///
    /// # Errors
    ///
    /// [`Error::Missing`] if there is no database, [`Error::File`], with [`ErrorKind::ResourceBusy`] if files were made or removed each
    /// time.
    pub fn open(path: &Path) -> Result<StillFolder, Error> {
        let folder = DiskFolder::open_beside(path)?;
        let name = path.display().to_string();
        for number in 0..MOST_TRIES {
            if let Some(files) = still(path, &folder)? {
                return Ok(StillFolder { files });
            }
            thread::sleep(LONGEST.min(Duration::from_millis(number.into())));
        }
        Err(Error::File {
            file: name,
            error: io::Error::from(ErrorKind::ResourceBusy).into(),
        })
    }

    fn file(&self, name: &str) -> io::Result<&StillFile> {
        self.files
            .get(name)
            .ok_or_else(|| ErrorKind::NotFound.into())
    }
}

/// The files of a directory; none if one was made or removed meanwhile.
fn still(path: &Path, folder: &DiskFolder) -> Result<Option<BTreeMap<String, StillFile>>, Error> {
    let listed = files_of(folder)?;
    let mut files = BTreeMap::new();
    // The last log comes first: once it has a batch, those before it are whole.
    for listed in listed.iter().rev() {
        let name = &listed.name;
        let fault = |error: io::Error| Error::File {
            file: name.clone(),
            error: error.into(),
        };
        let is_read = matches!(
            listed.kind,
            FileKind::Checkpoint | FileKind::Run | FileKind::Log | FileKind::Operator
        );
        let file = match is_read.then(|| fs::File::open(path.join(name))).transpose() {
            Err(error) if error.kind() == ErrorKind::NotFound => return Ok(None),
            outcome => outcome.map_err(fault)?,
        };
        let length = match &file {
            Some(file) => file.metadata().map_err(fault)?.len(),
            None => listed.length,
        };
        files.insert(name.clone(), StillFile { file, length });
    }
    let again = files_of(folder)?;
    let is_same = again.len() == files.len() && again.iter().all(|it| files.contains_key(&it.name));
    Ok(is_same.then_some(files))
}

impl Folder for StillFolder {
    fn names(&self) -> io::Result<Vec<String>> {
        Ok(self.files.keys().cloned().collect())
    }

    fn length(&self, name: &str) -> io::Result<u64> {
        Ok(self.file(name)?.length)
    }

    fn read(&self, name: &str) -> io::Result<Vec<u8>> {
        let length = self.file(name)?.length;
        self.read_at(name, 0, usize::try_from(length).unwrap_or(usize::MAX))
    }

    fn read_at(&self, name: &str, offset: u64, length: usize) -> io::Result<Vec<u8>> {
        let StillFile { file, length: all } = self.file(name)?;
        let file = file.as_ref().ok_or(ErrorKind::PermissionDenied)?;
        let left = all.saturating_sub(offset).min(length as u64);
        let mut bytes = vec![0; left as usize];
        let mut done = 0;
        while done < bytes.len() {
            match file.read_at(&mut bytes[done..], offset + done as u64) {
                // It was cut.
                Ok(0) => break,
                Ok(count) => done += count,
                Err(error) if error.kind() == ErrorKind::Interrupted => {}
                Err(error) => return Err(error),
            }
        }
        bytes.truncate(done);
        Ok(bytes)
    }

    fn create(&self, _: &str) -> io::Result<Box<dyn File>> {
        Err(ErrorKind::ReadOnlyFilesystem.into())
    }

    fn open(&self, _: &str) -> io::Result<Box<dyn File>> {
        Err(ErrorKind::ReadOnlyFilesystem.into())
    }

    fn rename(&self, _: &str, _: &str) -> io::Result<()> {
        Err(ErrorKind::ReadOnlyFilesystem.into())
    }

    fn remove(&self, _: &str) -> io::Result<()> {
        Err(ErrorKind::ReadOnlyFilesystem.into())
    }

    fn sync(&self) -> io::Result<()> {
        Err(ErrorKind::ReadOnlyFilesystem.into())
    }
}

#[cfg(test)]
mod tests {
    use super::*;
    use std::env;
    use std::fs::OpenOptions;
    use std::io::Write;
    use std::path::PathBuf;
    use ucstore_db::{read_writes, Db, Options};

    fn directory(name: &str) -> PathBuf {
        let path = env::temp_dir().join(format!("ucstore-still-{name}-{}", std::process::id()));
        let _ = fs::remove_dir_all(&path);
        path
    }

    #[test]
    fn files_stay_as_they_were() {
        let path = directory("stay");
        assert!(matches!(
            StillFolder::open(&path),
            Err(Error::Missing { .. })
        ));
        let db = Db::open(&path, &Options::default()).unwrap();
        db.put("a", "1").unwrap();
        let folder = StillFolder::open(&path).unwrap();
        let before = folder.read("000001.log").unwrap();
        db.put("b", "2").unwrap();
        assert_eq!(folder.length("000001.log").unwrap(), before.len() as u64);
        assert_eq!(folder.read_at("000001.log", 0, 1000).unwrap(), before);
        assert!(fs::metadata(path.join("000001.log")).unwrap().len() > before.len() as u64);
        db.checkpoint().unwrap();
        assert!(!path.join("000001.log").exists());
        let read = read_writes(&folder, "000001.log", |_| Ok::<(), Error>(())).unwrap();
        assert_eq!((read.writes, read.end), (1, before.len() as u64));
        assert!(folder.create("x").is_err() && folder.remove("000001.log").is_err());
        drop(db);
        fs::remove_dir_all(path).unwrap();
    }

    #[test]
    fn a_file_that_was_cut_is_read_to_its_end() {
        let path = directory("cut");
        let db = Db::open(&path, &Options::default()).unwrap();
        db.put("a", "1").unwrap();
        db.close().unwrap();
        let folder = StillFolder::open(&path).unwrap();
        let length = folder.length("000001.log").unwrap();
        let mut log = OpenOptions::new()
            .append(true)
            .open(path.join("000001.log"))
            .unwrap();
        log.write_all(&[7; 100]).unwrap();
        assert_eq!(folder.read("000001.log").unwrap().len() as u64, length);
        log.set_len(3).unwrap();
        assert_eq!(folder.read("000001.log").unwrap().len(), 3);
        assert_eq!(folder.read_at("000001.log", 3, 10).unwrap(), []);
        fs::remove_dir_all(path).unwrap();
    }
}
