//! [`Staging`]: a folder that gets its name once it is whole and on the device.

use crate::disk_folder::{make_directory, DiskFolder};
use crate::error::Error;
use crate::folder::Folder;
use std::fs::{self, DirBuilder};
use std::io;
use std::os::unix::fs::{DirBuilderExt, PermissionsExt};
use std::path::{Path, PathBuf};
use std::process;

/// The most names that are tried. Each one that is there was left by a crash, or is in use.
const MOST_NAMES: u32 = 1000;

/// A folder of the file system that gets its name once it is whole and on the device. Before, it is removed where this is dropped.
pub(crate) struct Staging {
    /// The name that it gets, and the one that it has until then.
    path: PathBuf,
    temporary: PathBuf,
    folder: Option<DiskFolder>,
}

impl Staging {
    /// An empty folder beside a name, which nothing may have. Others may do with it what they may do with the folder that is like it.
    pub(crate) fn create(path: &Path, like: Option<&Path>) -> Result<Staging, Error> {
        let file = path.display().to_string();
        check_absent(path).map_err(Error::of_file(&file))?;
        let above = above(path);
        make_directory(above).map_err(Error::of_file(&above.display().to_string()))?;
        let temporary = make_temporary(path, like).map_err(Error::of_file(&file))?;
        let mut staging = Staging {
            path: path.into(),
            temporary,
            folder: None,
        };
        staging.folder = Some(DiskFolder::open(&staging.temporary)?);
        Ok(staging)
    }

    /// The folder.
    pub(crate) fn folder(&self) -> &dyn Folder {
        self.folder.as_ref().expect("it has no other name yet")
    }

    /// Gives it its name, which is on the device then.
    pub(crate) fn publish(mut self) -> Result<(), Error> {
        let file = self.path.display().to_string();
        // The lock ends before somebody else can open it.
        self.folder = None;
        check_absent(&self.path)
            .and_then(|()| fs::rename(&self.temporary, &self.path))
            .and_then(|()| {
                self.temporary = PathBuf::new();
                fs::File::open(above(&self.path))?.sync_all()
            })
            .map_err(Error::of_file(&file))
    }
}

impl Drop for Staging {
    fn drop(&mut self) {
        self.folder = None;
        if !self.temporary.as_os_str().is_empty() {
            // A failure here adds nothing to the first one.
            let _ = fs::remove_dir_all(&self.temporary);
        }
    }
}

/// The folder of a name. One without a folder is in that in which the process runs.
fn above(path: &Path) -> &Path {
    match path.parent() {
        Some(above) if !above.as_os_str().is_empty() => above,
        _ => Path::new("."),
    }
}

/// Checks that nothing has a name.
fn check_absent(path: &Path) -> io::Result<()> {
    match fs::symlink_metadata(path) {
        Ok(_) => Err(io::Error::new(
            io::ErrorKind::AlreadyExists,
            "the name is taken",
        )),
        Err(error) if error.kind() == io::ErrorKind::NotFound => Ok(()),
        Err(error) => Err(error),
    }
}

/// Makes an empty folder beside a name.
fn make_temporary(path: &Path, like: Option<&Path>) -> io::Result<PathBuf> {
    let Some(name) = path.file_name() else {
        return Err(io::Error::new(
            io::ErrorKind::InvalidInput,
            "it names no new directory",
        ));
    };
    let mode = match like {
        Some(like) => fs::metadata(like)?.permissions().mode() & 0o777,
        None => 0o777,
    };
    for number in 0..MOST_NAMES {
        let mut temporary = name.to_os_string();
        temporary.push(format!(".new-{}-{number}", process::id()));
        let temporary = above(path).join(temporary);
        match DirBuilder::new().mode(mode).create(&temporary) {
            Err(error) if error.kind() == io::ErrorKind::AlreadyExists => {}
            outcome => return outcome.map(|()| temporary),
        }
    }
    Err(io::ErrorKind::AlreadyExists.into())
}
