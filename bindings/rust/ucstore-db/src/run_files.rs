//! [`RunFiles`]: the run files of the newest checkpoint; how one is written, and read.

use crate::checksum::Crc;
use crate::error::Error;
use crate::folder::Folder;
use crate::name::Name;
use crate::partial::Partial;
use crate::recovery::damaged;
use crate::run_list::ListedRun;
use crate::throttle::Throttle;
use std::collections::BTreeMap;
use std::io::{self, Read};
use ucstore::{LoadedRun, Run, RunError, RunFile, View};

/// The size of a window in bytes, in which files are written and read.
const WINDOW: usize = 256 << 10;

/// The number of bytes after which a run file is synced while it is written. A log's sync waits for no more of it.
const SYNCED_BYTES: u64 = 8 << 20;

/// The number of the last bytes of a file by which its list knows it: the file's footer, which has a checksum of those of all pieces. The
/// list's checksum differs if that one does; the footer's other fields are compared with the list's, or with the points.
const LAST_BYTES: usize = 64;

/// The run files of the newest checkpoint. Protected by `checkpointing`.
#[derive(Debug, Default)]
pub(crate) struct RunFiles {
    /// The files by the IDs that their runs have in the store.
    files: BTreeMap<u64, ListedRun>,
    /// The numbers of the files that the newest checkpoint names, also of those whose runs the store has no more.
    pub(crate) named: Vec<u64>,
    /// The store that the IDs are of, by the number of times that it was replaced; none if that isn't known.
    store: Option<u64>,
}

/// A run of a checkpoint, and its file if an older checkpoint has written it.
#[derive(Clone, Copy, Debug)]
pub(crate) struct PlannedRun {
    /// The place of the run in its view, counted from the oldest one.
    place: usize,
    id: u64,
    pub(crate) file: Option<ListedRun>,
}

impl RunFiles {
    /// The files that an opening has read, with the IDs of their runs.
    pub(crate) fn opened(files: impl IntoIterator<Item = (u64, ListedRun)>) -> RunFiles {
        let files = BTreeMap::from_iter(files);
        RunFiles {
            named: files.values().map(|file| file.number).collect(),
            files,
            store: Some(0),
        }
    }

    /// The files of a checkpoint that was written, of the runs of a store.
    pub(crate) fn written(runs: &[PlannedRun], store: Option<u64>) -> RunFiles {
        let files = runs
            .iter()
            .filter_map(|run| Some((run.id, run.file?)))
            .collect::<BTreeMap<_, _>>();
        RunFiles {
            named: files.values().map(|file| file.number).collect(),
            files,
            store,
        }
    }

    /// Plans the checkpoint of a view's runs: those that have files keep them, unless the view is of another store.
    pub(crate) fn plan(&self, view: &View, store: Option<u64>) -> Vec<PlannedRun> {
        let is_known = store.is_some() && store == self.store;
        let runs = view.runs().rev().enumerate();
        runs.map(|(place, run)| PlannedRun {
            place,
            id: run.id(),
            file: self.files.get(&run.id()).copied().filter(|_| is_known),
        })
        .collect()
    }
}

impl PlannedRun {
    /// The run itself.
    pub(crate) fn of<'a>(&self, view: &'a View) -> Run<'a> {
        let mut runs = view.runs().rev();
        runs.nth(self.place).expect("the view has the run")
    }
}

/// A run file that is being written. Unless it is kept, the device has nothing of it.
pub(crate) struct RunWriter<'a> {
    folder: &'a dyn Folder,
    file: Partial<'a>,
    written: ListedRun,
    /// CRC-32C of all bytes.
    crc: u32,
}

impl<'a> RunWriter<'a> {
    /// Writes a run to the file of a number. A check before each window may end it.
    pub(crate) fn write(
        folder: &'a dyn Folder,
        number: u64,
        run: &Run,
        throttle: &mut Throttle,
        check: &impl Fn() -> Result<(), Error>,
    ) -> Result<RunWriter<'a>, Error> {
        let mut bytes = run.bytes()?;
        let size = bytes.size();
        let mut file = Partial::create(folder, Name::Run(number).text())?;
        let mut window = vec![0; WINDOW.min(usize::try_from(size).unwrap_or(WINDOW))];
        let (mut crc, mut written, mut last) = (Crc::new(), 0, LastBytes::default());
        while written < size {
            throttle.wait(check)?;
            let count = bytes.read(&mut window).expect("a read of memory");
            let piece = &window[..count];
            crc.add(piece);
            last.add(piece);
            file.append(piece)?;
            let before = written;
            written += count as u64;
            throttle.add(count as u64);
            if before / SYNCED_BYTES != written / SYNCED_BYTES {
                file.sync()?;
            }
        }
        let sequences = run.sequences();
        Ok(RunWriter {
            folder,
            file,
            written: ListedRun {
                number,
                size,
                low: *sequences.start(),
                high: *sequences.end(),
                checksum: last.checksum(),
            },
            crc: crc.value(),
        })
    }

    /// Waits until all of it is on the device, reads it again, and keeps it.
    pub(crate) fn sync(
        mut self,
        check: &impl Fn() -> Result<(), Error>,
    ) -> Result<ListedRun, Error> {
        self.file.sync()?;
        let text = Name::Run(self.written.number).text();
        let mut crc = Crc::new();
        read_windows(self.folder, &text, self.written.size, |window| {
            crc.add(window);
            check()
        })?;
        check_length(self.folder, &self.written)?;
        if crc.value() != self.crc {
            let fault = "what is read isn't what was written".into();
            return Err(damaged(Name::Run(self.written.number), 0, fault));
        }
        self.file.keep();
        Ok(self.written)
    }
}

/// Checks that a run file has its length.
pub(crate) fn check_length(folder: &dyn Folder, run: &ListedRun) -> Result<(), Error> {
    let name = Name::Run(run.number);
    let text = name.text();
    let length = match folder.length(&text) {
        Err(error) if error.kind() == io::ErrorKind::NotFound => return Err(missing(run.number)),
        outcome => outcome.map_err(Error::of_file(&text))?,
    };
    match length == run.size {
        true => Ok(()),
        false => {
            let fault = format!("it has {length} bytes, and not {}", run.size);
            Err(damaged(name, length.min(run.size), fault))
        }
    }
}

/// The error of a run file that isn't there.
pub(crate) fn missing(number: u64) -> Error {
    Error::Missing {
        file: Name::Run(number).text(),
    }
}

/// Reads the run of a file, and compares it with what its list says.
pub(crate) fn load_run(folder: &dyn Folder, run: &ListedRun) -> Result<LoadedRun, Error> {
    check_length(folder, run)?;
    let name = Name::Run(run.number);
    let size = usize::try_from(run.size).map_err(|_| ucstore::Error::OutOfMemory)?;
    let mut file = RunFile::with_capacity(size)?;
    let mut last = LastBytes::default();
    read_windows(folder, &name.text(), run.size, |window| {
        last.add(window);
        Ok(file.append(window)?)
    })?;
    let loaded = file.read().map_err(|error| match error {
        RunError::Damaged { offset, .. } => {
            damaged(name, offset as u64, "it isn't as it was written".into())
        }
        RunError::Failed(error) => Error::Store(error),
        error => damaged(name, 0, error.to_string()),
    })?;
    let is_listed = last.checksum() == run.checksum && loaded.sequences() == (run.low..=run.high);
    match is_listed {
        true => Ok(loaded),
        false => Err(damaged(
            name,
            0,
            "it is another run than its list names".into(),
        )),
    }
}

/// The last bytes of a file that comes piece by piece.
#[derive(Debug, Default)]
struct LastBytes(Vec<u8>);

impl LastBytes {
    fn add(&mut self, piece: &[u8]) {
        let last = &piece[piece.len().saturating_sub(LAST_BYTES)..];
        self.0.extend_from_slice(last);
        let before = self.0.len().saturating_sub(LAST_BYTES);
        self.0.drain(..before);
    }

    fn checksum(&self) -> u32 {
        Crc::of(&self.0)
    }
}

/// Reads a file window by window, up to a size.
fn read_windows(
    folder: &dyn Folder,
    text: &str,
    size: u64,
    mut visit: impl FnMut(&[u8]) -> Result<(), Error>,
) -> Result<(), Error> {
    let mut offset = 0;
    while offset < size {
        let most = (size - offset).min(WINDOW as u64) as usize;
        let window = folder.read_at(text, offset, most);
        let window = window.map_err(Error::of_file(text))?;
        if window.is_empty() {
            let error = io::Error::from(io::ErrorKind::UnexpectedEof);
            return Err(Error::of_file(text)(error));
        }
        visit(&window)?;
        offset += window.len() as u64;
    }
    Ok(())
}
