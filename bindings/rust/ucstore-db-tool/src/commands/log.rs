//! `log`.

use crate::args::Args;
use crate::failure::{Failure, Outcome};
use crate::form::Form;
use crate::opening;
use crate::output::Output;
use std::path::Path;
use ucstore_db::ucstore::{BatchFault, Ended, LogFault, Operation, Write};
use ucstore_db::{files_of, read_writes, verify_checkpoint, Error, FileKind, Folder, FolderFile};

/// Print the writes of the checkpoint and the logs, in order
#[derive(clap::Args)]
#[command(
    after_help = "A line `file NAME` begins each file. After its writes a line says how it ends, as `ucstore dump` does: \
`clean`, `torn OFFSET`, `log fault ...` or `batch fault ...`. A list of run files has a line `run NAME sequences FIRST LAST` for \
each. With --hex a file's lines are those of `ucstore dump`, but that a batch \
fault has no numbers of bytes and tags. Files that an opening doesn't read are left out, unless they are named.

Example: ucstore-db visits log 000002.log"
)]
pub struct Log {
    /// Checkpoints or logs; all that an opening reads if none is named
    files: Vec<String>,
}

impl Log {
    pub fn run(&self, args: &Args) -> Outcome {
        let folder = opening::still_folder(args)?;
        let mut output = Output::new(args.form());
        for name in self.names(args, &*folder)? {
            output.line(&format!("file {name}"))?;
            if name.ends_with(".runs") {
                for line in lines_of_list(args, &*folder, &name)? {
                    output.line(&line)?;
                }
                continue;
            }
            let read = read_writes(&*folder, &name, |write| {
                print(&mut output, args.form(), &write)
            });
            let read = read.map_err(|stop| stop.into_failure(&args.dir))?;
            output.line(&words_of(read.ended))?;
        }
        output.finish()
    }

    /// The names of the files to print.
    fn names(&self, args: &Args, folder: &dyn Folder) -> Outcome<Vec<String>> {
        let files = files_of(folder).map_err(Failure::of(&args.dir))?;
        let is_printed =
            |file: &FolderFile| matches!(file.kind, FileKind::Checkpoint | FileKind::Log);
        let found = files.into_iter().filter(is_printed);
        if self.files.is_empty() {
            let read = found.filter(|file| file.is_read);
            return Ok(read.map(|file| file.name).collect());
        }
        let known: Vec<String> = found.map(|file| file.name).collect();
        match self.files.iter().find(|name| !known.contains(name)) {
            Some(name) => {
                let dir = args.dir.display();
                let why = format!("{dir} has no checkpoint or log {name}");
                Err(Failure::Refused(why))
            }
            None => Ok(self.files.clone()),
        }
    }
}

/// The lines of a list of run files.
fn lines_of_list(args: &Args, folder: &dyn Folder, name: &str) -> Outcome<Vec<String>> {
    let read = match verify_checkpoint(folder, name) {
        Err(Error::Damaged { offset, .. }) => return Ok(vec![format!("list fault {offset}")]),
        outcome => outcome.map_err(Failure::of(&args.dir))?,
    };
    let runs = read.runs.iter();
    let runs = runs.map(|run| format!("run {} sequences {} {}", run.name, run.first, run.last));
    let end = match read.fault() {
        None => "clean".into(),
        Some(Error::Damaged { file, offset, .. }) => format!("run fault {file} {offset}"),
        Some(error) => format!("run fault: {error}"),
    };
    Ok(runs.chain([end]).collect())
}

/// Why a file isn't read on.
enum Stop {
    Database(Error),
    Output(Failure),
}

impl From<Error> for Stop {
    fn from(error: Error) -> Stop {
        Stop::Database(error)
    }
}

impl Stop {
    fn into_failure(self, dir: &Path) -> Failure {
        match self {
            Stop::Database(error) => Failure::of(dir)(error),
            Stop::Output(failure) => failure,
        }
    }
}

/// Prints a write: with hexadecimal keys and values in the words of a script.
fn print(output: &mut Output, form: Form, write: &Write<&[u8]>) -> Result<(), Stop> {
    let (word, fields) = match write.operation {
        Operation::Put { key, value } => ("put", vec![key, value]),
        Operation::Delete { key } => ("delete", vec![key]),
        Operation::Merge { key, operand } => ("merge", vec![key, operand]),
        Operation::DeleteRange { begin, end } => ("range", vec![begin, end]),
    };
    let (separator, empty) = match form {
        Form::Hex => (' ', "."),
        Form::Escaped => ('\t', ""),
    };
    let words = format!("{}{separator}{word}", write.sequence);
    let printed = output.worded(&words, &fields, separator, empty);
    printed.map_err(Stop::Output)
}

/// How a file ends.
fn words_of(ended: Ended) -> String {
    match ended {
        Ended::Clean => "clean".into(),
        Ended::Torn { offset } => format!("torn {offset}"),
        Ended::LogFault { offset, fault } => format!("log fault {} {offset}", log_words(fault)),
        Ended::BatchFault { payload, fault } => {
            format!("batch fault {payload} {}", batch_words(fault))
        }
    }
}

fn log_words(fault: LogFault) -> String {
    match fault {
        LogFault::BadLength => "bad length".into(),
        LogFault::BadChecksum => "bad checksum".into(),
        LogFault::UnsupportedType => "unsupported type".into(),
        LogFault::MiddleAlone => "middle alone".into(),
        LogFault::LastAlone => "last alone".into(),
        LogFault::FullInside => "full inside".into(),
        LogFault::FirstInside => "first inside".into(),
        other => other.to_string(),
    }
}

fn batch_words(fault: BatchFault) -> String {
    match fault {
        BatchFault::TooShort => "too short".into(),
        BatchFault::SequenceBack => "sequence back".into(),
        BatchFault::SequenceTooLarge => "sequence too large".into(),
        BatchFault::BadTag => "bad tag".into(),
        BatchFault::Cut => "cut".into(),
        BatchFault::BadNumber => "bad varint".into(),
        BatchFault::OtherFamily => "other family".into(),
        BatchFault::WrongCount => "wrong count".into(),
        BatchFault::OutOfMemory => "out of memory".into(),
        other => other.to_string(),
    }
}
