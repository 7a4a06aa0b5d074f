//! `stats`.

use crate::args::Args;
use crate::failure::{Failure, Outcome};
use crate::opening;
use crate::output::Output;
use ucstore_db::{files_of, FileKind, FolderFile};

/// Print what the directory and its database hold, in numbers
#[derive(clap::Args)]
#[command(
    after_help = "The counts of what a process does are those of its own database: the library's function `stats` has \
them.

Example: ucstore-db visits stats --json"
)]
pub struct Stats {
    /// Print one object of JSON
    #[arg(long)]
    json: bool,
}

/// A figure, with its name as a table and as JSON has it.
struct Figure {
    name: &'static str,
    key: &'static str,
    value: u64,
}

impl Stats {
    pub fn run(&self, args: &Args) -> Outcome {
        let fault = Failure::of(&args.dir);
        let folder = opening::still_folder(args)?;
        let files = files_of(&*folder).map_err(&fault)?;
        let db = opening::read_from(args, folder, &Default::default())?;
        let stats = db.stats();
        let mut rows = 0;
        let mut all = db.iter().map_err(&fault)?;
        while all
            .next_row()
            .map_err(|error| fault(error.into()))?
            .is_some()
        {
            rows += 1;
        }
        let of = |kind: FileKind| move |file: &&FolderFile| file.kind == kind;
        let bytes = |kind| -> u64 { files.iter().filter(of(kind)).map(|file| file.length).sum() };
        let figure = |name, key, value| Figure { name, key, value };
        let logs = files.iter().filter(of(FileKind::Log)).count() as u64;
        let figures = [
            figure("last sequence", "last_sequence", stats.last),
            figure("rows", "rows", rows),
            figure("logs", "logs", logs),
            figure("bytes of logs", "log_bytes", bytes(FileKind::Log)),
            figure(
                "bytes of checkpoints",
                "checkpoint_bytes",
                bytes(FileKind::Checkpoint) + bytes(FileKind::Run),
            ),
            figure(
                "bytes set aside",
                "set_aside_bytes",
                bytes(FileKind::SetAside),
            ),
            figure("runs in memory", "runs", stats.runs),
            figure("bytes of runs", "run_bytes", stats.bytes),
            figure("writes in the memtable", "gathered", stats.gathered),
        ];
        let mut output = Output::new(args.form());
        match self.json {
            true => output.line(&json_of(&figures))?,
            false => {
                for Figure { name, value, .. } in &figures {
                    output.line(&format!("{name:<24} {value:>14}"))?;
                }
            }
        }
        output.finish()
    }
}

/// The figures as an object of JSON.
fn json_of(figures: &[Figure]) -> String {
    let pairs = figures
        .iter()
        .map(|it| format!("\"{}\": {}", it.key, it.value));
    format!("{{{}}}", Vec::from_iter(pairs).join(", "))
}
