//! `watch`.

use crate::args::Args;
use crate::failure::{Failure, Outcome};
use crate::opening;
use crate::output::Output;
use std::thread;
use std::time::{Duration, Instant};
use ucstore_db::{files_of, DiskFolder, Error, FileKind};

/// The time between two lines.
const PERIOD: Duration = Duration::from_secs(1);

/// Print a line a second of a database, also while another process has it open
#[derive(clap::Args)]
#[command(
    after_help = "A line has the last sequence number, the writes a second since the line before, the bytes of logs and of checkpoints, \
and the runs. Each is read from the files, which holds the database in memory. It ends with Ctrl-C.

Example: ucstore-db visits watch --count 10"
)]
pub struct Watch {
    /// Number of lines after which it ends
    #[arg(long, value_name = "N")]
    count: Option<u64>,
}

impl Watch {
    pub fn run(&self, args: &Args) -> Outcome {
        let fault = Failure::of(&args.dir);
        let folder = opening::folder_beside(args)?;
        let db = opening::read_from(args, folder.clone(), &Default::default())?;
        let mut output = Output::new(args.form());
        let (mut before, mut lines) = (db.stats().last, 0);
        let mut looked = Instant::now();
        while self.count.is_none_or(|count| lines < count) {
            if lines > 0 {
                thread::sleep(PERIOD);
            }
            let last = db.refresh().map_err(&fault)?;
            let rate = (last - before) as f64 / looked.elapsed().as_secs_f64().max(1e-3);
            // The first line counts no writes.
            let rate = if lines > 0 { rate } else { 0.0 };
            (before, looked) = (last, Instant::now());
            let [logs, checkpoints] = sizes_of(&folder).map_err(&fault)?;
            let runs = db.stats().runs;
            output.line(&format!(
                "last {last} writes {rate:.0} log_bytes {logs} checkpoint_bytes {checkpoints} runs {runs}"
            ))?;
            output.flush()?;
            lines += 1;
        }
        output.finish()
    }
}

/// The bytes of the logs and of the checkpoints of a directory, with their runs.
fn sizes_of(folder: &DiskFolder) -> Result<[u64; 2], Error> {
    let files = files_of(folder)?;
    let bytes = |kind| -> u64 {
        let files = files.iter().filter(|file| file.kind == kind);
        files.map(|file| file.length).sum()
    };
    let checkpoints = bytes(FileKind::Checkpoint) + bytes(FileKind::Run);
    Ok([bytes(FileKind::Log), checkpoints])
}
