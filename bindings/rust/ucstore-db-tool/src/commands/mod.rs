//! The commands.

mod backup;
mod checkpoint;
mod compact;
mod delete;
mod delete_range;
mod dump;
mod get;
mod load;
mod log;
mod merge;
mod put;
mod repair;
mod scan;
mod stats;
mod verify;
mod watch;

pub use backup::Backup;
pub use checkpoint::Checkpoint;
pub use compact::Compact;
pub use delete::Delete;
pub use delete_range::DeleteRange;
pub use dump::Dump;
pub use get::Get;
pub use load::Load;
pub use log::Log;
pub use merge::Merge;
pub use put::Put;
pub use repair::Repair;
pub use scan::Scan;
pub use stats::Stats;
pub use verify::Verify;
pub use watch::Watch;

use crate::args::{Args, Command};
use crate::failure::Outcome;

/// Runs the command of the words.
pub fn run(args: &Args) -> Outcome {
    match &args.command {
        Command::Get(command) => command.run(args),
        Command::Put(command) => command.run(args),
        Command::Merge(command) => command.run(args),
        Command::Delete(command) => command.run(args),
        Command::DeleteRange(command) => command.run(args),
        Command::Scan(command) => command.run(args),
        Command::Stats(command) => command.run(args),
        Command::Verify(command) => command.run(args),
        Command::Dump(command) => command.run(args),
        Command::Load(command) => command.run(args),
        Command::Backup(command) => command.run(args),
        Command::Checkpoint(command) => command.run(args),
        Command::Compact(command) => command.run(args),
        Command::Repair(command) => command.run(args),
        Command::Log(command) => command.run(args),
        Command::Watch(command) => command.run(args),
    }
}
