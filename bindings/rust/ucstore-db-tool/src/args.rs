//! [`Args`]: the words of the command line.

use crate::commands::{
    Backup, Checkpoint, Compact, Delete, DeleteRange, Dump, Get, Load, Log, Merge, Put, Repair,
    Scan, Stats, Verify, Watch,
};
use crate::form::Form;
use clap::{Parser, Subcommand, ValueEnum};
use std::path::PathBuf;
use ucstore_db::Operator;

const HELP: &str = "\
Keys and values are UTF-8. \\\\ is a backslash, \\t a tab, \\n a line feed, \\r a carriage return, and \\xHH any byte; --hex has two digits \
for each byte instead. A line of output has a key, a tab, and its value.

Commands that only read change nothing in the directory. While another process has it open, they read what that had acknowledged by then. \
The others need it alone, also `backup` and `repair`.

Status: 0 done, 1 the key has no value, 2 a refused command line or input, or a directory that can't be opened, 3 a file is damaged \
or missing, 4 out of memory, 5 a read or write fault.

`ucstore-db --completions SHELL` prints the completions of bash, zsh, fish or elvish.

Example: ucstore-db visits scan --prefix user/ --limit 10";

/// Look into the directory of a database, change it, and make backups of it
#[derive(Parser)]
#[command(name = "ucstore-db", version, after_help = HELP)]
pub struct Args {
    /// Directory of the database
    #[arg(value_name = "DIR")]
    pub dir: PathBuf,
    /// Keys and values are hexadecimal, two digits for each byte
    #[arg(long, global = true)]
    hex: bool,
    /// Merge operator, for a new directory (default: mixed), or one without the file OPERATOR, which names it
    #[arg(long, global = true, value_name = "NAME")]
    operator: Option<OperatorName>,
    #[command(subcommand)]
    pub command: Command,
}

impl Args {
    /// The form of keys and values.
    pub fn form(&self) -> Form {
        match self.hex {
            true => Form::Hex,
            false => Form::Escaped,
        }
    }

    /// The operator that was named.
    pub fn operator(&self) -> Option<Operator> {
        self.operator.map(OperatorName::operator)
    }
}

/// The commands.
#[derive(Subcommand)]
pub enum Command {
    Get(Get),
    Put(Put),
    Merge(Merge),
    Delete(Delete),
    DeleteRange(DeleteRange),
    Scan(Scan),
    Stats(Stats),
    Verify(Verify),
    Dump(Dump),
    Load(Load),
    Backup(Backup),
    Checkpoint(Checkpoint),
    Compact(Compact),
    Repair(Repair),
    Log(Log),
    Watch(Watch),
}

/// The name of a merge operator.
#[derive(Clone, Copy, ValueEnum)]
enum OperatorName {
    Append,
    Counter,
    Maximum,
    Tail,
    Mixed,
}

impl OperatorName {
    fn operator(self) -> Operator {
        match self {
            OperatorName::Append => Operator::Append,
            OperatorName::Counter => Operator::Counter,
            OperatorName::Maximum => Operator::Maximum,
            OperatorName::Tail => Operator::Tail,
            OperatorName::Mixed => Operator::Mixed,
        }
    }
}
