//! `ucstore-db`: looks into the directory of a database, changes it, and makes backups of it.
//!
//! Each command is a module of `commands`. `args` has the words, `failure` the statuses.
#![forbid(unsafe_code)]

mod args;
mod commands;
mod completions;
mod failure;
mod form;
mod opening;
mod output;
mod progress;
mod still_folder;

use args::Args;
use clap::Parser;
use std::process::ExitCode;

fn main() -> ExitCode {
    let outcome = match completions::shell() {
        Some(shell) => completions::print(shell),
        None => commands::run(&Args::parse()),
    };
    let failure = match outcome {
        Ok(()) => return ExitCode::SUCCESS,
        Err(failure) => failure,
    };
    if let Some(message) = failure.message() {
        eprintln!("ucstore-db: {message}");
    }
    ExitCode::from(failure.status())
}
