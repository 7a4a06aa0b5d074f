//! `--completions`: what a shell completes.

use crate::args::Args;
use crate::failure::Outcome;
use crate::output::fault;
use clap::{CommandFactory, ValueEnum};
use clap_complete::{generate, Shell};
use std::env;
use std::io::{self, Write};

/// The shell that the command line names, if it asks for completions. It has no directory then.
pub fn shell() -> Option<Shell> {
    let mut words = env::args_os()
        .skip(1)
        .map(|word| word.to_string_lossy().into_owned());
    match (words.next().as_deref(), words.next(), words.next()) {
        (Some("--completions"), Some(shell), None) => Shell::from_str(&shell, false).ok(),
        _ => None,
    }
}

/// Prints the completions of a shell.
pub fn print(shell: Shell) -> Outcome {
    let mut script = vec![];
    generate(shell, &mut Args::command(), "ucstore-db", &mut script);
    let mut stream = io::stdout().lock();
    stream
        .write_all(&script)
        .and_then(|()| stream.flush())
        .map_err(fault)
}
