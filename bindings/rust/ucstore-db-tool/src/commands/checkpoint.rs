//! `checkpoint`.

use crate::args::Args;
use crate::failure::{Failure, Outcome};
use crate::opening;
use crate::output::Output;
use std::sync::mpsc;
use ucstore_db::{Event, Listener, Options};

/// Write a checkpoint, delete the logs before it, and print its name and the number of bytes written
#[derive(clap::Args)]
#[command(after_help = "Example: ucstore-db visits checkpoint")]
pub struct Checkpoint {}

impl Checkpoint {
    pub fn run(&self, args: &Args) -> Outcome {
        checkpoint(args, false)
    }
}

/// Makes a checkpoint, of one run if that is asked for, and prints what it is.
pub fn checkpoint(args: &Args, is_compacted: bool) -> Outcome {
    let (sender, made) = mpsc::channel();
    let events = Some(Listener::new(move |event: &Event| {
        if let Event::Checkpointed { file, bytes, .. } = event {
            // Nobody may wait for it any more.
            let _ = sender.send((file.clone(), *bytes));
        }
    }));
    let options = Options {
        events,
        // None is made but this one.
        checkpoint_least: u64::MAX,
        ..Options::default()
    };
    let fault = Failure::of(&args.dir);
    let db = opening::to_write(args, false, &options)?;
    if is_compacted {
        db.flush().and_then(|()| db.compact()).map_err(&fault)?;
    }
    db.checkpoint().map_err(&fault)?;
    opening::close(args, &db)?;
    let mut output = Output::new(args.form());
    for (file, bytes) in made.try_iter() {
        output.line(&format!("checkpoint {file} bytes {bytes}"))?;
    }
    output.finish()
}
