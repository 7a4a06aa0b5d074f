//! `compact`.

use super::checkpoint::checkpoint;
use crate::args::Args;
use crate::failure::Outcome;

/// Compact the runs as far as is due, and write a checkpoint, as `checkpoint` does
#[derive(clap::Args)]
#[command(
    after_help = "The checkpoint has the runs as they are then: the directory gets smaller by the writes that compactions drop, and by the \
logs.

Example: ucstore-db visits compact"
)]
pub struct Compact {}

impl Compact {
    pub fn run(&self, args: &Args) -> Outcome {
        checkpoint(args, true)
    }
}
