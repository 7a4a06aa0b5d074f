//! [`Bar`]: how far a command is, on a terminal alone.

use indicatif::{ProgressBar, ProgressDrawTarget, ProgressStyle};
use std::io::{self, IsTerminal};
use std::time::Duration;
use ucstore_db::{Listener, Progress};

/// The number of times in a second that a bar is drawn at most.
const RATE: u8 = 10;

/// The progress of a command: a line of standard error if that is a terminal, or else nothing. It is gone where this is dropped.
pub struct Bar(ProgressBar);

impl Bar {
    /// The bytes of all files that an opening reads.
    pub fn of_opening() -> Bar {
        Bar::of("{msg} {wide_bar} {bytes}/{total_bytes}", "opening")
    }

    /// The rows that a command has passed on.
    pub fn of_rows(command: &'static str) -> Bar {
        let bar = Bar::of("{msg} {pos} rows, {per_sec}", command);
        bar.0.enable_steady_tick(Duration::from_millis(200));
        bar
    }

    fn of(template: &str, message: &'static str) -> Bar {
        let target = match io::stderr().is_terminal() {
            true => ProgressDrawTarget::stderr_with_hz(RATE),
            false => ProgressDrawTarget::hidden(),
        };
        let style = ProgressStyle::with_template(template).expect("the template is right");
        let bar = ProgressBar::with_draw_target(Some(0), target).with_style(style);
        bar.set_message(message);
        Bar(bar)
    }

    /// Notes more rows.
    pub fn add(&self, rows: u64) {
        self.0.inc(rows);
    }

    /// Lets an opening move it.
    pub fn listener(&self) -> Option<Listener<Progress>> {
        if self.0.is_hidden() {
            return None;
        }
        let bar = self.0.clone();
        Some(Listener::new(move |progress: &Progress| {
            bar.set_length(progress.whole);
            bar.set_position(progress.read);
        }))
    }
}

impl Drop for Bar {
    fn drop(&mut self) {
        self.0.finish_and_clear();
    }
}
