//! [`Throttle`]: a limit for the bytes that are written in a second.

use crate::error::Error;
use std::thread;
use std::time::{Duration, Instant};

/// The longest time between two checks whether a wait is to end.
const LONGEST: Duration = Duration::from_millis(20);

/// A limit for the bytes that are written in a second, if there is one.
#[derive(Debug)]
pub(crate) struct Throttle {
    bytes_per_second: Option<u64>,
    begun: Instant,
    /// Number of bytes written since.
    written: u64,
}

impl Throttle {
    /// A limit from now on.
    pub(crate) fn new(bytes_per_second: Option<u64>) -> Throttle {
        Throttle {
            bytes_per_second,
            begun: Instant::now(),
            written: 0,
        }
    }

    /// Counts bytes that were written.
    pub(crate) fn add(&mut self, bytes: u64) {
        self.written += bytes;
    }

    /// Waits until more may be written. A check may end that.
    pub(crate) fn wait(&self, check: &impl Fn() -> Result<(), Error>) -> Result<(), Error> {
        loop {
            check()?;
            let left = self.due().saturating_sub(self.begun.elapsed());
            if left.is_zero() {
                return Ok(());
            }
            thread::sleep(left.min(LONGEST));
        }
    }

    /// The time that the bytes so far take at least.
    fn due(&self) -> Duration {
        let Some(most) = self.bytes_per_second else {
            return Duration::ZERO;
        };
        let seconds = self.written as f64 / most.max(1) as f64;
        Duration::try_from_secs_f64(seconds).unwrap_or(Duration::MAX)
    }
}

#[cfg(test)]
mod tests {
    use super::*;
    use std::cell::Cell;

    #[test]
    fn bytes_take_their_time() {
        let check = || Ok(());
        let begun = Instant::now();
        let mut throttle = Throttle::new(Some(10_000));
        throttle.wait(&check).unwrap();
        throttle.add(1000);
        throttle.wait(&check).unwrap();
        assert!(begun.elapsed() >= Duration::from_millis(100));
        let mut free = Throttle::new(None);
        free.add(u64::MAX);
        free.wait(&check).unwrap();
        assert_eq!(free.due(), Duration::ZERO);
    }

    #[test]
    fn a_check_ends_a_wait() {
        let mut throttle = Throttle::new(Some(0));
        throttle.add(u64::MAX);
        let left = Cell::new(3);
        let check = || {
            left.set(left.get() - 1);
            match left.get() {
                0 => Err(Error::Closed),
                _ => Ok(()),
            }
        };
        assert!(matches!(throttle.wait(&check), Err(Error::Closed)));
        assert_eq!(left.get(), 0);
    }
}
