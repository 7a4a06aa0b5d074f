//! [`SpinWait`]: spins of a thread that waits, before it sleeps.

use crate::options::Sync;
use crate::{lock, try_lock};
use std::hint;
use std::sync::{Mutex, MutexGuard};
use std::thread;
use std::time::{Duration, Instant};

/// The number of times that a thread looks without giving up its processor.
const SPINS: u32 = 50;

/// The most pauses between two looks. The fewer look at a lock, the sooner it is given back: each look takes its cache line.
const MOST_PAUSES: u32 = 32;

/// For how long it lets others use that before it looks again. Where one of them keeps it, that is once.
const YIELDS: Duration = Duration::from_micros(50);

/// The way in which a thread waits: it spins for a while, and sleeps then. To sleep and be woken takes longer than most groups do.
#[derive(Clone, Copy, PartialEq, Eq)]
pub(crate) enum SpinWait {
    /// It sleeps at once: a device is waited for.
    None,
    /// It looks for some microseconds, and keeps its processor: others wait for it.
    Short,
    /// It looks for as long as that pays.
    Long,
}

impl SpinWait {
    /// The wait of a writer for the group before its own or for its leader.
    pub(crate) fn of(sync: Sync) -> SpinWait {
        match sync {
            Sync::Always => SpinWait::None,
            Sync::EveryMs(_) | Sync::Never => SpinWait::Long,
        }
    }

    /// Looks for something, and returns it if it is there before the thread would sleep.
    pub(crate) fn spin_until<T>(self, mut find: impl FnMut() -> Option<T>) -> Option<T> {
        let spins = if self == SpinWait::None { 0 } else { SPINS };
        let mut pauses = 1;
        for _ in 0..spins {
            let found = find();
            if found.is_some() {
                return found;
            }
            for _ in 0..pauses {
                hint::spin_loop();
            }
            pauses = MOST_PAUSES.min(2 * pauses);
        }
        let begun = (self == SpinWait::Long).then(Instant::now);
        while begun.is_some_and(|begun| begun.elapsed() < YIELDS) {
            thread::yield_now();
            let found = find();
            if found.is_some() {
                return found;
            }
        }
        None
    }

    /// Locks.
    pub(crate) fn lock<T>(self, mutex: &Mutex<T>) -> MutexGuard<'_, T> {
        self.spin_until(|| try_lock(mutex))
            .unwrap_or_else(|| lock(mutex))
    }
}

#[cfg(test)]
mod tests {
    use super::*;

    /// The number of looks for what is there at some look, and whether it is found.
    fn looks(wait: SpinWait, found_at: u32) -> (u32, bool) {
        let mut looks = 0;
        let found = wait.spin_until(|| {
            looks += 1;
            (looks == found_at).then_some(())
        });
        (looks, found.is_some())
    }

    #[test]
    fn a_wait_ends() {
        assert_eq!(looks(SpinWait::None, 1), (0, false));
        assert_eq!(looks(SpinWait::Short, 1), (1, true));
        assert_eq!(looks(SpinWait::Short, 0), (SPINS, false));
        let begun = Instant::now();
        let (least, is_found) = looks(SpinWait::Long, 0);
        assert!(least >= SPINS && !is_found && begun.elapsed() >= YIELDS);
        assert_eq!(looks(SpinWait::Long, SPINS), (SPINS, true));
    }

    #[test]
    fn a_lock_is_waited_for_behind_all_looks() {
        for wait in [SpinWait::None, SpinWait::Long] {
            let mutex = Mutex::new(1);
            thread::scope(|scope| {
                let guard = lock(&mutex);
                let waiting = scope.spawn(|| *wait.lock(&mutex));
                thread::sleep(Duration::from_millis(20));
                assert!(!waiting.is_finished());
                drop(guard);
                assert_eq!(waiting.join().unwrap(), 1);
            });
        }
    }
}
