//! Measures the machine's processors together by rounds of arithmetic that need no memory.
//!
//!     machine
//!
//! It counts the rounds that 1, 2 and 4 threads do in 50 milliseconds, in turn, and prints for each number of threads the
//! least, the median and the most of its tries, in millions of rounds a second.

use std::hint::black_box;
use std::thread;
use std::time::{Duration, Instant};

const TRIES: usize = 21;

const A_TRY: Duration = Duration::from_millis(50);

/// Numbers that don't wait for each other, so that a processor is busy with several at a time.
fn round(numbers: &mut [u64; 6], by: u64) {
    let [a, b, c, d, e, f] = numbers;
    *a = a.wrapping_add(*b ^ by);
    *b = b.wrapping_add(*c | 1);
    *c ^= d.wrapping_add(by);
    *d = d.wrapping_add(*e >> 3);
    *e ^= f.wrapping_add(by);
    *f = f.wrapping_add(*a & 7);
}

/// The number of a thread's rounds in a try.
fn rounds_in_a_try() -> u64 {
    let mut numbers = [1, 2, 3, 4, 5, 6];
    let start = Instant::now();
    let mut rounds = 0;
    while start.elapsed() < A_TRY {
        for by in 0..1000 {
            round(&mut numbers, by);
        }
        black_box(&mut numbers);
        rounds += 1000;
    }
    rounds
}

/// The rounds of a number of threads together, in millions a second.
fn rounds_of(threads: usize) -> f64 {
    let rounds: u64 = thread::scope(|scope| {
        let started: Vec<_> = (0..threads).map(|_| scope.spawn(rounds_in_a_try)).collect();
        started
            .into_iter()
            .map(|thread| thread.join().unwrap())
            .sum()
    });
    rounds as f64 / A_TRY.as_secs_f64() / 1e6
}

fn main() {
    let mut tries = [1, 2, 4].map(|threads| (threads, Vec::new()));
    for _ in 0..TRIES {
        for (threads, rounds) in &mut tries {
            rounds.push(rounds_of(*threads));
        }
    }
    for (threads, mut rounds) in tries {
        rounds.sort_by(f64::total_cmp);
        let [least, median, most] = [0, TRIES / 2, TRIES - 1].map(|place| rounds[place]);
        println!("{threads} {least:.0} {median:.0} {most:.0}");
    }
}
