//! Takes and gives of slots in plain Rust, over `AtomicU64` alone.
use std::sync::atomic::{AtomicU64, Ordering::SeqCst};
use std::time::Instant;

const COUNT: usize = 256;

/// Words that begin 16 bytes into a cache line, as `malloc` lays those of ours. So in both programs the
/// same slots share a line: 0 to 5, and 6 to 13.
#[repr(align(64))]
struct Lines([AtomicU64; COUNT + 2]);

fn take(words: &[AtomicU64], slots: &[usize]) -> bool {
    for (taken, &slot) in slots.iter().enumerate() {
        if words[slot].compare_exchange(0, 1, SeqCst, SeqCst).is_err() {
            give(words, &slots[..taken]);
            return false;
        }
    }
    true
}

fn give(words: &[AtomicU64], slots: &[usize]) {
    for &slot in slots {
        words[slot].store(0, SeqCst);
    }
}

fn asked(thread: usize, layout: &str) -> &'static [usize] {
    match (layout, thread) {
        ("contended", _) | (_, 0) => &[0, 1],
        ("disjoint", 1) => &[2, 3],
        ("disjoint", 2) => &[4, 5],
        ("disjoint", _) => &[6, 7],
        (_, 1) => &[16, 17],
        (_, 2) => &[32, 33],
        _ => &[48, 49],
    }
}

fn work(words: &[AtomicU64], slots: &[usize], rounds: u32) -> u64 {
    let mut won = 0;
    for _ in 0..rounds {
        if take(words, slots) {
            won += 1;
            give(words, slots);
        }
    }
    won
}

fn main() {
    let args: Vec<String> = std::env::args().collect();
    let threads: usize = args[1].parse().expect("a number of threads");
    let layout = args[2].as_str();
    let rounds: u32 = args[3].parse().expect("a number of rounds");
    let lines = Box::new(Lines(std::array::from_fn(|_| AtomicU64::new(0))));
    let words = &lines.0[2..];
    let start = Instant::now();
    let won: u64 = std::thread::scope(|scope| {
        let mut running = Vec::new();
        for thread in 0..threads {
            running.push(scope.spawn(move || work(words, asked(thread, layout), rounds)));
        }
        running.into_iter().map(|thread| thread.join().expect("a thread's answer")).sum()
    });
    println!("{} {won}", start.elapsed().as_nanos());
}
