//! Databases that are opened to be read beside their owner, and refreshed.

mod common;

use common::{
    batch_of, counts_of, is_long, number, of_owner, of_reader, seed, Ends, Numbers, Temporary,
    WRITERS,
};
use std::env;
use std::io::{self, BufRead, BufReader, Write};
use std::path::Path;
use std::process::{Child, ChildStdout, Command, Stdio};
use std::sync::atomic::{AtomicBool, AtomicU64, Ordering};
use std::thread;
use std::time::{Duration, Instant};
use ucstore_db::{Db, Options, Sync};

/// The variable that names the folder to the process that is ended.
const FOLDER: &str = "UCSTORE_DB_BESIDE";

/// The work of the process that is ended: it counts, and says each number once it is acknowledged. On its own it does nothing.
#[test]
#[ignore]
fn child() {
    let Some(folder) = env::var_os(FOLDER) else {
        return;
    };
    // A process that ends loses nothing.
    let options = Options {
        sync: Sync::EveryMs(20),
        ..of_owner()
    };
    let db = Db::open(folder, &options).unwrap();
    let begun = Instant::now();
    thread::scope(|scope| {
        for writer in 0..WRITERS {
            let db = &db;
            scope.spawn(move || {
                let mut numbers = Numbers(seed(writer));
                let mut count = number(db.get(format!("a{writer}")).unwrap());
                while begun.elapsed() < Duration::from_secs(30) {
                    let most = [10, 10, 10, 3000, 70_000][numbers.below(5) as usize];
                    db.write(&batch_of(writer, numbers.below(most))).unwrap();
                    count += 1;
                    let line = format!("\ncounted {writer} {count}\n");
                    io::stdout().write_all(line.as_bytes()).unwrap();
                    if writer == 0 && count.is_multiple_of(50) {
                        db.checkpoint().unwrap();
                    }
                }
            });
        }
    });
}

fn start(folder: &Path) -> Child {
    Command::new(env::current_exe().unwrap())
        .args(["child", "--exact", "--ignored", "--nocapture"])
        .env(FOLDER, folder)
        .stdout(Stdio::piped())
        .stderr(Stdio::null())
        .spawn()
        .unwrap()
}

/// The counts that an owner has acknowledged.
type Acknowledged = [AtomicU64; WRITERS as usize];

/// Notes what an owner says, until it ends.
fn note(told: ChildStdout, acknowledged: &Acknowledged) {
    for line in BufReader::new(told).lines().map_while(Result::ok) {
        let words: Vec<&str> = line.split(' ').collect();
        if let ["counted", writer, count] = words[..] {
            if let (Ok(writer), Ok(count)) = (writer.parse::<usize>(), count.parse()) {
                acknowledged[writer].fetch_max(count, Ordering::SeqCst);
            }
        }
    }
}

/// A database that is refreshed, and what was seen in it.
struct Reader {
    db: Db,
    seen: Vec<u64>,
    refreshed: u64,
}

impl Reader {
    fn open(folder: &Path, compactors: usize) -> Reader {
        Reader {
            db: Db::open(folder, &of_reader(compactors)).unwrap(),
            seen: vec![0; WRITERS as usize],
            refreshed: 0,
        }
    }

    /// Checks what is there beside what was, and what was acknowledged before.
    fn check(&mut self, least: &[u64]) {
        let snapshot = self.db.snapshot().unwrap();
        assert!(snapshot.sequence() >= self.refreshed);
        let found = counts_of(&snapshot);
        for (place, count) in found.iter().enumerate() {
            assert!(*count >= self.seen[place], "a refresh went back");
            assert!(*count >= least[place], "an acknowledged write isn't seen");
        }
        self.seen = found;
    }

    fn refresh(&mut self, acknowledged: &Acknowledged) {
        let least: Vec<u64> = acknowledged
            .iter()
            .map(|it| it.load(Ordering::SeqCst))
            .collect();
        let last = self.db.refresh().unwrap();
        assert!(last >= self.refreshed, "a refresh went back");
        self.refreshed = last;
        self.check(&least);
    }
}

#[test]
fn readers_see_whole_batches_beside_an_owner_that_is_ended() {
    let folder = Temporary::new("beside");
    drop(Db::open(folder.path(), &of_owner()).unwrap());
    let acknowledged = Acknowledged::default();
    let is_over = AtomicBool::new(false);
    let (refreshes, opened) = (AtomicU64::new(0), AtomicU64::new(0));
    let until = Instant::now() + Duration::from_secs(if is_long() { 60 } else { 6 });
    thread::scope(|scope| {
        let (path, acknowledged, is_over) = (folder.path(), &acknowledged, &is_over);
        // Two are refreshed all the time, and two seldom, so that logs are removed meanwhile.
        for (compactors, pause) in [(2, 0), (0, 1), (2, 300), (0, 700)] {
            let refreshes = &refreshes;
            scope.spawn(move || {
                let mut reader = Reader::open(path, compactors);
                let beside = reader.db.clone();
                let is_done = &AtomicBool::new(false);
                thread::scope(|scope| {
                    scope.spawn(move || {
                        // Others read meanwhile.
                        let mut seen = 0;
                        while !is_done.load(Ordering::Relaxed) {
                            let total = number(beside.get("total").unwrap());
                            assert!(total >= seen, "a read went back");
                            seen = total;
                            counts_of(&beside.snapshot_to_scan().unwrap());
                            thread::sleep(Duration::from_millis(1));
                        }
                    });
                    let _ends = Ends(is_done);
                    while !is_over.load(Ordering::Relaxed) {
                        reader.refresh(acknowledged);
                        refreshes.fetch_add(1, Ordering::Relaxed);
                        thread::sleep(Duration::from_millis(pause));
                    }
                });
            });
        }
        // One opens it each time.
        scope.spawn(|| {
            while !is_over.load(Ordering::Relaxed) {
                let least: Vec<u64> = acknowledged
                    .iter()
                    .map(|it| it.load(Ordering::SeqCst))
                    .collect();
                Reader::open(path, 0).check(&least);
                opened.fetch_add(1, Ordering::Relaxed);
            }
        });
        let _ends = Ends(is_over);
        let mut numbers = Numbers(seed(90));
        while Instant::now() < until {
            let mut child = start(path);
            let told = child.stdout.take().unwrap();
            let noted = scope.spawn(|| note(told, acknowledged));
            thread::sleep(Duration::from_millis(300 + numbers.below(900)));
            child.kill().unwrap();
            child.wait().unwrap();
            noted.join().unwrap();
        }
    });
    let total: u64 = acknowledged
        .iter()
        .map(|it| it.load(Ordering::SeqCst))
        .sum();
    let (refreshes, opened) = (refreshes.into_inner(), opened.into_inner());
    assert!(
        total > 20 && refreshes > 20 && opened > 2,
        "{total} {refreshes} {opened}"
    );
    println!("{total} batches, {refreshes} refreshes, {opened} openings");
    let mut reader = Reader::open(folder.path(), 0);
    reader.refresh(&acknowledged);
}
