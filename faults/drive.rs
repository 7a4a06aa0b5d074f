//! Runs a program again and again with one request for memory refused, the first one, then the second, and so on until N is
//! beyond the most that any run made; and once more each with all later requests refused too. It judges each run by itself, so
//! the requests of a program with threads may come in another order each time. As many runs go on at once as there are processors.
//!
//!     drive program LIBRARY NAME INPUT PROGRAM [WORD..]
//!     drive threads LIBRARY NAME INPUT PROGRAM [WORD..]
//!     drive writes LIBRARY NAME INPUT PROGRAM [WORD..]
//!     drive reads LIBRARY NAME INPUT PROGRAM [WORD..]
//!
//! A run of a program is right where it answers as the run that is refused nothing, or where its text is some first replies of
//! that one, each whole, and then `out of memory`, with status 4; or where it has no text and says so in one line on standard
//! error, as it does while it reads its words. With `threads` requests for threads are refused in place of those for memory, and
//! judged alike. A run that ends by a signal, hangs for ten seconds or says anything else is wrong.
//!
//! With `writes` its writes to standard output are refused, and with `reads` its reads of standard input, each once, once with
//! all later ones, and once after one that moved a half of its bytes. Such a run is right where the refused call is the last
//! one of its kind, with status 5 and one line on standard error at the most: after a write the text is a front of the right
//! one, after a read it is `read fault`.
//!
//! It prints a line: the name, the most requests that a run made, the runs that were refused one, those of them that said
//! that memory was wanting or a device failed, and the wrong ones. Its status is 1 where one is wrong.

use std::fs::{self, File};
use std::io::{self, Read};
use std::path::{Path, PathBuf};
use std::process::{Child, Command, ExitCode, Stdio};
use std::sync::Mutex;
use std::thread::{self, JoinHandle};
use std::time::{Duration, Instant};

/// What the program says where memory is wanting, and its status then.
const NO_MEMORY: (&str, i32) = ("out of memory\n", 4);

/// What the program says where its input can't be read, and its status where a device fails.
const NO_DEVICE: (&str, i32) = ("read fault\n", 5);

/// How long a run may take.
const LONGEST: Duration = Duration::from_secs(10);

/// What is refused to a program: memory, threads, or what it asks of a device.
#[derive(Clone, Copy, PartialEq)]
enum Kind {
    Program,
    Threads,
    Writes,
    Reads,
}

/// What is run: the program with its words, its input, and the library that refuses.
struct Case {
    kind: Kind,
    name: String,
    library: PathBuf,
    program: PathBuf,
    words: Vec<String>,
    input: PathBuf,
}

/// How a run ended: its text, what it said on standard error, its status (none for a signal or a run that hangs), and the
/// requests that it made.
struct Run {
    text: String,
    said: String,
    status: Option<i32>,
    requests: u64,
}

/// What is refused: nothing, one request, that one and all later ones, or the one behind it, which moves a half of its bytes.
#[derive(Clone, Copy, PartialEq)]
enum Refuse {
    Nothing,
    One(u64),
    From(u64),
    Behind(u64),
}

/// What is said of a run.
enum Judgement {
    /// It answered as the one that is refused nothing.
    Answered,
    /// It said that memory was wanting, or stopped as its device failed.
    Wanting,
    Wrong,
}

/// What came of the runs so far.
struct Tally {
    next: u64,
    most: u64,
    refused: u64,
    wanting: u64,
    wrong: u64,
}

impl Kind {
    /// The kind of this name.
    fn named(name: &str) -> Option<Kind> {
        match name {
            "program" => Some(Kind::Program),
            "threads" => Some(Kind::Threads),
            "writes" => Some(Kind::Writes),
            "reads" => Some(Kind::Reads),
            _ => None,
        }
    }

    /// What the library is told to count, where it isn't all memory.
    fn variable(self) -> Option<&'static str> {
        match self {
            Kind::Program => None,
            Kind::Threads => Some("REFUSE_THREADS"),
            Kind::Writes => Some("REFUSE_WRITES"),
            Kind::Reads => Some("REFUSE_READS"),
        }
    }

    /// How requests of this kind are refused.
    fn ways(self) -> &'static [fn(u64) -> Refuse] {
        match self {
            Kind::Writes | Kind::Reads => &[Refuse::One, Refuse::From, Refuse::Behind],
            Kind::Program | Kind::Threads => &[Refuse::One, Refuse::From],
        }
    }
}

impl Refuse {
    /// The first request that is refused.
    fn first(self) -> Option<u64> {
        match self {
            Refuse::Nothing => None,
            Refuse::One(number) | Refuse::From(number) => Some(number),
            Refuse::Behind(number) => Some(number + 1),
        }
    }

    /// What the library is told of it.
    fn variables(self) -> Vec<(&'static str, String)> {
        let at = |number: u64| ("REFUSE_AT", number.to_string());
        match self {
            Refuse::Nothing => Vec::new(),
            Refuse::One(number) => vec![at(number)],
            Refuse::From(number) => vec![at(number), ("REFUSE_ON", "1".into())],
            Refuse::Behind(number) => vec![at(number), ("REFUSE_SHORT", "1".into())],
        }
    }
}

impl Case {
    /// What the words of the command line ask for.
    fn named(words: &[String]) -> Option<Case> {
        let kind = Kind::named(words.get(1)?)?;
        let [_, _, library, name, input, program, rest @ ..] = words else {
            return None;
        };
        Some(Case {
            kind,
            name: name.clone(),
            library: library.into(),
            program: program.into(),
            words: rest.to_vec(),
            input: input.into(),
        })
    }

    /// Runs it once; the library counts in a file.
    fn run(&self, count: &Path, refuse: Refuse) -> io::Result<Run> {
        fs::write(count, 0_u64.to_ne_bytes())?;
        let mut command = Command::new(&self.program);
        command
            .args(&self.words)
            .env_clear()
            .env("LD_PRELOAD", &self.library)
            .env("REFUSE_COUNT", count)
            .envs(self.kind.variable().map(|name| (name, "1")))
            .envs(refuse.variables())
            .stdin(File::open(&self.input)?)
            .stdout(Stdio::piped())
            .stderr(Stdio::piped());
        let mut child = command.spawn()?;
        let text = text_of(child.stdout.take().expect("standard output is piped"));
        let said = text_of(child.stderr.take().expect("standard error is piped"));
        let status = wait(&mut child)?;
        let text = text.join().expect("the reading thread ends")?;
        let said = said.join().expect("the reading thread ends")?;
        let count = fs::read(count)?;
        let count = count.try_into().expect("the counter has eight bytes");
        Ok(Run {
            text,
            said,
            status,
            requests: u64::from_ne_bytes(count),
        })
    }
}

/// Reads a stream to its end, in a thread of its own.
fn text_of(mut stream: impl Read + Send + 'static) -> JoinHandle<io::Result<String>> {
    thread::spawn(move || {
        let mut bytes = Vec::new();
        stream.read_to_end(&mut bytes)?;
        Ok(String::from_utf8_lossy(&bytes).into_owned())
    })
}

/// The status of a program that ends by itself in time.
fn wait(child: &mut Child) -> io::Result<Option<i32>> {
    let started = Instant::now();
    loop {
        if let Some(status) = child.try_wait()? {
            return Ok(status.code());
        }
        if started.elapsed() > LONGEST {
            child.kill()?;
            child.wait()?;
            return Ok(None);
        }
        thread::sleep(Duration::from_micros(200));
    }
}

/// Where replies end in a text: after each line, but for those inside of rows and of a report.
fn ends_of_replies(text: &str) -> Vec<usize> {
    let mut ends = vec![0];
    let mut end = 0;
    let mut rows = 0_u64;
    for line in text.split_inclusive('\n') {
        end += line.len();
        let word = line.split([' ', '\n']).next().unwrap_or("");
        let is_inside = match word {
            _ if rows > 1 => {
                rows -= 1;
                true
            }
            _ if rows == 1 => {
                rows = 0;
                false
            }
            "rows" => {
                rows = line.trim_end()[4..].trim().parse().unwrap_or(0);
                rows > 0
            }
            "run" | "total" | "keeps" => true,
            _ => false,
        };
        if !is_inside {
            ends.push(end);
        }
    }
    ends
}

/// Whether a run is out of memory as it may be: its text is some first replies of the right text and then says so, or it says so at
/// once.
fn ends_for_memory(run: &Run, right: &str, ends: &[usize]) -> bool {
    let begins = |first: &str| right.starts_with(first) && ends.contains(&first.len());
    let says_so = run.text.is_empty() && run.said.ends_with(NO_MEMORY.0) && run.said.lines().count() == 1;
    run.status == Some(NO_MEMORY.1) && (says_so || run.text.strip_suffix(NO_MEMORY.0).is_some_and(begins))
}

/// Whether a run ends at the call of a device that was refused, as it has to: no other call of its kind is made behind it.
fn ends_for_device(case: &Case, run: &Run, right: &str, refused: u64) -> bool {
    let is_text = match case.kind {
        Kind::Reads => run.text == NO_DEVICE.0,
        _ => right.starts_with(&run.text),
    };
    is_text && run.status == Some(NO_DEVICE.1) && run.requests == refused && run.said.lines().count() <= 1
}

/// Judges a run, of which this request was the first that was refused, if one was.
fn judge(case: &Case, run: &Run, right: &Run, ends: &[usize], refused: Option<u64>) -> Judgement {
    let is_answered = run.text == right.text && run.status == right.status;
    match (case.kind, refused) {
        (Kind::Writes | Kind::Reads, Some(number)) if ends_for_device(case, run, &right.text, number) => Judgement::Wanting,
        (Kind::Writes | Kind::Reads, Some(_)) => Judgement::Wrong,
        (_, Some(_)) if ends_for_memory(run, &right.text, ends) => Judgement::Wanting,
        _ if is_answered => Judgement::Answered,
        _ => Judgement::Wrong,
    }
}

/// A text as it is shown: where it is long, its length and its end.
fn shortened(text: &str) -> String {
    let end: String = text.chars().skip(text.chars().count().saturating_sub(60)).collect();
    match end.len() == text.len() {
        true => format!("{text:?}"),
        false => format!("{} bytes to {end:?}", text.len()),
    }
}

/// Draws numbers of requests to refuse, until they are beyond the most that a run made.
fn draw(case: &Case, count: &Path, right: &Run, tally: &Mutex<Tally>, refuse: fn(u64) -> Refuse) -> io::Result<()> {
    let ends = ends_of_replies(&right.text);
    loop {
        let number = {
            let mut tally = tally.lock().expect("no thread panics");
            if tally.next > tally.most {
                return Ok(());
            }
            tally.next += 1;
            tally.next - 1
        };
        let run = case.run(count, refuse(number))?;
        let refused = refuse(number).first().filter(|&first| run.requests >= first);
        let judgement = judge(case, &run, right, &ends, refused);
        let mut tally = tally.lock().expect("no thread panics");
        tally.most = tally.most.max(run.requests);
        tally.refused += u64::from(refused.is_some());
        match judgement {
            Judgement::Answered => {}
            Judgement::Wanting => tally.wanting += 1,
            Judgement::Wrong => {
                tally.wrong += 1;
                let text = shortened(&run.text);
                let Run { said, status, requests, .. } = run;
                eprintln!("{}: wrong where request {number} of {requests} is refused: {status:?}, {text}, {said:?}", case.name);
            }
        }
    }
}

/// Refuses each request once, by several threads that each have a file to count in.
fn drive(case: &Case, folder: &Path) -> io::Result<bool> {
    let right = case.run(&folder.join("right"), Refuse::Nothing)?;
    let threads = thread::available_parallelism()?.get();
    let mut tally = Tally { next: 1, most: right.requests, refused: 0, wanting: 0, wrong: 0 };
    for &refuse in case.kind.ways() {
        let shared = Mutex::new(Tally { next: 1, ..tally });
        thread::scope(|scope| -> io::Result<()> {
            let draws = (0..threads).map(|thread| {
                let (count, right, shared) = (folder.join(thread.to_string()), &right, &shared);
                scope.spawn(move || draw(case, &count, right, shared, refuse))
            });
            let draws: Vec<_> = draws.collect();
            draws.into_iter().try_for_each(|draw| draw.join().expect("no thread panics"))
        })?;
        tally = shared.into_inner().expect("no thread panics");
    }
    let Tally { most, refused, wanting, wrong, .. } = tally;
    println!("{:<34} {most:>9} {refused:>9} {wanting:>9} {wrong:>7}", case.name);
    Ok(wrong == 0)
}

fn main() -> ExitCode {
    let words: Vec<String> = std::env::args().collect();
    let Some(case) = Case::named(&words) else {
        eprintln!("drive program|threads|writes|reads LIBRARY NAME INPUT PROGRAM [WORD..]");
        return ExitCode::from(2);
    };
    let folder = std::env::temp_dir().join(format!("refuse-{}", std::process::id()));
    let is_right = fs::create_dir(&folder).and_then(|()| drive(&case, &folder));
    let _ = fs::remove_dir_all(&folder);
    match is_right {
        Ok(true) => ExitCode::SUCCESS,
        Ok(false) => ExitCode::from(1),
        Err(error) => {
            eprintln!("{}: {error}", case.name);
            ExitCode::from(2)
        }
    }
}
