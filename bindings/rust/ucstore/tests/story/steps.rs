//! [`Story`]: a store, and the views, jobs and logs that steps make of it.

use super::words::{add_change, batch_of, bytes_of, with_sequence, word_of, Words};
use std::fmt::Debug;
use std::mem;
use std::thread;
use ucstore::{
    Batch, Ended, Error, Job, LookupSource, Operator, Options, Report, Scan, Store, View,
};

/// The number of times that threads read and write.
const TURNS: u32 = 200;

/// A store under an operator and options, and what was made of it.
pub struct Story {
    operator: Operator,
    options: Options,
    store: Option<Store>,
    /// Jobs that are out, by their number: flushes have 0.
    jobs: Vec<(u64, Job)>,
    /// Views under names, of which the last one counts.
    views: Vec<(String, View)>,
    log: Vec<u8>,
    /// The record of the batch that is prepared.
    record: Vec<u8>,
}

/// A store or a view.
trait Read {
    fn get(&self, key: &[u8], at: Option<u64>) -> Result<Option<Vec<u8>>, Error>;
    fn rows(
        &self,
        low: &[u8],
        high: Option<&[u8]>,
        at: Option<u64>,
        limit: usize,
    ) -> Result<Vec<String>, Error>;
    fn source(&self, key: &[u8]) -> Result<LookupSource, Error>;
    fn report(&self) -> Report;
}

macro_rules! read {
    ($type:ty) => {
        impl Read for $type {
            fn get(&self, key: &[u8], at: Option<u64>) -> Result<Option<Vec<u8>>, Error> {
                match at {
                    Some(at) => self.get_at(key, at),
                    None => self.get(key),
                }
            }

            fn rows(
                &self,
                low: &[u8],
                high: Option<&[u8]>,
                at: Option<u64>,
                limit: usize,
            ) -> Result<Vec<String>, Error> {
                let rows: Scan<&$type> = match at {
                    Some(at) => self.scan_at(low, high, at),
                    None => self.scan(low, high),
                };
                rows.take(limit)
                    .map(|row| {
                        row.map(|(key, value)| format!("{}={}", word_of(&key), word_of(&value)))
                    })
                    .collect()
            }

            fn source(&self, key: &[u8]) -> Result<LookupSource, Error> {
                self.source(key)
            }

            fn report(&self) -> Report {
                self.report()
            }
        }
    };
}

read!(Store);
read!(View);

fn refused(error: impl Debug) -> String {
    format!("refused: {error:?}")
}

fn done(outcome: Result<(), Error>) -> String {
    outcome.map_or_else(refused, |()| "done".into())
}

fn value(outcome: Result<Option<Vec<u8>>, Error>, at: Option<u64>) -> String {
    match (outcome, at) {
        (Ok(Some(value)), _) => word_of(&value),
        (Ok(None), _) => "no value".into(),
        (Err(Error::NotProtected), Some(at)) => format!("{at} isn't protected"),
        (Err(error), _) => refused(error),
    }
}

/// A reply to a step that reads; none for another step.
fn read(of: &impl Read, step: &str) -> Option<String> {
    let mut words = Words::of(step);
    let at = |mut words: Words<'_>| (words.next() == "at").then(|| words.number());
    Some(match words.next() {
        "get" => {
            let key = words.bytes();
            let at = at(words);
            value(of.get(&key, at), at)
        }
        "scan" => {
            let (low, high) = (words.bytes(), words.next());
            let high = (high != "-").then(|| bytes_of(high));
            let limit = words.number() as usize;
            let at = at(words);
            match (of.rows(&low, high.as_deref(), at, limit), at) {
                (Ok(rows), _) if rows.is_empty() => "no rows".into(),
                (Ok(rows), _) => rows.join(" "),
                (Err(Error::NotProtected), Some(at)) => format!("{at} isn't protected"),
                (Err(error), _) => refused(error),
            }
        }
        "source" => of
            .source(&words.bytes())
            .map_or_else(refused, |it| format!("{it:?}")),
        "last" => format!("last {}", of.report().last),
        "gathered" => format!("gathered {}", of.report().gathered),
        "runs-at-most" => {
            let most = words.number();
            let runs = of.report().runs;
            if runs <= most {
                format!("at most {most} runs")
            } else {
                format!("{runs} runs")
            }
        }
        "report" => {
            let it = of.report();
            format!(
                "runs {} keeps {} points {} fragments {} size {} gathered {} last {}",
                it.runs, it.snapshots, it.points, it.fragments, it.bytes, it.gathered, it.last
            )
        }
        _ => return None,
    })
}

impl Story {
    /// A story without a store.
    pub fn new(operator: Operator, options: Options) -> Story {
        Story {
            operator,
            options,
            store: None,
            jobs: vec![],
            views: vec![],
            log: vec![],
            record: vec![],
        }
    }

    /// Takes a step, and returns the reply.
    pub fn take(&mut self, step: &str) -> String {
        let found = self.open(step);
        let found = found
            .or_else(|| self.write(step))
            .or_else(|| self.tidy(step));
        let found = found.or_else(|| self.job(step)).or_else(|| self.view(step));
        let found = found.or_else(|| self.threads(step));
        let found = found.or_else(|| read(self.store(), step));
        found.unwrap_or_else(|| panic!("there is no step {step}"))
    }

    fn store(&self) -> &Store {
        self.store.as_ref().expect("there is a store")
    }

    fn open(&mut self, step: &str) -> Option<String> {
        let mut words = Words::of(step);
        Some(match words.next() {
            "create" => match Store::create(self.operator, &self.options) {
                Ok(store) => {
                    self.store = Some(store);
                    "created".into()
                }
                Err(error) => refused(error),
            },
            "open" => match Store::open(self.operator, &self.options, &self.log) {
                Ok((store, ended)) => {
                    self.store = Some(store);
                    match ended {
                        Ended::Torn { offset } => format!("Torn({offset})"),
                        ended => format!("{ended:?}"),
                    }
                }
                Err(error) => refused(error),
            },
            "log" => {
                self.log = log_of(words);
                "logged".into()
            }
            "drop-store" => {
                self.store = None;
                "dropped".into()
            }
            _ => return None,
        })
    }

    fn write(&mut self, step: &str) -> Option<String> {
        let mut words = Words::of(step);
        let store = self.store.as_ref();
        let store = || store.expect("there is a store");
        Some(match words.next() {
            "put" | "merge" | "delete" | "range" => done(change(store(), step)),
            "times" => {
                let times = words.number();
                done((0..times).try_for_each(|_| change(store(), words.rest())))
            }
            "batch" => done(store().write_bytes(&batch_of(words.rest()))),
            "prepare" => {
                let batch = batch_of(words.rest());
                let outcome = store().prepare_bytes(self.log.len() as u64, &batch);
                self.record.clear();
                match outcome {
                    Ok(record) => {
                        self.record = record;
                        "prepared".into()
                    }
                    Err(error) => refused(error),
                }
            }
            "commit" => {
                store().commit();
                self.log.append(&mut self.record);
                "committed".into()
            }
            "give-up" => {
                store().give_up();
                self.record.clear();
                "given up".into()
            }
            _ => return None,
        })
    }

    fn tidy(&mut self, step: &str) -> Option<String> {
        let mut words = Words::of(step);
        Some(match words.next() {
            "flush" => done(self.store().flush()),
            "compact" => self.store().compact().map_or_else(refused, |is_done| {
                if is_done {
                    "compacted"
                } else {
                    "nothing is picked"
                }
                .into()
            }),
            "snapshot" => {
                let taken = self.store().take_snapshot();
                taken.map_or_else(refused, |at| format!("kept {at}"))
            }
            "release" => done(self.store().release(words.number())),
            "keeps" => {
                let keeps = self.store().snapshots();
                let keeps: Vec<_> = keeps.iter().map(u64::to_string).collect();
                format!(
                    "keeps {}",
                    if keeps.is_empty() {
                        "-".into()
                    } else {
                        keeps.join(",")
                    }
                )
            }
            _ => return None,
        })
    }

    /// Takes out a job of the store under a number.
    fn take_job(&mut self, number: u64) -> Option<()> {
        assert!(
            self.jobs.iter().all(|(it, _)| *it != number),
            "job {number} is out"
        );
        let job = self.store().take_job().unwrap()?;
        self.jobs.push((number, job));
        Some(())
    }

    /// A job that is out.
    fn job_out(&mut self, number: u64) -> &mut Job {
        let found = self.jobs.iter_mut().find(|(it, _)| *it == number);
        &mut found.expect("the job is out").1
    }

    /// Ends a job that is out.
    fn end_job(&mut self, number: u64) -> String {
        let place = self.jobs.iter().position(|(it, _)| *it == number);
        let (_, job) = self.jobs.remove(place.expect("the job is out"));
        match self
            .store()
            .end_job(job)
            .expect("a job of this store")
            .is_installed()
        {
            true => "installed".into(),
            false => "not installed".into(),
        }
    }

    fn job(&mut self, step: &str) -> Option<String> {
        let mut words = Words::of(step);
        let verb = words.next();
        if verb == "flush-job" {
            return Some(self.flush_job(words.next()));
        }
        if !["start", "run", "size", "end", "end-elsewhere"].contains(&verb) {
            return None;
        }
        let number = words.number();
        Some(match verb {
            "start" => match self.take_job(number) {
                Some(()) => "started".into(),
                None => "nothing is picked".into(),
            },
            "run" => self
                .job_out(number)
                .run()
                .map_or_else(refused, |()| "run".into()),
            "size" => format!("{} bytes", self.job_out(number).input_bytes()),
            "end" => match words.next() {
                "beside" => self.end_beside(number, &words.bytes()),
                _ => self.end_job(number),
            },
            _ => self.end_elsewhere(number, words.rest()),
        })
    }

    /// Ends a job, and says whether the value of a key and the number of runs stay.
    fn end_beside(&mut self, number: u64, key: &[u8]) -> String {
        let look = |store: &Store| (store.get(key).unwrap(), store.report().runs);
        let before = look(self.store());
        let end = self.end_job(number);
        let stays = if look(self.store()) == before {
            "all stays"
        } else {
            "not all stays"
        };
        format!("{end}, {stays}")
    }

    /// Ends a job on another store, which has taken the same steps under an operator. It stays out.
    fn end_elsewhere(&mut self, number: u64, operator: &str) -> String {
        let kind = super::OPERATORS
            .into_iter()
            .find(|it| format!("{it:?}").to_lowercase() == operator);
        let other = Store::create(kind.expect("an operator"), &self.options).unwrap();
        for _ in 0..5 {
            other.put("k", "v").unwrap();
        }
        let _own = other.take_job().unwrap().expect("the same job");
        let place = self.jobs.iter().position(|(it, _)| *it == number);
        let (_, job) = self.jobs.remove(place.expect("the job is out"));
        match other.end_job(job) {
            Ok(_) => "taken".into(),
            Err(job) => {
                self.jobs.push((number, job));
                "not of that store".into()
            }
        }
    }

    fn flush_job(&mut self, verb: &str) -> String {
        const FLUSH: u64 = 0;
        match verb {
            "take" => self.take_job(FLUSH).map_or("no job", |()| "taken").into(),
            "run" => self
                .job_out(FLUSH)
                .run()
                .map_or_else(refused, |()| "run".into()),
            "end" => self.end_job(FLUSH),
            "done" | "not-run" => {
                if self.take_job(FLUSH + 100).is_none() {
                    return "no job".into();
                }
                if verb == "done" {
                    self.job_out(FLUSH + 100).run().unwrap();
                }
                self.end_job(FLUSH + 100)
            }
            _ => panic!("there is no step flush-job {verb}"),
        }
    }

    /// The last view with a name.
    fn named(&self, name: &str) -> &View {
        let found = self.views.iter().rfind(|(it, _)| it == name);
        &found.expect("the view is there").1
    }

    fn view(&mut self, step: &str) -> Option<String> {
        let mut words = Words::of(step);
        Some(match words.next() {
            "view" => {
                let view = self.store().view().unwrap();
                self.views.push((words.next().into(), view));
                "viewed".into()
            }
            "again" => {
                let view = self.named(words.next()).again().unwrap();
                self.views.push((words.next().into(), view));
                "viewed".into()
            }
            "sort" => {
                // The first scan sorts the writes that no run has yet.
                self.named(words.next())
                    .scan("", Some(b""))
                    .next_row()
                    .unwrap();
                "sorted".into()
            }
            "drop" => {
                let name = words.next();
                let place = self.views.iter().rposition(|(it, _)| it == name);
                self.views.remove(place.expect("the view is there"));
                "dropped".into()
            }
            "look" => {
                let view = self.named(words.next());
                read(view, words.rest()).expect("a step that reads")
            }
            _ => return None,
        })
    }

    /// Steps that leave the store to a thread.
    fn threads(&mut self, step: &str) -> Option<String> {
        let mut words = Words::of(step);
        let write = |store: Store| (0..TURNS).all(|_| store.put("k", "zz").is_ok());
        match words.next() {
            "threads-read" => {
                let (name, wanted) = (words.next().to_string(), words.bytes());
                let store = self.store.take().expect("there is a store");
                let views = [
                    self.named(&name).again().unwrap(),
                    self.named(&name).again().unwrap(),
                ];
                let is_read = thread::scope(|scope| {
                    let writer = scope.spawn(move || write(store));
                    let readers = views.map(|view| {
                        let wanted = &wanted;
                        scope.spawn(move || {
                            (0..TURNS).all(|_| view.get("k").unwrap().as_ref() == Some(wanted))
                        })
                    });
                    readers.into_iter().all(|it| it.join().unwrap()) & writer.join().unwrap()
                });
                Some(if is_read { "read" } else { "not read" }.into())
            }
            "thread-runs" => {
                let (_, mut job) = self.jobs.remove(0);
                let store = self.store.take().expect("there is a store");
                let is_run = thread::scope(|scope| {
                    let writer = scope.spawn(move || write(store));
                    let worker = scope.spawn(move || job.run().is_ok());
                    worker.join().unwrap() & writer.join().unwrap()
                });
                Some(if is_run { "run" } else { "not run" }.into())
            }
            _ => None,
        }
    }
}

/// Writes a change.
fn change(store: &Store, text: &str) -> Result<(), Error> {
    let mut words = Words::of(text);
    let (verb, key) = (words.next(), words.bytes());
    match verb {
        "put" => store.put(key, words.bytes()),
        "merge" => store.merge(key, words.bytes()),
        "delete" => store.delete(key),
        _ => {
            let mut batch = Batch::new();
            add_change(&mut batch, text);
            store.write(&batch)
        }
    }
}

/// A log: `BATCH`, `times N BATCH` with sequences from 1 on, or `bytes BYTES` that are none.
fn log_of(mut words: Words<'_>) -> Vec<u8> {
    let text = words.rest();
    let batches: Vec<_> = match words.next() {
        "bytes" => return words.bytes(),
        "times" => {
            let times = words.number();
            let batch = batch_of(words.rest());
            (1..=times)
                .map(|sequence| with_sequence(sequence, &batch))
                .collect()
        }
        _ => vec![batch_of(text)],
    };
    // A record depends on no operator.
    let store = Store::create(Operator::Append, &Options::default()).unwrap();
    let mut log = vec![];
    for batch in batches {
        let mut record = store.prepare_bytes(log.len() as u64, &batch).unwrap();
        log.append(&mut mem::take(&mut record));
        store.commit();
    }
    log
}
