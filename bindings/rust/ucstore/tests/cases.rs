//! Plays the files of cases in `bindings/cases`, whose README says what stands in them.

use std::collections::HashMap;
use std::fmt::Write as _;
use std::fs;
use std::io::{self, Write as _};
use std::path::{Path, PathBuf};
use ucstore::{Batch, Ended, Error, Operator, Options, Scan, Store};

/// From how many times on a byte is a piece with its number.
const LONG_RUN: usize = 16;

/// The command that follows each other one.
#[derive(Clone, Copy, PartialEq)]
enum Way {
    Nothing,
    Flush,
    Compactions,
    Reopening,
}

impl Way {
    fn text(self) -> &'static str {
        match self {
            Way::Nothing => "nothing",
            Way::Flush => "a flush",
            Way::Compactions => "all compactions",
            Way::Reopening => "a reopening",
        }
    }
}

/// A case: where it begins in its file, its lines before `----`, and those after it.
struct Case<'a> {
    line: usize,
    input: Vec<&'a str>,
    expected: Vec<&'a str>,
}

/// The cases of a file.
fn cases_of(text: &str) -> Vec<Case<'_>> {
    let mut lines = text.lines().enumerate();
    let mut cases = vec![];
    while let Some((place, line)) = lines.next() {
        if line.is_empty() || line.starts_with('#') {
            continue;
        }
        let mut input = vec![line];
        input.extend(
            lines
                .by_ref()
                .map(|(_, line)| line)
                .take_while(|line| *line != "----"),
        );
        input.retain(|line| !line.starts_with('#'));
        let expected = lines
            .by_ref()
            .map(|(_, line)| line)
            .take_while(|line| !line.is_empty());
        cases.push(Case {
            line: place + 1,
            expected: expected.collect(),
            input,
        });
    }
    cases
}

/// The lines that a line stands for: as many as `times` says, with their numbers in the place of `#`.
fn expanded(line: &str) -> Vec<String> {
    let words = line.trim_start();
    let indent = &line[..line.len() - words.len()];
    let Some((times, rest)) = words
        .strip_prefix("times ")
        .and_then(|words| words.split_once(' '))
    else {
        return vec![line.to_string()];
    };
    let times: usize = times.parse().expect("a number behind times");
    (0..times)
        .map(|number| format!("{indent}{}", rest.replace('#', &format!("{number:03}"))))
        .collect()
}

fn is_plain(byte: u8) -> bool {
    byte.is_ascii_alphanumeric() || b"_/.,-".contains(&byte)
}

/// The bytes between quotes, and the rest.
fn quoted(word: &str) -> (Vec<u8>, &str) {
    let (mut text, rest) = word.split_once('"').expect("a quote at the end");
    let mut bytes = vec![];
    while let Some((plain, escaped)) = text.split_once("\\x") {
        bytes.extend(plain.as_bytes());
        bytes.push(u8::from_str_radix(&escaped[..2], 16).expect("an escape"));
        text = &escaped[2..];
    }
    bytes.extend(text.as_bytes());
    (bytes, rest)
}

/// The bytes of a piece without its number, and the rest.
fn piece(word: &str) -> (Vec<u8>, &str) {
    if let Some(word) = word.strip_prefix('"') {
        return quoted(word);
    }
    let number = word.strip_prefix("u64:");
    let text = number.unwrap_or(word);
    let (text, rest) = text.split_at(text.bytes().take_while(|byte| is_plain(*byte)).count());
    match number {
        Some(_) => (
            text.parse::<u64>()
                .expect("a number")
                .to_le_bytes()
                .to_vec(),
            rest,
        ),
        None => (text.as_bytes().to_vec(), rest),
    }
}

/// The bytes that a word spells: pieces with `+` between them.
fn text_of(mut word: &str) -> Vec<u8> {
    let mut text = vec![];
    loop {
        let times = word
            .split_once('*')
            .and_then(|(times, rest)| Some((times.parse().ok()?, rest)));
        let (times, single) = times.unwrap_or((1, word));
        let (bytes, rest) = piece(single);
        text.extend(bytes.repeat(times));
        match rest.strip_prefix('+') {
            Some(next) => word = next,
            None if rest.is_empty() => return text,
            None => panic!("{word} spells no text"),
        }
    }
}

/// The byte strings that words spell.
fn texts_of(words: &[&str]) -> Vec<Vec<u8>> {
    words.iter().map(|word| text_of(word)).collect()
}

/// A piece that spells bytes: a word, or a quoted one.
fn piece_of(text: &[u8]) -> String {
    if !text.is_empty() && text.iter().all(|byte| is_plain(*byte)) {
        return String::from_utf8_lossy(text).into();
    }
    let shown = text.iter().map(|byte| match byte {
        b'"' | b'\\' => format!("\\x{byte:02x}"),
        0x21..=0x7e => char::from(*byte).to_string(),
        _ => format!("\\x{byte:02x}"),
    });
    format!("\"{}\"", shown.collect::<String>())
}

/// The number of times that the first byte occurs.
fn run_of(text: &[u8]) -> usize {
    text.iter().take_while(|byte| **byte == text[0]).count()
}

/// The word that spells these bytes.
fn word_of(text: &[u8]) -> String {
    let mut run = run_of(text);
    let mut word = if run >= LONG_RUN {
        format!("{run}*{}", piece_of(&text[..1]))
    } else {
        while run < text.len() && run_of(&text[run..]) < LONG_RUN {
            run += 1;
        }
        piece_of(&text[..run])
    };
    if run < text.len() {
        word += "+";
        word += &word_of(&text[run..]);
    }
    word
}

/// The name of an error in words: `not protected`.
fn name_of(error: Error) -> String {
    let mut name = String::new();
    for letter in format!("{error:?}").chars() {
        if letter.is_uppercase() && !name.is_empty() {
            name.push(' ');
        }
        name.extend(letter.to_lowercase());
    }
    name
}

/// The words of a command up to `at`, `limit` and `sequence`, and those after them.
struct Arguments<'a> {
    texts: Vec<Vec<u8>>,
    named: HashMap<&'a str, &'a str>,
}

fn arguments_of<'a>(words: &[&'a str]) -> Arguments<'a> {
    let is_name = |word: &&str| ["at", "limit", "sequence"].contains(word);
    let (texts, named) = words.split_at(words.iter().position(is_name).unwrap_or(words.len()));
    Arguments {
        texts: texts_of(texts),
        named: named.chunks(2).map(|pair| (pair[0], pair[1])).collect(),
    }
}

fn operator_of(name: &str) -> Operator {
    match name {
        "append" => Operator::Append,
        "counter" => Operator::Counter,
        "maximum" => Operator::Maximum,
        "tail" => Operator::Tail,
        "mixed" => Operator::Mixed,
        other => panic!("an unknown operator {other}"),
    }
}

/// Sets an option, given as `name=value`.
fn set_option(options: &mut Options, word: &str) {
    let (name, value) = word.split_once('=').expect("an option's value");
    let value: u64 = value.parse().expect("a number");
    let short = value as u32;
    match name {
        "write_buffer_size" => options.write_buffer_size = value,
        "compaction_trigger" => options.compaction_trigger = short,
        "stop_trigger" => options.stop_trigger = short,
        "size_ratio" => options.size_ratio = short,
        "max_size_amplification_percent" => options.max_size_amplification_percent = short,
        "min_merge_width" => options.min_merge_width = short,
        "max_merge_width" => options.max_merge_width = short,
        "compacts_itself" => options.compacts_itself = value != 0,
        "max_write_buffer_number" => options.max_write_buffer_number = value as u32,
        other => panic!("an unknown option {other}"),
    }
}

/// Adds an operation to a batch.
fn push(batch: &mut Batch, line: &str) {
    let words: Vec<&str> = line.split_whitespace().collect();
    let texts = texts_of(&words[1..]);
    let added = match words[0] {
        "put" => batch.put(&texts[0], &texts[1]),
        "merge" => batch.merge(&texts[0], &texts[1]),
        "delete" => batch.delete(&texts[0]),
        "range" => batch.delete_range(&texts[0], &texts[1]),
        other => panic!("an unknown operation {other}"),
    };
    added.expect("an operation is added");
}

/// Plays the cases of a file, one after the other.
struct Player {
    way: Way,
    store: Option<Store>,
    operator: Operator,
    options: Options,
    is_durable: bool,
    log: Vec<u8>,
    /// The bytes that a prepared batch adds to the log.
    record: Option<Vec<u8>>,
    /// The sequences of snapshots by their names.
    sequences: HashMap<String, u64>,
    said: String,
}

impl Player {
    fn new(way: Way) -> Player {
        Player {
            way,
            store: None,
            operator: Operator::Append,
            options: Options::default(),
            is_durable: false,
            log: vec![],
            record: None,
            sequences: HashMap::new(),
            said: String::new(),
        }
    }

    /// The output of a case.
    fn play(&mut self, case: &Case<'_>) -> String {
        self.said.clear();
        let lines: Vec<String> = case.input.iter().flat_map(|line| expanded(line)).collect();
        let mut rest = &lines[..];
        while let Some((line, behind)) = rest.split_first() {
            let (indented, next) = behind.split_at(
                behind
                    .iter()
                    .take_while(|line| line.starts_with(' '))
                    .count(),
            );
            let words: Vec<&str> = line.split_whitespace().collect();
            if let Err(error) = self.run(&words, indented) {
                self.say(format!("error: {}", name_of(error)));
            }
            self.put_behind()
                .expect("what is put behind a command is done");
            rest = next;
        }
        self.said.clone()
    }

    fn say(&mut self, line: impl std::fmt::Display) {
        writeln!(self.said, "{line}").expect("a text grows");
    }

    fn store(&self) -> &Store {
        self.store.as_ref().expect("a store")
    }

    fn run(&mut self, words: &[&str], indented: &[String]) -> Result<(), Error> {
        match words[0] {
            "put" | "merge" | "delete" | "range" => self.write_one(words),
            "batch" | "prepare" => self.write_some(words, indented),
            "commit" => {
                self.commit();
                Ok(())
            }
            "give" => {
                self.record = None;
                self.store().give_up();
                Ok(())
            }
            "create" => self.create(words),
            "reopen" => self.reopen(),
            "flush" => self.flush(),
            "compact" => self.compact(),
            "snapshot" => self.take_snapshot(words[1]),
            "release" => self.store().release(self.sequence(words[1])),
            _ => self.read(words),
        }
    }

    /// Makes the command that the way adds, unless that would discard a prepared compaction.
    fn put_behind(&mut self) -> Result<(), Error> {
        let (Some(store), None) = (&self.store, &self.record) else {
            return Ok(());
        };
        match self.way {
            Way::Nothing => Ok(()),
            Way::Flush => self.flush(),
            Way::Compactions => self.flush().and_then(|()| self.compact()),
            Way::Reopening if store.snapshots().is_empty() => self.reopen(),
            Way::Reopening => Ok(()),
        }
    }

    fn create(&mut self, words: &[&str]) -> Result<(), Error> {
        self.store = None;
        self.operator = operator_of(words[1]);
        self.options = Options::default();
        self.is_durable = words.contains(&"durable") || self.way == Way::Reopening;
        self.log.clear();
        self.record = None;
        self.sequences.clear();
        for word in words[2..].iter().filter(|word| **word != "durable") {
            set_option(&mut self.options, word);
        }
        self.store = Some(Store::create(self.operator, &self.options)?);
        Ok(())
    }

    fn reopen(&mut self) -> Result<(), Error> {
        self.record = None;
        self.store = None;
        let (store, ended) = Store::open(self.operator, &self.options, &self.log)?;
        assert_eq!(ended, Ended::Clean);
        self.store = Some(store);
        Ok(())
    }

    fn flush(&mut self) -> Result<(), Error> {
        self.record = None;
        self.store().flush()
    }

    fn compact(&mut self) -> Result<(), Error> {
        while self.store().compact()? {}
        Ok(())
    }

    fn write_one(&mut self, words: &[&str]) -> Result<(), Error> {
        if self.is_durable {
            return self.write_some(&["batch"], &[words.join(" ")]);
        }
        self.record = None;
        let (texts, store) = (texts_of(&words[1..]), self.store());
        match words[0] {
            "put" => store.put(&texts[0], &texts[1]),
            "merge" => store.merge(&texts[0], &texts[1]),
            "delete" => store.delete(&texts[0]),
            _ => store.delete_range(&texts[0], &texts[1]),
        }
    }

    /// Writes or prepares a batch. What is written to a durable store stands in its log.
    fn write_some(&mut self, words: &[&str], lines: &[String]) -> Result<(), Error> {
        self.record = None;
        let mut batch = Batch::new();
        lines.iter().for_each(|line| push(&mut batch, line));
        let sequence = match arguments_of(&words[1..]).named.get("sequence") {
            Some(word) => word.parse().expect("a sequence"),
            None => 0u64,
        };
        let mut bytes = batch.bytes();
        bytes[..8].copy_from_slice(&sequence.to_le_bytes());
        let (store, length) = (self.store(), self.log.len() as u64);
        if words[0] == "batch" && !self.is_durable {
            return match sequence {
                0 => store.write(&batch),
                _ => store.write_bytes(&bytes),
            };
        }
        self.record = Some(match sequence {
            0 => store.prepare(length, &batch)?,
            _ => store.prepare_bytes(length, &bytes)?,
        });
        if words[0] == "batch" {
            self.commit();
        }
        Ok(())
    }

    fn commit(&mut self) {
        self.store().commit();
        self.log.extend(self.record.take().unwrap_or_default());
    }

    fn take_snapshot(&mut self, name: &str) -> Result<(), Error> {
        self.record = None;
        let sequence = self.store().take_snapshot()?;
        self.sequences.insert(name.into(), sequence);
        Ok(())
    }

    /// The sequence of a snapshot's name. A number is one itself.
    fn sequence(&self, name: &str) -> u64 {
        name.parse().unwrap_or_else(|_| self.sequences[name])
    }

    /// The word that spells a value. One that may be a counter's is a number.
    fn word(&self, value: &[u8]) -> String {
        match value.try_into() {
            Ok(number) if self.operator == Operator::Counter => {
                format!("u64:{}", u64::from_le_bytes(number))
            }
            _ => word_of(value),
        }
    }

    fn read(&mut self, words: &[&str]) -> Result<(), Error> {
        let Arguments { texts, named } = arguments_of(&words[1..]);
        let at = named.get("at").map(|name| self.sequence(name));
        let limit = named
            .get("limit")
            .map_or(usize::MAX, |limit| limit.parse().expect("a limit"));
        match words[0] {
            "get" => self.get(&texts[0], at)?,
            "scan" => self.say_rows(
                self.rows(&texts, at)
                    .take(limit)
                    .collect::<Result<_, _>>()?,
            ),
            "count" => self.say(self.rows(&texts, at).collect::<Result<Vec<_>, _>>()?.len()),
            "prefix" => self.say_rows(self.store().prefix(&texts[0]).collect::<Result<_, _>>()?),
            "last" => self.say(self.store().last()),
            "snapshots" => self.say_snapshots(),
            "report" => self.say_report(),
            other => panic!("an unknown command {other}"),
        }
        Ok(())
    }

    fn get(&mut self, key: &[u8], at: Option<u64>) -> Result<(), Error> {
        let value = match at {
            None => self.store().get(key)?,
            Some(at) => self.store().get_at(key, at)?,
        };
        self.say(value.map_or("no value".into(), |value| self.word(&value)));
        Ok(())
    }

    fn rows(&self, texts: &[Vec<u8>], at: Option<u64>) -> Scan<&Store> {
        let low = texts.first().map_or(&[][..], Vec::as_slice);
        let high = texts.get(1).map(Vec::as_slice);
        match at {
            None => self.store().scan(low, high),
            Some(at) => self.store().scan_at(low, high, at),
        }
    }

    fn say_rows(&mut self, rows: Vec<(Vec<u8>, Vec<u8>)>) {
        for (key, value) in &rows {
            self.say(format!("{} {}", word_of(key), self.word(value)));
        }
        if rows.is_empty() {
            self.say("no rows");
        }
    }

    fn say_snapshots(&mut self) {
        let sequences: Vec<String> = self
            .store()
            .snapshots()
            .iter()
            .map(u64::to_string)
            .collect();
        self.say(if sequences.is_empty() {
            "none".into()
        } else {
            sequences.join(" ")
        });
    }

    fn say_report(&mut self) {
        let report = self.store().report();
        self.say(format!(
            "runs {}, gathered {}, snapshots {}, last {}",
            report.runs, report.gathered, report.snapshots, report.last
        ));
    }
}

/// The expected and the actual output, from the first line on that differs.
fn difference(wanted: &[&str], came: &[&str]) -> String {
    let same = wanted
        .iter()
        .zip(came)
        .take_while(|(one, other)| one == other)
        .count();
    let marked = |mark: &str, lines: &[&str]| {
        lines
            .iter()
            .map(|line| format!("{mark} {line}\n"))
            .collect::<String>()
    };
    marked(" ", &wanted[..same]) + &marked("-", &wanted[same..]) + &marked("+", &came[same..])
}

/// Plays a file. Returns how many cases it has, and how those differ that print something else.
fn play(file: &Path, text: &str, way: Way) -> (usize, String) {
    let mut player = Player::new(way);
    let mut failures = String::new();
    let cases = cases_of(text);
    for case in &cases {
        let said = player.play(case);
        let came: Vec<&str> = said.lines().collect();
        if came != case.expected {
            let place = format!("{}:{}", file.display(), case.line);
            failures += &format!("{place}: with {} behind each command\n", way.text());
            failures += &difference(&case.expected, &came);
        }
    }
    (cases.len(), failures)
}

/// The ways in which a file is played. How many runs there are depends on the way. No type here is a closed store, or a
/// batch that isn't one.
fn ways_of(text: &str) -> &[Way] {
    let has = |command: &str| {
        text.lines()
            .any(|line| line.split(' ').next() == Some(command))
    };
    if has("close") || has("raw") {
        &[]
    } else if has("report") {
        &[Way::Nothing]
    } else {
        &[Way::Nothing, Way::Flush, Way::Compactions, Way::Reopening]
    }
}

/// The files of cases, in the order of their names.
fn files() -> Vec<PathBuf> {
    let folder = Path::new(env!("CARGO_MANIFEST_DIR")).join("../../cases");
    let entries = fs::read_dir(folder).expect("bindings/cases");
    let paths = entries.map(|entry| entry.expect("a file").path());
    let mut files: Vec<PathBuf> = paths
        .filter(|path| path.extension().is_some_and(|name| name == "txt"))
        .collect();
    files.sort();
    files
}

#[test]
fn each_case_prints_what_is_expected() {
    let (mut whole, mut failures) = (0, String::new());
    for file in files() {
        let text = fs::read_to_string(&file).expect("a text");
        for way in ways_of(&text) {
            let (count, failed) = play(&file, &text, *way);
            whole += count;
            failures += &failed;
        }
    }
    assert!(failures.is_empty(), "\n{failures}");
    assert!(whole > 0);
    // A test's `println` is held back.
    writeln!(io::stderr(), "{whole} cases played").expect("a line is printed");
}
