//! [`Words`]: the words of a step, the bytes and batches that they spell, and how bytes are printed.

use ucstore::Batch;

/// The word for no bytes.
const NONE: &str = "\"\"";

/// From how many equal letters on they are printed with their number.
const MANY: usize = 16;

/// The words of a step that are still to be read.
#[derive(Clone, Copy)]
pub struct Words<'a> {
    rest: &'a str,
}

impl<'a> Words<'a> {
    pub fn of(text: &'a str) -> Words<'a> {
        Words { rest: text.trim() }
    }

    /// The next word; an empty one if there is none.
    pub fn next(&mut self) -> &'a str {
        let (word, rest) = self.rest.split_once(' ').unwrap_or((self.rest, ""));
        self.rest = rest.trim();
        word
    }

    /// The words that are left.
    pub fn rest(&self) -> &'a str {
        self.rest
    }

    pub fn number(&mut self) -> u64 {
        number_of(self.next())
    }

    pub fn bytes(&mut self) -> Vec<u8> {
        bytes_of(self.next())
    }
}

fn number_of(word: &str) -> u64 {
    word.parse()
        .unwrap_or_else(|_| panic!("{word} is no number"))
}

/// The bytes of a part of a word: letters, `0x6b00`, `u64:5`, or `[40000*b]`.
fn part(part: &str) -> Vec<u8> {
    if let Some(digits) = part.strip_prefix("0x") {
        let pair = |place| u8::from_str_radix(&digits[place..place + 2], 16).unwrap();
        return (0..digits.len()).step_by(2).map(pair).collect();
    }
    if let Some(digits) = part.strip_prefix("u64:") {
        return number_of(digits).to_le_bytes().into();
    }
    let repeated = part.strip_prefix('[').and_then(|it| it.strip_suffix(']'));
    match repeated.and_then(|it| it.split_once('*')) {
        Some((times, text)) => text.as_bytes().repeat(number_of(times) as usize),
        None => part.into(),
    }
}

/// The bytes that a word spells: parts with `~` between them.
pub fn bytes_of(word: &str) -> Vec<u8> {
    assert!(!word.is_empty(), "a word is missing");
    match word {
        NONE => vec![],
        word => word.split('~').flat_map(part).collect(),
    }
}

/// Prints bytes: as they are if they are letters, digits and commas.
pub fn word_of(bytes: &[u8]) -> String {
    if bytes.is_empty() {
        return NONE.into();
    }
    if !bytes
        .iter()
        .all(|it| it.is_ascii_alphanumeric() || *it == b',')
    {
        let digits = bytes.iter().map(|it| format!("{it:02x}"));
        return format!("0x{}", digits.collect::<String>());
    }
    let runs = bytes.chunk_by(|one, next| one == next);
    runs.map(|run| {
        let letter = char::from(run[0]);
        match run.len() {
            MANY.. => format!("~[{}*{letter}]~", run.len()),
            count => letter.to_string().repeat(count),
        }
    })
    .collect()
}

/// Adds a change to a batch: `put KEY VALUE`, `merge KEY OPERAND`, `delete KEY` or `range BEGIN END`.
pub fn add_change(batch: &mut Batch, text: &str) {
    let mut words = Words::of(text);
    let (verb, first) = (words.next(), words.bytes());
    let second = match words.rest() {
        "" => vec![],
        _ => words.bytes(),
    };
    match verb {
        "put" => batch.put(first, second),
        "merge" => batch.merge(first, second),
        "delete" => batch.delete(first),
        "range" => batch.delete_range(first, second),
        _ => panic!("there is no change {verb}"),
    }
    .unwrap();
}

/// The bytes of a batch: `bytes BYTES`, `raw SEQUENCE COUNT RECORDS`, or `SEQUENCE CHANGE + CHANGE`.
pub fn batch_of(text: &str) -> Vec<u8> {
    let mut words = Words::of(text);
    match words.next() {
        "bytes" => words.bytes(),
        "raw" => {
            let (sequence, count) = (words.number(), words.number() as u32);
            let records = words.bytes();
            [&sequence.to_le_bytes()[..], &count.to_le_bytes(), &records].concat()
        }
        sequence => {
            let mut batch = Batch::new();
            for change in words.rest().split('+').filter(|it| !it.trim().is_empty()) {
                add_change(&mut batch, change);
            }
            with_sequence(number_of(sequence), &batch.bytes())
        }
    }
}

/// A batch with another sequence in the place of its own.
pub fn with_sequence(sequence: u64, batch: &[u8]) -> Vec<u8> {
    [&sequence.to_le_bytes()[..], &batch[8..]].concat()
}
