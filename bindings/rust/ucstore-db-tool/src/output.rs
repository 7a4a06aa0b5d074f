//! [`Output`]: standard output, which is written in large pieces.

use crate::failure::{Failure, Outcome};
use crate::form::Form;
use std::io::{self, BufWriter, StdoutLock, Write};

/// The size of a piece in bytes.
const PIECE: usize = 64 << 10;

/// Standard output.
pub struct Output {
    stream: BufWriter<StdoutLock<'static>>,
    form: Form,
    /// A line that is being made. Its memory is used again.
    line: String,
}

impl Output {
    /// Standard output, with keys and values in a form.
    pub fn new(form: Form) -> Output {
        Output {
            stream: BufWriter::with_capacity(PIECE, io::stdout().lock()),
            form,
            line: String::new(),
        }
    }

    /// Writes a line.
    pub fn line(&mut self, line: &str) -> Outcome {
        self.stream
            .write_all(line.as_bytes())
            .and_then(|()| self.stream.write_all(b"\n"))
            .map_err(fault)
    }

    /// Writes a line with some keys and values, and tabs between them.
    pub fn fields(&mut self, fields: &[&[u8]]) -> Outcome {
        self.worded("", fields, '\t', "")
    }

    /// Writes a line that begins with words, which each of the fields follows after a separator. An empty one is spelled in its own way.
    pub fn worded(
        &mut self,
        words: &str,
        fields: &[&[u8]],
        separator: char,
        empty: &str,
    ) -> Outcome {
        let mut line = std::mem::take(&mut self.line);
        line.clear();
        line.push_str(words);
        for (place, field) in fields.iter().enumerate() {
            if place > 0 || !words.is_empty() {
                line.push(separator);
            }
            match field.is_empty() {
                true => line.push_str(empty),
                false => self.form.push(field, &mut line),
            }
        }
        let outcome = self.line(&line);
        self.line = line;
        outcome
    }

    /// Writes the lines so far.
    pub fn flush(&mut self) -> Outcome {
        self.stream.flush().map_err(fault)
    }

    /// Writes what is left.
    pub fn finish(mut self) -> Outcome {
        self.flush()
    }
}

/// The failure of standard output.
pub fn fault(error: io::Error) -> Failure {
    Failure::Stream {
        stream: "standard output",
        error,
    }
}
