//! Stories: the cases of a file, and the steps that a store is taken through.

mod steps;
mod words;

use std::fmt::Write;
use steps::Story;
use ucstore::{Operator, Options};

const OPERATORS: [Operator; 4] = [
    Operator::Append,
    Operator::Counter,
    Operator::Maximum,
    Operator::Tail,
];

/// A case: where it begins in its file, its arguments, its steps, and what it prints.
pub struct Case<'a> {
    pub line: usize,
    arguments: Vec<(&'a str, &'a str)>,
    steps: Vec<&'a str>,
    pub expected: String,
}

/// The cases of a file: empty lines part them, and lines with `#` are comments.
pub fn cases_of(text: &str) -> Vec<Case<'_>> {
    let mut lines = text
        .lines()
        .enumerate()
        .filter(|(_, line)| !line.starts_with('#'));
    let mut cases = vec![];
    while let Some((place, line)) = lines.next() {
        if line.is_empty() {
            continue;
        }
        let mut words = line.split(' ');
        assert_eq!(words.next(), Some("story"), "line {}", place + 1);
        let input = lines.by_ref().map(|(_, line)| line);
        let steps = input.take_while(|line| *line != "----").collect();
        let printed = lines.by_ref().map(|(_, line)| line);
        let expected = printed.take_while(|line| !line.is_empty());
        cases.push(Case {
            line: place + 1,
            arguments: words
                .map(|word| word.split_once('=').unwrap_or((word, "")))
                .collect(),
            steps,
            expected: expected.flat_map(|line| [line, "\n"]).collect(),
        });
    }
    cases
}

impl Case<'_> {
    /// The operators under which it is told: all, if it names none.
    pub fn operators(&self) -> Vec<Operator> {
        let named = self.arguments.iter().find(|(key, _)| *key == "operator");
        OPERATORS
            .into_iter()
            .filter(|it| named.is_none_or(|(_, name)| format!("{it:?}").to_lowercase() == *name))
            .collect()
    }

    fn options(&self) -> Options {
        let mut options = Options::default();
        for (key, value) in &self.arguments {
            let number = || {
                value
                    .parse::<u64>()
                    .unwrap_or_else(|_| panic!("{key}={value}"))
            };
            let narrow = || number() as u32;
            match *key {
                "operator" => {}
                "memtable" => options.write_buffer_size = number(),
                "trigger" => options.compaction_trigger = narrow(),
                "ratio" => options.size_ratio = narrow(),
                "percent" => options.max_size_amplification_percent = narrow(),
                "least" => options.min_merge_width = narrow(),
                "greatest" => options.max_merge_width = narrow(),
                "stop" => options.stop_trigger = narrow(),
                "buffers" => options.max_write_buffer_number = narrow(),
                "by_hand" => options.compacts_itself = false,
                _ => panic!("there is no option {key}"),
            }
        }
        options
    }
}

/// The output of a story under an operator: a line for each line of steps.
pub fn told(case: &Case<'_>, operator: Operator) -> String {
    let mut story = Story::new(operator, case.options());
    let mut text = String::new();
    for line in &case.steps {
        let replies: Vec<_> = line.split(';').map(|step| story.take(step)).collect();
        writeln!(text, "{}", replies.join("; ")).unwrap();
    }
    text
}
