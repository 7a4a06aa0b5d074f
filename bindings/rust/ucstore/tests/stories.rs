//! Plays the stories of `bindings/cases/stories`, whose README has the commands: what a store answers step by step, under each operator.

mod story;

use std::fs;
use std::path::{Path, PathBuf};
use story::{told, Case};
use ucstore::Operator;

/// The least number of cases in the files: a missing file is no success.
const LEAST_CASES: usize = 56;

fn folder() -> PathBuf {
    Path::new(env!("CARGO_MANIFEST_DIR")).join("../../cases/stories")
}

/// The output of a case: under each operator, if it names none, the same.
fn printed(case: &Case<'_>) -> String {
    let kinds = case.operators();
    let first = told(case, kinds[0]);
    for kind in &kinds[1..] {
        let other = told(case, *kind);
        if other != first {
            return format!("{first}{kind:?} comes to something else:\n{other}");
        }
    }
    first
}

/// The cases of a story whose output differs from the expected one, each with its line and its output.
fn wrong_cases(text: &str) -> (usize, Vec<String>) {
    let cases = story::cases_of(text);
    let wrong = cases.iter().filter_map(|case| {
        let found = printed(case);
        (found != case.expected).then(|| {
            format!(
                "line {}: it prints\n{found}and not\n{}",
                case.line, case.expected
            )
        })
    });
    (cases.len(), wrong.collect())
}

#[test]
fn stories_come_to_what_they_say() {
    let mut count = 0;
    let mut files: Vec<_> = fs::read_dir(folder())
        .unwrap()
        .map(|entry| entry.unwrap().path())
        .filter(|path| path.extension().is_some_and(|end| end == "txt"))
        .collect();
    files.sort();
    for file in files {
        let (cases, wrong) = wrong_cases(&fs::read_to_string(&file).unwrap());
        assert!(wrong.is_empty(), "{}, {}", file.display(), wrong.join("\n"));
        count += cases;
    }
    println!("{count} cases");
    assert!(count >= LEAST_CASES, "{count} cases");
}

#[test]
fn a_wrong_story_is_found() {
    let right = "# A put.\nstory\ncreate; put k v; get k\n----\ncreated; done; v\n";
    assert_eq!(wrong_cases(right), (1, vec![]));
    let wrong = right.replace("; v\n", "; w\n");
    let (count, found) = wrong_cases(&wrong);
    assert_eq!((count, found.len()), (1, 1));
    assert!(
        found[0].starts_with("line 2: it prints\ncreated; done; v\nand not\n"),
        "{found:?}"
    );
    // Operators that come to different answers are found too.
    let unlike =
        "story\ncreate; merge k 12345; merge k 6; get k\n----\ncreated; done; done; 12345,6\n";
    assert!(wrong_cases(unlike).1[0].contains("comes to something else"));
}

#[test]
#[should_panic(expected = "there is no step")]
fn an_unknown_step_is_no_story() {
    let case = &story::cases_of("story\ncreate; jump\n----\ncreated\n")[0];
    told(case, Operator::Append);
}
