//! Each order in which a few writers may take their steps, tried over [`Groups`].
//!
//! The steps are those of `Shared::write`, and between two of them other writers may take some. The search takes each step that is
//! possible in each state that there is.

use super::*;
use std::collections::HashSet;
use std::env;
use std::mem;

/// The kind of a batch.
#[derive(Clone, Copy, PartialEq, Eq, Debug)]
enum Kind {
    Usual,
    Synced,
    /// No other fits beside it.
    Large,
    LargeSynced,
}

impl Kind {
    const ALL: [Kind; 4] = [Kind::Usual, Kind::Synced, Kind::Large, Kind::LargeSynced];

    fn is_synced(self) -> bool {
        matches!(self, Kind::Synced | Kind::LargeSynced)
    }

    fn is_large(self) -> bool {
        matches!(self, Kind::Large | Kind::LargeSynced)
    }

    /// The batch of a writer. What stands for its operations is the writer's number.
    fn batch(self, writer: usize) -> Vec<u8> {
        let count = if self.is_large() { u32::MAX } else { 1 };
        [&[0; 8][..], &count.to_le_bytes(), &[writer as u8]].concat()
    }
}

/// The fate of a group.
#[derive(Clone, Copy, PartialEq, Eq, Debug)]
enum Fate {
    Written,
    /// Its log failed: nothing is written any more.
    Failed,
    /// The store has no memory for it, or the log failed before.
    Refused,
}

/// Writers, and what becomes of one of their groups if it isn't written.
#[derive(Debug)]
struct Scenario {
    kinds: Vec<Kind>,
    fault: Option<(usize, Fate)>,
}

impl Scenario {
    /// Whether a step of a writer is tried after those of a path: writers of a kind begin in their order, because they differ by
    /// nothing else.
    fn is_next(&self, writer: usize, path: &[usize]) -> bool {
        let is_alike = writer > 0 && self.kinds[writer - 1] == self.kinds[writer];
        !is_alike || path.contains(&writer) || path.contains(&(writer - 1))
    }
}

/// Where a writer is between two steps.
enum Place {
    Comes(Vec<u8>),
    Leads,
    /// It has locked the log.
    Holds,
    Closed(Group),
    /// It has unlocked the log.
    Wrote(Group, Result<(), Error>),
    Follows(Arc<GroupResult>),
    Waits(Arc<GroupResult>, Vec<u8>),
    Told(Result<(), Error>),
}

/// The record of a group, as the log has it.
#[derive(Debug)]
struct Record {
    writers: Vec<u8>,
    is_synced: bool,
    fate: Fate,
}

/// Writers between two steps.
struct State<'a> {
    scenario: &'a Scenario,
    groups: Groups,
    places: Vec<Place>,
    /// The writers that have waited for a group.
    waited: Vec<bool>,
    is_log_held: bool,
    /// The writers that are in a group, in their order.
    joined: Vec<u8>,
    records: Vec<Record>,
}

impl<'a> State<'a> {
    /// The state after steps of these writers.
    fn behind(scenario: &'a Scenario, path: &[usize]) -> State<'a> {
        let kinds = scenario.kinds.iter().enumerate();
        let mut state = State {
            scenario,
            groups: Groups::default(),
            places: kinds
                .map(|(it, kind)| Place::Comes(kind.batch(it)))
                .collect(),
            waited: vec![false; scenario.kinds.len()],
            is_log_held: false,
            joined: vec![],
            records: vec![],
        };
        for writer in path {
            state.step(*writer);
        }
        state
    }

    /// Whether a writer may take a step: the lock or the outcome that it waits for is there.
    fn is_able(&self, writer: usize) -> bool {
        match &self.places[writer] {
            Place::Leads => !self.is_log_held,
            Place::Follows(outcome) | Place::Waits(outcome, _) => outcome.result.get().is_some(),
            Place::Told(_) => false,
            _ => true,
        }
    }

    /// Lets a writer take its next step.
    fn step(&mut self, writer: usize) {
        let place = mem::replace(&mut self.places[writer], Place::Leads);
        self.places[writer] = match place {
            Place::Comes(batch) => self.join(writer, batch),
            Place::Leads => {
                self.is_log_held = true;
                Place::Holds
            }
            Place::Holds => Place::Closed(self.groups.close()),
            Place::Closed(group) => {
                let outcome = self.take(&group);
                self.is_log_held = false;
                Place::Wrote(group, outcome)
            }
            Place::Wrote(group, result) => {
                group.publish(&result);
                Place::Told(result)
            }
            Place::Follows(outcome) => Place::Told(outcome.wait(SpinWait::None)),
            Place::Waits(outcome, batch) => {
                let _ = outcome.wait(SpinWait::None);
                self.waited[writer] = true;
                Place::Comes(batch)
            }
            Place::Told(_) => unreachable!("it isn't able to"),
        };
        if let Place::Told(result) = &self.places[writer] {
            self.check_told(writer, result);
        }
    }

    fn join(&mut self, writer: usize, batch: Vec<u8>) -> Place {
        let (is_synced, has_waited) =
            (self.scenario.kinds[writer].is_synced(), self.waited[writer]);
        let role = self.groups.join(batch, is_synced, has_waited);
        if !matches!(role, Role::Waits(..)) {
            self.joined.push(writer as u8);
        }
        match role {
            Role::Leads => Place::Leads,
            Role::Follows(outcome) => Place::Follows(outcome),
            Role::Waits(outcome, batch) => Place::Waits(outcome, batch),
        }
    }

    /// Logs a group, as far as the scenario lets it.
    fn take(&mut self, group: &Group) -> Result<(), Error> {
        let has_failed = self.records.iter().any(|it| it.fate == Fate::Failed);
        let fate = match self.scenario.fault {
            _ if has_failed => Fate::Refused,
            Some((number, fate)) if number == self.records.len() => fate,
            _ => Fate::Written,
        };
        let record = Record {
            writers: group.batch[HEADER_SIZE..].to_vec(),
            is_synced: group.is_synced,
            fate,
        };
        self.check_group(group, &record.writers);
        self.records.push(record);
        match fate {
            Fate::Written => Ok(()),
            _ => Err(Error::Closed),
        }
    }

    /// A group has what its batches ask for, and one that is large is alone.
    fn check_group(&self, group: &Group, writers: &[u8]) {
        let kinds = writers.iter().map(|it| self.scenario.kinds[*it as usize]);
        assert_eq!(group.batches, writers.len() as u64);
        assert_eq!(group.is_synced, kinds.clone().any(Kind::is_synced));
        assert!(writers.len() == 1 || !kinds.clone().any(Kind::is_large));
        let counts = kinds.map(|it| if it.is_large() { u32::MAX } else { 1 });
        assert_eq!(count_of(&group.batch), counts.sum::<u32>());
    }

    /// Checks the outcome that a writer gets for its record.
    fn check_told(&self, writer: usize, result: &Result<(), Error>) {
        let is_its = |record: &&Record| record.writers.contains(&(writer as u8));
        let record = self.records.iter().find(is_its).expect("its record");
        assert_eq!(result.is_ok(), record.fate == Fate::Written);
        assert!(record.is_synced || !self.scenario.kinds[writer].is_synced());
    }

    /// In the end nobody waits, and each batch is in one record, in the order in which they joined.
    fn check_end(&self) {
        assert!(self.places.iter().all(|it| matches!(it, Place::Told(_))));
        let records = self.records.iter().map(|record| &record.writers[..]);
        assert_eq!(records.collect::<Vec<_>>().concat(), self.joined);
        let mut writers = self.joined.clone();
        writers.sort_unstable();
        assert!(writers.into_iter().eq(0..self.scenario.kinds.len() as u8));
    }

    /// All that the next steps depend on.
    fn outline(&self) -> String {
        let mut outline = Outline::default();
        let (held, joined, records) = (self.is_log_held, &self.joined, &self.records);
        outline.text = format!("{held} {joined:?} {:?} {records:?}", self.waited);
        if let Some(group) = &*lock(&self.groups.open) {
            outline.add_group("open", group);
        }
        for place in &self.places {
            outline.add_place(place);
        }
        outline.text
    }
}

/// A state as a string. Equal states go on equally.
#[derive(Default)]
struct Outline {
    text: String,
    /// Each has the number of its place in the order in which they are met.
    outcomes: Vec<*const GroupResult>,
}

impl Outline {
    fn add_place(&mut self, place: &Place) {
        match place {
            Place::Comes(_) => self.text += ", comes",
            Place::Leads => self.text += ", leads",
            Place::Holds => self.text += ", holds",
            Place::Closed(group) => self.add_group("closed", group),
            Place::Wrote(group, result) => {
                self.add_group("wrote", group);
                self.add_told(Some(result));
            }
            Place::Follows(outcome) => self.add_outcome("follows", outcome),
            Place::Waits(outcome, _) => self.add_outcome("waits", outcome),
            Place::Told(result) => self.add_told(Some(result)),
        }
    }

    fn add_group(&mut self, name: &str, group: &Group) {
        let (batch, is_synced, batches) = (&group.batch, group.is_synced, group.batches);
        self.text += &format!(", {name} {batch:?} {is_synced} {batches}");
        if let Some(outcome) = &group.outcome {
            self.add_outcome("tells", outcome);
        }
    }

    fn add_outcome(&mut self, name: &str, outcome: &Arc<GroupResult>) {
        let at = Arc::as_ptr(outcome);
        let met = self.outcomes.iter().position(|it| *it == at);
        let number = met.unwrap_or(self.outcomes.len());
        if met.is_none() {
            self.outcomes.push(at);
        }
        self.text += &format!(", {name} {number}");
        self.add_told(outcome.result.get());
    }

    fn add_told(&mut self, result: Option<&Result<(), Error>>) {
        self.text += &format!(" {:?}", result.map(Result::is_ok));
    }
}

/// Takes each step in each state, and tells how many states there are.
fn search(scenario: &Scenario) -> usize {
    let mut met = HashSet::new();
    let mut paths = vec![vec![]];
    while let Some(path) = paths.pop() {
        let state = State::behind(scenario, &path);
        if !met.insert(state.outline()) {
            continue;
        }
        let writers = 0..scenario.kinds.len();
        let able: Vec<usize> = writers.filter(|writer| state.is_able(*writer)).collect();
        if able.is_empty() {
            state.check_end();
        }
        let next = able.iter().filter(|it| scenario.is_next(**it, &path));
        paths.extend(next.map(|writer| [&path[..], &[*writer]].concat()));
    }
    met.len()
}

/// All choices of a number of kinds, without their order: writers differ by nothing else.
fn choices(count: usize, kinds: &[Kind]) -> Vec<Vec<Kind>> {
    if count == 0 {
        return vec![vec![]];
    }
    let begin = |first: usize| {
        let rest = choices(count - 1, &kinds[first..]);
        rest.into_iter()
            .map(move |rest| [&[kinds[first]], &rest[..]].concat())
    };
    (0..kinds.len()).flat_map(begin).collect()
}

/// Searches all scenarios of a number of writers, and returns their number of states.
fn search_all(count: usize, kinds: &[Kind]) -> usize {
    let fates = [Fate::Failed, Fate::Refused];
    let faults = (0..count).flat_map(|number| fates.map(|fate| Some((number, fate))));
    let faults: Vec<_> = faults.chain([None]).collect();
    let mut states = 0;
    for kinds in choices(count, kinds) {
        for fault in &faults {
            states += search(&Scenario {
                kinds: kinds.clone(),
                fault: *fault,
            });
        }
    }
    states
}

#[test]
fn three_writers_are_told_what_became_of_their_batches() {
    let states = [1, 2, 3].map(|count| search_all(count, &Kind::ALL));
    assert!(states > [70, 1700, 33_000], "{states:?} are fewer");
}

#[test]
fn four_writers_are_told_what_became_of_their_batches() {
    let (kinds, least) = match env::var_os("LONG") {
        Some(_) => (&Kind::ALL[..3], 200_000),
        None => (&Kind::ALL[1..3], 50_000),
    };
    let states = search_all(4, kinds);
    assert!(states > least, "{states} are fewer");
}
