//! [`Candidate`] and [`Member`]: a transaction that is to be written, and one in a group.

use crate::conflict::Condition;
use crate::error::Error;
use crate::group::{Group, GroupResult};
use crate::header::{count_of, HEADER_SIZE};
use crate::last_write_table::Keys;
use std::ops::Range;
use std::sync::Arc;
use ucstore::Store;

/// The most operations of a group that a transaction joins, and the most reads of a transaction that joins one: each is compared with each.
const MOST_COMPARED: usize = 256;
const MOST_READS: usize = 64;

/// A transaction that is to be written: its batch, and what has to be unchanged.
pub(crate) struct Candidate {
    pub(crate) batch: Vec<u8>,
    pub(crate) condition: Condition,
}

/// A transaction in a group.
pub(crate) struct Member {
    /// The place of its operations in the group's batch, and their number.
    operations: Range<usize>,
    count: u32,
    condition: Condition,
    /// Whether nothing was written since its moment, so that no read of it is to be judged.
    is_unchanged: bool,
    outcome: Arc<GroupResult>,
    /// Why it isn't written with the group.
    conflict: Option<Error>,
}

impl Candidate {
    /// Whether a group may have it: it has read few keys and ranges.
    pub(crate) fn may_join(&self) -> bool {
        self.condition.noted().len() <= MOST_READS
    }

    /// Whether the transaction may be judged before a group is written of which it is a later part: the group touches nothing that the
    /// transaction has read.
    pub(crate) fn is_beside(&self, group: &[u8]) -> bool {
        let noted = self.condition.noted();
        count_of(group) as usize <= MOST_COMPARED
            && Keys::of(group).all(|key| key.is_some_and(|key| !noted.covers(key)))
    }

    /// The batch of the transaction, and the member of a group, whose batch has its operations from a place on.
    pub(crate) fn into_parts(self, begin: usize) -> (Vec<u8>, Member) {
        let end = begin + self.batch.len() - HEADER_SIZE;
        let member = Member {
            operations: begin..end,
            count: count_of(&self.batch),
            condition: self.condition,
            is_unchanged: false,
            outcome: Arc::default(),
            conflict: None,
        };
        (self.batch, member)
    }
}

impl Member {
    /// The outcome, for the thread of the transaction.
    pub(crate) fn outcome(&self) -> Arc<GroupResult> {
        Arc::clone(&self.outcome)
    }

    /// Whether its reads are to be judged: something was written since its moment, and it has no conflict yet.
    fn is_to_judge(&self) -> bool {
        !self.is_unchanged && self.conflict.is_none()
    }

    /// Publishes the transaction's result to its thread. `result` is the group's.
    fn publish(&self, result: &Result<(), Error>) {
        let own = match (&self.conflict, result) {
            (Some(conflict), Ok(())) => Err(conflict.clone()),
            (_, Err(Error::Store(ucstore::Error::ReadChanged { read }))) => {
                Err(self.condition.conflict(*read))
            }
            _ => result.clone(),
        };
        self.outcome.publish(own);
    }
}

impl Group {
    /// Marks the transactions since whose moment nothing was written; `last` is the sequence of the store's last write.
    pub(crate) fn note_unchanged(&mut self, last: u64) {
        for member in &mut self.members {
            member.is_unchanged = member.condition.is_as_of(last);
        }
    }

    /// The condition of a group that is one transaction, if it is to be judged: the call that prepares it does so.
    pub(crate) fn lone_condition(&self) -> Option<&Condition> {
        match &self.members[..] {
            // The batch may be another one, from which the transaction was left out.
            [member] if self.batches == 1 && member.is_to_judge() => Some(&member.condition),
            _ => None,
        }
    }

    /// The transactions of it that are to be judged, with their places.
    fn to_judge(&self) -> impl Iterator<Item = (usize, &Condition)> {
        let members = self.members.iter().enumerate();
        let members = members.filter(|(_, member)| member.is_to_judge());
        members.map(|(place, member)| (place, &member.condition))
    }

    /// Whether a transaction of it is to be judged.
    pub(crate) fn is_to_judge(&self) -> bool {
        self.to_judge().next().is_some()
    }

    /// Whether a transaction of it that is to be judged has read ranges.
    pub(crate) fn has_ranges(&self) -> bool {
        let mut conditions = self.to_judge();
        conditions.any(|(_, condition)| condition.noted().has_ranges())
    }

    /// Releases the moments of its transactions, which are judged.
    pub(crate) fn release_moments(&self) {
        for member in &self.members {
            member.condition.release();
        }
    }

    /// Judges each transaction of it, and returns the places of those that have a conflict, each with the place of its read.
    pub(crate) fn judge(&self, store: &Store) -> Result<Vec<(usize, usize)>, ucstore::Error> {
        let mut lost = Vec::new();
        for (place, condition) in self.to_judge() {
            if let Some(read) = condition.first_changed(store)? {
                lost.push((place, read));
            }
        }
        Ok(lost)
    }

    /// Takes the operations of transactions out that have a conflict.
    pub(crate) fn leave_out(&mut self, lost: &[(usize, usize)]) {
        // From the last on, so that the places of the others stay.
        for (place, read) in lost.iter().rev() {
            let member = &mut self.members[*place];
            self.batch.drain(member.operations.clone());
            let count = count_of(&self.batch) - member.count;
            self.batch[8..HEADER_SIZE].copy_from_slice(&count.to_le_bytes());
            self.batches -= 1;
            member.conflict = Some(member.condition.conflict(*read));
        }
    }

    /// Publishes the results of the group's transactions. `result` is the group's.
    pub(crate) fn publish_to_members(&self, result: &Result<(), Error>) {
        for member in &self.members {
            member.publish(result);
        }
    }
}

#[cfg(test)]
mod tests {
    use super::*;
    use crate::group::{Groups, Turn};
    use crate::moment::MomentReader;
    use crate::noted_reads::NotedReads;
    use ucstore::{Batch, Operator, Options};

    /// A batch that puts keys.
    fn batch(keys: &[&str]) -> Vec<u8> {
        let mut batch = Batch::new();
        for key in keys {
            batch.put(key, "value").unwrap();
        }
        batch.bytes()
    }

    /// A transaction that has read a key of a store and puts others.
    fn candidate(store: &Store, read: &str, keys: &[&str]) -> Candidate {
        let mut noted = NotedReads::default();
        noted.push_key(read.as_bytes()).unwrap();
        let moment = MomentReader::of_view(store.view().unwrap());
        let condition = Condition::of(moment, noted).unwrap();
        let batch = batch(keys);
        Candidate { batch, condition }
    }

    #[test]
    fn a_transaction_joins_what_touches_none_of_its_reads() {
        let store = Store::create(Operator::Append, &Options::default()).unwrap();
        let groups = Groups::default();
        let join = |read, keys: &[&str]| groups.join_if(candidate(&store, read, keys), false, true);
        assert!(matches!(join("a", &["a", "b"]), Turn::Leads(_)));
        assert!(matches!(join("c", &["b", "c"]), Turn::Follows(_)));
        for touched in ["a", "b", "c"] {
            assert!(matches!(join(touched, &["d"]), Turn::Waits(..)));
        }
        groups.join(Batch::new().delete("d").unwrap().bytes(), true, true);
        assert!(matches!(join("d", &["d"]), Turn::Waits(..)));
        assert!(matches!(join("e", &[]), Turn::Follows(_)));
        groups.join(
            Batch::new().delete_range("x", "y").unwrap().bytes(),
            false,
            false,
        );
        assert!(matches!(join("e", &["e"]), Turn::Waits(..)));
        let group = groups.close();
        assert!(group.is_synced && group.batches == 5 && group.members.len() == 3);
        assert!(group.lone_condition().is_none());
    }

    #[test]
    fn a_write_is_taken_without_the_transaction_that_joined_it() {
        let store = Store::create(Operator::Append, &Options::default()).unwrap();
        let groups = Groups::default();
        groups.join(batch(&["usual"]), false, false);
        let Turn::Follows(outcome) = groups.join_if(candidate(&store, "r", &["a"]), false, false)
        else {
            panic!("it joins");
        };
        store.put("r", "changed").unwrap();
        let mut group = groups.close();
        group.note_unchanged(store.last());
        assert!(group.is_to_judge() && group.lone_condition().is_none());
        let lost = group.judge(&store).unwrap();
        group.leave_out(&lost);
        assert!(!group.is_to_judge() && group.lone_condition().is_none());
        assert_eq!(group.batch, batch(&["usual"]));
        group.publish(&Ok(()));
        assert!(outcome.wait(crate::spin_wait::SpinWait::Short).is_err());
    }

    #[test]
    fn a_transaction_with_nothing_written_since_is_not_judged() {
        let store = Store::create(Operator::Append, &Options::default()).unwrap();
        store.put("before", "1").unwrap();
        let groups = Groups::default();
        let Turn::Leads(_) = groups.join_if(candidate(&store, "r", &["a"]), false, false) else {
            panic!("it leads");
        };
        let mut group = groups.close();
        assert!(group.lone_condition().is_some());
        group.note_unchanged(store.last());
        assert!(group.lone_condition().is_none() && !group.is_to_judge());
        store.put("other", "1").unwrap();
        group.note_unchanged(store.last());
        assert!(group.lone_condition().is_some() && group.is_to_judge());
    }

    #[test]
    fn what_has_a_conflict_is_left_out() {
        let store = Store::create(Operator::Append, &Options::default()).unwrap();
        let groups = Groups::default();
        let mut outcomes = Vec::new();
        for (read, keys) in [("r0", ["a", "b"]), ("r1", ["c", "d"]), ("r2", ["e", "f"])] {
            groups.join(batch(&["usual"]), false, false);
            match groups.join_if(candidate(&store, read, &keys), false, false) {
                Turn::Leads(outcome) | Turn::Follows(outcome) => outcomes.push(outcome),
                Turn::Waits(..) => panic!("it joins"),
            }
        }
        store.put("r0", "changed").unwrap();
        store.put("r2", "changed").unwrap();
        let mut group = groups.close();
        let lost = group.judge(&store).unwrap();
        assert_eq!(lost, [(0, 0), (2, 0)]);
        group.leave_out(&lost);
        assert_eq!(group.batch, batch(&["usual", "usual", "c", "d", "usual"]));
        assert_eq!(group.batches, 4);
        group.publish(&Ok(()));
        let result = outcomes
            .iter()
            .map(|it| it.wait(crate::spin_wait::SpinWait::Short));
        let result: Vec<_> = result
            .map(|result| result.map_err(|error| error.to_string()))
            .collect();
        let lost = |key| Err(format!("conflict: key \"{key}\" has changed"));
        assert_eq!(result, [lost("r0"), Ok(()), lost("r2")]);
    }
}
