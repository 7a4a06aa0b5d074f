//! [`Groups`]: writers that come together, and share one record of the log and one sync.

use crate::error::Error;
use crate::header::{count_of, HEADER_SIZE};
use crate::lock;
use crate::member::{Candidate, Member};
use crate::spin_wait::SpinWait;
use std::sync::{Arc, Mutex, OnceLock};

/// The most bytes of a group that isn't a single batch.
const MOST_BYTES: usize = 1 << 20;

/// The size in bytes up to which the leader's batch is small, and the most bytes that others may add to it: a small write doesn't wait for
/// large ones.
const SMALL_BYTES: usize = 128 << 10;

/// Batches that are written as one.
pub(crate) struct Group {
    /// A batch with their operations.
    pub(crate) batch: Vec<u8>,
    /// Whether it is to be on the device when it is acknowledged.
    pub(crate) is_synced: bool,
    /// The number of its batches.
    pub(crate) batches: u64,
    /// The most bytes that it may have with others.
    most: usize,
    /// There is one once another writer waits for it.
    outcome: Option<Arc<GroupResult>>,
    /// The transactions among its batches, in their order.
    pub(crate) members: Vec<Member>,
}

/// The result of a group, for which its writers wait.
#[derive(Default)]
pub(crate) struct GroupResult {
    result: OnceLock<Result<(), Error>>,
}

/// The role of a writer for its batch.
pub(crate) enum Role {
    /// It writes the group, which others may join until then.
    Leads,
    /// It waits for the leader.
    Follows(Arc<GroupResult>),
    /// The group can't take the batch: the writer waits until it is written, and joins again.
    Waits(Arc<GroupResult>, Vec<u8>),
}

/// The role of a transaction that is to be written.
pub(crate) enum Turn {
    /// It writes its group, as [`Role::Leads`] says, and has an outcome of its own then.
    Leads(Arc<GroupResult>),
    /// It waits for its outcome.
    Follows(Arc<GroupResult>),
    /// The group can't take it: it waits until that is written, and joins again.
    Waits(Arc<GroupResult>, Candidate),
}

/// The group that writers join now, if there is one. Its leader waits until the one before is written.
#[derive(Default)]
pub(crate) struct Groups {
    open: Mutex<Option<Group>>,
}

impl Groups {
    /// Joins the group that is open, or opens one. A writer that has waited for a group joins the next one also if that has to be synced for
    /// it, or gets large by it: so it waits once.
    pub(crate) fn join(&self, batch: Vec<u8>, is_synced: bool, has_waited: bool) -> Role {
        let mut open = lock(&self.open);
        let Some(group) = &mut *open else {
            *open = Some(Group::of(batch, is_synced));
            return Role::Leads;
        };
        let outcome = Arc::clone(group.outcome.get_or_insert_default());
        if !group.add(&batch, is_synced, has_waited) {
            return Role::Waits(outcome, batch);
        }
        Role::Follows(outcome)
    }

    /// Joins the group that is open, unless that touches what the transaction has read, or opens one.
    pub(crate) fn join_if(&self, candidate: Candidate, is_synced: bool, has_waited: bool) -> Turn {
        let mut open = lock(&self.open);
        let Some(group) = &mut *open else {
            let (group, outcome) = Group::of_transaction(candidate, is_synced);
            *open = Some(group);
            return Turn::Leads(outcome);
        };
        let begin = group.batch.len();
        if !candidate.is_beside(&group.batch) || !group.add(&candidate.batch, is_synced, has_waited)
        {
            let outcome = group.outcome.get_or_insert_default();
            return Turn::Waits(Arc::clone(outcome), candidate);
        }
        Turn::Follows(group.push_member(candidate.into_parts(begin).1))
    }

    /// Takes the open group, so that none joins it any more. Only its leader calls this.
    pub(crate) fn close(&self) -> Group {
        lock(&self.open).take().expect("the leader's group is open")
    }
}

impl Group {
    /// A group of one batch.
    fn of(batch: Vec<u8>, is_synced: bool) -> Group {
        let most = match batch.len() {
            size if size <= SMALL_BYTES => size + SMALL_BYTES,
            _ => MOST_BYTES,
        };
        Group {
            batch,
            is_synced,
            batches: 1,
            most,
            outcome: None,
            members: Vec::new(),
        }
    }

    /// The most bytes that a store gathers for it: 8 for each operation's sequence, and its keys and values. In the batch each
    /// operation has a tag and at least one length beside these.
    pub(crate) fn memory(&self) -> u64 {
        (self.batch.len() - HEADER_SIZE) as u64 + (8 - 2) * u64::from(count_of(&self.batch))
    }

    /// A group of one transaction, and the outcome of that.
    pub(crate) fn of_transaction(
        candidate: Candidate,
        is_synced: bool,
    ) -> (Group, Arc<GroupResult>) {
        let (batch, member) = candidate.into_parts(HEADER_SIZE);
        let mut group = Group::of(batch, is_synced);
        let outcome = group.push_member(member);
        (group, outcome)
    }

    /// Adds a transaction whose operations it has, and returns its outcome.
    fn push_member(&mut self, member: Member) -> Arc<GroupResult> {
        let outcome = member.outcome();
        self.members.push(member);
        outcome
    }

    /// Publishes the result of the group to the writers that wait, once it is written or failed.
    pub(crate) fn publish(self, result: &Result<(), Error>) {
        self.publish_to_members(result);
        if let Some(outcome) = self.outcome {
            outcome.publish(result.clone());
        }
    }

    /// Adds a batch, and returns whether that was possible: the group may be full, an allocation may fail, or the batch would make it wait
    /// for a sync.
    fn add(&mut self, batch: &[u8], is_synced: bool, has_waited: bool) -> bool {
        let most = if has_waited { MOST_BYTES } else { self.most };
        let Some(count) = count_of(&self.batch).checked_add(count_of(batch)) else {
            return false;
        };
        if self.batch.len() + batch.len() > most || is_synced && !self.is_synced && !has_waited {
            return false;
        }
        if self.batch.try_reserve(batch.len()).is_err() {
            return false;
        }
        self.batch[8..HEADER_SIZE].copy_from_slice(&count.to_le_bytes());
        self.batch.extend_from_slice(&batch[HEADER_SIZE..]);
        self.batches += 1;
        self.is_synced |= is_synced;
        true
    }
}

impl GroupResult {
    /// Waits until the result is published.
    pub(crate) fn wait(&self, wait: SpinWait) -> Result<(), Error> {
        let result = wait.spin_until(|| self.result.get());
        result.unwrap_or_else(|| self.result.wait()).clone()
    }

    /// Publishes the result to the writers that wait.
    pub(crate) fn publish(&self, result: Result<(), Error>) {
        self.result.set(result).expect("it is published once");
    }
}

#[cfg(test)]
mod schedules;

#[cfg(test)]
mod tests {
    use super::*;
    use ucstore::Batch;

    fn batch(key: &str, length: usize) -> Vec<u8> {
        let mut batch = Batch::new();
        batch.put(key, vec![7; length]).unwrap();
        batch.bytes()
    }

    #[test]
    fn a_group_is_the_batch_of_its_batches() {
        let groups = Groups::default();
        assert!(matches!(
            groups.join(batch("a", 3), true, false),
            Role::Leads
        ));
        assert!(matches!(
            groups.join(batch("b", 5), false, false),
            Role::Follows(_)
        ));
        let group = groups.close();
        let mut both = Batch::new();
        both.put("a", [7; 3]).unwrap().put("b", [7; 5]).unwrap();
        assert_eq!(group.batch, both.bytes());
        assert!(group.is_synced && group.batches == 2);
    }

    #[test]
    fn an_unsynced_group_takes_no_synced_batch() {
        let groups = Groups::default();
        groups.join(batch("a", 3), false, false);
        assert!(matches!(
            groups.join(batch("b", 5), true, false),
            Role::Waits(..)
        ));
        assert!(matches!(
            groups.join(batch("c", 5), false, false),
            Role::Follows(_)
        ));
        let group = groups.close();
        assert!(!group.is_synced && group.batches == 2);
        groups.join(batch("a", 3), false, false);
        assert!(matches!(
            groups.join(batch("b", 5), true, true),
            Role::Follows(_)
        ));
        assert!(groups.close().is_synced);
    }

    #[test]
    fn a_small_write_waits_for_no_large_one() {
        let groups = Groups::default();
        groups.join(batch("a", 3), false, false);
        assert!(matches!(
            groups.join(batch("b", SMALL_BYTES), false, false),
            Role::Waits(..)
        ));
        assert!(matches!(
            groups.join(batch("c", SMALL_BYTES / 2), false, false),
            Role::Follows(_)
        ));
        let waited = groups.join(batch("b", SMALL_BYTES), false, true);
        assert!(matches!(waited, Role::Follows(_)));
        groups.close();
        groups.join(batch("a", 2 * SMALL_BYTES), false, false);
        assert!(matches!(
            groups.join(batch("b", SMALL_BYTES), false, false),
            Role::Follows(_)
        ));
    }

    #[test]
    fn a_group_may_be_full() {
        let groups = Groups::default();
        groups.join(batch("a", MOST_BYTES), false, false);
        assert!(matches!(
            groups.join(batch("b", 1), false, false),
            Role::Waits(..)
        ));
        assert!(!groups.close().is_synced);
        assert!(matches!(
            groups.join(batch("b", 1), true, false),
            Role::Leads
        ));
    }
}
