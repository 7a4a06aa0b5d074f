//! Merges by the operators of [`Operator::Mixed`](crate::Operator::Mixed).

use crate::db::Db;
use crate::error::Error;
use crate::snapshot::Snapshot;
use crate::transaction::Transaction;
use ucstore::{check_operand, MergeParts, Operand, Operator, ReadParts};

impl Db {
    /// Combines a key with an operand. Under [`Operator::Mixed`] use the calls of [`MergeParts`](crate::MergeParts), which make operands.
    ///
    /// # Errors
    ///
    /// As [`write`](Db::write), and [`ucstore::Error::BadOperand`] if the operator is [`Operator::Mixed`] and the bytes are not an
    /// operand of it. A batch is not checked: such bytes replace the value.
    pub fn merge(&self, key: impl AsRef<[u8]>, operand: impl AsRef<[u8]>) -> Result<(), Error> {
        let (key, operand) = (key.as_ref(), operand.as_ref());
        self.check_operand(operand)?;
        self.merge_checked(key, operand)
    }

    /// Refuses bytes that are no operand, where an operand has a shape.
    pub(crate) fn check_operand(&self, operand: &[u8]) -> Result<(), Error> {
        if self.shared().options.operator() == Operator::Mixed {
            check_operand(operand)?;
        }
        Ok(())
    }

    /// Combines a key with an operand that was checked.
    pub(crate) fn merge_checked(&self, key: &[u8], operand: &[u8]) -> Result<(), Error> {
        self.write_one(|batch| batch.merge(key, operand).map(|_| ()))
    }
}

impl MergeParts for &Db {
    type Done = ();
    type Error = Error;

    fn merge_operand(self, key: &[u8], operand: &Operand) -> Result<(), Error> {
        self.merge_checked(key, operand.as_ref())
    }
}

impl MergeParts for &mut Transaction {
    type Done = ();
    type Error = Error;

    fn merge_operand(self, key: &[u8], operand: &Operand) -> Result<(), Error> {
        self.merge_checked(key, operand.as_ref())
    }
}

impl ReadParts for Db {
    type Error = Error;

    fn value(&self, key: &[u8]) -> Result<Option<Vec<u8>>, Error> {
        self.get(key)
    }
}

impl ReadParts for Snapshot {
    type Error = Error;

    fn value(&self, key: &[u8]) -> Result<Option<Vec<u8>>, Error> {
        self.get(key)
    }
}

impl ReadParts for Transaction {
    type Error = Error;

    fn value(&self, key: &[u8]) -> Result<Option<Vec<u8>>, Error> {
        self.get(key)
    }
}
