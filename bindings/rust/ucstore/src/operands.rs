//! [`Operand`]: an operand of [`Operator::Mixed`](crate::Operator::Mixed), and the calls that merge one.

use crate::batch::Batch;
use crate::error::{check, Error};
use crate::snapshot::Snapshot;
use crate::store::Store;
use crate::sys;
use crate::view::View;
use std::collections::BTreeSet;

/// The number of bytes by which an operand of one part is longer than its payload, at most.
const MOST_MORE: usize = 8;

/// One operator of an [`Operand`], with its payload.
///
/// A number has 8 bytes, little-endian; a value of another length counts as 0. "Byte by byte" fills the shorter byte string with zeros.
#[derive(Clone, Copy, Debug, PartialEq, Eq, Hash)]
#[non_exhaustive]
pub enum Part<'a> {
    /// Adds a number. Sums wrap at 2^64.
    Add(i64),
    /// Keeps the greater byte string.
    Maximum(&'a [u8]),
    /// Keeps the lesser byte string.
    Minimum(&'a [u8]),
    /// Replaces the value, as a put does.
    Set(&'a [u8]),
    /// Appends a delimiter and then bytes. The first bytes of a key have no delimiter before them.
    Append {
        /// The delimiter.
        delimiter: u8,
        /// The bytes.
        bytes: &'a [u8],
    },
    /// Byte by byte, the bits of either.
    Or(&'a [u8]),
    /// Byte by byte, the bits of both.
    And(&'a [u8]),
    /// Byte by byte, the bits of one of both.
    Xor(&'a [u8]),
    /// Byte by byte, the greater byte.
    MaxRegisters(&'a [u8]),
    /// Appends bytes, and keeps the last ones.
    Tail {
        /// The greatest number of bytes that are kept.
        count: u16,
        /// The bytes.
        bytes: &'a [u8],
    },
    /// Keeps the greater number.
    MaxU64(u64),
    /// Keeps the lesser number.
    MinU64(u64),
    /// Adds a number without a sign. A sum is at most 2^64 - 1.
    AddU64(u64),
    /// Adds members to a set, as [`set_bytes`] encodes them. It takes time in the size of both sets.
    Union(&'a [u8]),
}

/// An operand of [`Operator::Mixed`](crate::Operator::Mixed): parts that are applied in turn.
///
/// ```
/// use ucstore::{Operand, Operator, Options, Part, ReadParts, Store};
///
/// # fn main() -> Result<(), ucstore::Error> {
/// let store = Store::create(Operator::Mixed, &Options::default())?;
/// store.merge("visits", Operand::of(Part::Add(2))?)?;
/// store.merge("visits", Operand::of(Part::Add(3))?)?;
/// store.merge("seen", Operand::of(Part::Or(&[4]))?)?;
/// assert_eq!(store.get_int("visits")?, Some(5));
/// # Ok(())
/// # }
/// ```
#[derive(Clone, Debug, PartialEq, Eq, Hash)]
pub struct Operand {
    bytes: Vec<u8>,
}

impl Operand {
    /// Returns the operand of one part.
    ///
    /// # Errors
    ///
    /// [`Error::TooLong`] if the payload has 2^32 bytes or more, [`Error::BadOperand`] if a set is not ascending members,
    /// [`Error::OutOfMemory`].
    pub fn of(part: Part<'_>) -> Result<Operand, Error> {
        match part {
            Part::Add(amount) => encoded(sys::UCSTORE_ADD, 0, &amount.to_le_bytes()),
            Part::Maximum(bytes) => encoded(sys::UCSTORE_MAX_BYTES, 0, bytes),
            Part::Minimum(bytes) => encoded(sys::UCSTORE_MIN_BYTES, 0, bytes),
            Part::Set(bytes) => encoded(sys::UCSTORE_SET, 0, bytes),
            Part::Append { delimiter, bytes } => {
                encoded(sys::UCSTORE_APPEND_BYTES, delimiter.into(), bytes)
            }
            Part::Or(bytes) => encoded(sys::UCSTORE_OR, 0, bytes),
            Part::And(bytes) => encoded(sys::UCSTORE_AND, 0, bytes),
            Part::Xor(bytes) => encoded(sys::UCSTORE_XOR, 0, bytes),
            Part::MaxRegisters(bytes) => encoded(sys::UCSTORE_MAX_REGISTERS, 0, bytes),
            Part::Tail { count, bytes } => encoded(sys::UCSTORE_TAIL_BYTES, count.into(), bytes),
            Part::MaxU64(number) => encoded(sys::UCSTORE_MAX_U64, 0, &number.to_le_bytes()),
            Part::MinU64(number) => encoded(sys::UCSTORE_MIN_U64, 0, &number.to_le_bytes()),
            Part::AddU64(amount) => encoded(sys::UCSTORE_ADD_U64, 0, &amount.to_le_bytes()),
            Part::Union(set) => encoded(sys::UCSTORE_SET_UNION, 0, set),
        }
    }

    /// Returns the operand that applies this one and then a part.
    ///
    /// # Errors
    ///
    /// The errors of [`of`](Operand::of).
    pub fn then(mut self, part: Part<'_>) -> Result<Operand, Error> {
        let next = Operand::of(part)?;
        self.bytes.try_reserve(next.bytes.len())?;
        self.bytes.extend_from_slice(&next.bytes);
        Ok(self)
    }

    /// Returns the operand with these bytes, as [`as_ref`](AsRef::as_ref) returned them.
    ///
    /// # Errors
    ///
    /// [`Error::BadOperand`] if they are not one.
    pub fn from_bytes(bytes: Vec<u8>) -> Result<Operand, Error> {
        check_operand(&bytes)?;
        Ok(Operand { bytes })
    }
}

impl AsRef<[u8]> for Operand {
    fn as_ref(&self) -> &[u8] {
        &self.bytes
    }
}

/// Checks that bytes are an operand, as [`Operand::from_bytes`] does.
///
/// # Errors
///
/// [`Error::BadOperand`] if they are not one.
pub fn check_operand(bytes: &[u8]) -> Result<(), Error> {
    check(unsafe { sys::ucstore_operand_check(bytes.as_ptr(), bytes.len()) })
}

/// Encodes the operand of one part.
fn encoded(part: u32, parameter: u32, payload: &[u8]) -> Result<Operand, Error> {
    let mut bytes = Vec::new();
    bytes.try_reserve_exact(payload.len() + MOST_MORE)?;
    bytes.resize(payload.len() + MOST_MORE, 0);
    let mut size = 0;
    check(unsafe {
        sys::ucstore_operand(
            part,
            parameter,
            payload.as_ptr(),
            payload.len(),
            bytes.as_mut_ptr(),
            bytes.len(),
            &mut size,
        )
    })?;
    bytes.truncate(size);
    Ok(Operand { bytes })
}

/// Returns the number that a value encodes: 8 bytes, little-endian. A value of another length counts as 0.
pub fn int_of(value: &[u8]) -> i64 {
    value.try_into().map_or(0, i64::from_le_bytes)
}

/// Encodes a set of byte strings: its members in ascending order, each 2 bytes of its length, little-endian, and its bytes.
///
/// # Errors
///
/// [`Error::TooLong`] if a member has 2^16 bytes or more, [`Error::OutOfMemory`].
pub fn set_bytes<M: AsRef<[u8]>>(members: impl IntoIterator<Item = M>) -> Result<Vec<u8>, Error> {
    let mut members = Vec::from_iter(members);
    members.sort_unstable_by(|one, other| one.as_ref().cmp(other.as_ref()));
    members.dedup_by(|one, other| one.as_ref() == other.as_ref());
    let mut bytes = Vec::new();
    for member in &members {
        let member = member.as_ref();
        let length = u16::try_from(member.len()).map_err(|_| Error::TooLong)?;
        bytes.try_reserve(2 + member.len())?;
        bytes.extend_from_slice(&length.to_le_bytes());
        bytes.extend_from_slice(member);
    }
    Ok(bytes)
}

/// Returns the members of a set that a value encodes. Bytes that encode no member end them.
///
/// ```
/// # fn main() -> Result<(), ucstore::Error> {
/// let value = ucstore::set_bytes(["b", "a", "b"])?;
/// assert_eq!(Vec::from_iter(ucstore::set_of(&value)), [b"a", b"b"]);
/// # Ok(())
/// # }
/// ```
pub fn set_of(value: &[u8]) -> BTreeSet<Vec<u8>> {
    let mut members = BTreeSet::new();
    let mut rest = value;
    while let Some((length, bytes)) = rest.split_first_chunk() {
        let Some((member, others)) = bytes.split_at_checked(u16::from_le_bytes(*length).into())
        else {
            break;
        };
        members.insert(member.to_vec());
        rest = others;
    }
    members
}

/// Merges by the operators of [`Operator::Mixed`](crate::Operator::Mixed): a [`Store`], a [`Batch`] or a database.
///
/// Each call merges an operand of one [`Part`]. Its errors are those of a merge.
#[allow(clippy::missing_errors_doc)]
pub trait MergeParts: Sized {
    /// The result of a merge.
    type Done;
    /// The error of a merge.
    type Error: From<Error>;

    /// Merges an operand.
    fn merge_operand(self, key: &[u8], operand: &Operand) -> Result<Self::Done, Self::Error>;

    /// Merges an operand of one part.
    fn merge_part(self, key: impl AsRef<[u8]>, part: Part<'_>) -> Result<Self::Done, Self::Error> {
        let operand = Operand::of(part)?;
        self.merge_operand(key.as_ref(), &operand)
    }

    /// Adds a number.
    fn add(self, key: impl AsRef<[u8]>, amount: i64) -> Result<Self::Done, Self::Error> {
        self.merge_part(key, Part::Add(amount))
    }

    /// Appends a delimiter and then bytes.
    fn append(
        self,
        key: impl AsRef<[u8]>,
        delimiter: u8,
        bytes: impl AsRef<[u8]>,
    ) -> Result<Self::Done, Self::Error> {
        let bytes = bytes.as_ref();
        self.merge_part(key, Part::Append { delimiter, bytes })
    }

    /// Keeps the greater byte string.
    fn maximum(
        self,
        key: impl AsRef<[u8]>,
        bytes: impl AsRef<[u8]>,
    ) -> Result<Self::Done, Self::Error> {
        self.merge_part(key, Part::Maximum(bytes.as_ref()))
    }

    /// Keeps the lesser byte string.
    fn minimum(
        self,
        key: impl AsRef<[u8]>,
        bytes: impl AsRef<[u8]>,
    ) -> Result<Self::Done, Self::Error> {
        self.merge_part(key, Part::Minimum(bytes.as_ref()))
    }

    /// Sets the bits of a byte string.
    fn bit_or(
        self,
        key: impl AsRef<[u8]>,
        bits: impl AsRef<[u8]>,
    ) -> Result<Self::Done, Self::Error> {
        self.merge_part(key, Part::Or(bits.as_ref()))
    }

    /// Adds members to a set. A member has at most 2^16 - 1 bytes.
    fn union<M: AsRef<[u8]>>(
        self,
        key: impl AsRef<[u8]>,
        members: impl IntoIterator<Item = M>,
    ) -> Result<Self::Done, Self::Error> {
        let set = set_bytes(members)?;
        self.merge_part(key, Part::Union(&set))
    }
}

/// Reads values that merges by [`Part`] make: of a [`Store`], a [`Snapshot`](crate::Snapshot), a [`View`](crate::View) or a database.
///
/// Errors are those of `get`.
#[allow(clippy::missing_errors_doc)]
pub trait ReadParts {
    /// The error of a read.
    type Error;

    /// Returns the value of a key, if it has one.
    fn value(&self, key: &[u8]) -> Result<Option<Vec<u8>>, Self::Error>;

    /// Returns the number that a key's value encodes, as [`int_of`] reads it, if the key has a value.
    fn get_int(&self, key: impl AsRef<[u8]>) -> Result<Option<i64>, Self::Error> {
        Ok(self.value(key.as_ref())?.map(|value| int_of(&value)))
    }

    /// Returns the members of a key's set, as [`set_of`] reads them, if the key has a value.
    fn get_set(&self, key: impl AsRef<[u8]>) -> Result<Option<BTreeSet<Vec<u8>>>, Self::Error> {
        Ok(self.value(key.as_ref())?.map(|value| set_of(&value)))
    }
}

impl MergeParts for &Store {
    type Done = ();
    type Error = Error;

    fn merge_operand(self, key: &[u8], operand: &Operand) -> Result<(), Error> {
        self.merge(key, operand)
    }
}

impl<'a> MergeParts for &'a mut Batch {
    type Done = &'a mut Batch;
    type Error = Error;

    fn merge_operand(self, key: &[u8], operand: &Operand) -> Result<&'a mut Batch, Error> {
        self.merge(key, operand)
    }
}

impl ReadParts for Store {
    type Error = Error;

    fn value(&self, key: &[u8]) -> Result<Option<Vec<u8>>, Error> {
        self.get(key)
    }
}

impl ReadParts for View {
    type Error = Error;

    fn value(&self, key: &[u8]) -> Result<Option<Vec<u8>>, Error> {
        self.get(key)
    }
}

impl ReadParts for Snapshot<'_> {
    type Error = Error;

    fn value(&self, key: &[u8]) -> Result<Option<Vec<u8>>, Error> {
        self.get(key)
    }
}
