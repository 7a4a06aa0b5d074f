//! Merges by the operators of `enum ucstore_db_part`.

use crate::call::{call, Refusal};
use crate::handle::{BatchHandle, DbHandle, Handle};
use crate::memory::text;
use crate::status::Status;
use db::{MergeParts, Part};
use std::ffi::c_void;

// The numbers of `enum ucstore_db_part`.
const ADD: u32 = 1;
const MAX_BYTES: u32 = 2;
const MIN_BYTES: u32 = 3;
const SET: u32 = 4;
const APPEND_BYTES: u32 = 5;
const OR: u32 = 6;
const AND: u32 = 7;
const XOR: u32 = 8;
const MAX_REGISTERS: u32 = 9;
const TAIL_BYTES: u32 = 10;
const MAX_U64: u32 = 11;
const MIN_U64: u32 = 12;
const ADD_U64: u32 = 13;
const SET_UNION: u32 = 14;

/// The part with an operator's number, a parameter and a payload.
fn part_of(number: u32, parameter: u32, payload: &[u8]) -> Result<Part<'_>, Refusal> {
    let bytes = || payload.try_into().map_err(|_| Status::BadOperand);
    let part = match (number, parameter) {
        (ADD, 0) => Part::Add(i64::from_le_bytes(bytes()?)),
        (MAX_BYTES, 0) => Part::Maximum(payload),
        (MIN_BYTES, 0) => Part::Minimum(payload),
        (SET, 0) => Part::Set(payload),
        (APPEND_BYTES, delimiter) => Part::Append {
            delimiter: delimiter.try_into().map_err(|_| Status::UnknownOperator)?,
            bytes: payload,
        },
        (OR, 0) => Part::Or(payload),
        (AND, 0) => Part::And(payload),
        (XOR, 0) => Part::Xor(payload),
        (MAX_REGISTERS, 0) => Part::MaxRegisters(payload),
        (TAIL_BYTES, count) => Part::Tail {
            count: count.try_into().map_err(|_| Status::UnknownOperator)?,
            bytes: payload,
        },
        (MAX_U64, 0) => Part::MaxU64(u64::from_le_bytes(bytes()?)),
        (MIN_U64, 0) => Part::MinU64(u64::from_le_bytes(bytes()?)),
        (ADD_U64, 0) => Part::AddU64(u64::from_le_bytes(bytes()?)),
        (SET_UNION, 0) => Part::Union(payload),
        _ => return Err(Status::UnknownOperator.into()),
    };
    Ok(part)
}

/// Merges a payload into a key's value by an operator.
#[no_mangle]
pub unsafe extern "C" fn ucstore_db_merge_as(
    db: *const DbHandle,
    part: u32,
    parameter: u32,
    key: *const c_void,
    key_length: usize,
    payload: *const c_void,
    payload_length: usize,
) -> i32 {
    call(|| {
        // SAFETY: The caller guarantees the handle and both byte strings.
        let (db, key, payload) = unsafe {
            let texts = (text(key, key_length)?, text(payload, payload_length)?);
            (Handle::get(db)?, texts.0, texts.1)
        };
        db.merge_part(key, part_of(part, parameter, payload)?)?;
        Ok(())
    })
}

/// Adds a merge of a payload by an operator.
#[no_mangle]
pub unsafe extern "C" fn ucstore_db_batch_merge_as(
    batch: *mut BatchHandle,
    part: u32,
    parameter: u32,
    key: *const c_void,
    key_length: usize,
    payload: *const c_void,
    payload_length: usize,
) -> i32 {
    call(|| {
        // SAFETY: The caller guarantees the handle, which no other call uses, and both byte strings.
        let (batch, key, payload) = unsafe {
            let texts = (text(key, key_length)?, text(payload, payload_length)?);
            (Handle::get_mut(batch)?, texts.0, texts.1)
        };
        batch.merge_part(key, part_of(part, parameter, payload)?)?;
        Ok(())
    })
}
