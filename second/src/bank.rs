//! The piston bank of request 2026-03, a product above the pool: 32 pistons, each empty or naming
//! one record of the pool. A bank is its 32 numbers and nothing else, so each call holds all of
//! them against the pool before it does anything; the pool is asked and changed by its calls alone.

use crate::calls;
use crate::rules::{self, Refusal};
use crate::state::State;
use std::collections::BTreeSet;
use std::ops::Range;

pub const PISTONS: usize = 32;

/// For each piston the offset of its record's payload, 0 where the piston is empty.
pub type Bank = [u32; PISTONS];

/// The bytes that a record of this kind has behind its kind; nothing where the kind is unknown.
pub fn body_bytes(kind: u8) -> Option<usize> {
    match kind {
        1 => Some(8),
        2 => Some(16),
        3 => Some(32),
        _ => None,
    }
}

/// Every offset that the bank names is held, and none is named twice.
pub fn fits(bank: &Bank, state: &State) -> bool {
    let mut seen = BTreeSet::new();
    let mut named = bank.iter().filter(|offset| **offset != 0);
    named.all(|offset| seen.insert(*offset) && rules::held_block(state, *offset).is_ok())
}

/// The number of the piston, after the tests that all three calls begin with: 1, 2, 10, 12.
fn named(pool: &[u8], bank: &Bank, piston: u32) -> Result<u32, Refusal> {
    let state = calls::state_of(pool)?;
    let number = *bank.get(piston as usize).ok_or(Refusal::NoPiston)?;
    if fits(bank, &state) {
        Ok(number)
    } else {
        Err(Refusal::WrongBank)
    }
}

/// The new block is taken and written while the old one is still held; so the old setting stays
/// where there is no room, even if the old block would have been room.
pub fn set(
    pool: &mut Vec<u8>,
    bank: &mut Bank,
    piston: u32,
    kind: u8,
    body: &[u8],
) -> Result<usize, Refusal> {
    let old = named(pool, bank, piston)?;
    if body_bytes(kind) != Some(body.len()) {
        return Err(Refusal::NotARecord);
    }
    let record = [&[kind], body].concat();
    let offset = calls::take(pool, record.len() as u32)?;
    pool[offset..offset + record.len()].copy_from_slice(&record);
    if old != 0 {
        calls::give_back(pool, old).expect("what the bank names is held");
    }
    bank[piston as usize] = offset as u32;
    Ok(pool.len())
}

pub fn clear(pool: &mut Vec<u8>, bank: &mut Bank, piston: u32) -> Result<usize, Refusal> {
    let old = named(pool, bank, piston)?;
    if old != 0 {
        calls::give_back(pool, old).expect("what the bank names is held");
    }
    bank[piston as usize] = 0;
    Ok(pool.len())
}

/// The record as a part of the pool, its kind first; of an empty piston the empty part at the
/// pool's end.
pub fn recall(pool: &[u8], bank: &Bank, piston: u32) -> Result<Range<usize>, Refusal> {
    let offset = named(pool, bank, piston)?;
    if offset == 0 {
        return Ok(pool.len()..pool.len());
    }
    let payload = calls::part(pool, offset);
    let body = body_bytes(pool[payload.start]).ok_or(Refusal::WrongBank)?;
    let end = payload.start + 1 + body;
    if end > payload.end {
        return Err(Refusal::WrongBank);
    }
    Ok(payload.start..end)
}
