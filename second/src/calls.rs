//! The calls on a pool's bytes. Each one reads the state (refusals 1 and 2, in that order), lets
//! the rules answer, and lays the new state over the bytes; a refusal returns before any writing.

use crate::layout;
use crate::rules::{self, Refusal};
use crate::state::{allowed, Layout, State};
use std::ops::Range;

type Answer = Result<usize, Refusal>;

/// The number and value that a call's line shows.
pub fn number_and_value(answer: &Answer) -> (u32, usize) {
    match answer {
        Ok(value) => (0, *value),
        Err(refusal) => (refusal.number(), 0),
    }
}

pub fn state_of(pool: &[u8]) -> Result<State, Refusal> {
    if !allowed(pool.len()) {
        return Err(Refusal::NotAllowed);
    }
    layout::read(pool).map_err(|_| Refusal::NotSound)
}

/// By the rule before request 2026-06, which bringing in goes by alone.
pub fn old_state_of(pool: &[u8]) -> Result<State, Refusal> {
    if !allowed(pool.len()) {
        return Err(Refusal::NotAllowed);
    }
    layout::read_old(pool).map_err(|_| Refusal::NotSound)
}

/// By the layout's number.
pub fn lay_out(pool: &mut Vec<u8>, number: u32) -> Answer {
    if !allowed(pool.len()) {
        return Err(Refusal::NotAllowed);
    }
    let layout = Layout::of_number(number).ok_or(Refusal::NoLayout)?;
    *pool = layout::write(&State::fresh(pool.len(), layout), pool);
    Ok(pool.len())
}

/// From the layout with this number to the other one. The number is tested before the pool is read.
pub fn convert(pool: &mut Vec<u8>, old: u32) -> Answer {
    if !allowed(pool.len()) {
        return Err(Refusal::NotAllowed);
    }
    let old = Layout::of_number(old).ok_or(Refusal::NoLayout)?;
    let after = rules::convert(&state_of(pool)?, old)?;
    *pool = layout::write(&after, pool);
    Ok(pool.len())
}

/// How many blocks went home.
pub fn bring_in(pool: &mut Vec<u8>) -> Answer {
    let (after, count) = rules::bring_in(&old_state_of(pool)?);
    *pool = layout::write(&after, pool);
    Ok(count)
}

pub fn inspect(pool: &[u8]) -> Answer {
    state_of(pool).map(|state| state.n)
}

pub fn take(pool: &mut Vec<u8>, s: u32) -> Answer {
    let (after, offset) = rules::take(&state_of(pool)?, s)?;
    *pool = layout::write(&after, pool);
    Ok(offset)
}

pub fn give_back(pool: &mut Vec<u8>, offset: u32) -> Answer {
    let (after, payload) = rules::give_back(&state_of(pool)?, offset)?;
    *pool = layout::write(&after, pool);
    Ok(payload)
}

pub fn ask(pool: &[u8], offset: u32) -> Answer {
    let block = rules::held_block(&state_of(pool)?, offset)?;
    Ok(block.size - 4)
}

/// The lent part, for reading and for writing; at a refusal the empty part at the pool's end.
pub fn part(pool: &[u8], offset: u32) -> Range<usize> {
    match ask(pool, offset) {
        Ok(payload) => offset as usize..offset as usize + payload,
        Err(_) => pool.len()..pool.len(),
    }
}

pub fn figures(pool: &[u8]) -> Result<[usize; 7], Refusal> {
    state_of(pool).map(|state| rules::figures(&state))
}

pub fn class_count(pool: &[u8], counters: &mut [u32]) -> Answer {
    let state = state_of(pool)?;
    if counters.len() != rules::CLASSES {
        return Err(Refusal::ListLength);
    }
    counters.copy_from_slice(&rules::class_counts(&state));
    Ok(state.held().count())
}
