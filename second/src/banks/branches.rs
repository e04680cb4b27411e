//! Which branches of the bank's rules a call takes, seen from the pool and the bank before it and
//! the refusal, if it was one. A fault of the bank is counted for itself only where it is the one
//! fault, since another would hide what becomes of it.

use super::Call;
use crate::bank::{body_bytes, fits, Bank};
use crate::branches::{place_not_held, NOT_HELD};
use crate::calls;
use crate::probe::Bench;
use crate::rules::{self, held_block, need, Refusal};
use crate::state::{Block, State, GREATEST_SMALL, LEAST_REMAINDER};
use crate::tally::{expanded, Tally};

const CALLS: [&str; 3] = ["set", "clear", "recall"];
const KINDS: [&str; 3] = ["kind 1", "kind 2", "kind 3"];

/// Every branch in the order of the table; `@` stands for each call, `~` for each place of an
/// offset that is not held, `#` and `%` for each kind.
const NAMES: [&str; 46] = [
    "@: refused 1",
    "@: refused 1, the piston is above 31 too",
    "@: refused 2",
    "@: refused 2, for a free block at E alone",
    "@: refused 2, the piston is above 31 too",
    "@: refused 2, one offset stands twice too",
    "@: refused 10, piston 32",
    "@: refused 10, a piston above 32",
    "@: refused 10, the bank is wrong too",
    "@: refused 12, not held: ~",
    "@: refused 12, not held, at this piston",
    "@: refused 12, not held, at another piston",
    "@: refused 12, twice, at this piston",
    "@: refused 12, twice, at other pistons",
    "@: refused 12, the piston itself is empty",
    "set: refused 12, the kind is unknown too",
    "set: refused 12, the body's length is wrong too",
    "set: refused 12, there is no room either",
    "set: refused 11, unknown kind",
    "set: refused 11, a body too short",
    "set: refused 11, a body too long",
    "set: refused 11, the body of another kind",
    "set: refused 11, there is no room either",
    "set: refused 4, the piston is empty",
    "set: refused 4, the old setting stays",
    "set: refused 4, the old block would have been room",
    "set: # into an empty piston",
    "set: # over %",
    "set: # over what does not read",
    "set: # over a large block",
    "set: the block comes from its bin",
    "set: the block comes from the remainder",
    "set: the block comes from the remainder, 8 left",
    "clear: an empty piston",
    "clear: #",
    "clear: what does not read",
    "clear: a large block",
    "clear: the block goes home",
    "recall: an empty piston",
    "recall: #",
    "recall: # in a longer payload",
    "recall: #, another piston's record does not read",
    "recall: refused 12, the kind is 0",
    "recall: refused 12, the kind is 4",
    "recall: refused 12, the kind is above 4",
    "recall: refused 12, # is 5 bytes longer than its payload",
];

pub struct Counts {
    tally: Tally,
}

impl Counts {
    pub fn new() -> Counts {
        let mut names = NAMES.iter().map(|name| name.to_string()).collect();
        for (mark, words) in [('@', &CALLS[..]), ('~', &NOT_HELD), ('#', &KINDS), ('%', &KINDS)] {
            names = expanded(names, mark, words);
        }
        Counts { tally: Tally::new(names) }
    }

    /// Name and count in the order of the list.
    pub fn table(&self) -> Vec<(String, u64)> {
        self.tally.table()
    }

    fn add(&mut self, call: &Call, what: &str) {
        self.tally.add(&format!("{}: {}", call.name(), what));
    }

    pub fn observe(&mut self, before: &Bench, call: &Call, refused: Option<Refusal>) {
        let state = match calls::state_of(&before.pool) {
            Ok(state) => state,
            Err(refusal) => {
                if refusal == Refusal::NotSound && calls::old_state_of(&before.pool).is_ok() {
                    self.add(call, "refused 2, for a free block at E alone");
                }
                return self.no_pool(&before.bank, call, refusal);
            }
        };
        let wrong = !fits(&before.bank, &state);
        match (refused, call) {
            (Some(Refusal::NoPiston), _) => self.no_piston(call, wrong),
            (Some(_), _) if wrong => self.wrong_bank(&before.bank, &state, call),
            (Some(Refusal::NotARecord), Call::Set(_, kind, body)) => {
                self.not_a_record(&state, call, *kind, body.len())
            }
            (Some(Refusal::NoRoom), Call::Set(_, _, body)) => {
                self.no_room(before, &state, call, body.len())
            }
            (Some(_), _) => self.not_read(before, &state, call),
            (None, Call::Set(_, kind, body)) => self.set(before, &state, call, *kind, body.len()),
            (None, Call::Clear(_)) => match old_block(before, &state, call) {
                None => self.add(call, "an empty piston"),
                Some(block) => {
                    self.add(call, &content(&before.pool, block));
                    if block.start == state.remainder_end() {
                        self.add(call, "the block goes home");
                    }
                }
            },
            (None, Call::Recall(_)) => self.recall(before, &state, call),
        }
    }

    fn no_pool(&mut self, bank: &Bank, call: &Call, refusal: Refusal) {
        let name = format!("refused {}", refusal.number());
        self.add(call, &name);
        if call.piston() > 31 {
            self.add(call, &format!("{}, the piston is above 31 too", name));
        }
        if refusal == Refusal::NotSound && !twice(bank).is_empty() {
            self.add(call, &format!("{}, one offset stands twice too", name));
        }
    }

    fn no_piston(&mut self, call: &Call, wrong: bool) {
        let which = if call.piston() == 32 { "piston 32" } else { "a piston above 32" };
        self.add(call, &format!("refused 10, {}", which));
        if wrong {
            self.add(call, "refused 10, the bank is wrong too");
        }
    }

    fn wrong_bank(&mut self, bank: &Bank, state: &State, call: &Call) {
        let this = call.piston() as usize;
        let (not_held, twice) = (not_held(bank, state), twice(bank));
        if not_held.len() == 1 && twice.is_empty() {
            let place = place_not_held(state, bank[not_held[0]] as usize);
            self.add(call, &format!("refused 12, not held: {}", place));
            let at = if not_held[0] == this { "this piston" } else { "another piston" };
            self.add(call, &format!("refused 12, not held, at {}", at));
        }
        if not_held.is_empty() {
            let at = if twice.contains(&this) { "this piston" } else { "other pistons" };
            self.add(call, &format!("refused 12, twice, at {}", at));
        }
        if bank[this] == 0 {
            self.add(call, "refused 12, the piston itself is empty");
        }
        if let Call::Set(_, kind, body) = call {
            match body_bytes(*kind) {
                None => self.add(call, "refused 12, the kind is unknown too"),
                Some(bytes) if bytes != body.len() => {
                    self.add(call, "refused 12, the body's length is wrong too")
                }
                Some(_) if no_room(state, body.len()) => {
                    self.add(call, "refused 12, there is no room either")
                }
                Some(_) => {}
            }
        }
    }

    fn not_a_record(&mut self, state: &State, call: &Call, kind: u8, length: usize) {
        let fault = match body_bytes(kind) {
            None => "unknown kind",
            Some(_) if [8, 16, 32].contains(&length) => "the body of another kind",
            Some(bytes) if length < bytes => "a body too short",
            Some(_) => "a body too long",
        };
        self.add(call, &format!("refused 11, {}", fault));
        if no_room(state, length) {
            self.add(call, "refused 11, there is no room either");
        }
    }

    fn no_room(&mut self, before: &Bench, state: &State, call: &Call, length: usize) {
        match old_block(before, state, call) {
            None => self.add(call, "refused 4, the piston is empty"),
            Some(block) => {
                self.add(call, "refused 4, the old setting stays");
                if block.size == need(1 + length as u32) {
                    self.add(call, "refused 4, the old block would have been room");
                }
            }
        }
    }

    fn set(&mut self, before: &Bench, state: &State, call: &Call, kind: u8, length: usize) {
        let over = match old_block(before, state, call) {
            None => "into an empty piston".to_string(),
            Some(block) => format!("over {}", content(&before.pool, block)),
        };
        self.add(call, &format!("kind {} {}", kind, over));
        let size = need(1 + length as u32);
        let left = state.remainder_size().wrapping_sub(size);
        let source = match state.small_bins.contains_key(&size) {
            true => "its bin",
            false if left == LEAST_REMAINDER => "the remainder, 8 left",
            false => "the remainder",
        };
        self.add(call, &format!("the block comes from {}", source));
    }

    fn recall(&mut self, before: &Bench, state: &State, call: &Call) {
        let block = match old_block(before, state, call) {
            None => return self.add(call, "an empty piston"),
            Some(block) => block,
        };
        let kind = before.pool[block.start + 4];
        let needed = body_bytes(kind).map_or(0, |bytes| need(1 + bytes as u32));
        let longer = if block.size > needed { " in a longer payload" } else { "" };
        self.add(call, &format!("kind {}{}", kind, longer));
        let mut named = before.bank.iter().filter_map(|offset| held_block(state, *offset).ok());
        if named.any(|other| reads(&before.pool, other).is_none()) {
            self.add(call, &format!("kind {}, another piston's record does not read", kind));
        }
    }

    fn not_read(&mut self, before: &Bench, state: &State, call: &Call) {
        let block = old_block(before, state, call).expect("an empty piston is not refused");
        let kind = before.pool[block.start + 4];
        match body_bytes(kind).map(|bytes| 1 + bytes + 4 - block.size) {
            None if kind == 0 => self.add(call, "refused 12, the kind is 0"),
            None if kind == 4 => self.add(call, "refused 12, the kind is 4"),
            None => self.add(call, "refused 12, the kind is above 4"),
            Some(5) => {
                let what = format!("refused 12, kind {} is 5 bytes longer than its payload", kind);
                self.add(call, &what)
            }
            Some(_) => {}
        }
    }
}

/// The block that the call's piston names.
fn old_block(before: &Bench, state: &State, call: &Call) -> Option<Block> {
    held_block(state, before.bank[call.piston() as usize]).ok()
}

/// The kind of the record in a block, where it reads.
fn reads(pool: &[u8], block: Block) -> Option<u8> {
    let kind = pool[block.start + 4];
    body_bytes(kind).filter(|bytes| *bytes < block.size - 4).map(|_| kind)
}

fn content(pool: &[u8], block: Block) -> String {
    match reads(pool, block) {
        _ if block.size > GREATEST_SMALL => "a large block".to_string(),
        Some(kind) => format!("kind {}", kind),
        None => "what does not read".to_string(),
    }
}

fn no_room(state: &State, length: usize) -> bool {
    rules::take(state, 1 + length as u32).is_err()
}

/// The pistons whose offsets are not held.
fn not_held(bank: &Bank, state: &State) -> Vec<usize> {
    let wrong = |offset: u32| offset != 0 && held_block(state, offset).is_err();
    (0..bank.len()).filter(|piston| wrong(bank[*piston])).collect()
}

/// The pistons whose offsets stand at another piston too.
fn twice(bank: &Bank) -> Vec<usize> {
    let times = |offset: u32| bank.iter().filter(|other| **other == offset).count();
    (0..bank.len()).filter(|piston| bank[*piston] != 0 && times(bank[*piston]) > 1).collect()
}
