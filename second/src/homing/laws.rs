//! What must hold where blocks go home, said of the bytes alone and without the words that layout.rs
//! governs: which words may change and what they are then; that the lists keep their order; that all
//! other bytes, those of the blocks that went home among them, stay as they were.

use crate::calls;
use crate::layout::{get4, get8, put4, small_bin_word, E_WORD, FREE_WORD, R_WORD, SMALL_NEXT};
use crate::report::demand;
use crate::rules::{self, Refusal};
use crate::state::{allowed, GREATEST_SMALL};

type Answer = Result<usize, Refusal>;

/// Of one bring-in, on any bytes.
pub fn brought_in(before: &[u8], answer: &Answer, after: &[u8]) -> Result<(), String> {
    let read = calls::old_state_of(before);
    let refusals =
        [(!allowed(before.len()), Refusal::NotAllowed), (read.is_err(), Refusal::NotSound)];
    let first = refusals.into_iter().find(|(applies, _)| *applies);
    demand(answer.err() == first.map(|(_, refusal)| refusal), "it is not the first refusal")?;
    if answer.is_err() {
        return demand(before == after, "a refusal changed a byte");
    }
    let (edge, count) = free_run(before, get8(before, E_WORD) as usize);
    demand(*answer == Ok(count), "the answer is not the number of free blocks at E")?;
    let sound = calls::inspect(before).is_ok();
    demand(sound == (count == 0), "a pool with a free block at E is sound, or another is not")?;
    demand(!sound || before == after, "a sound pool has changed")?;
    demand(calls::inspect(after) == Ok(after.len()), "the pool is not sound afterwards")?;
    edge_moved(before, after, edge, 0)?;
    let mut again = after.to_vec();
    let answer = calls::bring_in(&mut again);
    demand(answer == Ok(0) && again == after, "bringing in twice is not bringing in once")
}

/// Of one give-back of a small block; of others there is nothing to say here.
pub fn gave_back(before: &[u8], offset: u32, answer: &Answer, after: &[u8]) -> Result<(), String> {
    let sound = calls::inspect(before).is_ok();
    demand(sound || answer.is_err(), "a pool that is not sound is served")?;
    let payload = match answer {
        Ok(payload) => *payload,
        Err(_) => return demand(before == after, "a refusal changed a byte"),
    };
    demand(calls::inspect(after) == Ok(after.len()), "the pool is not sound afterwards")?;
    if payload + 4 > GREATEST_SMALL {
        return Ok(());
    }
    let start = offset as usize - 4;
    let size = payload + 4;
    demand(get4(before, start) == 4 * size as u32 + 3, "the answer is not the payload's bytes")?;
    if start == get8(before, E_WORD) as usize {
        let (edge, _) = free_run(before, start + size);
        edge_moved(before, after, edge, size)?;
    } else {
        put_in_front(before, after, start, size)?;
    }
    as_by_the_old_rule(before, offset, after)
}

/// Where the free blocks from a place in the run of small blocks on end, and how many they are.
fn free_run(pool: &[u8], from: usize) -> (usize, usize) {
    let (mut at, mut count) = (from, 0);
    while at < pool.len() && get4(pool, at) % 2 == 0 {
        at += (get4(pool, at) / 4) as usize;
        count += 1;
    }
    (at, count)
}

/// The eight lists of small blocks, followed along their links; of a sound pool, so that each ends.
fn lists(pool: &[u8]) -> Vec<Vec<usize>> {
    let list = |size: usize| {
        let mut starts = Vec::new();
        let mut at = get8(pool, small_bin_word(size)) as usize;
        while at != 0 {
            starts.push(at);
            at = get4(pool, at + SMALL_NEXT) as usize;
        }
        starts
    };
    (1..=8).map(|eighth| list(8 * eighth)).collect()
}

/// E has moved up to the edge, and with it the remainder's head; so many bytes more are free. Each
/// list has what lies above the edge, in its old order. No other word has changed.
fn edge_moved(before: &[u8], after: &[u8], edge: usize, more: usize) -> Result<(), String> {
    let r = get8(before, R_WORD) as usize;
    demand(get8(after, E_WORD) == edge as u64, "E is not where the free blocks end")?;
    demand(get8(after, R_WORD) == r as u64, "R has changed")?;
    demand(get4(after, r) == 4 * (edge - r) as u32 + 2, "the remainder's head is wrong")?;
    demand(get8(after, FREE_WORD) == get8(before, FREE_WORD) + more as u64, "the free word")?;
    let stay = |starts: &Vec<usize>| starts.iter().copied().filter(|at| *at >= edge).collect();
    let old = lists(before);
    let wanted: Vec<Vec<usize>> = old.iter().map(stay).collect();
    demand(lists(after) == wanted, "a list is not its old one without the blocks that went home")?;
    let mut may = vec![FREE_WORD, E_WORD, r];
    for (eighth, starts) in old.iter().enumerate() {
        // The word that leads to each block: where the one before it stays and it does not.
        let mut leads = small_bin_word(8 * (eighth + 1));
        for start in starts {
            if *start < edge {
                may.push(leads);
            } else {
                leads = start + SMALL_NEXT;
            }
        }
    }
    only_these_change(before, after, &may)
}

fn put_in_front(before: &[u8], after: &[u8], start: usize, size: usize) -> Result<(), String> {
    demand(get8(after, E_WORD) == get8(before, E_WORD), "E has changed")?;
    let mut wanted = lists(before);
    wanted[size / 8 - 1].insert(0, start);
    demand(lists(after) == wanted, "the block is not put in front of its bin")?;
    let words = [FREE_WORD, start, start + SMALL_NEXT, small_bin_word(size)];
    only_these_change(before, after, &words)
}

/// A give-back by the old rule and then bringing in come to the same, but for the head and the link
/// that the old rule stores into a block that goes home.
fn as_by_the_old_rule(before: &[u8], offset: u32, after: &[u8]) -> Result<(), String> {
    let was = calls::state_of(before).map_err(|_| "the pool is not sound".to_string())?;
    let (old, _) = rules::give_back_old(&was, offset).map_err(|_| "not held".to_string())?;
    let mut pool = crate::layout::write(&old, before);
    let went = calls::bring_in(&mut pool).map_err(|_| "not sound by the old rule".to_string())?;
    if went > 0 {
        let start = offset as usize - 4;
        [start, start + 4].into_iter().for_each(|at| put4(&mut pool, at, get4(before, at)));
    }
    demand(pool == after, "the old rule and then bringing in give another pool")
}

fn only_these_change(before: &[u8], after: &[u8], words: &[usize]) -> Result<(), String> {
    let changed =
        (0..before.len()).step_by(4).filter(|at| before[*at..*at + 4] != after[*at..*at + 4]);
    match changed.into_iter().find(|at| !words.contains(at)) {
        Some(at) => Err(format!("the word at {} has changed", at)),
        None => Ok(()),
    }
}
