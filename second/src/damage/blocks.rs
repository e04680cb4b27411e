//! Runs of blocks that must not be, with all other words written to suit them.

use super::{any, Patient};
use crate::layout::get4;
use crate::random::Random;
use crate::state::Block;

pub fn held_turned(p: &mut Patient, random: &mut Random) -> Option<()> {
    let blocks: Vec<Block> = p.state.blocks().copied().collect();
    let block = any(random, &blocks)?;
    p.bytes[block.start] ^= 1;
    if random.chance(1, 2) {
        let sign = if block.held { 1 } else { -1 };
        p.add_to_free_word(sign * block.size as i64);
    }
    Some(())
}

/// May leave a sound pool: nothing but neighbours or the place below R forbids it.
pub fn made_free(p: &mut Patient, random: &mut Random) -> Option<()> {
    let blocks: Vec<Block> = p.state.held().copied().collect();
    turned(p, random, &blocks)
}

pub fn made_held(p: &mut Patient, random: &mut Random) -> Option<()> {
    let blocks: Vec<Block> = p.state.free().copied().collect();
    turned(p, random, &blocks)
}

fn turned(p: &mut Patient, random: &mut Random, blocks: &[Block]) -> Option<()> {
    let block = any(random, blocks)?;
    let turn = |other: &Block| Block { held: other.held != (other == &block), ..*other };
    let low = p.state.low.iter().map(turn).collect();
    let high = p.state.high.iter().map(turn).collect();
    p.set_low(random, low);
    p.set_high(random, high);
    Some(())
}

pub fn two_free_touch(p: &mut Patient, random: &mut Random) -> Option<()> {
    let mut low = p.state.low.clone();
    let large = low.iter().enumerate().filter(|(_, b)| !b.held && b.size >= 144);
    let places: Vec<usize> = large.map(|(index, _)| index).collect();
    let index = any(random, &places)?;
    let whole = low[index];
    let size = random.between(9, (whole.size - 72) / 8) * 8;
    low[index].size = size;
    low.insert(
        index + 1,
        Block { start: whole.start + size, size: whole.size - size, held: false },
    );
    p.set_low(random, low);
    Some(())
}

pub fn free_below_remainder(p: &mut Patient, random: &mut Random) -> Option<()> {
    let mut low = p.state.low.clone();
    low.last_mut()?.held = false;
    p.set_low(random, low);
    if random.chance(1, 2) {
        let start = p.state.remainder_start();
        p.bytes[start] &= !2;
    }
    Some(())
}

/// A held large block becomes two held ones; sound only where both are large.
pub fn small_in_low(p: &mut Patient, random: &mut Random) -> Option<()> {
    let mut low = p.state.low.clone();
    let places: Vec<usize> = (0..low.len()).filter(|index| low[*index].held).collect();
    let index = any(random, &places)?;
    let whole = low[index];
    let size = random.between(1, whole.size / 8 - 1) * 8;
    low[index].size = size;
    low.insert(index + 1, Block { start: whole.start + size, size: whole.size - size, held: true });
    p.set_low(random, low);
    Some(())
}

/// Held small blocks become one; sound only where it is still small.
pub fn large_in_high(p: &mut Patient, random: &mut Random) -> Option<()> {
    let mut high = p.state.high.clone();
    let places: Vec<usize> = (0..high.len()).filter(|index| high[*index].held).collect();
    let index = any(random, &places)?;
    while high[index].size < 72 && index + 1 < high.len() {
        high[index].size += high.remove(index + 1).size;
    }
    if high[index].size < 72 && random.chance(3, 4) {
        return None;
    }
    p.set_high(random, high);
    Some(())
}

pub fn swallow_held(p: &mut Patient, random: &mut Random) -> Option<()> {
    swallow(p, random, true)
}

/// The swallowed block stays in its list, with all its words, but is no block's start any more.
pub fn swallow_free(p: &mut Patient, random: &mut Random) -> Option<()> {
    swallow(p, random, false)
}

fn swallow(p: &mut Patient, random: &mut Random, held: bool) -> Option<()> {
    let runs = [&p.state.low, &p.state.high];
    let pairs = runs.iter().flat_map(|run| run.windows(2));
    let pairs = pairs.filter(|pair| pair[0].held && pair[1].held == held);
    let pairs: Vec<(Block, Block)> = pairs.map(|pair| (pair[0], pair[1])).collect();
    let (eater, eaten) = any(random, &pairs)?;
    let flags = get4(&p.bytes, eater.start) & 3;
    p.set(eater.start, 4 * (eater.size + eaten.size) as u32 + flags);
    if !held {
        if random.chance(2, 3) {
            p.add_to_free_word(-(eaten.size as i64));
        }
        if eaten.end() < p.state.remainder_start() && random.chance(2, 3) {
            p.bytes[eaten.end()] |= 2;
        }
    }
    Some(())
}
