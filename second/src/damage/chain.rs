//! Wrong chains and links: order, gaps, rings, pieces, places that hold no free block.

use super::{any, Patient};
use crate::layout::{distance, CHAIN, NEXT, PREVIOUS};
use crate::random::Random;
use crate::state::{FALSE_BLOCK, LOW_RUN};

pub fn chain_skips(p: &mut Patient, random: &mut Random) -> Option<()> {
    let mut heads = p.bin_heads();
    if heads.is_empty() {
        return None;
    }
    heads.remove(random.below(heads.len()));
    p.chain_through(&heads);
    Some(())
}

pub fn chain_order(p: &mut Patient, random: &mut Random) -> Option<()> {
    let mut heads = p.bin_heads();
    let sorted = heads.clone();
    random.shuffle(&mut heads);
    if heads == sorted {
        return None;
    }
    p.chain_through(&heads);
    Some(())
}

pub fn chain_ring(p: &mut Patient, random: &mut Random) -> Option<()> {
    let heads = p.bin_heads();
    let back = any(random, &heads)?;
    let last = heads[heads.len() - 1];
    let to = if back == last { FALSE_BLOCK } else { back };
    p.link(CHAIN, last, to);
    Some(())
}

/// One bin becomes two bins of the same size, each a good list.
pub fn chain_pieces(p: &mut Patient, random: &mut Random) -> Option<()> {
    let starts = p.large_bin(random, 2)?;
    let (first, second) = starts.split_at(random.between(1, starts.len() - 1));
    let mut heads = p.bin_heads();
    let place = heads.iter().position(|start| *start == starts[0])?;
    heads.insert(place + 1, second[0]);
    p.list_through(first);
    p.list_through(second);
    p.chain_through(&heads);
    Some(())
}

pub fn chain_to_second(p: &mut Patient, random: &mut Random) -> Option<()> {
    let starts = p.large_bin(random, 2)?;
    let mut heads = p.bin_heads();
    let place = heads.iter().position(|start| *start == starts[0])?;
    heads[place] = starts[random.between(1, starts.len() - 1)];
    p.chain_through(&heads);
    Some(())
}

/// Distances that are not 0 and lead to offset 0, to the false block, to R, below or past the pool.
pub fn link_to_special(p: &mut Patient, random: &mut Random) -> Option<()> {
    let heads = p.bin_heads();
    let free = p.free_large();
    let (from, word) = match random.below(4) {
        0 => (FALSE_BLOCK, CHAIN),
        1 => (any(random, &heads)?, CHAIN),
        2 => (any(random, &free)?.start, NEXT),
        _ => (any(random, &free)?.start, PREVIOUS),
    };
    let places = [0, FALSE_BLOCK, LOW_RUN, p.state.remainder_start(), p.state.n, from + 8];
    let to = *random.pick(&places);
    p.link(word, from, to);
    match random.below(8) {
        0 => p.set(from + word, 1 << 31),
        1 => p.set(from + word, i32::MAX as u32),
        2 => p.set(from + word, distance(p.state.n, 0)),
        _ => {}
    }
    Some(())
}

/// One link of a free large block leads to another block, held or free, or to none.
pub fn link_led(p: &mut Patient, random: &mut Random) -> Option<()> {
    let from = any(random, &p.free_large())?.start;
    let free: Vec<usize> = p.free_large().iter().map(|block| block.start).collect();
    let all: Vec<usize> = p.state.low.iter().map(|block| block.start).collect();
    let to = if random.chance(2, 3) { *random.pick(&free) } else { *random.pick(&all) };
    let first = p.bin_heads().contains(&from);
    let word = *random.pick(if first { &[PREVIOUS, NEXT, CHAIN] } else { &[PREVIOUS, NEXT, NEXT] });
    p.link(word, from, to);
    Some(())
}
