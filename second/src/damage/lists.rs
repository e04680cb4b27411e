//! Bins whose lists are wrong: rings, blocks listed twice, nowhere, in a wrong bin, or no blocks.

use super::{any, Patient};
use crate::layout::{self, head, NEXT, PREVIOUS, SMALL_NEXT};
use crate::random::Random;
use crate::state::Block;

pub fn small_ring(p: &mut Patient, random: &mut Random) -> Option<()> {
    let starts = p.small_bin(random, 1)?;
    let back = *random.pick(&starts);
    p.set(starts[starts.len() - 1] + SMALL_NEXT, back as u32);
    Some(())
}

pub fn large_ring(p: &mut Patient, random: &mut Random) -> Option<()> {
    let starts = p.large_bin(random, 2)?;
    let last = starts[starts.len() - 1];
    let back = starts[random.below(starts.len() - 1)];
    p.link(NEXT, last, back);
    if random.chance(1, 2) {
        p.link(PREVIOUS, back, last);
    }
    Some(())
}

pub fn small_ring_apart(p: &mut Patient, random: &mut Random) -> Option<()> {
    let starts = p.small_bin(random, 2)?;
    let cut = random.between(1, starts.len() - 1);
    p.set(starts[cut - 1] + SMALL_NEXT, 0);
    p.set(starts[starts.len() - 1] + SMALL_NEXT, starts[cut] as u32);
    Some(())
}

pub fn large_ring_apart(p: &mut Patient, random: &mut Random) -> Option<()> {
    let starts = p.large_bin(random, 2)?;
    let cut = random.between(1, starts.len() - 1);
    let (kept, ring) = starts.split_at(cut);
    p.list_through(kept);
    p.list_through(ring);
    p.link(NEXT, ring[ring.len() - 1], ring[0]);
    p.link(PREVIOUS, ring[0], ring[ring.len() - 1]);
    Some(())
}

pub fn small_nowhere(p: &mut Patient, random: &mut Random) -> Option<()> {
    let block = any(random, &p.free_small())?;
    let bin = p.state.small_bins.get_mut(&block.size)?;
    bin.retain(|start| *start != block.start);
    if bin.is_empty() {
        p.state.small_bins.remove(&block.size);
    }
    p.rewrite();
    if random.chance(1, 2) {
        p.set(block.start + SMALL_NEXT, 0);
    }
    Some(())
}

pub fn large_nowhere(p: &mut Patient, random: &mut Random) -> Option<()> {
    let block = any(random, &p.free_large())?;
    let bin = p.state.large_bins.get_mut(&block.size)?;
    bin.retain(|start| *start != block.start);
    if bin.is_empty() {
        p.state.large_bins.remove(&block.size);
    }
    p.rewrite();
    if random.chance(1, 2) {
        p.list_through(&[block.start]);
    }
    Some(())
}

pub fn small_twice(p: &mut Patient, random: &mut Random) -> Option<()> {
    let starts = p.small_bin(random, 1)?;
    let block = any(random, &p.free_small())?;
    if random.chance(1, 2) {
        p.set(starts[starts.len() - 1] + SMALL_NEXT, block.start as u32);
    } else {
        let word = layout::small_bin_word(random.between(1, 8) * 8);
        p.set(word, block.start as u32);
    }
    Some(())
}

pub fn large_twice(p: &mut Patient, random: &mut Random) -> Option<()> {
    let starts = p.large_bin(random, 1)?;
    let others = p.free_large();
    let others: Vec<Block> =
        others.iter().filter(|block| !starts.contains(&block.start)).copied().collect();
    let block = any(random, &others)?;
    let last = starts[starts.len() - 1];
    p.link(NEXT, last, block.start);
    if random.chance(1, 2) {
        p.link(PREVIOUS, block.start, last);
    }
    Some(())
}

pub fn wrong_bin(p: &mut Patient, random: &mut Random) -> Option<()> {
    let small = random.chance(1, 2);
    let free = if small { p.free_small() } else { p.free_large() };
    let block = any(random, &free)?;
    let bins = if small { &mut p.state.small_bins } else { &mut p.state.large_bins };
    let sizes: Vec<usize> = bins.keys().copied().filter(|size| *size != block.size).collect();
    let other = if small { random.between(1, 8) * 8 } else { any(random, &sizes)? };
    let own = bins.get_mut(&block.size)?;
    own.retain(|start| *start != block.start);
    if own.is_empty() {
        bins.remove(&block.size);
    }
    let starts = bins.entry(other).or_default();
    let place = random.below(starts.len() + 1);
    starts.insert(place, block.start);
    p.rewrite();
    Some(())
}

/// A multiple of 8 inside a held block or the remainder where so many bytes have room.
fn room_inside(p: &Patient, random: &mut Random, size: usize) -> Option<usize> {
    let mut rooms: Vec<(usize, usize)> = p.state.held().map(|b| (b.start, b.end())).collect();
    rooms.push((p.state.remainder_start(), p.state.remainder_end()));
    rooms.retain(|(start, end)| end - start >= size + 8);
    let (start, end) = any(random, &rooms)?;
    Some(start + 8 * random.between(1, (end - start - size) / 8))
}

fn false_large_block(p: &mut Patient, start: usize, size: usize) {
    p.set(start, head(size, true, false));
    p.set(start + size - 4, head(size, true, false));
}

/// A perfect free block, footer and all, where no block starts, linked both ways.
pub fn false_member(p: &mut Patient, random: &mut Random) -> Option<()> {
    let block = any(random, &p.free_large())?;
    let inside = room_inside(p, random, block.size)?;
    let starts = p.state.large_bins.get_mut(&block.size)?;
    let place = random.below(starts.len() + 1);
    starts.insert(place, inside);
    p.rewrite();
    false_large_block(p, inside, block.size);
    if random.chance(1, 2) {
        p.add_to_free_word(block.size as i64);
    }
    Some(())
}

/// The same in place of a true one, which is then listed nowhere: counts and sums stay right.
pub fn false_member_instead(p: &mut Patient, random: &mut Random) -> Option<()> {
    let block = any(random, &p.free_large())?;
    let inside = room_inside(p, random, block.size)?;
    let starts = p.state.large_bins.get_mut(&block.size)?;
    let place = starts.iter().position(|start| *start == block.start)?;
    starts[place] = inside;
    p.rewrite();
    false_large_block(p, inside, block.size);
    if random.chance(1, 2) {
        p.list_through(&[block.start]);
    }
    Some(())
}

pub fn false_small_member(p: &mut Patient, random: &mut Random) -> Option<()> {
    let block = any(random, &p.free_small())?;
    let inside = room_inside(p, random, block.size)?;
    let starts = p.state.small_bins.get_mut(&block.size)?;
    let place = random.below(starts.len() + 1);
    starts.insert(place, inside);
    p.rewrite();
    p.set(inside, head(block.size, true, false));
    if random.chance(1, 2) {
        p.add_to_free_word(block.size as i64);
    }
    Some(())
}

pub fn false_small_member_instead(p: &mut Patient, random: &mut Random) -> Option<()> {
    let block = any(random, &p.free_small())?;
    let inside = room_inside(p, random, block.size)?;
    let starts = p.state.small_bins.get_mut(&block.size)?;
    let place = starts.iter().position(|start| *start == block.start)?;
    starts[place] = inside;
    p.rewrite();
    p.set(inside, head(block.size, true, false));
    Some(())
}
