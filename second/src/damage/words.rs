//! Single words changed: bits, flags, footers, sums and words that have one right value.

use super::{any, Patient};
use crate::layout::{self, get4, get8, put8, LEVEL, NEXT, PREVIOUS, SMALL_NEXT};
use crate::random::Random;
use crate::state::{Block, FALSE_BLOCK};

pub fn bit_flipped(p: &mut Patient, random: &mut Random) -> Option<()> {
    let words = layout::governed(&p.state);
    for _ in 0..random.between(1, 2) {
        let (at, _) = *random.pick(&words);
        let bit = random.below(32);
        p.bytes[at + bit / 8] ^= 1 << (bit % 8);
    }
    Some(())
}

pub fn word_changed(p: &mut Patient, random: &mut Random) -> Option<()> {
    let words = layout::governed(&p.state);
    let (at, old) = *random.pick(&words);
    let (_, other) = *random.pick(&words);
    let step = *random.pick(&[1, 2, 4, 8, 32, 64]);
    let value = match random.below(6) {
        0 => random.word(),
        1 => other,
        2 => old.wrapping_add(step),
        3 => old.wrapping_sub(step),
        4 => old.wrapping_neg(),
        _ => random.below(p.bytes.len()) as u32,
    };
    p.set(at, value);
    Some(())
}

pub fn words_swapped(p: &mut Patient, random: &mut Random) -> Option<()> {
    let words = layout::governed(&p.state);
    let (first, _) = *random.pick(&words);
    let (second, _) = *random.pick(&words);
    swap(p, first, second)
}

/// Only swaps that change something are of use.
fn swap(p: &mut Patient, first: usize, second: usize) -> Option<()> {
    let (a, b) = (get4(&p.bytes, first), get4(&p.bytes, second));
    p.set(first, b);
    p.set(second, a);
    if a == b {
        None
    } else {
        Some(())
    }
}

pub fn links_swapped(p: &mut Patient, random: &mut Random) -> Option<()> {
    let mut links = Vec::new();
    for block in p.free_large() {
        links.extend([block.start + PREVIOUS, block.start + NEXT]);
    }
    let index = layout::index_words(p.state.layout, &p.state.firsts());
    links.extend(index.iter().map(|(at, _)| *at));
    links.extend(p.free_small().iter().map(|block| block.start + SMALL_NEXT));
    links.extend((32..96).step_by(8));
    let (first, second) = (*random.pick(&links), *random.pick(&links));
    swap(p, first, second)
}

pub fn ungoverned_changed(p: &mut Patient, random: &mut Random) -> Option<()> {
    let noise = random.bytes(p.bytes.len());
    p.bytes = layout::write(&p.state, &noise);
    Some(())
}

pub fn below_turned(p: &mut Patient, random: &mut Random) -> Option<()> {
    let mut blocks: Vec<Block> = p.state.blocks().copied().collect();
    let start = p.state.remainder_start();
    blocks.push(Block { start, size: p.state.remainder_size(), held: false });
    let block = *random.pick(&blocks);
    p.bytes[block.start] ^= 2;
    if !block.held && block.end() <= start && random.chance(1, 2) {
        p.bytes[block.end() - 4] ^= 2;
    }
    Some(())
}

pub fn footer_changed(p: &mut Patient, random: &mut Random) -> Option<()> {
    let block = any(random, &p.free_large())?;
    let at = block.end() - 4;
    let step = *random.pick(&[1, 2, 32, 64]);
    let old = get4(&p.bytes, at);
    let value = *random.pick(&[old ^ 1, old ^ 2, old + step, old - step, 0, u32::MAX]);
    p.set(at, value);
    Some(())
}

pub fn free_word_off(p: &mut Patient, random: &mut Random) -> Option<()> {
    let remainder = p.state.remainder_size() as i64;
    let off = *random.pick(&[1, -1, 4, -4, 8, -8, 172, -remainder, 1 << 32, -(1 << 32)]);
    p.add_to_free_word(off);
    Some(())
}

pub fn high_half(p: &mut Patient, random: &mut Random) -> Option<()> {
    let at = random.below(12) * 8 + 4;
    let value = *random.pick(&[1, u32::MAX, 1 << 31, 256]);
    p.set(at, value);
    Some(())
}

pub fn second_word(p: &mut Patient, random: &mut Random) -> Option<()> {
    p.set(8, *random.pick(&[0, 95, 97, 88, 168]));
    Some(())
}

pub fn level_changed(p: &mut Patient, random: &mut Random) -> Option<()> {
    let mut firsts = p.bin_heads();
    firsts.push(FALSE_BLOCK);
    let start = *random.pick(&firsts);
    let old = get4(&p.bytes, start + LEVEL);
    let value = *random.pick(&[0, 1, 2, 3, 12, 13, 14, 257, 269, u32::MAX, 1 << 24, old + 256]);
    p.set(start + LEVEL, value);
    if value == old {
        None
    } else {
        Some(())
    }
}

pub fn false_reserved(p: &mut Patient, random: &mut Random) -> Option<()> {
    let at = FALSE_BLOCK + random.below(72);
    let value = 1 << random.below(8);
    let index = layout::index_words(p.state.layout, &[]);
    if index.iter().any(|(there, _)| *there == at / 4 * 4) || p.bytes[at] == value {
        return None;
    }
    p.bytes[at] = value;
    Some(())
}

pub fn size_bits(p: &mut Patient, random: &mut Random) -> Option<()> {
    let blocks: Vec<Block> = p.state.blocks().copied().collect();
    let block = any(random, &blocks)?;
    let bits = 4 << random.below(3);
    p.bytes[block.start] |= bits;
    if !block.held && block.size >= 72 {
        p.bytes[block.end() - 4] |= bits;
    }
    Some(())
}

pub fn small_bin_word_off(p: &mut Patient, random: &mut Random) -> Option<()> {
    let size = random.between(1, 8) * 8;
    let (n, r, e) = (p.state.n, p.state.remainder_start(), p.state.remainder_end());
    let at = get8(&p.bytes, layout::small_bin_word(size));
    let places =
        [n, n + 8, n - 8, n - 4, r, e, e - 8, 96, 168, 4, 1, at as usize + 1, at as usize + 4];
    let mut value = *random.pick(&places) as u64;
    match random.below(6) {
        0 => value = at + (1 << 32),
        1 => value = u64::MAX,
        2 => value = at | 1 << 63,
        _ => {}
    }
    put8(&mut p.bytes, layout::small_bin_word(size), value);
    Some(())
}
