//! The index of layout 2: level words, index words at one level or at several, heights that are not
//! the size's, and pools that are of neither layout.

use super::{any, Patient};
use crate::layout::{distance, get4, index_word, CHAIN, LEVEL};
use crate::random::Random;
use crate::state::{Layout, FALSE_BLOCK, LOW_RUN};

const TWO: Layout = Layout::Two;

/// A block that the index goes through, and how many levels it reaches.
type Tower = (usize, usize);

/// The false block and all first blocks; nothing where the pool is of layout 1.
fn towers(p: &Patient) -> Option<Vec<Tower>> {
    if p.state.layout == Layout::One {
        return None;
    }
    let mut towers = vec![(FALSE_BLOCK, TWO.levels())];
    towers.extend(p.state.firsts().iter().map(|(start, size)| (*start, TWO.height(*size))));
    Some(towers)
}

fn reaching(towers: &[Tower], level: usize) -> Vec<usize> {
    let there = towers.iter().filter(|(_, height)| *height >= level);
    there.map(|(start, _)| *start).collect()
}

/// A level that some first block reaches, mostly above the lowest.
fn some_level(towers: &[Tower], random: &mut Random) -> Option<usize> {
    let most = towers[1..].iter().map(|(_, height)| *height).max()?;
    if most > 1 && random.chance(4, 5) {
        Some(random.between(2, most))
    } else {
        Some(random.between(1, most))
    }
}

/// Leads one level through these blocks.
fn level_through(p: &mut Patient, level: usize, starts: &[usize]) {
    for (place, start) in starts.iter().enumerate() {
        let next = starts.get(place + 1).unwrap_or(start);
        p.link(index_word(level), *start, *next);
    }
}

/// Whether only the false block's level word tells the layout.
fn alike(p: &Patient) -> bool {
    p.state.firsts().iter().all(|(_, size)| TWO.height(*size) == 1)
}

/// The false block's level word says the other layout, and nothing else is changed. Sound where the
/// words of both layouts are the same: no bins, or only bins of height 1.
pub fn other_layout(p: &mut Patient, random: &mut Random) -> Option<()> {
    if alike(p) && random.chance(3, 4) {
        return None;
    }
    let levels = p.state.layout.other().levels() as u32;
    p.set(FALSE_BLOCK + LEVEL, levels);
    Some(())
}

/// Some words are those of the other layout, the rest are not.
pub fn half_converted(p: &mut Patient, random: &mut Random) -> Option<()> {
    if alike(p) && random.chance(3, 4) {
        return None;
    }
    let mut other = p.state.clone();
    other.layout = p.state.layout.other();
    let words = crate::layout::index_words(other.layout, &other.firsts());
    let of_false_block = |at: usize| (FALSE_BLOCK..LOW_RUN).contains(&at);
    let part = random.below(3);
    for (at, value) in words {
        let changed = match part {
            0 => of_false_block(at),
            1 => !of_false_block(at),
            _ => random.chance(1, 2),
        };
        if changed {
            p.set(at, value);
        }
    }
    Some(())
}

pub fn height_off(p: &mut Patient, random: &mut Random) -> Option<()> {
    let towers = towers(p)?;
    let place = any(random, &(1..towers.len()).collect::<Vec<usize>>())?;
    let (start, height) = towers[place];
    let more = random.chance(1, 2);
    if more && height < TWO.levels() {
        p.set(start + LEVEL, height as u32 + 1);
        // The word of that level: what it was, none behind it, or the one that would be next.
        let next = reaching(&towers[place + 1..], height + 1).first().copied().unwrap_or(start);
        match random.below(3) {
            0 => p.set(start + index_word(height + 1), 0),
            1 => p.link(index_word(height + 1), start, next),
            _ => {}
        }
    } else {
        p.set(start + LEVEL, height as u32 - 1);
    }
    Some(())
}

/// A first block stands at one level more than its size reaches, with every word for it.
pub fn too_tall(p: &mut Patient, random: &mut Random) -> Option<()> {
    let mut towers = towers(p)?;
    if towers.len() == 1 {
        return None;
    }
    let place = random.between(1, towers.len() - 1);
    if towers[place].1 == TWO.levels() {
        return None;
    }
    towers[place].1 += 1;
    let (start, height) = towers[place];
    p.set(start + LEVEL, height as u32);
    level_through(p, height, &reaching(&towers, height));
    Some(())
}

/// A first block is left out at its highest level, with every word for it.
pub fn too_low(p: &mut Patient, random: &mut Random) -> Option<()> {
    let mut towers = towers(p)?;
    let taller = (1..towers.len()).filter(|place| towers[*place].1 > 1);
    let place = any(random, &taller.collect::<Vec<usize>>())?;
    let (start, height) = towers[place];
    towers[place].1 -= 1;
    p.set(start + LEVEL, height as u32 - 1);
    level_through(p, height, &reaching(&towers, height));
    Some(())
}

/// Of no consequence: what stands above a first block's height is reserved.
pub fn above_the_height(p: &mut Patient, random: &mut Random) -> Option<()> {
    let lower: Vec<Tower> = towers(p)?.into_iter().filter(|(_, h)| *h < TWO.levels()).collect();
    let (start, height) = any(random, &lower)?;
    let level = random.between(height + 1, TWO.levels());
    let value = random.word();
    p.set(start + index_word(level), value);
    Some(())
}

pub fn level_skips(p: &mut Patient, random: &mut Random) -> Option<()> {
    let towers = towers(p)?;
    let level = some_level(&towers, random)?;
    let mut starts = reaching(&towers, level);
    starts.remove(random.between(1, starts.len() - 1));
    level_through(p, level, &starts);
    Some(())
}

pub fn level_order(p: &mut Patient, random: &mut Random) -> Option<()> {
    let towers = towers(p)?;
    let level = some_level(&towers, random)?;
    let mut starts = reaching(&towers, level);
    let sorted = starts.clone();
    random.shuffle(&mut starts[1..]);
    if starts == sorted {
        return None;
    }
    level_through(p, level, &starts);
    Some(())
}

pub fn level_ring(p: &mut Patient, random: &mut Random) -> Option<()> {
    let towers = towers(p)?;
    let level = some_level(&towers, random)?;
    let starts = reaching(&towers, level);
    let last = starts[starts.len() - 1];
    let back = starts[random.below(starts.len() - 1)];
    p.link(index_word(level), last, back);
    Some(())
}

/// A level goes through a first block that is lower than it.
pub fn level_to_lower(p: &mut Patient, random: &mut Random) -> Option<()> {
    let towers = towers(p)?;
    let lower = (1..towers.len()).filter(|place| towers[*place].1 < TWO.levels());
    let place = any(random, &lower.collect::<Vec<usize>>())?;
    let (start, height) = towers[place];
    let level = random.between(height + 1, TWO.levels());
    let mut through = towers.clone();
    through[place].1 = level;
    let starts = reaching(&through, level);
    level_through(p, level, &starts);
    let before = starts.iter().position(|there| *there == start)? - 1;
    if random.chance(1, 3) {
        // Only led there, and not further.
        p.link(index_word(level), starts[before], start);
    }
    Some(())
}

/// A level goes through another block of the bin than its first.
pub fn level_to_second(p: &mut Patient, random: &mut Random) -> Option<()> {
    let towers = towers(p)?;
    let bin = p.large_bin(random, 2)?;
    let height = towers.iter().find(|(start, _)| *start == bin[0])?.1;
    let level = if height > 1 { random.between(2, height) } else { 1 };
    let second = bin[random.between(1, bin.len() - 1)];
    let starts = reaching(&towers, level);
    let starts: Vec<usize> =
        starts.iter().map(|start| if *start == bin[0] { second } else { *start }).collect();
    level_through(p, level, &starts);
    p.set(second + LEVEL, height as u32);
    Some(())
}

/// One index word is 0, a little off, that of another level, or leads to another block.
pub fn word_off(p: &mut Patient, random: &mut Random) -> Option<()> {
    let towers = towers(p)?;
    let (start, height) = *random.pick(&towers);
    let level = random.between(1, height);
    let at = start + index_word(level);
    let old = get4(&p.bytes, at);
    let other = get4(&p.bytes, start + index_word(random.between(1, height)));
    let (to, _) = *random.pick(&towers);
    let all: Vec<usize> = p.state.low.iter().map(|block| block.start).collect();
    let any_block = any(random, &all).unwrap_or(LOW_RUN);
    let special =
        [0, FALSE_BLOCK, p.state.remainder_start(), p.state.remainder_end(), p.state.n, start + 8];
    let value = match random.below(8) {
        0 => 0,
        1 => old.wrapping_add(8),
        2 => old.wrapping_sub(8),
        3 => other,
        4 => distance(start, to),
        5 => distance(start, any_block),
        6 => distance(start, *random.pick(&special)),
        _ => old ^ 1 << random.below(32),
    };
    p.set(at, value);
    Some(())
}

pub fn words_of_a_tower_swapped(p: &mut Patient, random: &mut Random) -> Option<()> {
    let towers = towers(p)?;
    let (start, height) = *random.pick(&towers);
    if height < 2 {
        return None;
    }
    let (a, b) = (random.between(1, height), random.between(1, height));
    let (a, b) = (start + index_word(a), start + index_word(b));
    let (first, second) = (get4(&p.bytes, a), get4(&p.bytes, b));
    p.set(a, second);
    p.set(b, first);
    if first == second {
        None
    } else {
        Some(())
    }
}

/// A level above all bins leads somewhere, or comes from the false block's lowest word.
pub fn empty_level_used(p: &mut Patient, random: &mut Random) -> Option<()> {
    let towers = towers(p)?;
    let most = towers[1..].iter().map(|(_, height)| *height).max().unwrap_or(0);
    if most == TWO.levels() {
        return None;
    }
    let level = random.between(most + 1, TWO.levels());
    let lowest = get4(&p.bytes, FALSE_BLOCK + CHAIN);
    let value = *random.pick(&[lowest, 8, 72, u32::MAX, 1]);
    p.set(FALSE_BLOCK + index_word(level), value);
    if value == 0 {
        None
    } else {
        Some(())
    }
}
