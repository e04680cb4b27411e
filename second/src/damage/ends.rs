//! The remainder's two ends, the buffer's length, and buffers that were never a pool.

use super::Patient;
use crate::layout::{self, get4, head, put8, E_WORD, R_WORD};
use crate::random::Random;
use crate::state::{Block, State, GREATEST_POOL, LEAST_REMAINDER};

pub fn start_moved(p: &mut Patient, random: &mut Random) -> Option<()> {
    let starts: Vec<usize> = p.state.blocks().map(|block| block.start).collect();
    let r = p.state.remainder_start();
    let end = p.state.remainder_end();
    let mut places = vec![r + 8, r - 8, r + 1, r - 4, end, end + 8, 0, 160, 168, p.state.n];
    places.extend(starts);
    put8(&mut p.bytes, R_WORD, *random.pick(&places) as u64);
    Some(())
}

/// R goes to another place; the remainder's head and the free word follow.
pub fn start_moved_well(p: &mut Patient, random: &mut Random) -> Option<()> {
    let (r, e) = (p.state.remainder_start(), p.state.remainder_end());
    let mut places: Vec<usize> = p.state.low.iter().map(|block| block.start).collect();
    places.extend([r + 8, r + 72, r + 16]);
    let to = *random.pick(&places);
    if to >= e {
        return None;
    }
    put8(&mut p.bytes, R_WORD, to as u64);
    p.set(to, head(e - to, true, false));
    let above: usize = p.state.low.iter().filter(|b| b.start >= to && b.held).map(|b| b.size).sum();
    p.add_to_free_word(if to > r { r as i64 - to as i64 } else { above as i64 });
    if to > r {
        p.set(r, head(to - r, true, true));
    }
    Some(())
}

pub fn end_moved(p: &mut Patient, random: &mut Random) -> Option<()> {
    let e = p.state.remainder_end();
    let n = p.state.n;
    let mut places = vec![e - 8, e + 8, e - 4, e - 1, 0, n, n - 8, n + 8, 168];
    places.extend(p.state.blocks().map(|block| block.start));
    put8(&mut p.bytes, E_WORD, *random.pick(&places) as u64);
    Some(())
}

pub fn end_moved_well(p: &mut Patient, random: &mut Random) -> Option<()> {
    let (r, e) = (p.state.remainder_start(), p.state.remainder_end());
    let mut places: Vec<usize> = p.state.high.iter().map(|block| block.start).collect();
    places.extend([p.state.n, e.saturating_sub(8), e.saturating_sub(64), e.saturating_sub(72)]);
    let to = *random.pick(&places);
    if to <= r || to == e {
        return None;
    }
    put8(&mut p.bytes, E_WORD, to as u64);
    p.set(r, head(to - r, true, false));
    let lost: usize = p.state.high.iter().filter(|b| b.start < to && b.held).map(|b| b.size).sum();
    p.add_to_free_word(if to < e { to as i64 - e as i64 } else { lost as i64 });
    if to < e {
        p.set(to, head(e - to, true, true));
    }
    Some(())
}

/// Sound by the rule before request 2026-06 alone, as are the next two.
pub fn edge_freed(p: &mut Patient, random: &mut Random) -> Option<()> {
    edge_run(p, random, 1)
}

pub fn edge_run_freed(p: &mut Patient, random: &mut Random) -> Option<()> {
    let count = random.between(1, p.state.high.len().max(1));
    edge_run(p, random, count)
}

fn edge_run(p: &mut Patient, random: &mut Random, count: usize) -> Option<()> {
    let mut high = p.state.high.clone();
    high.first()?;
    high.iter_mut().take(count).for_each(|block| block.held = false);
    p.set_high(random, high);
    Some(())
}

pub fn edge_cut(p: &mut Patient, random: &mut Random) -> Option<()> {
    let size = 8 * random.between(1, 8);
    if p.state.remainder_size() < size + LEAST_REMAINDER {
        return None;
    }
    let start = p.state.remainder_end() - size;
    let mut high = p.state.high.clone();
    high.insert(0, Block { start, size, held: false });
    p.set_high(random, high);
    Some(())
}

pub fn remainder_gone(p: &mut Patient, random: &mut Random) -> Option<()> {
    let (r, e) = (p.state.remainder_start(), p.state.remainder_end());
    let size = (e - r) as i64;
    if random.chance(1, 2) {
        let last = *p.state.low.last()?;
        let below_not_free = get4(&p.bytes, last.start) & 2 != 0;
        p.set(last.start, head(e - last.start, below_not_free, true));
        put8(&mut p.bytes, R_WORD, e as u64);
    } else {
        p.set(r, head(e - r, true, true));
        put8(&mut p.bytes, E_WORD, r as u64);
    }
    p.add_to_free_word(-size);
    Some(())
}

pub fn other_length(p: &mut Patient, random: &mut Random) -> Option<()> {
    let n = p.bytes.len();
    let length = match random.below(8) {
        0 => n - 1,
        1 => n + 1,
        2 => n + 4,
        3 => n + 8,
        4 => n - 8,
        5 => random.below(176),
        6 => random.between(1, 21) * 8,
        _ => n + 8 * random.below(20),
    };
    let more = random.bytes(GREATEST_POOL.min(length).saturating_sub(n));
    p.bytes.truncate(length);
    p.bytes.extend(more);
    Some(())
}

pub fn random_bytes(p: &mut Patient, random: &mut Random) -> Option<()> {
    let n = p.state.n;
    match random.below(5) {
        0 => p.bytes = random.bytes(n),
        1 => p.bytes = vec![0; n],
        2 => p.bytes = vec![255; n],
        3 => {
            let noise = random.bytes(n - 168);
            p.bytes[168..].copy_from_slice(&noise);
        }
        _ => {
            let other = State::fresh(random.between(22, 400) * 8, p.state.layout);
            let bytes = vec![0; other.n];
            p.bytes = layout::write(&other, &bytes);
            p.bytes.resize(n, 0);
        }
    }
    Some(())
}
