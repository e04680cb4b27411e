//! Pools that are brought in, by the old rule and by the new one, and runs of calls in which small
//! blocks go home, with bring-ins between them.

use super::{Counts, Maker};
use crate::cases::LawCase;
use crate::images::{
    extreme_old_states, extreme_states, of_either_layout, old_state, random_pool_size,
};
use crate::probe::Command;
use crate::random::Random;
use crate::rules;
use crate::state::{Layout, State, GREATEST_POOL};
use crate::tapes::{edge_offset, edge_size, odd_offset, payload_of};

pub fn old(seed: u64, number: u64, counts: &mut Counts) -> LawCase {
    let mut random = Random::of_case(seed, 24, number);
    let n = match number % 100 {
        99 => GREATEST_POOL,
        _ => random_pool_size(&mut random),
    };
    let state = old_state(&mut random, n);
    let mut maker = Maker::new(random, counts);
    maker.written(&state);
    maker.refused_and_brought_in();
    maker.finish(format!("seed {}, old image {} of {} bytes", seed, number, n))
}

/// Nothing goes home; and then the give-back of the block at E.
pub fn sound(seed: u64, number: u64, counts: &mut Counts) -> LawCase {
    let mut random = Random::of_case(seed, 25, number);
    let n = random_pool_size(&mut random);
    let state = of_either_layout(&mut random, n);
    let mut maker = Maker::new(random, counts);
    maker.written(&state);
    maker.bring_in();
    maker.dump();
    maker.edge_back();
    maker.bring_in();
    maker.finish(format!("seed {}, sound image {} of {} bytes", seed, number, n))
}

pub fn extreme(seed: u64, number: u64, counts: &mut Counts) -> LawCase {
    let mut random = Random::of_case(seed, 26, number);
    let state = extreme_states(&mut random).swap_remove(number as usize);
    let mut maker = Maker::new(random, counts);
    maker.written(&state);
    maker.bring_in();
    maker.edge_back();
    maker.bring_in();
    maker.finish(format!("seed {}, extreme image {}", seed, number))
}

pub fn extreme_old(seed: u64, number: u64, counts: &mut Counts) -> LawCase {
    let mut random = Random::of_case(seed, 27, number);
    let state = extreme_old_states(&mut random).swap_remove(number as usize);
    let mut maker = Maker::new(random, counts);
    maker.written(&state);
    maker.refused_and_brought_in();
    maker.finish(format!("seed {}, extreme old image {}", seed, number))
}

/// From a pool just laid out or from an image of either rule: mostly small blocks come and go, their
/// payloads filled before they come back, so that bytes of blocks that went home show through.
pub fn between_calls(seed: u64, number: u64, counts: &mut Counts) -> LawCase {
    let mut random = Random::of_case(seed, 28, number);
    let top = *random.pick(&[40, 80, 150, 300]);
    let n = random.between(24, top) * 8;
    let count = random.between(1, 4);
    let mut sizes: Vec<usize> = (0..count).map(|_| 8 * random.between(1, 8)).collect();
    sizes.extend([8, 8 * random.between(9, 14)]);
    let steps = random.between(25, 80);
    let mut maker = Maker::new(random, counts);
    maker.begin(n);
    for _ in 0..maker.random.between(0, 40) {
        maker.take_some(&sizes);
    }
    for _ in 0..steps {
        maker.step(&sizes);
    }
    maker.bring_in();
    maker.dump();
    maker.finish(format!("seed {}, run {} of {} bytes", seed, number, n))
}

impl Maker<'_> {
    /// All other calls, refused where a free block stands at E; bringing in, twice; then calls that
    /// meet what is left.
    fn refused_and_brought_in(&mut self) {
        self.every_other_call();
        self.dump();
        self.bring_in();
        self.dump();
        self.bring_in();
        self.script.plain(b'N').number(b'C', 53);
        if self.bench.pool.len() < 4_000 {
            self.script.plain(b'S');
        }
        self.edge_back();
        let state = self.state();
        let s = edge_size(&state, &mut self.random).unwrap_or(20);
        self.take(s);
        self.dump();
    }

    /// The block at E, where there is one.
    fn edge_back(&mut self) {
        if let Some(offset) = edge_offset(&self.state()) {
            self.give_back(offset);
            self.dump();
        }
    }

    fn begin(&mut self, n: usize) {
        match self.random.below(3) {
            0 => {
                let state = of_either_layout(&mut self.random, n);
                self.written(&state);
            }
            1 => {
                let state = old_state(&mut self.random, n);
                self.written(&state);
                self.bring_in();
            }
            _ => {
                let old = self.random.bytes(n);
                self.image(&old);
                let number = self.random.pick(&Layout::BOTH).number();
                self.script.number(b'M', number);
                self.bench.serve(Command::LayOutAs(number));
            }
        }
        self.dump();
    }

    fn take_some(&mut self, sizes: &[usize]) {
        let block = *self.random.pick(sizes);
        let s = payload_of(block, &mut self.random);
        self.take(s);
    }

    fn step(&mut self, sizes: &[usize]) {
        let state = self.state();
        match self.random.below(20) {
            0..=5 => self.take_some(sizes),
            6..=13 => {
                let offset = some_held(&state, &mut self.random);
                self.back(offset);
            }
            14 | 15 => self.back(edge_offset(&state)),
            16 => {
                let offset = match self.random.chance(1, 2) {
                    true => odd_offset(&state, &mut self.random),
                    false => gone_offset(&state, &mut self.random),
                };
                self.give_back(offset);
            }
            17 => self.convert(),
            18 => self.old_pool(&state),
            _ => {
                self.bring_in();
                self.dump();
            }
        }
        if self.random.chance(1, 3) {
            self.dump();
        }
    }

    fn back(&mut self, offset: Option<u32>) {
        let offset = match offset {
            Some(offset) => offset,
            None => return,
        };
        let noise = self.random.bytes(64);
        if self.random.chance(2, 3) {
            self.write(offset, &noise);
        }
        self.give_back(offset);
        self.dump();
    }

    /// The pool goes back to the old rule, under which some small blocks were given back, and is
    /// brought in again.
    fn old_pool(&mut self, state: &State) {
        let mut old = state.clone();
        for _ in 0..self.random.between(1, 6) {
            let small: Vec<u32> =
                old.high.iter().filter(|b| b.held).map(|b| b.start as u32 + 4).collect();
            if small.is_empty() {
                break;
            }
            let offset = match self.random.chance(1, 2) {
                true => small[0],
                false => *self.random.pick(&small),
            };
            old = rules::give_back_old(&old, offset).expect("it is held").0;
        }
        let bytes = crate::layout::write(&old, &self.bench.pool);
        self.image(&bytes);
        self.every_other_call();
        self.bring_in();
        self.dump();
    }
}

/// Mostly a small one.
fn some_held(state: &State, random: &mut Random) -> Option<u32> {
    let small: Vec<usize> = state.high.iter().filter(|b| b.held).map(|b| b.start).collect();
    let large: Vec<usize> = state.low.iter().filter(|b| b.held).map(|b| b.start).collect();
    let run = if random.chance(5, 6) { &small } else { &large };
    if run.is_empty() {
        return None;
    }
    Some(*random.pick(run) as u32 + 4)
}

/// 4 past a place in the upper end of the remainder, where blocks may have been.
fn gone_offset(state: &State, random: &mut Random) -> u32 {
    let most = (state.remainder_size() / 8 - 1).min(12);
    (state.remainder_end() - 8 * random.between(0, most)) as u32 + 4
}
