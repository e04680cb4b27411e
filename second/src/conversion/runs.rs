//! Sound pools that are moved there and back, and runs of calls with moves between them.

use super::{laws, Counts, Maker, NO_LAYOUT};
use crate::cases::LawCase;
use crate::images::{
    extreme_states, many_bins, of_either_layout, random_pool_size, tall_size, tall_state,
};
use crate::probe::Command;
use crate::random::Random;
use crate::state::{Layout, State, GREATEST_POOL};
use crate::tapes::{edge_size, joining_offset, odd_offset, payload_of};

pub fn sound(seed: u64, number: u64, counts: &mut Counts) -> LawCase {
    let mut random = Random::of_case(seed, 16, number);
    let n = match number % 100 {
        99 => GREATEST_POOL,
        _ => random_pool_size(&mut random),
    };
    let state = some_state(&mut random, n);
    let mut maker = Maker::new(random, counts);
    maker.written(&state);
    maker.there_and_back();
    maker.finish(format!("seed {}, image {} of {} bytes", seed, number, n))
}

/// Every second time one with many bins, since they are what a move is about.
fn some_state(random: &mut Random, n: usize) -> State {
    if random.chance(1, 2) {
        return of_either_layout(random, n);
    }
    let layout = *random.pick(&Layout::BOTH);
    State { layout, ..many_bins(random, n) }
}

pub fn tall(seed: u64, number: u64, counts: &mut Counts) -> LawCase {
    let mut random = Random::of_case(seed, 17, number);
    let state = tall_state(&mut random);
    let mut maker = Maker::new(random, counts);
    maker.written(&state);
    maker.there_and_back();
    maker.finish(format!("seed {}, tall bins {}", seed, number))
}

pub fn extreme(seed: u64, number: u64, counts: &mut Counts) -> LawCase {
    let mut random = Random::of_case(seed, 18, number);
    let state = extreme_states(&mut random).swap_remove(number as usize);
    let mut maker = Maker::new(random, counts);
    maker.written(&state);
    maker.there_and_back();
    maker.finish(format!("seed {}, extreme image {}", seed, number))
}

/// From a pool just laid out or from an image: takes and give-backs, payloads filled before they
/// come back, and moves. So the words that a move finds in a first block are those of old payloads,
/// of other layouts' indexes, or of blocks that were joined.
pub fn between_calls(seed: u64, number: u64, counts: &mut Counts) -> LawCase {
    let mut random = Random::of_case(seed, 19, number);
    let top = *random.pick(&[60, 150, 300, 500]);
    let n = match number % 12 {
        11 => GREATEST_POOL,
        _ => random.between(26, top) * 8,
    };
    let sizes = some_sizes(&mut random, n);
    let steps = if n == GREATEST_POOL { 30 } else { random.between(20, 60) };
    let mut maker = Maker::new(random, counts);
    maker.begin(n);
    for _ in 0..maker.random.between(0, 30) {
        maker.take_some(&sizes);
    }
    for _ in 0..steps {
        maker.step(&sizes);
    }
    maker.there_and_back();
    maker.finish(format!("seed {}, run {} of {} bytes", seed, number, n))
}

/// Few sizes of blocks, of heights up to 13 in the greatest pool.
fn some_sizes(random: &mut Random, n: usize) -> Vec<usize> {
    if n == GREATEST_POOL {
        let tallest = *random.pick(&[32_768, 16_384]);
        return vec![tallest, 8_192, 4_096, 1 << random.between(7, 12), 192, 80, 72, 72];
    }
    let count = random.between(1, 6);
    let mut sizes: Vec<usize> = (0..count).map(|_| tall_size(random, n / 5)).collect();
    sizes.extend([72, 8 * random.between(1, 8)]);
    sizes
}

impl Maker<'_> {
    /// Refusals first; a byte that one of them changed would show behind the move. Then what the
    /// reading calls say of the moved pool, and back.
    fn there_and_back(&mut self) {
        let before = self.bench.pool.clone();
        let old = self.state().layout;
        let none = *self.random.pick(&NO_LAYOUT);
        self.convert(old.other().number());
        self.convert(none);
        self.convert(old.number());
        self.dump();
        self.look();
        self.convert(old.number());
        self.convert(old.other().number());
        self.dump();
        let law = laws::returned(&before, &self.bench.pool);
        self.hold(law);
    }

    fn look(&mut self) {
        self.script.plain(b'N').number(b'C', 53);
        let state = self.state();
        if state.n < 4_000 {
            self.script.plain(b'S');
        }
        for offset in [held_offset(&state, &mut self.random), odd_offset(&state, &mut self.random)]
        {
            self.script.number(b'A', offset).number(b'P', offset);
        }
    }

    fn begin(&mut self, n: usize) {
        if self.random.chance(1, 3) {
            let state = some_state(&mut self.random, n);
            return self.written(&state);
        }
        let old = self.random.bytes(n);
        self.image(&old);
        let number = self.random.pick(&Layout::BOTH).number();
        self.script.number(b'M', number);
        self.bench.serve(Command::LayOutAs(number));
    }

    fn take_some(&mut self, sizes: &[usize]) {
        let block = *self.random.pick(sizes);
        let s = payload_of(block, &mut self.random);
        self.take(s);
    }

    /// Mostly takes and give-backs; every move, and some of the others, with all bytes behind it.
    fn step(&mut self, sizes: &[usize]) {
        let state = self.state();
        let old = state.layout;
        match self.random.below(20) {
            0..=5 => self.take_some(sizes),
            6 => {
                if let Some(s) = edge_size(&state, &mut self.random) {
                    self.take(s);
                }
            }
            7..=15 => {
                let offset = held_offset(&state, &mut self.random);
                let noise = self.random.bytes(80);
                if self.random.chance(2, 3) {
                    self.write(offset, &noise);
                }
                self.give_back(offset);
            }
            16 => {
                let wrong = *self.random.pick(&[old.other().number(), old.other().number(), 0, 3]);
                self.convert(wrong);
            }
            _ => {
                self.convert(old.number());
                self.dump();
            }
        }
        if state.n < 4_000 && self.random.chance(1, 4) {
            self.dump();
        }
    }
}

/// Mostly a held payload's, and one whose block joins two where there is one.
fn held_offset(state: &State, random: &mut Random) -> u32 {
    let joining = if random.chance(1, 4) { joining_offset(state, random) } else { None };
    let held: Vec<usize> = state.held().map(|block| block.start).collect();
    match (joining, held.is_empty()) {
        (Some(offset), _) => offset,
        (None, false) => *random.pick(&held) as u32 + 4,
        (None, true) => odd_offset(state, random),
    }
}
