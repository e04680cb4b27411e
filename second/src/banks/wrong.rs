//! Banks that name what they must not, pools that are not sound, and several faults at once, so
//! that the order of refusals shows.

use super::runs::adopted;
use super::{named, some_record, Call, Counts, Habits, Maker};
use crate::bank::{Bank, PISTONS};
use crate::calls;
use crate::cases::LawCase;
use crate::damage;
use crate::images::{extreme_states, of_either_layout, random_image, random_old_image};
use crate::layout;
use crate::random::Random;
use crate::rules;
use crate::state::State;
use crate::tapes::odd_offset;

/// Spoils some of the bank's numbers.
type Sort = fn(&mut Bank, &State, &mut Random);

const SORTS: [Sort; 9] =
    [not_held, not_held, odd_number, beside, higher_bits, free_block, twice, twice, everywhere];

/// The bank with something wrong, in one case of eight with two things; rarely it still fits.
pub fn spoiled(bank: &Bank, state: &State, random: &mut Random) -> Bank {
    let mut wrong = *bank;
    random.pick(&SORTS)(&mut wrong, state, random);
    if random.chance(1, 8) {
        random.pick(&SORTS)(&mut wrong, state, random);
    }
    wrong
}

fn some_piston(random: &mut Random) -> usize {
    let any = random.below(PISTONS);
    *random.pick(&[0, 1, 30, 31, any, any, any, any])
}

/// The offset of a held payload, mostly one that the bank names.
fn good_offset(bank: &Bank, state: &State, random: &mut Random) -> u32 {
    let named: Vec<u32> = bank.iter().copied().filter(|offset| *offset != 0).collect();
    let held: Vec<u32> = state.held().map(|block| block.start as u32 + 4).collect();
    match (named.is_empty(), held.is_empty()) {
        (false, _) if random.chance(2, 3) => *random.pick(&named),
        (_, false) => *random.pick(&held),
        _ => 172,
    }
}

fn not_held(bank: &mut Bank, state: &State, random: &mut Random) {
    bank[some_piston(random)] = odd_offset(state, random);
}

fn odd_number(bank: &mut Bank, state: &State, random: &mut Random) {
    let n = state.n as u32;
    let numbers =
        [1, 3, 4, 96, 168, 171, 172, 173, n - 4, n, n + 4, 65_536, 65_540, 1 << 31, u32::MAX];
    bank[some_piston(random)] = *random.pick(&numbers);
}

fn beside(bank: &mut Bank, state: &State, random: &mut Random) {
    let offset = good_offset(bank, state, random);
    let by = *random.pick(&[-8, -4, -1, 1, 4, 8]);
    bank[some_piston(random)] = offset.wrapping_add(by as u32);
}

/// A held payload's offset to one who looks at the lower bits alone.
fn higher_bits(bank: &mut Bank, state: &State, random: &mut Random) {
    let offset = good_offset(bank, state, random);
    bank[some_piston(random)] = offset ^ *random.pick(&[1 << 16, 1 << 17, 1 << 24, 1 << 31]);
}

/// 4 past a free block: mostly a large one where there is one, or a small one, or the remainder.
fn free_block(bank: &mut Bank, state: &State, random: &mut Random) {
    let mut starts = vec![state.remainder_start()];
    for run in [&state.high, &state.low] {
        let free: Vec<usize> = run.iter().filter(|b| !b.held).map(|b| b.start).collect();
        if !free.is_empty() && random.chance(2, 3) {
            starts = free;
        }
    }
    bank[some_piston(random)] = *random.pick(&starts) as u32 + 4;
}

fn twice(bank: &mut Bank, state: &State, random: &mut Random) {
    let offset = good_offset(bank, state, random);
    bank[some_piston(random)] = offset;
    bank[some_piston(random)] = offset;
}

fn everywhere(bank: &mut Bank, state: &State, random: &mut Random) {
    *bank = [good_offset(bank, state, random); PISTONS];
}

/// One image, several wrong banks, several calls for each.
pub fn banks(seed: u64, number: u64, counts: &mut Counts) -> LawCase {
    let mut random = Random::of_case(seed, 10, number);
    let top = *random.pick(&[40, 100, 200]);
    let n = random.between(26, top) * 8;
    let (state, mut bytes) = random_image(&mut random, n);
    let most = *random.pick(&[1, 4, 12, PISTONS]);
    let bank = adopted(&mut random, &state, &mut bytes, most);
    let mut maker = Maker::new(random, counts);
    for _ in 0..6 {
        if maker.bench.pool != bytes {
            maker.image(&bytes);
        }
        let wrong = spoiled(&bank, &state, &mut maker.random);
        maker.put_bank(wrong);
        // Those that were spoiled and some that were not.
        let mut pistons: Vec<u32> =
            (0..PISTONS as u32).filter(|i| bank[*i as usize] != wrong[*i as usize]).collect();
        pistons.push(maker.random.below(PISTONS) as u32);
        pistons.push(some_piston(&mut maker.random) as u32);
        let habits = Habits { pistons, sets: 40, clears: 30, odd: 15 };
        for _ in 0..4 {
            maker.any_call(&habits);
        }
    }
    maker.finish(format!("seed {}, wrong banks {} on {} bytes", seed, number, n))
}

/// Kinds at the edge of what their payloads have room for, recalled, set over and cleared.
pub fn records(seed: u64, number: u64, counts: &mut Counts) -> LawCase {
    let mut random = Random::of_case(seed, 14, number);
    let n = random.between(40, 200) * 8;
    let mut state = of_either_layout(&mut random, n);
    for s in [28, 12, 4, 20, 36] {
        state = rules::take(&state, s).map_or(state, |(after, _)| after);
    }
    let old = random.bytes(n);
    let mut bytes = layout::write(&state, &old);
    let bank = adopted(&mut random, &state, &mut bytes, PISTONS);
    let mut maker = Maker::new(random, counts);
    maker.image(&bytes);
    maker.put_bank(bank);
    maker.recall_all(&[]);
    for piston in named(&bank).into_iter().take(6) {
        let (kind, body) = some_record(&mut maker.random, 0);
        let call = match maker.random.chance(3, 4) {
            true => Call::Set(piston, kind, body),
            false => Call::Clear(piston),
        };
        maker.call(call);
        maker.call(Call::Recall(piston));
    }
    maker.finish(format!("seed {}, records {} in {} bytes", seed, number, n))
}

/// A damaged image; the bank names what was held before the damage, or is wrong itself.
pub fn pools(seed: u64, number: u64, counts: &mut Counts) -> LawCase {
    let damaged = damage::damaged(seed, number);
    let mut random = Random::of_case(seed, 11, number);
    let (first, second) = (some_piston(&mut random), some_piston(&mut random));
    let mut bank = [0; PISTONS];
    match random.below(6) {
        0 => {}
        1 => bank[first] = random.word(),
        2 | 3 => {
            bank[first] = damaged.offset;
            bank[second] = damaged.offset;
        }
        _ => bank[first] = damaged.offset,
    }
    let habits = Habits { pistons: vec![first as u32, 5], sets: 40, clears: 30, odd: 25 };
    let mut maker = Maker::new(random, counts);
    maker.image(&damaged.bytes);
    maker.put_bank(bank);
    maker.call(Call::Recall(first as u32));
    let (kind, body) = some_record(&mut maker.random, 10);
    maker.call(Call::Set(first as u32, kind, body));
    maker.call(Call::Clear(first as u32));
    for _ in 0..3 {
        maker.any_call(&habits);
    }
    maker.finish(format!("seed {}, damaged image {} with a bank ({})", seed, number, damaged.sort))
}

/// A pool by the rule before request 2026-06 with a bank that names some of its held blocks: every
/// call is refused where a free block stands at E, and behind bringing in each serves.
pub fn old(seed: u64, number: u64, counts: &mut Counts) -> LawCase {
    let mut random = Random::of_case(seed, 31, number);
    let n = random.between(40, 200) * 8;
    let (state, mut bytes) = random_old_image(&mut random, n);
    let bank = adopted(&mut random, &state, &mut bytes, PISTONS);
    let mut pistons = named(&bank);
    pistons.push(5);
    let habits = Habits { pistons, sets: 40, clears: 40, odd: 5 };
    let mut maker = Maker::new(random, counts);
    maker.image(&bytes);
    maker.put_bank(bank);
    for _ in 0..4 {
        maker.any_call(&habits);
    }
    maker.bring_in();
    maker.recall_all(&[]);
    for _ in 0..6 {
        maker.any_call(&habits);
    }
    maker.finish(format!("seed {}, old image {} with a bank, {} bytes", seed, number, n))
}

/// Every refusal with every other: pool, piston, bank, record and room, each good and bad.
pub fn order(seed: u64, number: u64, counts: &mut Counts) -> LawCase {
    let mut random = Random::of_case(seed, 12, number);
    let (bytes, offset) = with_a_record(&mut random);
    let n = bytes.len();
    let (mut full, mut unsound) = (bytes.clone(), bytes.clone());
    for s in [33, 17, 9] {
        while calls::take(&mut full, s).is_ok() {}
    }
    unsound[0] ^= 1;
    let not_allowed = [&bytes[..], &[0; 4]].concat();
    let mut good = [0; PISTONS];
    good[7] = offset;
    let (mut not_held, mut twice) = (good, good);
    not_held[7] = offset + 1;
    twice[30] = offset;
    let mut maker = Maker::new(random, counts);
    for pool in [bytes, full, unsound, not_allowed] {
        for bank in [good, not_held, twice] {
            for piston in [7, 8, 32, u32::MAX] {
                for (kind, length) in [(1, 8), (4, 8), (2, 8)] {
                    let body = maker.random.bytes(length);
                    maker.alone(&pool, bank, Call::Set(piston, kind, body));
                }
                maker.alone(&pool, bank, Call::Clear(piston));
                maker.alone(&pool, bank, Call::Recall(piston));
            }
        }
    }
    maker.finish(format!("seed {}, order of refusals {} on {} bytes", seed, number, n))
}

/// A sound image with a record of kind 1 and room for another, and that record's offset.
fn with_a_record(random: &mut Random) -> (Vec<u8>, u32) {
    loop {
        let n = random.between(30, 60) * 8;
        let (_, mut bytes) = random_image(random, n);
        if let Ok(offset) = calls::take(&mut bytes, 9) {
            bytes[offset] = 1;
            if calls::take(&mut bytes.clone(), 9).is_ok() {
                return (bytes, offset as u32);
            }
        }
    }
}

/// The greatest pools, at their limits.
pub fn extreme(seed: u64, number: u64, counts: &mut Counts) -> LawCase {
    let mut random = Random::of_case(seed, 13, number);
    let state = extreme_states(&mut random).swap_remove(number as usize);
    let old = random.bytes(state.n);
    let mut bytes = layout::write(&state, &old);
    let bank = adopted(&mut random, &state, &mut bytes, PISTONS);
    let pistons = (0..PISTONS as u32).collect();
    let habits = Habits { pistons, sets: 50, clears: 40, odd: 5 };
    let mut maker = Maker::new(random, counts);
    maker.image(&bytes);
    maker.put_bank(bank);
    for _ in 0..4 {
        maker.any_call(&habits);
    }
    maker.recall_all(&[]);
    maker.finish(format!("seed {}, extreme image {} with a bank", seed, number))
}

impl Maker<'_> {
    /// A call on just this pool and this bank, whatever the calls before it did.
    fn alone(&mut self, pool: &[u8], bank: Bank, call: Call) {
        if self.bench.pool != pool {
            self.image(pool);
        }
        if self.bench.bank != bank {
            self.put_bank(bank);
        }
        self.call(call);
    }
}
