//! Calls one after another: on a fresh pool that only the bank uses, and in a pool that it shares
//! with others, some of whom give back or overwrite what the bank names.

use super::laws::Log;
use super::wrong::spoiled;
use super::{named, some_record, Call, Counts, Habits, Maker};
use crate::bank::{self, body_bytes, Bank, PISTONS};
use crate::calls;
use crate::cases::LawCase;
use crate::images::{random_image, tall_size};
use crate::random::Random;
use crate::rules::{held_block, Refusal};
use crate::state::{Block, State, GREATEST_POOL};
use crate::tapes::edge_size;

/// A bank of 32 records of kind 3 needs 1,280 bytes, so most of these pools run full.
pub fn fresh(seed: u64, number: u64, counts: &mut Counts) -> LawCase {
    let mut random = Random::of_case(seed, 8, number);
    let top = *random.pick(&[26, 36, 60, 120, 200, 400]);
    let n = match number % 100 {
        99 => GREATEST_POOL,
        _ => random.between(22, top) * 8,
    };
    let odd = *random.pick(&[0, 5, 25]);
    let habits = Habits::random(&mut random, odd);
    let old = random.bytes(n);
    let mut maker = Maker::new(random, counts);
    maker.image(&old);
    maker.lay_out();
    maker.log = Some(Log::new());
    let calls = if n == GREATEST_POOL { 8 } else { maker.random.between(8, 40) };
    if n < GREATEST_POOL && maker.random.chance(1, 8) {
        maker.set_all();
    }
    for _ in 0..calls {
        let refused = maker.any_call(&habits);
        if refused == Some(Refusal::NoRoom) && maker.random.chance(1, 3) {
            maker.clear_one();
        }
    }
    maker.recall_all(&habits.pistons);
    maker.finish(format!("seed {}, fresh pool {} of {} bytes", seed, number, n))
}

pub fn shared(seed: u64, number: u64, counts: &mut Counts) -> LawCase {
    let mut random = Random::of_case(seed, 9, number);
    let top = *random.pick(&[60, 100, 160, 300]);
    let n = random.between(26, top) * 8;
    let (state, mut bytes) = random_image(&mut random, n);
    let most = *random.pick(&[0, 3, 8, PISTONS]);
    let bank = adopted(&mut random, &state, &mut bytes, most);
    let odd = *random.pick(&[2, 10]);
    let mut habits = Habits::random(&mut random, odd);
    habits.pistons.extend(named(&bank).iter().take(4));
    let steps = random.between(12, 45);
    let mut maker = Maker::new(random, counts);
    maker.image(&bytes);
    maker.put_bank(bank);
    for _ in 0..steps {
        maker.step(&habits);
    }
    maker.recall_all(&habits.pistons);
    maker.finish(format!("seed {}, shared pool {} of {} bytes", seed, number, n))
}

/// The pool is moved to the other layout and back, again and again, and no setting is lost. Others
/// take and give back large blocks, so that there are bins to move.
pub fn moved(seed: u64, number: u64, counts: &mut Counts) -> LawCase {
    let mut random = Random::of_case(seed, 22, number);
    let n = random.between(60, 300) * 8;
    let habits = Habits::random(&mut random, 5);
    let old = random.bytes(n);
    let mut maker = Maker::new(random, counts);
    maker.image(&old);
    maker.lay_out();
    maker.log = Some(Log::new());
    for _ in 0..maker.random.between(15, 40) {
        let state = maker.state();
        match maker.random.below(10) {
            0..=4 => {
                maker.any_call(&habits);
            }
            5 | 6 => {
                let block = tall_size(&mut maker.random, n / 6);
                maker.take(block as u32 - 4);
            }
            7 => maker.with_payload(&state, false, Maker::give_back),
            _ => maker.convert(),
        }
    }
    maker.recall_all(&habits.pistons);
    maker.finish(format!("seed {}, moved pool {} of {} bytes", seed, number, n))
}

/// A bank that names some of an image's held payloads; most of them get a kind.
pub fn adopted(random: &mut Random, state: &State, bytes: &mut [u8], most: usize) -> Bank {
    let mut held: Vec<Block> = state.held().copied().collect();
    random.shuffle(&mut held);
    held.truncate(most.min(PISTONS));
    let mut pistons: Vec<usize> = (0..PISTONS).collect();
    random.shuffle(&mut pistons);
    let mut bank = [0; PISTONS];
    for (block, piston) in held.iter().zip(pistons) {
        let offset = block.start + 4;
        bank[piston] = offset as u32;
        if random.chance(7, 8) {
            bytes[offset] = edge_kind(random, block.size - 4);
        }
    }
    bank
}

/// Mostly the greatest kind that a payload has room for, or the next.
pub fn edge_kind(random: &mut Random, payload: usize) -> u8 {
    let fits = (1..=3).filter(|kind| body_bytes(*kind).map_or(false, |body| body < payload));
    let greatest = fits.max().unwrap_or(0);
    let any = random.next() as u8;
    *random.pick(&[greatest, greatest, greatest, greatest + 1, greatest + 1, 1, 2, 3, 0, 4, any])
}

impl Maker<'_> {
    fn set_all(&mut self) {
        for piston in 0..PISTONS as u32 {
            let (kind, body) = some_record(&mut self.random, 0);
            self.call(Call::Set(piston, kind, body));
        }
    }

    fn clear_one(&mut self) {
        let pistons = named(&self.bench.bank);
        if !pistons.is_empty() {
            let piston = *self.random.pick(&pistons);
            self.call(Call::Clear(piston));
        }
    }

    /// Something that happens in a shared pool.
    fn step(&mut self, habits: &Habits) {
        let state = self.state();
        if !bank::fits(&self.bench.bank, &state) && self.random.chance(1, 3) {
            return self.mend(&state);
        }
        match self.random.below(100) {
            0..=61 => {
                self.any_call(habits);
            }
            62..=71 => self.others_take(&state),
            72..=77 => self.with_payload(&state, false, Maker::give_back),
            78..=82 => self.with_payload(&state, false, Maker::write_any),
            83..=89 => self.with_payload(&state, true, Maker::write_kind),
            90..=94 => self.with_payload(&state, true, Maker::give_back),
            _ => {
                let bank = spoiled(&self.bench.bank, &state, &mut self.random);
                self.put_bank(bank);
            }
        }
    }

    /// The offsets that are wrong become empty pistons.
    fn mend(&mut self, state: &State) {
        let mut bank = [0; PISTONS];
        for (piston, offset) in self.bench.bank.into_iter().enumerate() {
            if held_block(state, offset).is_ok() && !bank.contains(&offset) {
                bank[piston] = offset;
            }
        }
        self.put_bank(bank);
    }

    /// Often a block as large as a record's, so that one that the bank lost is held by another.
    fn others_take(&mut self, state: &State) {
        let random = &mut self.random;
        let record = *random.pick(&[4, 9, 17, 28, 33, 60, 68]);
        let edge = if random.chance(1, 2) { edge_size(state, random) } else { None };
        self.take(edge.unwrap_or(record));
    }

    /// Does something with a held payload that the bank names, or does not name.
    fn with_payload(&mut self, state: &State, named: bool, act: fn(&mut Self, u32)) {
        let held = state.held().map(|block| block.start as u32 + 4);
        let bank = self.bench.bank;
        let offsets: Vec<u32> = held.filter(|offset| bank.contains(offset) == named).collect();
        if !offsets.is_empty() {
            let offset = *self.random.pick(&offsets);
            act(self, offset);
        }
    }

    fn write_any(&mut self, offset: u32) {
        let length = *self.random.pick(&[1, 4, 9, 40]);
        let bytes = self.random.bytes(length);
        self.write(offset, &bytes);
    }

    fn write_kind(&mut self, offset: u32) {
        let payload = calls::part(&self.bench.pool, offset).len();
        let kind = edge_kind(&mut self.random, payload);
        self.write(offset, &[kind]);
    }
}
