//! Pools that are not sound by either rule and lengths that are not allowed, alone and together, so
//! that bringing in is seen to refuse them, and in the right order.

use super::{Counts, Maker};
use crate::cases::LawCase;
use crate::damage::{self, Damaged};
use crate::images::{old_state, random_old_image};
use crate::layout::{self, put4, LEVEL};
use crate::random::Random;
use crate::state::{Layout, State, FALSE_BLOCK};

/// The damaged images of the other groups are below this number.
const OTHERS: u64 = 2 << 20;

/// Some damaged images are sound, by the old rule or by both.
pub fn damaged(seed: u64, number: u64, counts: &mut Counts) -> LawCase {
    of(damage::damaged(seed, OTHERS + number), seed, number, counts)
}

pub fn damaged_old(seed: u64, number: u64, counts: &mut Counts) -> LawCase {
    of(damage::damaged_old(seed, OTHERS + number), seed, number, counts)
}

fn of(damaged: Damaged, seed: u64, number: u64, counts: &mut Counts) -> LawCase {
    let random = Random::of_case(seed, 29, number);
    let mut maker = Maker::new(random, counts);
    maker.image(&damaged.bytes);
    maker.script.plain(b'N');
    maker.bring_in();
    maker.dump();
    maker.bring_in();
    maker.give_back(damaged.offset);
    maker.dump();
    maker.finish(format!("seed {}, damaged image {} ({})", seed, number, damaged.sort))
}

/// A pool of either layout by the old rule as it is, with one word wrong, with another level word, and
/// cut off or with bytes behind it.
pub fn order(seed: u64, number: u64, counts: &mut Counts) -> LawCase {
    let mut random = Random::of_case(seed, 30, number);
    let n = random.between(22, 90) * 8;
    let state = old_state(&mut random, n);
    let old = random.bytes(n);
    let mut pools = Vec::new();
    for layout in Layout::BOTH {
        let bytes = layout::write(&State { layout, ..state.clone() }, &old);
        let level = FALSE_BLOCK + LEVEL;
        for (at, value) in [(level, 0), (level, 2), (level, 1), (level, 13), (8, 97), (0, 1)] {
            let mut wrong = bytes.clone();
            put4(&mut wrong, at, value);
            pools.push(wrong);
        }
        pools.push(other_length(&bytes, &mut random));
        pools.push([&bytes[..], &[0; 4]].concat());
        pools.push(bytes);
    }
    let mut maker = Maker::new(random, counts);
    for pool in pools {
        maker.image(&pool);
        maker.bring_in();
        maker.dump();
        maker.script.plain(b'N');
    }
    maker.finish(format!("seed {}, order of refusals {} on {} bytes", seed, number, n))
}

/// A length that is not allowed; the bytes are a pool's as far as they go.
fn other_length(bytes: &[u8], random: &mut Random) -> Vec<u8> {
    let n = bytes.len();
    let lengths = [0, 4, 8, 96, 168, 172, 175, n - 7, n - 4, n - 1, n + 1, n + 4, n + 7, 65_535];
    let mut other = bytes.to_vec();
    let (_, behind) = random_old_image(random, 4_096);
    other.extend(behind.iter().cycle().take(65_536 - n));
    other.truncate(*random.pick(&lengths));
    other
}
