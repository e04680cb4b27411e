//! Pools that are not sound, lengths that are not allowed and numbers that are no layout's, alone and
//! together, so that the order of refusals shows.

use super::{Counts, Maker, NO_LAYOUT};
use crate::cases::LawCase;
use crate::damage;
use crate::images::{of_either_layout, random_image};
use crate::layout::{self, put4, LEVEL};
use crate::random::Random;
use crate::state::{Layout, State, FALSE_BLOCK};

/// The damaged images of the other groups are below this number.
const OTHERS: u64 = 1 << 20;

/// Some damaged images are sound, and are moved.
pub fn damaged(seed: u64, number: u64, counts: &mut Counts) -> LawCase {
    let damaged = damage::damaged(seed, OTHERS + number);
    let mut random = Random::of_case(seed, 20, number);
    let mut numbers = [1, 2, *random.pick(&NO_LAYOUT)];
    random.shuffle(&mut numbers);
    let mut maker = Maker::new(random, counts);
    maker.image(&damaged.bytes);
    numbers.into_iter().for_each(|old| maker.convert(old));
    maker.dump();
    maker.finish(format!("seed {}, damaged image {} ({})", seed, number, damaged.sort))
}

/// Every number on a pool of either layout as it is, with one word wrong, with another level word,
/// and cut off or with bytes behind it.
pub fn order(seed: u64, number: u64, counts: &mut Counts) -> LawCase {
    let mut random = Random::of_case(seed, 21, number);
    let n = random.between(22, 90) * 8;
    let state = of_either_layout(&mut random, n);
    let old = random.bytes(n);
    let mut pools = Vec::new();
    for layout in Layout::BOTH {
        let bytes = layout::write(&State { layout, ..state.clone() }, &old);
        let level = FALSE_BLOCK + LEVEL;
        for (at, value) in [(level, 0), (level, 2), (level, 1), (level, 13), (8, 97)] {
            let mut wrong = bytes.clone();
            put4(&mut wrong, at, value);
            pools.push(wrong);
        }
        pools.push(other_length(&bytes, &mut random));
        pools.push(bytes);
    }
    let mut numbers = vec![0, 1, 2, 3, u32::MAX];
    numbers.push(*random.pick(&NO_LAYOUT));
    let mut maker = Maker::new(random, counts);
    for pool in pools {
        maker.random.shuffle(&mut numbers);
        maker.image(&pool);
        numbers.iter().for_each(|old| maker.convert(*old));
        maker.dump();
    }
    maker.finish(format!("seed {}, order of refusals {} on {} bytes", seed, number, n))
}

/// A length that is not allowed; the bytes are a pool's as far as they go.
fn other_length(bytes: &[u8], random: &mut Random) -> Vec<u8> {
    let n = bytes.len();
    let lengths = [0, 4, 8, 96, 168, 172, 175, n - 7, n - 4, n - 1, n + 1, n + 4, n + 7, 65_535];
    let mut other = bytes.to_vec();
    let (_, behind) = random_image(random, 4_096);
    other.extend(behind.iter().cycle().take(65_536 - n));
    other.truncate(*random.pick(&lengths));
    other
}
