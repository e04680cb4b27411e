//! Small blocks at the edge go home: what a give-back leaves, and how a pool that version 0.5 stored is brought in. Such a pool cannot be made
//! by calls any more, so `give_back_as_before` makes it by hand.
mod common;

use common::Numbers;
use icewimple_pool::{Bank, Layout, Pool, Record, Refusal, PISTONS};

const LAYOUTS: [Layout; 2] = [Layout::One, Layout::Two];
const N: usize = 2048;
const FREE_WORD: usize = 0;
const START: usize = 16;
const END: usize = 24;

fn word(bytes: &[u8], at: usize) -> usize {
    u32::from_le_bytes(bytes[at..at + 4].try_into().expect("four bytes")) as usize
}

fn put(bytes: &mut [u8], at: usize, value: usize) {
    bytes[at..at + 4].copy_from_slice(&(value as u32).to_le_bytes());
}

/// Where the header has the first block of a small bin.
fn bin(size: usize) -> usize {
    24 + size
}

/// A small give-back as version 0.5 did it: the block comes to the front of its bin, and stays there.
fn give_back_as_before(bytes: &mut [u8], offset: u32) {
    let start = offset as usize - 4;
    let size = word(bytes, start) / 4;
    assert!(size <= 64 && word(bytes, start) % 4 == 3, "a held small block");
    put(bytes, start, 4 * size + 2);
    put(bytes, start + 4, word(bytes, bin(size)));
    put(bytes, bin(size), start);
    put(bytes, FREE_WORD, word(bytes, FREE_WORD) + size);
}

/// What bringing in must leave, from the rule alone, and how many blocks go home.
fn brought_in(before: &[u8]) -> (Vec<u8>, u32) {
    let mut bytes = before.to_vec();
    let (mut end, mut count) = (word(before, END), 0);
    while end < before.len() && word(before, end) % 2 == 0 {
        end += word(before, end) / 4;
        count += 1;
    }
    put(&mut bytes, END, end);
    let start = word(before, START);
    put(&mut bytes, start, 4 * (end - start) + 2);
    for size in (8..=64).step_by(8) {
        // the bin without those that went home, each word where the list now has it
        let (mut place, mut at) = (bin(size), word(before, bin(size)));
        while at != 0 {
            if at >= end {
                put(&mut bytes, place, at);
                place = at + 4;
            }
            at = word(before, at + 4);
        }
        put(&mut bytes, place, 0);
    }
    (bytes, count)
}

/// Records of many sizes, each with bytes of its own; and the offsets of the small ones and of the large ones, in the order of the takes.
fn filled(buffer: &mut [u8], layout: Layout) -> (Pool<'_>, Vec<u32>, Vec<u32>) {
    let mut pool = Pool::lay_out(buffer, layout).unwrap();
    let small = [4, 12, 12, 60, 20, 12, 4, 28, 12, 60, 4].map(|size| pool.take(size).unwrap());
    let large = [68, 100, 92, 200, 92, 76].map(|size| pool.take(size).unwrap());
    for (i, offset) in small.iter().chain(&large).enumerate() {
        pool.lend_mut(*offset).unwrap().fill(200 + i as u8);
    }
    pool.give_back(large[1]).unwrap();
    pool.give_back(large[4]).unwrap();
    (pool, small.to_vec(), vec![large[0], large[2], large[3], large[5]])
}

/// That pool, after version 0.5 has taken back the small blocks of these places, in this order.
fn stored(layout: Layout, places: &[usize]) -> (Vec<u8>, Vec<u32>) {
    let mut bytes = vec![0xA5; N];
    let (_, small, mut held) = filled(&mut bytes, layout);
    for place in places {
        give_back_as_before(&mut bytes, small[*place]);
    }
    held.extend(small.iter().enumerate().filter(|(i, _)| !places.contains(i)).map(|(_, at)| *at));
    (bytes, held)
}

/// Of the small blocks the last one stands where the remainder ends. In each case: which come back, and how many of them go home.
const CASES: [(&[usize], u32); 8] = [
    (&[10], 1),
    (&[8, 9, 10], 3),
    (&[10, 9, 8], 3),
    (&[9, 1, 10, 2, 5, 8], 3),
    (&[10, 8], 1),
    (&[2, 10, 6, 1], 1),
    (&[0, 1, 2, 3, 4, 5, 6, 7, 8, 9, 10], 11),
    (&[10, 0, 9, 1, 8, 2, 7, 3, 6, 4, 5], 11),
];

#[test]
fn an_old_pool_is_refused_until_it_is_brought_in() {
    for layout in LAYOUTS {
        for (places, count) in CASES {
            let (mut bytes, held) = stored(layout, places);
            let before = bytes.clone();
            assert_eq!(Pool::open(&mut bytes).unwrap_err(), Refusal::NotSound);
            assert_eq!(bytes, before);

            let (wanted, went_home) = brought_in(&before);
            assert_eq!(went_home, count);
            let (pool, went_home) = Pool::bring_in(&mut bytes).unwrap();
            assert_eq!(went_home, count, "{places:?}");
            assert_eq!(pool.bytes(), wanted, "{places:?}");
            for offset in &held {
                let at = *offset as usize;
                let payload = pool.lend(*offset).unwrap();
                assert_eq!(payload, &before[at..at + payload.len()]);
            }
            let figures = pool.figures().unwrap();
            assert_eq!(figures.held_blocks as usize, held.len());
            assert_eq!(figures.free_small, places.len() as u32 - count);
            assert_eq!(figures.free_word as usize, word(&before, FREE_WORD));
            assert!(Pool::open(&mut bytes).is_ok());
        }
    }
}

/// Twice is once; and of a pool that is sound no byte changes.
#[test]
fn a_sound_pool_is_left_alone() {
    for layout in LAYOUTS {
        for (places, _) in CASES {
            let (mut bytes, _) = stored(layout, places);
            Pool::bring_in(&mut bytes).unwrap();
            let once = bytes.clone();
            assert_eq!(Pool::bring_in(&mut bytes).unwrap().1, 0);
            assert_eq!(bytes, once);
        }
        // free small blocks behind a held one stay
        for places in [&[][..], &[9], &[0, 5, 9, 1]] {
            let (mut bytes, _) = stored(layout, places);
            let before = bytes.clone();
            assert!(Pool::open(&mut bytes).is_ok());
            assert_eq!(Pool::bring_in(&mut bytes).unwrap().1, 0);
            assert_eq!(bytes, before);
        }
        for n in [176, 184, 65_536] {
            let mut bytes = vec![7; n];
            Pool::lay_out(&mut bytes, layout).unwrap();
            let before = bytes.clone();
            assert_eq!(Pool::bring_in(&mut bytes).unwrap().1, 0);
            assert_eq!(bytes, before);
        }
    }
}

#[test]
fn what_is_refused_is_not_changed() {
    for n in [0, 8, 168, 175, 177, 65_544] {
        let mut bytes = vec![0; n];
        assert_eq!(Pool::bring_in(&mut bytes).unwrap_err(), Refusal::NotAllowed);
        assert!(bytes.iter().all(|byte| *byte == 0));
    }
    for layout in LAYOUTS {
        let (bytes, _) = stored(layout, &[9, 1, 10, 2, 5, 8]);
        let (end, start) = (word(&bytes, END), word(&bytes, START));
        // the free word, 96, R, E, a bin, the false block, the remainder's head, the head and the link of the block at E, a head behind it
        let first = word(&bytes, bin(16));
        for at in
            [FREE_WORD, 8, START, END, bin(16), 96, 108, start, end, end + 4, first, first + 4]
        {
            let mut spoiled = bytes.clone();
            spoiled[at] ^= 8;
            let before = spoiled.clone();
            assert_eq!(Pool::bring_in(&mut spoiled).unwrap_err(), Refusal::NotSound, "{at}");
            assert_eq!(spoiled, before, "{at}");
        }
        // a free block at E that no bin has is no old pool
        let mut spoiled = vec![0; N];
        let (_, small, _) = filled(&mut spoiled, layout);
        spoiled[small[10] as usize - 4] ^= 1;
        let before = spoiled.clone();
        assert_eq!(Pool::bring_in(&mut spoiled).unwrap_err(), Refusal::NotSound);
        assert_eq!(spoiled, before);
    }
}

#[test]
fn brought_in_it_is_served() {
    for layout in LAYOUTS {
        let (mut bytes, held) = stored(layout, &[10, 9, 8, 2]);
        let (mut pool, _) = Pool::bring_in(&mut bytes).unwrap();
        let largest = pool.figures().unwrap().largest;
        assert_eq!(pool.take(largest + 1), Err(Refusal::NoRoom));
        let record = pool.take(largest).unwrap();
        pool.lend_mut(record).unwrap().fill(b'x');
        pool.give_back(record).unwrap();
        for offset in held {
            pool.give_back(offset).unwrap();
        }
        let mut fresh = vec![0; N];
        let wanted = Pool::lay_out(&mut fresh, layout).unwrap().figures();
        assert_eq!(pool.figures(), wanted);
        assert_eq!(pool.take(N as u32 - 180), Ok(172));
    }
}

/// Many short messages, given back in some order: all the room can be one record again.
#[test]
fn short_records_make_room_for_a_long_one() {
    for layout in LAYOUTS {
        let mut numbers = Numbers(0x9E37_79B9_7F4A_7C15);
        let mut buffer = vec![0; N];
        let mut pool = Pool::lay_out(&mut buffer, layout).unwrap();
        let fresh = pool.bytes()[..172].to_vec();
        let mut held = Vec::new();
        while let Ok(offset) = pool.take(1 + numbers.below(60) as u32) {
            held.push(offset);
        }
        assert_eq!(pool.take(61), Err(Refusal::NoRoom));
        while !held.is_empty() {
            pool.give_back(held.swap_remove(numbers.below(held.len()))).unwrap();
        }
        assert_eq!(pool.bytes()[..172], fresh);
        assert_eq!(pool.take(N as u32 - 180), Ok(172));
    }
}

/// What version 0.5 gave back, brought in, is what this one gives back: the same bytes, but for the inside of the remainder.
#[test]
fn before_and_now_meet() {
    for layout in LAYOUTS {
        let mut numbers = Numbers(0xD1B5_4A32_D192_ED03);
        let mut buffer = vec![0; N];
        let mut pool = Pool::lay_out(&mut buffer, layout).unwrap();
        let (mut held, mut went, mut stayed) = (Vec::new(), 0, 0);
        for turn in 0..400 {
            for _ in 0..10 {
                let most = if numbers.below(3) == 0 { 200 } else { 60 };
                if let Ok(offset) = pool.take(1 + numbers.below(most) as u32) {
                    pool.lend_mut(offset).unwrap().fill(turn as u8);
                    held.push(offset);
                }
            }
            let mut before = pool.bytes().to_vec();
            for _ in 0..numbers.below(9) {
                if held.is_empty() {
                    break;
                }
                let place = numbers.below(held.len());
                if pool.ask(held[place]).unwrap() <= 60 {
                    let offset = held.swap_remove(place);
                    give_back_as_before(&mut before, offset);
                    pool.give_back(offset).unwrap();
                }
            }
            let (there, count) = Pool::bring_in(&mut before).unwrap();
            went += count;
            stayed += u32::from(count == 0);
            let (now, start) = (pool.bytes(), word(pool.bytes(), START));
            let end = word(now, END);
            assert_eq!(there.bytes()[..start + 4], now[..start + 4], "{turn}");
            assert_eq!(there.bytes()[end..], now[end..], "{turn}");
            for _ in 0..5 {
                if !held.is_empty() {
                    pool.give_back(held.swap_remove(numbers.below(held.len()))).unwrap();
                }
            }
        }
        // both were met, or the test would say little
        assert!(went > 100 && stayed > 20, "{went} {stayed}");
    }
}

#[test]
fn a_bank_comes_with_its_pool() {
    for layout in LAYOUTS {
        let (mut buffer, mut numbers) = ([0; N], [0; PISTONS]);
        let mut pool = Pool::lay_out(&mut buffer, layout).unwrap();
        let mut bank = Bank::empty(&mut numbers);
        let record = |piston: u32| Record::ThirtyTwo([piston as u8; 32]);
        for piston in (0..PISTONS as u32).step_by(3) {
            bank.set(&mut pool, piston, &record(piston)).unwrap();
        }
        // version 0.5 cleared the piston that was set last, and its block stayed at the edge
        let bytes = pool.into_bytes();
        let mut named = *bank.numbers();
        give_back_as_before(bytes, named[30]);
        named[30] = 0;
        assert_eq!(Pool::open(bytes).unwrap_err(), Refusal::NotSound);

        let mut bank = Bank::open(&mut named);
        let (mut pool, went_home) = Pool::bring_in(bytes).unwrap();
        assert_eq!(went_home, 1);
        for piston in 0..PISTONS as u32 {
            let shown = (piston % 3 == 0 && piston != 30).then(|| record(piston));
            assert_eq!(bank.recall(&pool, piston), Ok(shown));
        }
        bank.set(&mut pool, 30, &record(30)).unwrap();
        assert_eq!(bank.recall(&pool, 30), Ok(Some(record(30))));
    }
}
