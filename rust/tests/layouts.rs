//! Moves from one layout to the other: what stays, what a move back brings, and that no answer differs.
//! Of the refusals only 13 can be met. A `Pool` has an allowed length and is sound, and a `Layout` is 1 or 2.
mod common;

use common::Numbers;
use icewimple_pool::{Bank, Layout, Pool, Record, Refusal, PISTONS};

const LAYOUTS: [Layout; 2] = [Layout::One, Layout::Two];
const N: usize = 8192;
const FALSE_BLOCK: usize = 96;

fn other(layout: Layout) -> Layout {
    match layout {
        Layout::One => Layout::Two,
        Layout::Two => Layout::One,
    }
}

fn word(bytes: &[u8], at: usize) -> u32 {
    u32::from_le_bytes(bytes[at..at + 4].try_into().expect("four bytes"))
}

/// Free large blocks of sizes that reach 1 to 9 levels, two of 96 bytes, and free small ones; each payload has bytes of its own. And the
/// offsets that are held.
fn filled(buffer: &mut [u8], layout: Layout) -> (Pool<'_>, Vec<u32>) {
    let mut pool = Pool::lay_out(buffer, layout).unwrap();
    let sizes = [72, 80, 96, 112, 128, 192, 96, 256, 512, 1024, 2048, 88, 8, 24, 64, 24];
    let (mut held, mut free) = (Vec::new(), Vec::new());
    for size in sizes {
        free.push(pool.take(size - 4).unwrap());
        // one that stays held keeps each free block by itself
        held.push(pool.take(if size < 72 { 12 } else { 68 }).unwrap());
    }
    for (i, offset) in held.iter().chain(&free).enumerate() {
        pool.lend_mut(*offset).unwrap().fill(100 + i as u8);
    }
    for offset in free {
        pool.give_back(offset).unwrap();
    }
    (pool, held)
}

/// The first blocks of the large bins, in the order of their sizes: their starts and sizes.
fn first_blocks(bytes: &[u8]) -> Vec<(usize, u32)> {
    let (mut at, mut found) = (FALSE_BLOCK, Vec::new());
    while word(bytes, at + 64) != 0 {
        at = (at as u32).wrapping_add(word(bytes, at + 64)) as usize;
        found.push((at, word(bytes, at) >> 2));
    }
    found
}

/// Where the words of the levels above the first stand, as far as the bin of that size reaches.
fn upper_words(start: usize, size: u32) -> impl Iterator<Item = usize> {
    let height = 1 + (size / 8).trailing_zeros().min(12) as usize;
    (2..=height).flat_map(move |level| {
        let at = start + 64 - 4 * (level - 1);
        at..at + 4
    })
}

fn differ(a: &[u8], b: &[u8]) -> Vec<usize> {
    (0..a.len()).filter(|at| a[*at] != b[*at]).collect()
}

#[test]
fn what_is_held_stays() {
    for layout in LAYOUTS {
        let mut buffer = vec![0xA5; N];
        let (mut pool, held) = filled(&mut buffer, layout);
        let (figures, counts) = (pool.figures().unwrap(), pool.class_count().unwrap());
        let payloads: Vec<Vec<u8>> =
            held.iter().map(|offset| pool.lend(*offset).unwrap().to_vec()).collect();
        for old in [layout, other(layout)] {
            assert_eq!(pool.convert(old), Ok(()));
            for (offset, payload) in held.iter().zip(&payloads) {
                assert_eq!(pool.lend(*offset).unwrap(), payload);
            }
            assert_eq!((pool.figures(), pool.class_count()), (Ok(figures), Ok(counts)));
            assert_eq!(pool.inspect(), Ok(()));
        }
    }
}

/// The pool is the one that the same calls make where the other layout was laid out, but for bytes that are not governed; and of what
/// was there, only index words and level words have changed.
#[test]
fn the_bytes_are_those_of_the_other_layout() {
    for layout in LAYOUTS {
        let (mut buffer, mut wanted) = (vec![0xA5; N], vec![0xA5; N]);
        let (mut pool, held) = filled(&mut buffer, layout);
        let (made, held_there) = filled(&mut wanted, other(layout));
        assert_eq!(held, held_there);
        let before = pool.bytes().to_vec();
        pool.convert(layout).unwrap();
        let firsts = first_blocks(pool.bytes());
        assert_eq!(firsts.len(), 11);
        assert_eq!(firsts, first_blocks(made.bytes()));

        let mut index: Vec<usize> = (FALSE_BLOCK + 12..FALSE_BLOCK + 64).collect();
        for (start, size) in &firsts {
            index.extend(start + 12..start + 16);
            index.extend(upper_words(*start, *size));
        }
        assert!(differ(pool.bytes(), &before).iter().all(|at| index.contains(at)));
        // what layout 2 governs is there; layout 1 leaves a first block's upper words as they were
        let free: Vec<usize> = match layout {
            Layout::One => Vec::new(),
            Layout::Two => firsts.iter().flat_map(|(at, size)| upper_words(*at, *size)).collect(),
        };
        assert!(differ(pool.bytes(), made.bytes()).iter().all(|at| free.contains(at)));
        assert!(free.iter().all(|at| pool.bytes()[*at] == before[*at]));
    }
}

#[test]
fn there_and_back() {
    for layout in LAYOUTS {
        let mut buffer = vec![0xA5; N];
        let (mut pool, _) = filled(&mut buffer, layout);
        let before = pool.bytes().to_vec();
        assert_eq!(pool.convert(layout), Ok(()));
        assert_ne!(pool.bytes(), before);
        assert_eq!(pool.convert(other(layout)), Ok(()));
        let may: Vec<usize> = match layout {
            Layout::One => first_blocks(&before)
                .iter()
                .flat_map(|(start, size)| upper_words(*start, *size))
                .collect(),
            Layout::Two => Vec::new(),
        };
        let changed = differ(pool.bytes(), &before);
        assert!(changed.iter().all(|at| may.contains(at)), "{changed:?}");
        // the second time nothing is left to differ
        let once = pool.bytes().to_vec();
        pool.convert(layout).unwrap();
        pool.convert(other(layout)).unwrap();
        assert_eq!(pool.bytes(), once);
    }
}

#[test]
fn a_pool_that_has_the_other_layout_is_refused() {
    for layout in LAYOUTS {
        let mut buffer = vec![0; N];
        let (mut pool, _) = filled(&mut buffer, layout);
        let before = pool.bytes().to_vec();
        assert_eq!(pool.convert(other(layout)), Err(Refusal::OtherLayout));
        assert_eq!(pool.bytes(), before);
        pool.convert(layout).unwrap();
        let before = pool.bytes().to_vec();
        assert_eq!(pool.convert(layout), Err(Refusal::OtherLayout));
        assert_eq!(pool.bytes(), before);
    }
}

#[test]
fn the_least_and_the_greatest_pool() {
    for n in [176, 184, 65_536] {
        for layout in LAYOUTS {
            let (mut buffer, mut fresh) = (vec![7; n], vec![7; n]);
            Pool::lay_out(&mut fresh, other(layout)).unwrap();
            Pool::lay_out(&mut buffer, layout).unwrap().convert(layout).unwrap();
            assert_eq!(buffer, fresh);
            assert!(Pool::open(&mut buffer).is_ok());
        }
    }
}

/// Two pools get the same takes and give-backs, and one of them moves now and then: they answer alike.
#[test]
fn a_pool_that_moves_answers_as_one_that_stays() {
    for layout in LAYOUTS {
        let mut numbers = Numbers(0x9E37_79B9_7F4A_7C15);
        let (mut here, mut there) = (vec![0; N], vec![0; N]);
        let mut stays = Pool::lay_out(&mut here, layout).unwrap();
        let mut moves = Pool::lay_out(&mut there, layout).unwrap();
        let (mut now, mut held) = (layout, Vec::new());
        for turn in 0..3000 {
            if held.is_empty() || numbers.below(100) < 55 {
                let most = if numbers.below(3) == 0 { 60 } else { 400 };
                let size = 1 + numbers.below(most) as u32;
                let answer = stays.take(size);
                assert_eq!(moves.take(size), answer, "{turn}");
                if let Ok(offset) = answer {
                    stays.lend_mut(offset).unwrap().fill(turn as u8);
                    moves.lend_mut(offset).unwrap().fill(turn as u8);
                    held.push(offset);
                }
            } else {
                let offset = held.swap_remove(numbers.below(held.len()));
                assert_eq!(moves.lend(offset), stays.lend(offset));
                assert_eq!(moves.give_back(offset), stays.give_back(offset), "{turn}");
            }
            if numbers.below(7) == 0 {
                assert_eq!(moves.convert(now), Ok(()));
                now = other(now);
            }
            assert_eq!(moves.figures(), stays.figures(), "{turn}");
        }
    }
}

#[test]
fn a_bank_moves_with_its_pool() {
    for layout in LAYOUTS {
        let (mut buffer, mut numbers) = ([0; 2048], [0; PISTONS]);
        let mut pool = Pool::lay_out(&mut buffer, layout).unwrap();
        let mut bank = Bank::empty(&mut numbers);
        let record = |piston: u32| Record::ThirtyTwo([piston as u8; 32]);
        for piston in (0..PISTONS as u32).step_by(3) {
            bank.set(&mut pool, piston, &record(piston)).unwrap();
        }
        let named = *bank.numbers();
        for old in [layout, other(layout)] {
            pool.convert(old).unwrap();
            for piston in 0..PISTONS as u32 {
                let shown = (piston % 3 == 0).then(|| record(piston));
                assert_eq!(bank.recall(&pool, piston), Ok(shown));
            }
            assert_eq!(*bank.numbers(), named);
        }
        bank.set(&mut pool, 1, &record(1)).unwrap();
        bank.clear(&mut pool, 0).unwrap();
        assert_eq!(bank.recall(&pool, 1), Ok(Some(record(1))));
    }
}
