//! The wrapper over the proved library: the paper's worked tape, every refusal, and a long random run held against a plain list.
mod common;

use common::Numbers;
use icewimple_pool::{Figures, Layout, Pool, Refusal, CLASSES};

/// The least class whose size is at least the payload.
fn class_of(payload: u32) -> usize {
    (0..CLASSES)
        .find(|k| payload <= (4 + *k as u32 % 4) << (k / 4 + 1))
        .expect("a payload fits a class")
}

const LAYOUTS: [Layout; 2] = [Layout::One, Layout::Two];

/// 1,024 bytes after the worked tape, up to its figures; it answers alike on both layouts.
fn worked(buffer: &mut [u8], layout: Layout) -> Pool<'_> {
    let mut pool = Pool::lay_out(buffer, layout).unwrap();
    assert_eq!(pool.take(10), Ok(1012));
    assert_eq!(pool.take(100), Ok(172));
    assert_eq!(pool.take(61), Ok(276));
    assert_eq!(pool.take(200), Ok(348));
    assert_eq!(pool.give_back(172), Ok(100));
    assert_eq!(pool.take(32), Ok(972));
    assert_eq!(pool.take(72), Ok(556));
    assert_eq!(pool.give_back(172), Err(Refusal::NotHeld));
    assert_eq!(pool.give_back(276), Ok(68));
    assert_eq!(pool.take(100), Ok(172));
    assert_eq!(pool.give_back(556), Ok(76));
    pool
}

#[test]
fn the_worked_tape() {
    for layout in LAYOUTS {
        the_worked_tape_on(layout);
    }
}

fn the_worked_tape_on(layout: Layout) {
    let mut buffer = [0; 1024];
    let pool = worked(&mut buffer, layout);
    let figures = Figures {
        held_blocks: 4,
        held_bytes: 368,
        free_small: 0,
        free_large: 1,
        remainder: 416,
        free_word: 484,
        largest: 404,
    };
    assert_eq!(pool.figures(), Ok(figures));
    let mut counts = [0; CLASSES];
    for (offset, payload) in [(172, 100), (348, 204), (972, 36), (1012, 12)] {
        assert_eq!(pool.ask(offset), Ok(payload));
        assert_eq!(pool.lend(offset).unwrap().len(), payload as usize);
        counts[class_of(payload)] += 1;
    }
    assert_eq!(pool.class_count(), Ok(counts));
    assert_eq!(pool.inspect(), Ok(()));
}

#[test]
fn lengths_on_both_sides_of_the_edge() {
    for n in [0, 8, 168, 175, 177, 65_535, 65_544] {
        let mut buffer = vec![7; n];
        for layout in LAYOUTS {
            let refused = Pool::lay_out(&mut buffer, layout).unwrap_err();
            assert_eq!(refused, Refusal::NotAllowed, "{n}");
        }
        assert_eq!(Pool::open(&mut buffer).unwrap_err(), Refusal::NotAllowed, "{n}");
        assert_eq!(buffer, vec![7; n]);
    }
    for n in [176, 184, 65_536] {
        for layout in LAYOUTS {
            let mut buffer = vec![7; n];
            let pool = Pool::lay_out(&mut buffer, layout).unwrap();
            assert_eq!(pool.figures().unwrap().free_word as usize, n - 172);
            assert_eq!(pool.bytes().len(), n);
        }
    }
}

#[test]
fn an_empty_slice_is_refused_wherever_it_points() {
    assert_eq!(Pool::lay_out(&mut [], Layout::One).unwrap_err(), Refusal::NotAllowed);
    assert_eq!(Pool::lay_out(&mut [], Layout::Two).unwrap_err(), Refusal::NotAllowed);
    assert_eq!(Pool::open(&mut []).unwrap_err(), Refusal::NotAllowed);
    let mut buffer = [7; 8];
    assert_eq!(Pool::open(&mut buffer[8..]).unwrap_err(), Refusal::NotAllowed);
}

#[test]
fn a_pool_that_is_not_sound_is_not_opened() {
    let mut buffer = [0; 1024];
    assert_eq!(Pool::open(&mut buffer).unwrap_err(), Refusal::NotSound);
    worked(&mut buffer, Layout::One);
    assert!(Pool::open(&mut buffer).is_ok());
    buffer[0] ^= 1;
    assert_eq!(Pool::open(&mut buffer).unwrap_err(), Refusal::NotSound);
}

#[test]
fn a_layout_is_1_or_2() {
    for layout in LAYOUTS {
        assert_eq!(Layout::new(layout.number()), Ok(layout));
    }
    assert_eq!(LAYOUTS.map(Layout::number), [1, 2]);
    for number in [0, 3, 8, 13, 257, u32::MAX] {
        assert_eq!(Layout::new(number), Err(Refusal::NoLayout), "{number}");
    }
}

/// The false block's level word, at 108, tells the layouts apart; of a pool without free large blocks nothing else does.
#[test]
fn the_layouts_have_their_bytes() {
    let pools = LAYOUTS.map(|layout| {
        let mut buffer = [0xA5; 1024];
        Pool::lay_out(&mut buffer, layout).unwrap();
        buffer
    });
    let differ: Vec<usize> = (0..1024).filter(|at| pools[0][*at] != pools[1][*at]).collect();
    assert_eq!(differ, [108]);
    assert_eq!((pools[0][108], pools[1][108]), (1, 13));
    // a block of 80 bytes reaches two levels: 72 bytes on from the false block, at +64 and at +60
    let mut buffer = [0; 1024];
    let mut pool = Pool::lay_out(&mut buffer, Layout::Two).unwrap();
    assert_eq!((pool.take(76), pool.take(68), pool.give_back(172)), (Ok(172), Ok(252), Ok(76)));
    assert_eq!((buffer[160], buffer[156], buffer[152], buffer[180]), (72, 72, 0, 2));
    assert!(Pool::open(&mut buffer).is_ok());
    for (at, value) in [(108, 1), (180, 1), (156, 0), (152, 72)] {
        let mut other = buffer;
        other[at] = value;
        assert_eq!(Pool::open(&mut other).unwrap_err(), Refusal::NotSound, "{at}");
    }
}

#[test]
fn a_refusal_changes_no_byte() {
    let mut buffer = [0; 1024];
    let mut pool = worked(&mut buffer, Layout::Two);
    let before = pool.bytes().to_vec();
    assert_eq!(pool.take(0), Err(Refusal::SizeZero));
    for size in [405, 65_536, u32::MAX] {
        assert_eq!(pool.take(size), Err(Refusal::NoRoom), "{size}");
    }
    for offset in [0, 4, 168, 171, 173, 276, 556, 1008, 1020, 1024, 1028, 1 << 31, u32::MAX] {
        assert_eq!(pool.give_back(offset), Err(Refusal::NotHeld), "{offset}");
        assert_eq!(pool.ask(offset), Err(Refusal::NotHeld), "{offset}");
        assert_eq!(pool.lend(offset), Err(Refusal::NotHeld), "{offset}");
        assert_eq!(pool.lend_mut(offset), Err(Refusal::NotHeld), "{offset}");
    }
    assert_eq!(pool.bytes(), before);
}

#[test]
fn what_is_written_stays_while_it_is_held() {
    let mut buffer = vec![0; 4096];
    let mut pool = Pool::lay_out(&mut buffer, Layout::One).unwrap();
    let (a, b) = (pool.take(300).unwrap(), pool.take(30).unwrap());
    pool.lend_mut(a).unwrap().fill(0xAA);
    pool.lend_mut(b).unwrap().fill(0xBB);
    let bytes = pool.into_bytes();
    let pool = Pool::open(bytes).unwrap();
    assert!(pool.lend(a).unwrap().iter().all(|byte| *byte == 0xAA));
    assert!(pool.lend(b).unwrap().iter().all(|byte| *byte == 0xBB));
}

/// Takes and give-backs as they come; each payload keeps the byte that its holder wrote, and the figures are those of the list:
/// the largest grant is granted, and one byte more is not.
#[test]
fn a_long_run() {
    for layout in LAYOUTS {
        a_long_run_on(layout);
    }
}

fn a_long_run_on(layout: Layout) {
    let mut numbers = Numbers(0x9E37_79B9_7F4A_7C15);
    let mut buffer = vec![0; 8192];
    let mut pool = Pool::lay_out(&mut buffer, layout).unwrap();
    let mut held: Vec<(u32, u8)> = Vec::new();
    let (mut granted, mut no_room) = (0, 0);
    for turn in 0..4000 {
        if held.is_empty() || numbers.below(100) < 55 {
            let most = if numbers.below(3) == 0 { 60 } else { 400 };
            match pool.take(1 + numbers.below(most) as u32) {
                Ok(offset) => {
                    pool.lend_mut(offset).unwrap().fill(turn as u8);
                    held.push((offset, turn as u8));
                    granted += 1;
                }
                Err(refusal) => {
                    assert_eq!(refusal, Refusal::NoRoom);
                    no_room += 1;
                }
            }
        } else {
            let (offset, byte) = held.swap_remove(numbers.below(held.len()));
            assert!(pool.lend(offset).unwrap().iter().all(|b| *b == byte));
            pool.give_back(offset).unwrap();
            assert_eq!(pool.give_back(offset), Err(Refusal::NotHeld));
        }
        let figures = pool.figures().unwrap();
        assert_eq!(figures.held_blocks as usize, held.len());
        assert_eq!(
            figures.held_bytes,
            held.iter().map(|(offset, _)| pool.ask(*offset).unwrap() + 4).sum::<u32>()
        );
        assert_eq!(figures.held_bytes + figures.free_word + 172, 8192);
        assert_eq!(pool.take(figures.largest + 1), Err(Refusal::NoRoom));
        if figures.largest > 0 {
            let offset = pool.take(figures.largest).unwrap();
            assert_eq!(pool.ask(offset), Ok(figures.largest));
            pool.give_back(offset).unwrap();
        }
        assert_eq!(pool.class_count().unwrap().iter().sum::<u32>() as usize, held.len());
    }
    assert!(1000 < granted && 50 < no_room, "{granted} granted, {no_room} without room");
}
